"""Second factors, besides the token: codes of one use that an app makes (TOTP, RFC 6238), and certificates of clients.

A name has none, one or both. A code is asked for when somebody signs in. A certificate has to come with each connection of the name. The
operator gives out the secrets, and lists the certificates in the configuration.
"""
import base64
import binascii
import hashlib
import hmac
import json
import math
import os
import pathlib
import secrets
import stat
import urllib.parse
from collections.abc import Mapping
from dataclasses import dataclass
from typing import Any, Final

from hpb.limits import NAME
from hpb.refusals import HpbError
from hpb.web.problems import problem
from hpb.web.slowing import Slowing

# A code is of one step of so many seconds. One of the step before or behind it is taken, too.
STEP_SECONDS, DRIFT = 30, 1
DIGITS: Final = 6
# RFC 4226 asks for a secret of 16 bytes at least, and recommends 20.
LEAST_SECRET, SECRET_BYTES = 16, 20
_SHORT: Final = {
    "commonName": "CN", "organizationName": "O", "organizationalUnitName": "OU", "countryName": "C", "localityName": "L",
    "stateOrProvinceName": "ST", "streetAddress": "STREET", "domainComponent": "DC", "userId": "UID",
}
_ESCAPED: Final = ',+"\\<>;='


class NotUsable(HpbError):
    """The file of secrets is no use, or the last used steps can't be kept."""


def code_at(secret: bytes, step: int, digits: int = DIGITS, algorithm: str = "sha1") -> str:
    """The code of a step (RFC 4226): by RFC 6238 the step is the number of whole 30 seconds since 1970."""
    digest = hmac.digest(secret, step.to_bytes(8, "big"), algorithm)
    place = digest[-1] & 15
    return f"{(int.from_bytes(digest[place : place + 4], 'big') & 0x7FFFFFFF) % 10**digits:0{digits}}"


def read_secrets(path: pathlib.Path) -> dict[str, bytes]:
    """The secrets in a file: a line for each name, with the name and its secret in base 32. Others may not read the file, else `NotUsable`."""
    try:
        with open(path, encoding="ascii") as file:
            status = os.fstat(file.fileno())
            lines = [line.split() for line in file if line.strip()]
    except OSError as fault:
        raise NotUsable(f"codes: {path}: {fault.strerror}") from None
    except UnicodeDecodeError:
        raise NotUsable(f"codes: {path} isn't a list of secrets") from None
    if not stat.S_ISREG(status.st_mode) or stat.S_IMODE(status.st_mode) & 0o077 or status.st_uid not in (os.geteuid(), 0):
        raise NotUsable(f"codes: {path}: others may read it; `chmod 600` it, and own it")
    found = dict[str, bytes]()
    for number, line in enumerate(lines, 1):
        if len(line) != 2 or not NAME.fullmatch(line[0]) or line[0] in found:
            raise NotUsable(f"codes: {path}: line {number} is no name with its secret, or the name stands twice")
        found[line[0]] = _secret_in(line[1], f"{path}: line {number}")
    return found


def _secret_in(text: str, place: str) -> bytes:
    try:
        found = base64.b32decode(text.upper() + "=" * (-len(text) % 8))
    except binascii.Error:
        raise NotUsable(f"codes: {place}: the secret isn't in base 32") from None
    if len(found) < LEAST_SECRET:
        raise NotUsable(f"codes: {place}: the secret has {len(found)} bytes, and needs {LEAST_SECRET}")
    return found


def enrol(path: pathlib.Path, name: str, title: str) -> str:
    """Gives a name a secret in a file, which is made if there is none. Returns the address (`otpauth:`) that its app takes."""
    known = read_secrets(path) if path.exists() else {}
    if not NAME.fullmatch(name):
        raise NotUsable(f"{name!r} is no name of 1 to 16 of a to z, 0 to 9 and _")
    if name in known:
        raise NotUsable(f"{name} has a secret: take its line out of {path} first")
    secret = base64.b32encode(secrets.token_bytes(SECRET_BYTES)).decode()
    try:
        file = os.open(path, os.O_WRONLY | os.O_CREAT | os.O_APPEND | os.O_CLOEXEC, 0o600)
        try:
            os.write(file, f"{name} {secret}\n".encode())
            os.fsync(file)
        finally:
            os.close(file)
    except OSError as fault:
        raise NotUsable(f"codes: {path}: {fault.strerror}") from None
    words = urllib.parse.urlencode({"secret": secret, "issuer": title}, quote_via=urllib.parse.quote)
    return f"otpauth://totp/{urllib.parse.quote(f'{title}:{name}')}?{words}"


class Codes:
    """The secrets of names, and which step of each was used last: a code counts once, also after a restart."""

    def __init__(self, path: pathlib.Path) -> None:
        """Reads the secrets, and the file beside them that has the steps."""
        self._secrets = read_secrets(path)
        self._path = path.with_name(f"{path.name}.used")
        try:
            found = json.loads(self._path.read_bytes()) if self._path.exists() else {}
            self._used = {str(name): int(step) for name, step in found.items()}
        except OSError as fault:
            raise NotUsable(f"{self._path}: {fault.strerror}") from None
        except (ValueError, TypeError, AttributeError):
            raise NotUsable(f"{self._path} has no steps of codes") from None

    def has(self, name: str) -> bool:
        """Whether the name has a secret."""
        return name in self._secrets

    def takes(self, name: str, code: str, now: float) -> bool:
        """Whether this is a code of the name at this time, which was never used. From then on it is used."""
        step = int(now // STEP_SECONDS)
        fits = [one for one in range(step - DRIFT, step + DRIFT + 1) if hmac.compare_digest(code_at(self._secrets[name], one).encode(), code.encode())]
        new = [one for one in fits if one > self._used.get(name, 0)]
        if new:
            self._keep({**self._used, name: new[0]})
        return bool(new)

    def _keep(self, used: dict[str, int]) -> None:
        made = self._path.with_name(f"{self._path.name}.new")
        try:
            with open(os.open(made, os.O_WRONLY | os.O_CREAT | os.O_TRUNC | os.O_CLOEXEC, 0o600), "w", encoding="ascii") as file:
                file.write(json.dumps(used))
                file.flush()
                os.fsync(file.fileno())
            made.replace(self._path)
        except OSError as fault:
            raise NotUsable(f"{self._path}: {fault.strerror}") from None
        self._used = used


@dataclass(frozen=True)
class Certificate:
    """The certificate of a client, whose issuer the site trusts: its SHA-256 in hexadecimal digits, and its subject as RFC 4514 has it."""

    digest: str
    subject: str

    @classmethod
    def of(cls, encoded: bytes | None, fields: Mapping[str, Any]) -> "Certificate | None":
        """The one that a connection came with, by its bytes and its fields, as the module `ssl` has them."""
        if not encoded:
            return None
        parts = [[(_SHORT.get(kind, kind), value) for kind, value in part] for part in fields.get("subject", ())]
        told = ["+".join(f"{kind}={_escaped(value)}" for kind, value in part) for part in reversed(parts)]
        return cls(hashlib.sha256(encoded).hexdigest(), ",".join(told))


def _escaped(value: str) -> str:
    return "".join(f"\\{one}" if one in _ESCAPED else one for one in value)


class Factors:
    """The second factors of all names. `certificates` has for each name a digest or a subject."""

    def __init__(self, codes: Codes | None = None, certificates: Mapping[str, str] | None = None) -> None:
        self._codes, self._certificates = codes, certificates or {}
        self._slowing = Slowing()

    @property
    def has_codes(self) -> bool:
        """Whether some name may have a code."""
        return self._codes is not None

    @property
    def has_certificates(self) -> bool:
        """Whether some name needs a certificate."""
        return bool(self._certificates)

    def look(self, name: str, certificate: Certificate | None, is_session: bool) -> None:
        """Looks at a request of a name, in a session or not. If it lacks the name's factor, the `Problem` is `factor`."""
        wanted = self._certificates.get(name)
        if wanted is not None:
            if certificate is None or wanted not in (certificate.digest, certificate.subject):
                raise problem("factor", "its certificate has to come with the connection", WWW_Authenticate="Bearer")
        elif not is_session and self._codes and self._codes.has(name):
            raise problem("factor", "it has codes, and so signs in on the pages", WWW_Authenticate="Bearer")

    def look_at_code(self, name: str, code: str, now: float) -> None:
        """Looks at the code by which a name signs in, if it has one. A wrong one is `factor`. After some wrong ones in a row it is `slow`,
        whatever the code is; only somebody with the name's token comes so far.
        """
        if self._codes is None or not self._codes.has(name):
            return
        if wait := self._slowing.wait(name, None, now):
            raise problem("slow", Retry_After=str(math.ceil(wait)))
        if not self._codes.takes(name, code, now):
            self._slowing.failed(name, None, now)
            raise problem("factor")
        self._slowing.succeeded(name, None)
