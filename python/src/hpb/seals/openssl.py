"""Signatures of Ed25519 and stamps of RFC 3161, by the program `openssl` alone (3.0 or later)."""
import base64
import functools
import re
import subprocess
import tempfile
from collections.abc import Mapping
from datetime import datetime, timezone
from pathlib import Path
from typing import Final

OPENSSL: Final = "openssl"
# The beginning of a public key of Ed25519 in DER (RFC 8410); its 32 bytes follow.
PUBLIC: Final = bytes.fromhex("302a300506032b6570032100")
_TIME: Final = re.compile(r"^Time stamp: (.*) GMT$", re.MULTILINE)
_SECONDS: Final = 30


class NoOpenssl(Exception):
    """The program `openssl` isn't there, or doesn't end."""


def _run(words: list[str], files: Mapping[str, bytes]) -> subprocess.CompletedProcess[bytes]:
    """Runs it in a folder that has these files, and is removed behind it."""
    with tempfile.TemporaryDirectory(prefix="hpb-openssl-") as folder:
        for name, data in files.items():
            (Path(folder) / name).write_bytes(data)
        try:
            return subprocess.run([OPENSSL, *words], cwd=folder, capture_output=True, stdin=subprocess.DEVNULL, timeout=_SECONDS)
        except (OSError, subprocess.TimeoutExpired) as fault:
            raise NoOpenssl(f"{OPENSSL} can't be run: {fault}") from None


def public_pem(public: str) -> bytes:
    """A public key of 64 hexadecimal digits in PEM, as `openssl pkey -pubout` writes it."""
    text = base64.b64encode(PUBLIC + bytes.fromhex(public)).decode()
    return f"-----BEGIN PUBLIC KEY-----\n{text}\n-----END PUBLIC KEY-----\n".encode()


@functools.cache
def is_signed(public: str, text: str, signature: str) -> bool:
    """Whether this is the signature of a text by the owner of the public key."""
    files = {"key": public_pem(public), "text": text.encode("ascii", "replace"), "signature": bytes.fromhex(signature)}
    words = "pkeyutl -verify -pubin -inkey key -rawin -in text -sigfile signature"
    return _run(words.split(), files).returncode == 0


# Stamps.


def query_for(data: bytes) -> bytes:
    """A query for a stamp of these bytes, with the certificate of the authority asked for."""
    ran = _run("ts -query -data data -sha256 -cert -out /dev/stdout".split(), {"data": data})
    if ran.returncode:
        raise NoOpenssl(_said(ran))
    return ran.stdout


def reply_fault(reply: bytes, query: bytes, authority: bytes) -> str:
    """Why a reply is no stamp for a query, by the certificates of an authority. Empty if it is."""
    ran = _run("ts -verify -queryfile query -in reply -CAfile authority".split(), {"query": query, "reply": reply, "authority": authority})
    return _said(ran) if ran.returncode else ""


def token_in(reply: bytes) -> bytes:
    """The token in a reply, which stands by itself."""
    ran = _run(["ts", "-reply", "-in", "reply", "-token_out", "-out", "/dev/stdout"], {"reply": reply})
    if ran.returncode or not ran.stdout:
        raise NoOpenssl(_said(ran))
    return ran.stdout


@functools.cache
def time_in(token: bytes) -> str:
    """The time in a token, which isn't checked here, as `2026-12-02T12:31:00Z`. Empty if there is none."""
    found = _TIME.search(_run(["ts", "-reply", "-in", "token", "-token_in", "-text"], {"token": token}).stdout.decode("ascii", "replace"))
    if not found:
        return ""
    # Some authorities give parts of a second.
    text = re.sub(r"(:[0-9]{2})\.[0-9]+", r"\1", re.sub(" +", " ", found[1]))
    try:
        return datetime.strptime(text, "%b %d %H:%M:%S %Y").strftime("%Y-%m-%dT%H:%M:%SZ")
    except ValueError:
        return ""


@functools.cache
def stamp_fault(token: bytes, data: bytes, authority: bytes) -> str:
    """Why a token is no stamp of these bytes by an authority, whose certificates are looked at as they were at the token's own time. Empty if it
    is one."""
    time = time_in(token)
    if not time:
        return "it is no token of a stamp"
    seconds = int(datetime.strptime(time, "%Y-%m-%dT%H:%M:%SZ").replace(tzinfo=timezone.utc).timestamp())
    words = f"ts -verify -data data -in token -token_in -CAfile authority -attime {seconds}"
    ran = _run(words.split(), {"data": data, "token": token, "authority": authority})
    return _said(ran) if ran.returncode else ""


def _said(ran: "subprocess.CompletedProcess[bytes]") -> str:
    """The reason in the words of `openssl`: the last part of its first line about an error."""
    lines = (ran.stdout + ran.stderr).decode("latin-1").splitlines()
    errors = [line.split(":") for line in lines if ":error:" in line]
    return errors[0][5].strip() if errors and len(errors[0]) > 5 else f"{OPENSSL} ended with {ran.returncode}"
