"""The site's configuration: a file of TOML. Its paths start from its folder."""
import pathlib
import re
import tomllib
from collections.abc import Mapping
from dataclasses import dataclass, field
from typing import Any, Final

from hpb.client.reaching import read_token
from hpb.hosts import may_be_host
from hpb.limits import NAME
from hpb.refusals import HpbError, Refused
from hpb.rules.tree import Tree, tree_of
from hpb.rules.writing import read_script

_FIELDS: Final[Mapping[str, type]] = {
    "definition": str, "front": str, "ca": str, "plain": bool, "listen": str, "certificate": str, "key": str, "names": list, "title": str,
    "behind_proxy": bool, "public": str, "results": str, "drafts": str, "codes": str, "clients": str, "certificates": dict,
}
_NEEDED: Final = ("definition", "front", "listen")
# A certificate by its SHA-256, or by its subject.
_DIGEST, _SUBJECT = re.compile(r"[0-9a-f]{64}"), re.compile(r"[A-Za-z0-9.]+=[^\x00-\x1f\x7f]{1,200}")
_TITLE: Final = re.compile(r"[^\x00-\x1f\x7f]{1,80}")


class Wrong(HpbError):
    """The configuration can't be used."""


@dataclass(frozen=True)
class Config:
    """The fields, read. Addresses are a host and a port. `public` is the token of the public's name, if results are kept. `clients` has those
    who may vouch for certificates of clients, and `certificates` that of a name.
    """

    tree: Tree
    title: str
    front: tuple[str, int]
    ca: str | None
    plain: bool
    listen: tuple[str, int]
    certificate: str | None
    key: str | None
    names: tuple[str, ...]
    behind_proxy: bool
    public: str | None
    results: pathlib.Path | None
    drafts: pathlib.Path | None
    codes: pathlib.Path | None = None
    clients: str | None = None
    certificates: Mapping[str, str] = field(default_factory=dict)


def read_config(path: pathlib.Path) -> Config:
    """The configuration in a file. A fault raises `Wrong`, which names the field."""
    try:
        fields = tomllib.loads(path.read_text(encoding="utf-8"))
    except OSError as fault:
        raise Wrong(f"{path}: {fault.strerror}") from None
    except ValueError as fault:
        raise Wrong(f"{path}: {fault}") from None
    _look_at(fields)
    folder = path.resolve().parent
    certificate, key, ca, clients = (str(folder / fields[name]) if name in fields else None for name in ("certificate", "key", "ca", "clients"))
    if (certificate is None) != (key is None):
        raise Wrong("certificate and key belong together")
    if ("certificates" in fields) != (clients is not None) or (clients is not None and certificate is None):
        raise Wrong("clients and certificates belong together, and need a certificate of the site itself")
    if ("public" in fields) != ("results" in fields):
        raise Wrong("public and results belong together")
    listen = _address(fields, "listen")
    if certificate is None and not fields.get("behind_proxy") and listen[0] not in ("127.0.0.1", "::1"):
        raise Wrong("listen: without a certificate the site is for this machine alone, or for a proxy of its own (behind_proxy)")
    public = _token(folder / fields["public"]) if "public" in fields else None
    results, drafts, codes = (folder / fields[name] if name in fields else None for name in ("results", "drafts", "codes"))
    return Config(
        _tree(folder / fields["definition"]), fields.get("title", "Auction"), _address(fields, "front"), ca, fields.get("plain", False),
        listen, certificate, key, tuple(name.lower() for name in fields.get("names", [])), fields.get("behind_proxy", False), public, results, drafts,
        codes, clients, _certificates(fields.get("certificates", {})),
    )


def _look_at(fields: Mapping[str, Any]) -> None:
    for name in _NEEDED:
        if name not in fields:
            raise Wrong(f"{name}: missing")
    for name, value in fields.items():
        if name not in _FIELDS:
            raise Wrong(f"{name}: unknown")
        if type(value) is not _FIELDS[name]:
            raise Wrong(f"{name}: of another type")
    if fields.get("plain") and "ca" in fields:
        raise Wrong("ca is for TLS, and plain is without")
    for name in fields.get("names", []):
        if not isinstance(name, str) or not may_be_host(name):
            raise Wrong(f"names: {name!r} is no host")
    if not _TITLE.fullmatch(fields.get("title", "Auction")):
        raise Wrong("title: 1 to 80 characters, without control characters")


def _address(fields: Mapping[str, Any], name: str) -> tuple[str, int]:
    host, _, port = fields[name].rpartition(":")
    host = host.strip("[]")
    if not may_be_host(host) or not port.isdecimal() or int(port) > 65_535:
        raise Wrong(f"{name}: {fields[name]!r} is no HOST:PORT")
    return host, int(port)


def _certificates(fields: Mapping[str, Any]) -> dict[str, str]:
    """The certificate of each name: a SHA-256, with colons or without, or a subject."""
    found = dict[str, str]()
    for name, value in fields.items():
        text = value if isinstance(value, str) else ""
        digest = text.replace(":", "").lower()
        if not NAME.fullmatch(name) or not (_DIGEST.fullmatch(digest) or _SUBJECT.fullmatch(text)):
            raise Wrong(f"certificates: {name}: neither the SHA-256 of a certificate nor a subject, as CN=ann,O=Coast")
        found[name] = digest if _DIGEST.fullmatch(digest) else text
    return found


def _token(path: pathlib.Path) -> str:
    try:
        return read_token(path)
    except (OSError, ValueError) as fault:
        raise Wrong(f"public: {fault}") from None


def _tree(path: pathlib.Path) -> Tree:
    try:
        return tree_of(read_script(path.read_bytes()))
    except OSError as fault:
        raise Wrong(f"{path}: {fault.strerror}") from None
    except Refused as fault:
        raise Wrong(f"{path}: the definition is refused: {fault.brief}") from None
