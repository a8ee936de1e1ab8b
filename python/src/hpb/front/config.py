"""The configuration of a front, and its tokens (docs/FRONT.md)."""
import importlib.util
import ipaddress
import os
import pathlib
import re
import tomllib
from collections.abc import Callable
from dataclasses import dataclass
from typing import Any

from hpb.file import read_head, read_image
from hpb.front.certificate import Certificate
from hpb.front.core.information import Information
from hpb.front.faults import Wrong
from hpb.front.files import Kept, look_at_files, of_change, of_log, of_record, read_by_all
from hpb.front.information import read_information
from hpb.front.limits import LIMITS, Limits
from hpb.front.log import JOURNAL, STANDARD_ERROR, Journal, Log, Rotated, Sink, Stream
from hpb.front.network import Address
from hpb.front.plan import read_closing, read_plan
from hpb.front.rights import AUCTIONEER, BIDDER, OBSERVER, Role
from hpb.front.seals import SealsPlace
from hpb.front.tokens import TokenFile
from hpb.limits import NAME
from hpb.own_files import read_regular
from hpb.refusals import Refused
from hpb.rules.mock import MARK, is_mock
from hpb.rules.tree import Tree, tree_of

# A table of a TOML file.
Table = dict[str, Any]

MOST_SESSIONS = 32
LEAST_PORT, MOST_PORT = 1024, 65535
STANDARD_ERROR_DESCRIPTOR = 2
# Each limit of the log: its default, and its range.
LOG_LIMITS = {
    "bytes": (64_000_000, 100_000, 10_000_000_000),
    "files": (8, 1, 1_000),
    "lines_per_second": (100, 1, 100_000),
}
TEXTS = ["file", "record", "tokens", "listen"]
OPTIONAL_TEXTS = ["program", "control", "certificate", "key"]
FIELDS = {*TEXTS, *OPTIONAL_TEXTS, "port", "plain", "shared_network", "mock", "names", "limits", "board", "log", "rounds", "closing", "information", "seals", "metrics"}
# Fields that can't change while a front runs; all others are read again at SIGHUP.
FIXED = ["file", "record", "tokens", "program", "control", "port", "shared_network", "mock", "host", "listen_port", "roles", "board", "log", "plan", "closing", "information", "seals", "metrics"]
METRICS_LIBRARY = "prometheus_client"
# The kinds of log lines that strangers can cause.
STRANGERS = ["connection", "token", "ended", "page"]
# The fields of files that have bids of the open round.
WITH_BIDS = {"file", "record", "log"}
BOARD_FIELDS = {"listen", "names"}
METRICS_FIELDS = {"listen", "plain"}
# A path that begins so is one of the folder that this variable names, as LoadCredential= of systemd makes it.
CREDENTIALS_VARIABLE = "CREDENTIALS_DIRECTORY"
CREDENTIALS = f"${CREDENTIALS_VARIABLE}/"
# A configuration and a file of which one alone is a mock's.
OF_MOCK = (f"is the file of a mock: its definition has the bidder {MARK}. Name the auction's own file and record. If this is to be the "
           "mock, set mock = true")
OF_REAL = (f"isn't the file of a mock: its definition lacks the bidder {MARK}. Nothing was changed. For the auction itself take mock out; "
           "else make a mock by --make-mock, and name its file and record")
HOST_NAME = re.compile(r"[A-Za-z0-9-]{1,63}(\.[A-Za-z0-9-]{1,63})*")


def read_limits(given: Table) -> Limits:
    """The limits of a configuration."""
    for name in given:
        if name not in LIMITS:
            raise Wrong(f"limits.{name}: there is no such limit")
    wanted = {name: whole(given.get(name, default), least, most, f"limits.{name}") for name, (default, least, most) in LIMITS.items()}
    return Limits(**wanted)


@dataclass(frozen=True)
class LogPlace:
    """The place of the log, and how much of it is kept. `path` is the log's file, if it goes into one."""

    to: str
    path: str | None
    bytes: int
    files: int
    lines_per_second: int

    @classmethod
    def read(cls, given: Table, folder: pathlib.Path, default: str) -> "LogPlace":
        for name in given:
            if name != "to" and name not in LOG_LIMITS:
                raise Wrong(f"log.{name}: there is no such field")
        to = text_of(given, "to", "log.") if "to" in given else default
        wanted = {name: whole(given.get(name, standard), least, most, f"log.{name}") for name, (standard, least, most) in LOG_LIMITS.items()}
        return cls(to, str(folder / to) if to not in (STANDARD_ERROR, JOURNAL) else None, **wanted)

    def open(self, warn: Callable[[str], None]) -> Log:
        """The log, whose thread isn't started yet."""
        sink: Sink
        if self.path:
            sink = Rotated(self.path, self.bytes, self.files)
        elif self.to == JOURNAL:
            sink = Journal()
        else:
            sink = Stream(STANDARD_ERROR_DESCRIPTOR)
        return Log(sink, dict.fromkeys(STRANGERS, self.lines_per_second), warn)


@dataclass(frozen=True)
class BoardPlace:
    """The address of the page, and the names by which it may be asked for."""

    host: str
    port: int
    names: list[str]

    @classmethod
    def read(cls, given: Table) -> "BoardPlace":
        for field in given:
            if field not in BOARD_FIELDS:
                raise Wrong(f"board.{field}: there is no such field")
        host, port = read_address(text_of(given, "listen", "board."), "board.listen")
        names = given.get("names", [])
        if type(names) is not list or not all(type(name) is str and HOST_NAME.fullmatch(name) for name in names):
            raise Wrong("board.names has to be a list of names as auction.example is")
        return cls(host, port, names)


@dataclass(frozen=True)
class MetricsPlace:
    """The address at which the front shows its metrics, in clear."""

    host: str
    port: int

    @classmethod
    def read(cls, given: Table) -> "MetricsPlace":
        for field in given:
            if field not in METRICS_FIELDS:
                raise Wrong(f"metrics.{field}: there is no such field")
        if importlib.util.find_spec(METRICS_LIBRARY) is None:
            raise Wrong(f"metrics: Python's {METRICS_LIBRARY} isn't installed; Debian has it in python3-prometheus-client")
        host, port = read_address(text_of(given, "listen", "metrics."), "metrics.listen")
        if not truth(given, "plain", "metrics.") and not is_loopback(host):
            raise Wrong(f"metrics.listen: {host} is no address of this machine alone, and metrics are sent in clear, to anyone who asks; if "
                        "that is meant, set plain = true there")
        return cls(host, port)


class Config:
    """A configuration. Paths in it begin at its folder."""

    def __init__(self, path: str | os.PathLike[str]) -> None:
        given = read_toml(path)
        # The name as it was given, with links: a link may lead to another file when the configuration is read again.
        self.path = os.path.abspath(path)
        for field in given:
            if field not in FIELDS:
                raise Wrong(f"{field}: there is no such field")
        self.folder = pathlib.Path(path).resolve().parent
        texts = {field: text_of(given, field) for field in TEXTS}
        more = {field: text_of(given, field) for field in OPTIONAL_TEXTS if field in given}
        self.file, self.record = (str(self.folder / texts[field]) for field in TEXTS[:2])
        self.tokens = handed(self.folder, texts["tokens"], "tokens")
        self.host, self.listen_port = read_address(texts["listen"])
        self.program = program_of(self.folder, more.get("program", "hpb"))
        self.control = str(self.folder / more["control"]) if "control" in more else None
        self.port = whole(given["port"], LEAST_PORT, MOST_PORT, "port") if "port" in given else None
        self.limits = read_limits(table_of(given, "limits", is_needed=False))
        self.board = BoardPlace.read(table_of(given, "board")) if "board" in given else None
        self.metrics = MetricsPlace.read(table_of(given, "metrics")) if "metrics" in given else None
        self.plan = read_plan(table_of(given, "rounds", is_needed=False)) if "rounds" in given else None
        self.closing, self.roles = read_closing(table_of(given, "closing", is_needed=False), read_roles(table_of(given, "names")), self.plan)
        self.information: Information | None = None
        if "information" in given:
            self.information, self.roles = read_information(table_of(given, "information", is_needed=False), self.roles)
        self.seals: SealsPlace | None = None
        if "seals" in given:
            self.seals = SealsPlace.read(table_of(given, "seals", is_needed=False), self.folder)
            self.roles = {name: role._replace(has_seals=True) for name, role in self.roles.items()}
        self.certificate, self.key = (handed(self.folder, more[field], field) if field in more else None for field in OPTIONAL_TEXTS[2:])
        self.log = LogPlace.read(table_of(given, "log", is_needed=False), self.folder, f"{texts['record']}.log")
        self.look_at_transport(truth(given, "plain"))
        self.shared_network, self.mock = truth(given, "shared_network"), truth(given, "mock")
        if self.port and not self.shared_network:
            raise Wrong("port: each account of this machine reaches a server that runs already, and can send it commands; if that is meant, "
                        "set shared_network = true")
        look_at_files(self.files())

    def look_at_transport(self, plain: bool) -> None:
        """Refuses a configuration by which tokens would be sent in clear, unless it says `plain = true`."""
        if self.key and not self.certificate:
            raise Wrong("key: there is no certificate to it")
        places = {"listen": self.host, **({"board.listen": self.board.host} if self.board else {})}
        for field, host in places.items():
            if not self.certificate and not plain and not is_loopback(host):
                raise Wrong(f"{field}: {host} is no address of this machine alone, and without a certificate tokens would be sent in "
                            "clear; give certificate and key, or plain = true")

    def files(self) -> list[Kept]:
        """The files that the configuration names. No two may be the same: if the record had the name of another file, that file would be
        set aside as a torn record."""
        files = [Kept("configuration", self.path), of_change("file", self.file), of_record(self.record), of_change("tokens", self.tokens)]
        if self.certificate:
            files.append(Kept("certificate", self.certificate))
        if self.key and self.key != self.certificate:
            files.append(Kept("key", self.key))
        if self.seals and self.seals.key:
            files.append(Kept("key of seals", self.seals.key))
        if self.seals and self.seals.stamps:
            files.append(Kept("certificates of stamps", self.seals.stamps.authority))
        if self.control:
            files.append(Kept("control", self.control))
        if "/" in self.program:
            files.append(Kept("program", self.program))
        if self.log.path:
            files.append(of_log(self.log.path, self.log.files))
        return files

    def read_by_all(self) -> list[str]:
        """The files with bids of the open round that every user may read."""
        return read_by_all([kept for kept in self.files() if kept.field in WITH_BIDS])

    def record_name(self) -> str:
        """The name of the record's first file."""
        return os.path.basename(self.record)

    def sessions(self) -> int:
        """How many sessions with the server are for names: one for each name, up to the server's most."""
        return min(len(self.roles), MOST_SESSIONS - (self.board is not None))

    def places(self) -> int:
        """How many sessions there are in all: the board has the last."""
        return self.sessions() + (self.board is not None)

    def tree(self) -> Tree:
        """The definition, from the head of the auction's file. Raises a Wrong if it is that of a mock and the configuration isn't, or the
        other way round. So it does if a name may bid for a bidder that isn't in it."""
        try:
            tree = tree_of(read_head(read_image(self.file, is_quiet=False)).definition)
        except Refused as fault:
            raise Wrong(f"file: {self.file}: {fault.brief}") from None
        if is_mock(tree.definition) is not self.mock:
            raise Wrong(f"file: {self.file} {OF_REAL if self.mock else OF_MOCK}")
        for name, role in self.roles.items():
            for bidder in role.bidders:
                if bidder not in tree.bidders or bidder == MARK:
                    raise Wrong(f"names.{name}: {bidder!r} is no bidder of the definition")
        return tree

    def silent_bidders(self, tree: Tree) -> list[str]:
        """The bidders of the definition for whom no name may bid."""
        spoken_for = {MARK, *(bidder for role in self.roles.values() for bidder in role.bidders)}
        return [bidder for bidder in tree.bidders if bidder not in spoken_for]

    def read_certificate(self) -> Certificate | None:
        """The certificate, if TLS is configured."""
        return Certificate.read(self.certificate, self.key) if self.certificate else None

    def differs_in(self, other: "Config") -> list[str]:
        """The fields that differ in another reading of the same configuration and can't change while a front runs."""
        is_other = [field for field in FIXED if getattr(self, field) != getattr(other, field)]
        return is_other + (["certificate"] if bool(self.certificate) != bool(other.certificate) else [])

    def token_file(self) -> TokenFile:
        """The file of tokens."""
        return TokenFile(self.tokens, self.roles)

    def addresses(self) -> list[Address]:
        """The addresses at which the front listens, and its board and its metrics if it has them, in this order."""
        others = [("board.listen", self.board), ("metrics.listen", self.metrics)]
        return [Address("listen", self.host, self.listen_port), *(Address(field, place.host, place.port) for field, place in others if place)]


def read_toml(path: str | os.PathLike[str]) -> Table:
    try:
        return tomllib.loads(read_regular(os.fspath(path)).decode())
    except OSError as fault:
        raise Wrong(f"{path}: {fault.strerror}") from None
    except ValueError as fault:  # It is no TOML or no UTF-8, or a number in it has more digits than Python reads.
        raise Wrong(f"{path}: {fault}") from None
    except RecursionError:
        raise Wrong(f"{path}: it is nested too deep") from None


def text_of(given: Table, field: str, where: str = "") -> str:
    value = given.get(field)
    if not isinstance(value, str) or not value or "\0" in value:
        raise Wrong(f"{where}{field} has to be there, as a text")
    return value


def table_of(given: Table, field: str, is_needed: bool = True) -> Table:
    value = given.get(field, None if is_needed else {})
    if not isinstance(value, dict) or (is_needed and not value):
        raise Wrong(f"{field} has to be there, as a table")
    return value


def truth(given: Table, field: str, where: str = "") -> bool:
    value = given.get(field, False)
    if not isinstance(value, bool):
        raise Wrong(f"{where}{field} has to be true or false")
    return value


def whole(value: object, least: int, most: int, where: str) -> int:
    if not isinstance(value, int) or isinstance(value, bool) or not least <= value <= most:
        raise Wrong(f"{where}: {shown(value)} is no number from {least:,} to {most:,}")
    return value


def shown(value: object) -> str:
    try:
        return repr(value)
    except ValueError:  # It has a number with more digits than Python writes.
        return "what stands there"


def read_address(text: str, where: str = "listen") -> tuple[str, int]:
    """An address and a port: `127.0.0.1:6000`, `[::1]:6000`, `0.0.0.0:6000`. Port 0 is any that is free."""
    host, _, port = text.rpartition(":")
    host = host.removeprefix("[").removesuffix("]")
    try:
        ipaddress.ip_address(host)
    except ValueError:
        raise Wrong(f"{where}: {text!r} has no address in figures and no port, as 127.0.0.1:6000 has") from None
    if not re.fullmatch(r"[0-9]{1,5}", port) or int(port) > MOST_PORT:
        raise Wrong(f"{where}: {port!r} is no port")
    return host, int(port)


def is_loopback(host: str) -> bool:
    return ipaddress.ip_address(host).is_loopback


def handed(folder: pathlib.Path, word: str, field: str) -> str:
    """A path of the configuration's folder, or of the folder in which a service manager hands in secrets."""
    if not word.startswith(CREDENTIALS):
        return str(folder / word)
    where = os.environ.get(CREDENTIALS_VARIABLE)
    if not where:
        raise Wrong(f"{field}: {word} is handed in by a service manager alone: here {CREDENTIALS_VARIABLE} isn't set")
    return os.path.join(where, word.removeprefix(CREDENTIALS))


def program_of(folder: pathlib.Path, word: str) -> str:
    """A path of the configuration's folder, or a name that is looked for as a shell does."""
    return str(folder / word) if "/" in word else word


def read_roles(names: Table) -> dict[str, Role]:
    roles: dict[str, Role] = {}
    spoken_for: dict[str, str] = {}
    for name, given in names.items():
        if not NAME.fullmatch(name):
            raise Wrong(f"names.{name}: a name is 1 to 16 of a to z, 0 to 9 and _")
        roles[name] = read_role(name, given)
        for bidder in roles[name].bidders:
            if bidder in spoken_for:
                raise Wrong(f"names.{name}: {bidder} is a bidder of {spoken_for[bidder]} already")
            spoken_for[bidder] = name
    if sum(role.kind == AUCTIONEER for role in roles.values()) != 1:
        raise Wrong("names: one of them has to be the auctioneer, and one alone: it may have many connections, and many tokens")
    return roles


def read_role(name: str, given: Any) -> Role:
    if given in (AUCTIONEER, OBSERVER):
        return Role(given)
    if isinstance(given, list) and given and all(isinstance(bidder, str) for bidder in given):
        return Role(BIDDER, tuple(given))
    raise Wrong(f"names.{name} has to be a list of bidders, {AUCTIONEER!r} or {OBSERVER!r}")
