"""The folder of auctions, and the facts about each that need no question to it."""
import contextlib
import fcntl
import os
import pathlib
import tomllib
from collections.abc import Iterator
from dataclasses import dataclass
from typing import Any

from hpb.limits import NAME
from hpb.refusals import HpbError

STANDARD = "/var/lib/hpb"
CONFIGURATION = "front.toml"
# The configuration of an auction whose move to another folder was interrupted: nothing starts it.
MOVING = "front.toml.moving"
# The tables that may have an address, with the configuration itself.
WITH_ADDRESS = ("board", "metrics")


class CantDo(HpbError):
    """A request can't be met. The text says why."""


@contextlib.contextmanager
def failing(path: object) -> Iterator[None]:
    """A failure of the system is a CantDo, which names its file, or else this one."""
    try:
        yield
    except OSError as fault:
        raise CantDo(f"{fault.filename or path}: {fault.strerror or fault}") from None


@dataclass(frozen=True)
class Auction:
    """An auction of the folder: everything of it stands in a folder of its own."""

    name: str
    folder: pathlib.Path

    @property
    def configuration(self) -> pathlib.Path:
        return self.folder / CONFIGURATION

    def fields(self) -> dict[str, Any]:
        """The fields of its configuration, unchecked."""
        is_moving = (self.folder / MOVING).exists() and not self.configuration.exists()
        try:
            return tomllib.loads((self.folder / MOVING if is_moving else self.configuration).read_text(encoding="utf-8"))
        except OSError as fault:
            raise CantDo(f"{self.configuration}: {fault.strerror}") from None
        except ValueError as fault:
            raise CantDo(f"{self.configuration}: {fault}") from None

    def addresses(self) -> list[str]:
        """Its addresses, that of the front first."""
        fields = self.fields()
        tables = [fields, *(fields[table] for table in WITH_ADDRESS if isinstance(fields.get(table), dict))]
        return [table["listen"] for table in tables if isinstance(table.get("listen"), str)]

    def path(self, field: str) -> pathlib.Path:
        """The file that a field of its configuration names."""
        word = self.fields().get(field)
        if not isinstance(word, str):
            raise CantDo(f"{self.configuration}: {field} has to be there, as a text")
        return self.folder / word

    def has_record(self) -> bool:
        """Whether a front has begun a record."""
        return self.path("record").exists()

    def is_served(self) -> bool:
        """Whether a front has its record: a front locks it for as long as it runs."""
        try:
            file = os.open(self.path("record"), os.O_RDONLY | os.O_CLOEXEC | os.O_NONBLOCK)
        except FileNotFoundError:
            return False
        except OSError as fault:
            raise CantDo(f"{fault.filename}: {fault.strerror}") from None
        try:
            fcntl.flock(file, fcntl.LOCK_SH | fcntl.LOCK_NB)
        except BlockingIOError:
            return True
        finally:
            os.close(file)
        return False


@dataclass(frozen=True)
class Auctions:
    """The folder of all auctions. Ports of new ones go on from `first_port`; if that is None, each kind of port has numbers of its own."""

    folder: pathlib.Path
    first_port: int | None = None

    def all(self) -> list[Auction]:
        """The auctions in the order of their names."""
        try:
            found = sorted(self.folder.iterdir())
        except OSError as fault:
            raise CantDo(f"{self.folder}: {fault.strerror}") from None
        return [Auction(one.name, one) for one in found if NAME.fullmatch(one.name) and any((one / name).exists() for name in (CONFIGURATION, MOVING))]

    def named(self, name: str) -> Auction:
        """The auction of this name."""
        found = self.place(name)
        if (found.folder / MOVING).exists():
            raise CantDo(f"{name}: its move to another folder was interrupted: `move` it again, to the same one")
        if not found.configuration.exists():
            raise CantDo(f"{name}: {self.folder} has no such auction")
        return found

    def place(self, name: str) -> Auction:
        """The place of an auction of this name, which may not be there."""
        if not NAME.fullmatch(name):
            raise CantDo(f"{name!r} is no name: it has 1 to 16 of a to z, 0 to 9 and _")
        return Auction(name, self.folder / name)
