"""Makes an auction: its file, its certificate, its tokens and its configuration, all or nothing."""
import contextlib
import csv
import errno
import importlib.util
import json
import os
import pathlib
import re
import shutil
import socket
import subprocess
from collections.abc import Iterator
from dataclasses import dataclass
from typing import Any

from hpb.auctions.folder import CONFIGURATION, Auction, Auctions, CantDo
from hpb.auctions.parts import give_name, locked, put, sync
from hpb.file import read_head, read_image
from hpb.front.config import METRICS_LIBRARY, Config, read_address
from hpb.front.faults import Wrong
from hpb.refusals import Refused
from hpb.rules.tree import tree_of

# The ports of the first auction: of front, page and metrics. Each further auction has the next that are free.
PORTS = {"listen": 6000, "board": 8443, "metrics": 9464}
MOST_PORT = 65_535
MOST_AUCTIONS = 1_000
LOCAL = "127.0.0.1"
DAYS = 90
# The auctioneer's name: the first one that no bidder has.
DESKS = ("desk", "auctioneer", "house")
# Marks between cells, as spreadsheets write them. The one in most rows counts.
DELIMITERS = ",;\t"
# A row of a node has its name, its parent, its units and its opening bid.
NODE_CELLS = 4
HOST_NAME = re.compile(r"[A-Za-z0-9-]{1,63}(\.[A-Za-z0-9-]{1,63})*")


@dataclass(frozen=True)
class Wanted:
    """What an auction is to be. `listen` is the address of its front, or empty: then it is one of this machine alone."""

    definition: pathlib.Path
    listen: str = ""
    host: str = "localhost"
    journal: int = 1_024
    program: str = "hpb"


def become_owner(auctions: Auctions) -> None:
    """Root makes an auction as the user whose folder it is: it is that user's own from the first byte on."""
    status = os.stat(auctions.folder)
    if os.geteuid() == 0 and status.st_uid:
        os.setgroups([])
        os.setgid(status.st_gid)
        os.setuid(status.st_uid)


def make(auctions: Auctions, name: str, wanted: Wanted) -> Auction:
    """Makes an auction. If it is killed, there is none of this name, and the next try begins anew."""
    text = definition_text(wanted.definition)
    if not HOST_NAME.fullmatch(wanted.host):
        raise CantDo(f"--host: {wanted.host!r} is no name of a host")
    made = auctions.place(name)
    with new_room(auctions, made) as room:
        fill(room, text, ports_for(auctions), wanted)
    return made


@contextlib.contextmanager
def new_room(auctions: Auctions, made: Auction) -> Iterator[pathlib.Path]:
    """A folder in which an auction is made. At the end it gets the auction's name, unless something fails: then it is removed."""
    os.umask(0o077)
    with locked(auctions.folder):
        if os.path.lexists(made.folder):
            raise CantDo(f"{made.folder} is there already")
        room = auctions.folder / f".{made.name}.new"
        shutil.rmtree(room, ignore_errors=True)
        try:
            room.mkdir(mode=0o700)
            yield room
            sync(room)
            give_name(room, made.folder)
        except BaseException as fault:
            shutil.rmtree(room, ignore_errors=True)
            if isinstance(fault, OSError):
                raise CantDo(f"{fault.filename or room}: {fault.strerror}") from None
            raise


def fill(room: pathlib.Path, text: str, ports: dict[str, int], wanted: Wanted) -> None:
    """Makes all files of an auction in a folder."""
    ran = run([wanted.program, "format", "--file", str(room / "auction.hpb"), "--journal", str(wanted.journal)], text)
    if ran.returncode:
        raise CantDo(f"the definition or the journal is refused: {(ran.stderr or ran.stdout).strip()}")
    alternative = f"subjectAltName=DNS:{wanted.host}" + ("" if wanted.host == "localhost" else ",DNS:localhost") + f",IP:{LOCAL}"
    words = ["openssl", "req", "-x509", "-newkey", "ec", "-pkeyopt", "ec_paramgen_curve:prime256v1", "-nodes", "-days", str(DAYS), "-subj", f"/CN={wanted.host}"]
    ran = run([*words, "-addext", alternative, "-keyout", str(room / "front.key"), "-out", str(room / "front.pem")])
    if ran.returncode:
        raise CantDo(f"openssl makes no certificate: {ran.stderr.strip()}")
    put(room / CONFIGURATION, configuration(room / "auction.hpb", ports, wanted).encode())
    try:
        Config(room / CONFIGURATION).token_file().make()
    except Wrong as fault:
        raise CantDo(str(fault)) from None


def run(words: list[str], text: str = "") -> "subprocess.CompletedProcess[str]":
    try:
        return subprocess.run(words, input=text, capture_output=True, encoding="utf-8", errors="backslashreplace", check=False)
    except OSError as fault:
        raise CantDo(f"{words[0]} can't be started: {fault.strerror}") from None


def configuration(file: pathlib.Path, ports: dict[str, int], wanted: Wanted) -> str:
    """The text of `front.toml`: each bidder of the definition is a name of its own."""
    try:
        bidders = list(tree_of(read_head(read_image(str(file), is_quiet=False)).definition).bidders)
    except Refused as fault:
        raise CantDo(f"{file}: {fault.brief}") from None
    host, port = (LOCAL, ports["listen"]) if not wanted.listen else address(wanted.listen)
    shown = f"[{host}]" if ":" in host else host
    desk = next(name for name in DESKS if name not in bidders)
    lines = [
        'file = "auction.hpb"', 'record = "auction.record"', 'tokens = "auction.tokens"', f'listen = "{shown}:{port}"',
        'certificate = "front.pem"', 'key = "front.key"', *([] if wanted.program == "hpb" else [f"program = {json.dumps(wanted.program)}"]),
        'control = "front.control"', "", "[names]", f'{desk} = "auctioneer"', *(f'{bidder} = ["{bidder}"]' for bidder in bidders),
        "", "[limits]", "after_end_seconds = 3600",
        "", "[board]", f'listen = "{shown}:{ports["board"]}"', f'names = ["{wanted.host}"]',
    ]
    if importlib.util.find_spec(METRICS_LIBRARY):
        lines += ["", "[metrics]", f'listen = "{LOCAL}:{ports["metrics"]}"']
    return "\n".join(lines) + "\n"


def address(text: str) -> tuple[str, int]:
    try:
        return read_address(text, "--listen")
    except Wrong as fault:
        raise CantDo(str(fault)) from None


def ports_for(auctions: Auctions) -> dict[str, int]:
    """The next ports that no other auction of the folder has, and that nobody on this machine listens at."""
    taken = {int(one.rpartition(":")[2]) for auction in auctions.all() for one in auction.addresses() if one.rpartition(":")[2].isdecimal()}
    for place in range(MOST_AUCTIONS):
        ports = ports_at(auctions, place)
        if max(ports.values()) <= MOST_PORT and not taken & set(ports.values()) and all(is_free(port) for port in ports.values()):
            return ports
    raise CantDo(f"no ports are left for another auction of {auctions.folder}")


def ports_at(auctions: Auctions, place: int) -> dict[str, int]:
    """The ports of the auction at a place, from 0 on."""
    if auctions.first_port is None:
        return {field: first + place for field, first in PORTS.items()}
    return {field: auctions.first_port + place * len(PORTS) + number for number, field in enumerate(PORTS)}


def is_free(port: int) -> bool:
    """Whether nobody listens at this port of the machine now."""
    with socket.socket() as asked:
        asked.setsockopt(socket.SOL_SOCKET, socket.SO_REUSEADDR, 1)
        try:
            asked.bind(("", port))
        except OSError as fault:
            return fault.errno != errno.EADDRINUSE
    return True


# The definition.


def definition_text(path: pathlib.Path) -> str:
    """A definition as `hpb format` takes it: a file of JSON as it stands, or the rows of a spreadsheet."""
    try:
        text = path.read_text(encoding="utf-8-sig")
    except OSError as fault:
        raise CantDo(f"{path}: {fault.strerror}") from None
    except UnicodeDecodeError:
        raise CantDo(f"{path}: it is no text in UTF-8") from None
    return json.dumps(from_rows(text)) if path.suffix.lower() == ".csv" else text


def from_rows(text: str) -> dict[str, Any]:
    """A definition by rows: `step,10`, `percent,10`, `waivers,2`, `stages,80,95`, `node,NAME,PARENT,UNITS,OPENING`, `bidder,NAME,UNITS`. Empty
    cells at the end of a row don't count. A package has neither units nor an opening bid, and the whole has no parent."""
    definition: dict[str, Any] = {"nodes": [], "bidders": []}
    rows = text.splitlines()
    delimiter = max(DELIMITERS, key=lambda mark: sum(mark in row for row in rows))
    for number, row in enumerate(csv.reader(rows, delimiter=delimiter), 1):
        cells = [cell.strip() for cell in row]
        while cells and not cells[-1]:
            cells.pop()
        if not cells or cells[0].startswith("#"):
            continue
        try:
            add_row(definition, cells[0].lower(), cells[1:])
        except (ValueError, IndexError):
            raise CantDo(f"row {number} isn't one of a definition: {','.join(cells)}") from None
    return definition


def add_row(definition: dict[str, Any], kind: str, cells: list[str]) -> None:
    if kind in ("step", "percent", "waivers"):
        (definition[kind],) = map(int, cells)
    elif kind == "stages":
        definition[kind] = [int(cell) for cell in cells]
    elif kind == "bidder":
        name, units = cells
        definition["bidders"].append({"name": name, "units": int(units)})
    elif kind == "node":
        name, parent, *numbers = (*cells, "", "", "")[: max(NODE_CELLS, len(cells))]
        node: dict[str, Any] = {"name": name, "parent": parent or None}
        node |= {field: int(cell) for field, cell in zip(("units", "opening"), numbers, strict=True) if cell}
        definition["nodes"].append(node)
    else:
        raise ValueError(kind)
