"""The state of auctions, as values, as a table and as JSON."""
import http.client
import json
import re
from collections.abc import Sequence
from dataclasses import asdict, dataclass

from hpb.auctions.folder import MOVING, Auction
from hpb.file import read_image
from hpb.lines import Shown, parse_answer
from hpb.program import Copy
from hpb.refusals import HpbError

SECONDS = 5.0
STOPPED, RUNNING, STARTING, OVER, MOVED, FAULT = "stopped", "running", "starting", "over", "moving", "?"
SAMPLE = re.compile(r"^(hpb_(?:auction|front)_[a-z_]+) (\S+)$", re.MULTILINE)
COLUMNS = ("NAME", "STATE", "LISTEN", "ROUND", "COUNT", "")


@dataclass(frozen=True)
class Status:
    """What an auction does now. Fields that aren't known are None; `why` says why."""

    name: str
    state: str
    listen: str | None = None
    round: int | None = None
    count: int | None = None
    why: str = ""

    def cells(self) -> list[str]:
        return ["-" if value is None else str(value) for value in (self.name, self.state, self.listen, self.round, self.count)] + [self.why]


def status_of(auction: Auction, program: str) -> Status:
    """The state of an auction. One that runs is asked for its metrics; of any other the file is read."""
    try:
        listen = auction.addresses()[0]
        if (auction.folder / MOVING).exists():
            return Status(auction.name, MOVED, listen, why="its move was interrupted: `move` it again, to the same folder")
        if auction.is_served():
            return of_metrics(auction, listen)
        with Copy(program, read_image(str(auction.path("file")), is_quiet=True)) as copy:
            shown = parse_answer(copy.check()[0])
        assert isinstance(shown, Shown)
        return Status(auction.name, OVER if shown.is_over else STOPPED, listen, shown.round, shown.count)
    except (HpbError, OSError, IndexError) as fault:
        return Status(auction.name, FAULT, why=str(fault))


def of_metrics(auction: Auction, listen: str) -> Status:
    place = auction.fields().get("metrics", {}).get("listen")
    if not place:
        return Status(auction.name, RUNNING, listen, why="it shows no metrics: [metrics] isn't in its configuration")
    try:
        connection = http.client.HTTPConnection(place, timeout=SECONDS)
        connection.request("GET", "/metrics")
        values = {name: float(value) for name, value in SAMPLE.findall(connection.getresponse().read().decode())}
        connection.close()
    except (OSError, http.client.HTTPException, ValueError) as fault:
        return Status(auction.name, RUNNING, listen, why=f"its metrics at {place} can't be read: {fault}")
    state = OVER if values.get("hpb_auction_over") else RUNNING if values.get("hpb_front_ready") else STARTING
    return Status(auction.name, state, listen, int(values["hpb_auction_round"]), int(values["hpb_auction_commands"]))


def table(found: Sequence[Status]) -> str:
    """A line for each, below the names of the columns."""
    rows = [list(COLUMNS), *(one.cells() for one in found)]
    widths = [max(len(row[place]) for row in rows) for place in range(len(COLUMNS))]
    return "".join("  ".join(cell.ljust(width) for cell, width in zip(row, widths)).rstrip() + "\n" for row in rows)


def as_json(found: Sequence[Status]) -> str:
    return json.dumps([asdict(one) for one in found], indent=2) + "\n"
