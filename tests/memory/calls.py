"""Calls of the libraries that take memory, as the program `hpb_test_memory` makes them, and the answers that are due.

    hpb_test_memory CALL NODES LAYOUT

Between its lines CALL and CAME it makes the call under a definition of so many nodes. Then it writes the result, whether the arguments are
the same as before, and the result of the same call made again. A house that isn't started also reports which part it was refused.
"""

from __future__ import annotations

import json
import re
from collections.abc import Callable, Sequence
from dataclasses import dataclass
from typing import Final

SIZES: Final = (1, 65, 127)
LAYOUTS: Final = (1, 2)
MEMORY, DEVICE, PLACE = "90 memory", "91 device", "94 place"
# The parts that a house asks for, and the refusal that it reports for each.
PARTS: Final = {"Board": MEMORY, "Eye": PLACE, "Bell": MEMORY, "Viewer": PLACE, "Rings": PLACE, "Seat": MEMORY, "Engine": MEMORY}


def definition_of(nodes: int) -> bytes:
    """Packages of two nodes each, and licences under them, as in crates/hpb_test_memory."""
    packages = nodes // 2
    written: list[dict[str, object]] = []
    for place in range(nodes):
        licence = {"units": 1, "opening": 100} if place >= packages else {}
        written.append({"name": f"n{place}", "parent": f"n{(place - 1) // 2}" if place else None, **licence})
    bidders = [{"name": f"b{place}", "units": 64} for place in range(packages, nodes)]
    return json.dumps({"step": 10, "percent": 10, "stages": [80, 85, 90, 95], "waivers": 3, "nodes": written, "bidders": bidders}).encode()


def bids_of(nodes: int) -> bytes:
    """One bid of each bidder."""
    return "".join(f"BID b{place} 1 n{place} 1000\n" for place in range(nodes // 2, nodes)).encode()


def lines_of(nodes: int) -> bytes:
    """These bids, the end of the round, and a question."""
    return bids_of(nodes) + b"CLOSE 1\nSHOW\n"


def script_of(nodes: int) -> bytes:
    """The definition and these lines."""
    return definition_of(nodes) + b"\n" + lines_of(nodes)


def no_text(_nodes: int) -> bytes:
    """Nothing is read."""
    return b""


def sessions_of(nodes: int) -> int:
    """How many sessions a house has, as in crates/hpb_test_memory."""
    return 32 if nodes == 1 else 2


@dataclass(frozen=True)
class Call:
    """A call: the text that it reads, the sizes and layouts that matter to it, and the refusal that it reports. A house has parts."""

    name: str
    text: Callable[[int], bytes] = no_text
    sizes: Sequence[int] = SIZES
    layouts: Sequence[int] = LAYOUTS[:1]
    told: str = MEMORY
    has_parts: bool = False

    def wanted(self, answer: str, given: str) -> str:
        """The answer that is due if a request is refused; `given` is the result with memory."""
        if not self.has_parts:
            return f"{self.told}, same, {given}"
        part = answer.rpartition("\n")[2]
        return f"{PARTS.get(part, 'a part')}, same, {given}\n{part}"

    def are_in_order(self, answers: Sequence[str], nodes: int) -> bool:
        """Whether the parts come as a house asks for them: board, eye, bell, then viewer, rings and seat of each session, engine."""
        if not self.has_parts:
            return True
        named = " ".join(answer.rpartition("\n")[2] for answer in answers) + " "
        seats = rf"(?:(?:Viewer )+(?:Rings )+(?:Seat )*){{{sessions_of(nodes)}}}"
        return re.fullmatch(rf"(?:Board )+(?:Eye )+(?:Bell )+{seats}(?:Engine )+", named) is not None and "Seat " in named


ONE: Final = SIZES[:1]
CALLS: Final = (
    Call("check"),
    Call("copy"),
    Call("read_definition", definition_of),
    Call("decode_head"),
    Call("Auction::new"),
    Call("Auction::copy"),
    Call("run_commands"),
    Call("ResponseText::new", sizes=ONE),
    Call("render", sizes=ONE),
    Call("run_script", script_of),
    Call("serve", lines_of),
    *(Call(f"MemoryDisk::{name}", sizes=ONE, layouts=LAYOUTS) for name in ("zeros", "of", "after_stop")),
    *(Call(f"MemoryDisk::{name}", sizes=ONE, layouts=LAYOUTS, told=DEVICE) for name in ("read_into", "write_at", "sync")),
    *(Call(f"FileDisk::{name}", sizes=ONE, layouts=LAYOUTS) for name in ("make", "open", "open_to_read", "open_or_make")),
    Call("format"),
    *(Call(name, layouts=LAYOUTS) for name in ("format_layout", "Engine::run", "open", "Engine::start", "drive", "drive_opened")),
    Call("House::start", layouts=LAYOUTS, has_parts=True),
    Call("run_device", bids_of, layouts=LAYOUTS),
)


# Lies. Each changes the output of a call as it would be if something were wrong.

Lie = Callable[[str], str]


def tells_another(output: str) -> str:
    """Refused memory is reported as a fault of the device, and the other way round."""
    return output.replace(MEMORY, "X").replace(DEVICE, MEMORY).replace("X", DEVICE)


def keeps_quiet(output: str) -> str:
    """A refused call reports that it was done."""
    done = output.rsplit(", ", 1)[-1].strip()
    return output.replace(MEMORY, done).replace(DEVICE, done)


def spoils(output: str) -> str:
    """A call changes its arguments when memory is refused."""
    return output.replace(f"{MEMORY}, same", f"{MEMORY}, changed").replace(f"{DEVICE}, same", f"{DEVICE}, changed")


def loses(output: str) -> str:
    """Once memory was refused, the call gives something else."""
    return output.replace("ok", "ok 1") if MEMORY in output or DEVICE in output else output


def refuses(output: str) -> str:
    """The definition is refused for lack of memory, though there is enough."""
    return "CALL\nCAME\n90 memory, same, 90 memory\n" if output else output


def names_another(output: str) -> str:
    """If the viewer of a seat is refused, its rings are named, and the other way round."""
    return output.replace("Viewer", "X").replace("Rings", "Viewer").replace("X", "Rings")


def tells_memory(output: str) -> str:
    """A refused place is reported as refused memory."""
    return output.replace(PLACE, MEMORY)


LIES: Final = (tells_another, keeps_quiet, spoils, loses)


def lies_of(call: Call) -> list[tuple[Lie, int]]:
    """The lies that are tried on a call, each under a definition of so many nodes."""
    greater = [(refuses, 65)] if 65 in call.sizes else []
    parts = [(names_another, 1), (tells_memory, 1)] if call.has_parts else []
    return [*((lie, 1) for lie in LIES), *greater, *parts]


def sums_nothing(output: str) -> str:
    """A call always gives the same sum."""
    return re.sub(r"ok \d+", "ok 7", output)
