"""The durable bytes after the calls of a file, and the promises of the order of calls: docs/FORMATS.md, independently of the program."""

from __future__ import annotations

from collections.abc import Iterator, Sequence

from harness.auctions import PAGE, Layout
from harness.file_calls import Call
from outside.encoder import CHUNKS, FRAME, OPEN, SLOTS, frame_at


def overlap(at: int, size: int, place: int, count: int) -> bool:
    """Whether two ranges have a byte in common."""
    return at < place + count and place < at + size


class Durable:
    """The contents of a file that are durable after some of its calls."""

    def __init__(self, image: bytes) -> None:
        self.image = bytearray(image)
        self.pending: list[tuple[int, bytes]] = []

    def take(self, call: Call) -> None:
        """Takes the next call."""
        if call.is_write:
            self.pending.append((call.at, call.data))
        elif call.is_sync and not call.fault:
            for at, data in self.pending:
                self.image[at : at + len(data)] = data
            self.pending = []

    def is_closed(self, gate: int) -> bool:
        """Whether the gate is closed in everything that a crash may leave."""
        return self.image[gate] != OPEN[0] and not self.is_pending(gate, 1)

    def is_pending(self, at: int, size: int) -> bool:
        """Whether a part of this range isn't durable."""
        return any(overlap(at, size, place, len(data)) for place, data in self.pending)


def gates_of(layout: Layout, journal: int) -> dict[int, tuple[int, int]]:
    """Each gate of slots and frames, with the place and the length of the bytes behind it."""
    places = [frame_at(layout, journal, index) for index in range(journal)]
    frames = {place: (place + 16, FRAME[layout] - 16) for place in places}
    return {**{slot: (slot + PAGE, CHUNKS * PAGE) for slot in SLOTS}, **frames}


def broken_promises(calls: Sequence[Call], image: bytes, layout: Layout, journal: int, kept: int = 0) -> Iterator[str]:
    """Each call that breaks a promise, in a file that kept this many commands. The threads don't matter here. A call breaks a promise
    if it

    - writes behind a gate that may be open,
    - opens a gate over bytes that aren't durable,
    - closes a gate that is closed, or
    - answers a command that isn't durable yet.
    """
    durable, gates = Durable(image), gates_of(layout, journal)
    counts: dict[int, int] = {}
    for place, call in enumerate(calls, 1):
        if call.is_write:
            yield from (f"call {place} is {call}: {fault}" for fault in _faults_of(call, durable, gates))
            counts.update((gate, last_number(call.data)) for gate, (body, _) in gates.items() if gate not in SLOTS and call.at == body)
        early = [count for count in numbers_in(call.data) if count > kept] if call.name == "put" else []
        if early:
            yield f"call {place} is OK {early[0]}, and {kept} commands are durable"
        durable.take(call)
        if call.name == "sync":
            kept = max([kept, *(count for gate, count in counts.items() if durable.image[gate] == OPEN[0])])


def _faults_of(call: Call, durable: Durable, gates: dict[int, tuple[int, int]]) -> Iterator[str]:
    for gate, (body, size) in gates.items():
        if overlap(call.at, len(call.data), body, size) and not durable.is_closed(gate):
            yield f"its gate may be open, at {gate}"
        if call.at == gate and call.data == OPEN and durable.is_pending(body, size):
            yield "what is behind it isn't durable"
        if call.at == gate and call.data != OPEN and durable.is_closed(gate):
            yield "it is closed already"


def last_number(body: bytes) -> int:
    """The number of the last command of a batch."""
    return int.from_bytes(body[8:16], "big") + int.from_bytes(body[16:18], "big") - 1


def numbers_in(text: bytes) -> list[int]:
    """The numbers of the commands that are answered by OK."""
    return [int(line[3:]) for line in text.decode().splitlines() if line.startswith("OK ")]
