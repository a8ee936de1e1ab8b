"""The calls that a program has to make of a file, worked out from docs/FORMATS.md, independently of the program."""

from __future__ import annotations

from collections.abc import Iterable, Sequence

from harness.auctions import PAGE, Layout
from harness.file_calls import OUTPUT, REFUSED, Call
from outside.encoder import CHUNKS, CLOSED, FRAME, HEAD_AT, HEAD_SIZE, MAGIC, OPEN, SLOTS, Auction, Image, body_of, frame_at, head, record

# The advice to drop the pages that the system has in memory.
DROP = 4
# To compare a served file with the writes, it is read in pieces of this many bytes.
PIECE = 65_536
# How a file is opened that mustn't exist yet.
MADE = "to read and write, made, not there"
READ, CHANGE = "to read", "to read and write"
QUESTIONS = ("SHOW", "NODE", "WHO")


class Engine:
    """The calls that have to be made of a file, in their order, and the contents of the file after them."""

    def __init__(self, layout: Layout, journal: int, waivers: int = 0) -> None:
        self.layout, self.journal, self.waivers = layout, journal, waivers
        self.image = bytearray(Image(layout, journal, waivers).bytes)
        self.auction = Auction(waivers)
        # The states by the batches that they cover.
        self.states = {0: self.auction.state(0)}
        # Whether the file is compared at each checkpoint, as while it is served.
        self.is_watched = False
        self._calls: list[Call] = []
        self._since_due = 0

    def taken(self) -> list[Call]:
        """The calls since it was last called."""
        calls, self._calls = self._calls, []
        return calls

    def ask(self, name: str, *numbers: int, of: str = "file", how: str = "", fault: str = "") -> None:
        """A call that doesn't have bytes."""
        self._calls.append(Call(name, of, how, numbers, fault=fault))

    def put(self, text: bytes) -> None:
        """Answers leave."""
        self._calls.append(Call("put", OUTPUT, data=text))

    def read(self, at: int, size: int) -> None:
        """A read of the file."""
        self.ask("read", at, size)

    def write(self, at: int, data: bytes) -> None:
        """A write to the file."""
        self.image[at : at + len(data)] = data
        self._calls.append(Call("write", numbers=(at,), data=bytes(data)))

    def _reads_open(self, gate: int) -> bool:
        self.read(gate, 1)
        return self.is_open(gate)

    def is_open(self, gate: int) -> bool:
        """Whether a gate is open in the file."""
        return self.image[gate : gate + 1] == OPEN

    def repeat(self, call: Call) -> None:
        """Repeats in `image` what a call changed in the file."""
        if call.is_write:
            self.image[call.at : call.at + len(call.data)] = call.data

    def _close_if_open(self, gate: int) -> None:
        if self.is_open(gate):
            self.write(gate, CLOSED)

    def frame(self, index: int) -> int:
        """The place of the frame of a batch."""
        return frame_at(self.layout, self.journal, index)

    # Before the first call of the device, and after the last.

    def take_file(self, access: str = CHANGE, lock: str = "alone") -> None:
        """Opens and locks an existing file. Everything read after that is on the medium."""
        self.ask("open", how=access)
        self.ask("lock", how=lock)
        self._settle()

    def _settle(self, of: str = "file") -> None:
        self.ask("sync", of=of)
        self.ask("advise", 0, 0, DROP, of=of)
        self.ask("read", 0, len(self.image), of=of)

    def sync_folder(self, of: str = "folder") -> None:
        """Syncs the folder of the file."""
        self.ask("open", of=of, how=READ)
        self.ask("sync", of=of)
        self.ask("close", of=of)

    def make_file(self, left: int = 0) -> None:
        """Makes a file of zeros beside its name, and names it when it is whole. If a killed process left a file there, that is removed
        first.
        """
        beside = "file beside"
        self.image = bytearray(len(self.image))
        self.ask("open", of="folder", how=READ)
        if left:
            self.ask("open", of=beside, how=MADE, fault=REFUSED)
            self.ask("open", of=beside, how=CHANGE)
            self.ask("lock", of=beside, how="alone")
            self.ask("read", 0, left, of=beside)
            self.ask("unlink", of=beside)
            self.ask("close", of=beside)
        self.ask("open", of=beside, how=MADE)
        self.ask("lock", of=beside, how="alone")
        self.ask("cut", len(self.image), of=beside)
        self._calls.append(Call("write", beside, numbers=(0,), data=bytes(self.image)))
        self.ask("sync", of=beside)
        self._settle(beside)
        self.ask("link", of=f"{beside} as file")
        self.ask("unlink", of=beside)
        self.ask("sync", of="folder")
        self.ask("close", of="folder")

    # The calls of the device.

    def format(self) -> bool:
        """Whether the file was formatted. If it already has a format, it isn't."""
        self.ask("sync")
        if self._reads_open(0):
            self.read(HEAD_AT, len(MAGIC))
            if self.image[HEAD_AT : HEAD_AT + len(MAGIC)] == MAGIC:
                return False
        for gate in (0, *SLOTS):
            self.read(gate, 1)
            self._close_if_open(gate)
        for index in range(self.journal):
            self.read(self.frame(index), FRAME[self.layout])
            self._close_if_open(self.frame(index))
        self.ask("sync")
        self.write(HEAD_AT, head(self.layout, self.journal, self.waivers))
        self._write_state(SLOTS[0], 0)
        for gate in (SLOTS[0], 0):
            self.ask("sync")
            self.write(gate, OPEN)
        self.ask("sync")
        return True

    def _write_state(self, slot: int, batches: int) -> None:
        for chunk in range(CHUNKS):
            self.write(slot + PAGE * (1 + chunk), self.states[batches][PAGE * chunk : PAGE * (chunk + 1)])
            if chunk == 0 and self.is_watched:
                self.compare()

    def compare(self) -> None:
        """Reads the whole file, piece by piece, to compare it with the writes."""
        for at in range(0, len(self.image), PIECE):
            self.read(at, min(PIECE, len(self.image) - at))

    def looks(self) -> None:
        """A file that is refused because of its bytes or length is looked at once more to say what it is like."""
        self.ask("open", how=READ)
        self.read(0, HEAD_AT + HEAD_SIZE)
        self.ask("close")

    def open(self) -> None:
        """A sync, then only reads. They tell the place of the next batch and the frames that are clean."""
        self.ask("sync")
        self.read(0, 1)
        self.read(HEAD_AT, HEAD_SIZE)
        covers = [self._read_slot(slot) for slot in SLOTS]
        self.newest = covers.index(max(covers))
        self.covered = self.next = covers[self.newest]
        self._is_other_open = min(covers) >= 0
        for index in range(self.covered, self.covered + self.journal):
            self.read(self.frame(index), FRAME[self.layout])
        while self.next < self.covered + self.journal and self._index_in(self.next) == self.next:
            self.next += 1
        clean = 0
        while self.next + clean < self.covered + self.journal and not self.is_open(self.frame(self.next + clean)):
            clean += 1
        # The frames of the batches from this one to the last covered one aren't clean.
        self._first_unclean = self.next + clean - self.journal
        self._look_for_doubts()

    def _look_for_doubts(self) -> None:
        """Looks at the other slot once more, and at each frame for a batch of one round later."""
        self._read_slot(SLOTS[1 - self.newest])
        for index in range(self.covered + self.journal, self.covered + 2 * self.journal):
            self.read(self.frame(index), FRAME[self.layout])

    def _read_slot(self, slot: int) -> int:
        """How many batches the slot covers, or -1 if it is closed."""
        if not self._reads_open(slot):
            return -1
        self.read(slot + PAGE, CHUNKS * PAGE)
        return int.from_bytes(self.image[slot + PAGE + 16 : slot + PAGE + 24], "big")

    def _index_in(self, index: int) -> int:
        """The index of the batch in an open frame. If the frame is closed, -1."""
        at = self.frame(index)
        return int.from_bytes(self.image[at + 16 : at + 24], "big") if self.is_open(at) else -1

    def commit(self, lines: Iterable[str]) -> None:
        """Commits a batch of these commands, all of which are newly accepted."""
        first, records = self.auction.count + 1, []
        for line in lines:
            self.auction.take(line)
            records.append(record(line))
        self.write(self.frame(self.next) + 16, body_of(self.layout, self.next, first, records))
        self.ask("sync")
        self.write(self.frame(self.next), OPEN)
        self.ask("sync")
        self.next += 1
        self._since_due += 1
        self.states[self.next] = self.auction.state(self.next)

    def checkpoint(self, batches: int | None = None) -> None:
        """Makes a checkpoint that covers this many batches, or all. If all were covered already, it finishes the last checkpoint."""
        batches = self.next if batches is None else batches
        if batches > self.covered:
            self._write_slot(batches)
        for index in range(self._first_unclean, self.covered):
            self._close_if_open(self.frame(index))
        if self._first_unclean < self.covered:
            self.ask("sync")
        self._first_unclean = self.covered

    def _write_slot(self, batches: int) -> None:
        other = 1 - self.newest
        if self._is_other_open:
            self.write(SLOTS[other], CLOSED)
        self.ask("sync")
        self._write_state(SLOTS[other], batches)
        self.ask("sync")
        self.write(SLOTS[other], OPEN)
        self.ask("sync")
        self.newest, self.covered, self._is_other_open = other, batches, True

    # A run.

    def run(self, lines: Sequence[str], answers: Sequence[bytes], batch: int, every: int, is_linked: bool = False) -> None:
        """The calls of a run. Its lines are there from the start, and answers leave before any more work begins."""
        self.take_file()
        self.sync_folder()
        if is_linked:
            self.sync_folder("folder of the link")
        self.open()
        self._waiting, self._every, self._since_due = b"", every, 0
        queue: list[tuple[str, bytes]] = []
        for line, answer in zip(lines, answers):
            if line.startswith(QUESTIONS):
                self._answer(queue)
                self._waiting += answer
                continue
            queue.append((line, answer))
            if len(queue) == batch:
                self._answer(queue)
        self._answer(queue)
        self._leave()
        self._make_due()
        self.compare()
        self.ask("close")

    def _leave(self) -> None:
        if self._waiting:
            self.put(self._waiting)
        self._waiting = b""

    def _make_due(self) -> None:
        """Makes the checkpoint that is due after each `every` batches. It is made when all answers have left, even if a full journal has
        just caused one.
        """
        if self._every and self._since_due >= self._every:
            self.checkpoint()
            self._since_due = 0

    def _answer(self, queue: list[tuple[str, bytes]]) -> None:
        """Answers a batch. Its new commands are made durable before any of it is answered."""
        if not queue:
            return
        self._leave()
        self._make_due()
        new = [line for line, answer in queue if answer.startswith(b"OK ")]
        if new:
            if self._first_unclean + self.journal == self.next:
                self.checkpoint()
            self.commit(new)
        self._waiting += b"".join(answer for _, answer in queue)
        queue.clear()
