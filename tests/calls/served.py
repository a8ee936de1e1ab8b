"""The calls of a file that is served: each thread makes its own in their order."""

from __future__ import annotations

import random
from collections.abc import Sequence

from calls.images import Traced
from calls.stories import Crashes
from calls.watched import Watched, holds_calls
from harness.auctions import PAGE
from harness.file_calls import Call
from harness.notices import closes
from harness.serving import Server
from outside.encoder import SLOTS

# The seed of the images of a served file, and how many there are of each serving.
SEED, IMAGES = 1, 50
# A batch takes so many calls.
CALLS_A_BATCH = 4

Made = tuple[int, Call]


class Served:
    """Serves a file once, to so many sessions that send these lines in turn. All are accepted."""

    def __init__(self, watched: Watched, lines: Sequence[str], sessions: int) -> None:
        self.watched, self.engine, self.lines, self.sessions = watched, watched.engine, lines, sessions
        self.first = self.engine.auction.count
        # The calls of the committer that are due, of so many lines.
        self._commits: list[Call] = []
        self._committed = 0

    def holds(self) -> None:
        """AssertionError unless all calls are those that are due, break no promise, and leave what a crash may leave."""
        kept = self.watched.kept()
        port = self._serve()
        made = self.watched.recorder.by_threads(self.watched.file)
        self._holds_threads(made, port)
        found = [call for _, call in made]
        self.watched.keeps(found, kept)
        if self.lines:
            self._holds_images(Traced(found, *kept))

    def _serve(self) -> int:
        """Lets the sessions send the lines, and gives the port."""
        with Server(self.watched.program, self.watched.file, self.sessions, conditions=self.watched.recorder.conditions()) as server:
            clients = [server.connect() for _ in range(self.sessions)]
            for place, line in enumerate(self.lines):
                assert clients[place % self.sessions].ask(line) == f"OK {self.first + place + 1}"
            assert [client.finish() for client in clients] == [[]] * self.sessions
            closes(server, self.first + len(self.lines))
            return server.port

    def _holds_images(self, traced: Traced) -> None:
        crashes = Crashes(self.watched.program, self.watched.recorder, self.watched.layout, SEED, waivers=self.watched.waivers)
        crashes.holds(traced, IMAGES, random.Random(f"{SEED} {self.watched.layout.value} {self.sessions} {self.first}"), "served")
        assert crashes.faults == []
        assert crashes.images == IMAGES

    def _holds_threads(self, calls: Sequence[Made], port: int) -> None:
        """First the calls before anybody is served, then those of the end, then those of each worker."""
        self.watched.takes()
        # The name of the file is read from this descriptor.
        self.engine.ask("open", how="to read")
        self.engine.open()
        self.engine.put(f"LISTENING {port}\n".encode())
        opening = self.engine.taken()
        holds_calls([call for _, call in calls[: len(opening)]], opening)
        rest, main_thread = calls[len(opening) :], calls[0][0]
        self.engine.compare()
        self.watched.ends(f"CLOSED {self.first + len(self.lines)}\n")
        self.engine.ask("close")
        holds_calls([call for thread, call in rest if thread == main_thread], self.engine.taken())
        self._holds_workers([(thread, call) for thread, call in rest if thread != main_thread])
        self.watched.holds_bytes()

    def _holds_workers(self, calls: Sequence[Made]) -> None:
        """One thread commits, one batch for each command. Another makes checkpoints, each of the batches that were committed when it
        began.
        """
        by_thread: dict[int, list[tuple[int, Call]]] = {}
        for place, (thread, call) in enumerate(calls):
            if call.of == "file":
                by_thread.setdefault(thread, []).append((place, call))
        committing = [thread for thread, made in by_thread.items() if any(self._writes_body(call) for _, call in made)]
        assert len(committing) == (1 if self.lines else 0)
        found = by_thread.pop(committing[0]) if committing else []
        assert len(by_thread) <= 1, "more than one thread makes checkpoints"
        checkpoints: list[tuple[int, Call]] = next(iter(by_thread.values()), [])
        # For each call of a checkpoint, how many batches were committed before it.
        counts = [sum(before < place for before, _ in found) // CALLS_A_BATCH for place, _ in checkpoints]
        self.engine.is_watched = True
        self._holds_checkpoints([call for _, call in checkpoints], counts)
        self._commit(len(self.lines))
        holds_calls([call for _, call in found], self._commits)
        self.engine.is_watched = False

    def _writes_body(self, call: Call) -> bool:
        return call.name == "write" and any(self.engine.frame(index) + 16 == call.at for index in range(self.watched.journal))

    def _commit(self, count: int) -> None:
        """Commits further lines, up to so many."""
        while self._committed < min(count, len(self.lines)):
            self.engine.commit([self.lines[self._committed]])
            self._committed += 1
        self._commits += self.engine.taken()

    def _holds_checkpoints(self, found: Sequence[Call], counts: Sequence[int]) -> None:
        """Checkpoint after checkpoint. The last one may be cut short, as the server ends."""
        place, base = 0, self.engine.next
        while place < len(found):
            self._commit(counts[place])
            covers = self._covered_by(found[place : place + 3])
            assert self.engine.covered <= covers <= base + counts[place], "a checkpoint doesn't cover what was committed"
            before = bytes(self.engine.image)
            self.engine.checkpoint(min(covers, self.engine.next))
            wanted = self.engine.taken()
            part = found[place : place + max(1, len(wanted))]
            holds_calls(part, wanted[: len(part)])
            if len(part) < len(wanted):
                self.engine.image[:] = before
                for call in part:
                    self.engine.repeat(call)
            place += len(part)

    def _covered_by(self, calls: Sequence[Call]) -> int:
        """How many batches the checkpoint that begins with these calls covers. If it begins with a frame, as many as before."""
        if calls[0].name == "write" and calls[0].at not in SLOTS:
            return self.engine.covered
        states = [call.data for call in calls if call.name == "write" and call.at - PAGE in SLOTS]
        return int.from_bytes(states[0][16:24], "big") if states else self.engine.next
