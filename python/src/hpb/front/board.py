"""The board of a front: keeps the process that serves the page, and asks the server for it by a session of its own (docs/BOARD.md)."""
import asyncio
import contextlib
import itertools
import json
import os
import socket
import sys
import time
from collections.abc import Callable

from hpb.front.core.effects import AnswerBoard, StartBoard
from hpb.front.core.events import BoardAsks, BoardUp, Event
from hpb.front.faults import Stops
from hpb.front.given import in_memory, written
from hpb.front.process import Child, StartsNot
from hpb.front.server import Begin
from hpb.front.shell import Shell
from hpb.front.terms import Reload, Terms

PROGRAM = "hpb.front.viewers"
QUESTIONS = (b"SHOW", b"NODE", b"WHO", b"SCHEDULE", b"EVENT", b"READ", b"INFORMATION", b"SEAL")
# A process that has run for so many seconds has come up. If one ends before that, the next one waits, each time twice as long.
STEADY, FIRST_PAUSE, MOST_PAUSE = 10, 1, 60
PATIENCE = 30


class Board:
    """Keeps the page's process running. The page's questions aren't in the record, since no client sent them. `reloading` has the terms in
    force, and `shown` the terms that the page has."""

    def __init__(self, reloading: Reload, listener: socket.socket, post: Callable[[Event], None], begin: Begin, shell: Shell) -> None:
        self.config, self.reloading, self.listener, self.post, self.begin = reloading.config, reloading, listener, post, begin
        self.say, self.log = shell.teller.say, shell.log
        self.child: Child | None = None
        self.shown: Terms | None = None
        self.tasks: list[asyncio.Task[None]] = []
        # Questions that have no answer yet, by number.
        self.asked: dict[int, asyncio.Future[bytes]] = {}
        self.numbers = itertools.count()
        self.is_kept = self.is_changed = False

    def begin_up(self, _: StartBoard) -> None:
        self.begin(self.come_up())

    async def come_up(self) -> None:
        """Starts the first process. If it doesn't come up, neither does the front."""
        self.post(BoardUp(await self.start()))
        self.is_kept = True
        # The terms may have changed since it was started.
        self.change()
        await self.keep()

    async def start(self) -> str:
        """Starts a process. Once the page can be opened, returns its line with the address."""
        mine, its = socket.socketpair()
        try:
            self.child = self.begun(its)
        except (StartsNot, OSError) as fault:
            mine.close()
            raise Stops(f"the board doesn't come up: {fault}") from None
        except BaseException:
            mine.close()
            raise
        finally:
            its.close()
        self.tasks = [self.begin(self.answer(mine))]
        line = await self.child.line(PATIENCE)
        if not line.startswith("BOARD "):
            await self.stop()
            raise Stops("the board doesn't come up")
        self.log.write("restart", what="board", outcome="started")
        self.tasks.append(self.begin(self.hear(self.child)))
        return line

    def begun(self, its: socket.socket) -> Child:
        """Starts the page's process with the terms in force."""
        self.shown = self.reloading.terms
        given = in_memory(written(self.config, self.shown))
        try:
            words = [sys.executable, "-P", "-m", PROGRAM, self.config.path, str(self.listener.fileno()), str(given)]
            return Child(words, its.fileno(), [self.listener.fileno(), given])
        finally:
            os.close(given)

    async def hear(self, child: Child) -> None:
        """Puts requests for the page into the log."""
        while line := await child.next_line():
            try:
                entry = json.loads(line)
                self.log.write(entry.pop("kind"), **{name: value for name, value in entry.items() if name != "at"})
            except (ValueError, KeyError, TypeError, AttributeError):
                self.say("the board wrote something that is no line of a log")

    async def answer(self, connection: socket.socket) -> None:
        """Answers the page's questions, one after the other, until it closes the connection."""
        try:
            reader, writer = await asyncio.open_connection(sock=connection)
        except BaseException:
            connection.close()
            raise
        try:
            while (line := await reader.readline()).endswith(b"\n") and line[:-1].split(b" ")[0] in QUESTIONS:
                writer.write(await self.ask(line[:-1]) + b"\n")
                await writer.drain()
        except (OSError, ValueError):
            pass
        finally:
            writer.close()

    async def keep(self) -> None:
        """Starts the process again whenever it ends."""
        pause = FIRST_PAUSE
        while True:
            began = time.monotonic()
            if self.child:
                await asyncio.wait([self.child.exited])
            await self.stop()
            if self.is_changed:
                self.is_changed = False
            else:
                pause = FIRST_PAUSE if time.monotonic() - began > STEADY else min(2 * pause, MOST_PAUSE)
                self.say(f"the board is gone; it is started again in {pause} seconds")
                self.log.write("restart", what="board", outcome="gone")
                await asyncio.sleep(pause)
            # A process that doesn't come up has said why. Bidders don't need the page, so the front goes on.
            with contextlib.suppress(Stops):
                await self.start()

    async def ask(self, line: bytes) -> bytes:
        """Asks the server a question, and returns its answer."""
        number, answer = next(self.numbers), asyncio.get_running_loop().create_future()
        self.asked[number] = answer
        self.post(BoardAsks(number, line))
        answered: bytes = await answer
        return answered

    def take_answer(self, effect: AnswerBoard) -> None:
        """If the process that asked is gone, nobody waits for the answer."""
        answer = self.asked.pop(effect.number)
        if not answer.done():
            answer.set_result(effect.line)

    def change(self) -> None:
        """If tokens, limits or certificate differ from those that the page has, its process is started again, and viewers connect again."""
        if self.child and self.is_kept and self.shown is not self.reloading.terms:
            self.is_changed = True
            self.child.process.kill()

    async def stop(self) -> None:
        """Ends the process, if the system lets it end."""
        child, self.child = self.child, None
        for task in self.tasks:
            task.cancel()
        self.tasks = []
        if child:
            await child.end()
