"""A running front: its core, and the shells round it (docs/FRONT.md)."""
import asyncio
import resource
import socket
from collections.abc import Callable, Coroutine
from functools import partial
from typing import Any

from hpb.front import clock
from hpb.front.board import Board
from hpb.front.clients import MOST_CONNECTIONS, Clients
from hpb.front.config import Config
from hpb.front.control import Control
from hpb.front.core import Setting, effects, events, new_front
from hpb.front.faults import Stops
from hpb.front.health import MOST_CONNECTIONS as MOST_WATCHERS
from hpb.front.machine import Machine
from hpb.front.manager import READY, RELOADING, STOPPING
from hpb.front.recorder import Recorder, open_record, opened
from hpb.front.seals import Finder, Seals
from hpb.front.server import Server
from hpb.front.shell import Shell, end_at_once, fault_says
from hpb.front.stamping import Stamping
from hpb.front.terms import Reload, Terms
from hpb.front.watched import Watched
from hpb.record import RecordFile
from hpb.rules.tree import Tree
from hpb.rules.writing import fields_of
from hpb.threads import in_thread

# Seconds between two looks at everything that waits for time. If the system didn't wake the loop once, it is awake again by then.
TICK_SECONDS = 0.5
# Descriptors needed besides those of connections and sessions.
MORE_DESCRIPTORS = 48

Work = Coroutine[Any, Any, None]


class Running:
    """A front that lasts as long as `run` does. A Stops says why it couldn't go on."""

    def __init__(self, config: Config, terms: Terms, tree: Tree, sockets: list[socket.socket], shell: Shell) -> None:
        loop = asyncio.get_running_loop()
        self.config, self.tree, self.shell = config, tree, shell
        self.finished: asyncio.Future[str] = loop.create_future()
        self.tasks: set[asyncio.Task[None]] = set()
        host, port = sockets[0].getsockname()[:2]
        setting = Setting(
            tree, config.roles, config.sessions(), has_board=config.board is not None, starts_server=config.port is None,
            may_be_foreign=shell.given.foreign, record=config.record_name(), address=f"{host} {port}", plan=config.plan,
            closing=config.closing, information=config.information, has_seals=config.seals is not None,
        )
        self.signer = config.seals.signer() if config.seals else None
        self.machine = Machine(new_front(setting, terms.limits, terms.tokens, loop.time()), loop.time)
        post, gather = self.machine.post, self.machine.gather
        self.reloading = Reload(config, terms, self.take_terms, shell.teller.say, shell.log)
        self.server = Server(config, gather, self.begin)
        self.clients = Clients(sockets[0], terms, gather, shell, self.fail_from_thread)
        self.board = Board(self.reloading, sockets[1], post, self.begin, shell) if config.board else None
        self.watched = Watched(sockets[-1], self.machine, self.reloading, shell.log, config.record) if config.metrics else None
        self.admitting: asyncio.Task[None] | None = None
        self.connect_shells()

    def connect_shells(self) -> None:
        """For each kind of effect, the call that carries it out. The record's calls are added once it is open."""
        clients, server, shell = self.clients, self.server, self.shell
        self.machine.shells |= {
            effects.Admit: self.admit, effects.Shut: self.shut,
            effects.Take: clients.take, effects.Wait: clients.wait, effects.Answer: clients.answer, effects.End: clients.end,
            effects.Abort: clients.abort, effects.StartServer: server.start, effects.DropServer: server.drop,
            effects.EndServer: server.end, effects.Tell: server.tell, effects.Wake: self.wake,
            effects.Publish: lambda effect: shell.teller.tell(effect.text), effects.Say: lambda effect: shell.teller.say(effect.text),
            effects.Note: lambda effect: shell.log.write(effect.kind, **effect.fields),
            effects.MustEnd: self.must_end, effects.Finish: lambda effect: self.finish(effect.why),
        }
        if self.board:
            self.machine.shells |= {effects.StartBoard: self.board.begin_up, effects.AnswerBoard: self.board.take_answer}

    async def run(self) -> None:
        loop = asyncio.get_running_loop()
        loop.set_exception_handler(self.take_fault)
        self.begin(self.keep_ticking())
        for work in self.watched.works() if self.watched else []:
            self.begin(work)
        self.shell.teller.lost = self.lose_line
        self.shell.watch.attach(loop, lambda: self.machine.post(events.Stop()), lambda: self.reload())
        self.allow_descriptors()
        self.begin(self.open_record())
        try:
            why = await self.finished
        finally:
            await self.leave()
        if why:
            raise Stops(why)

    async def open_record(self) -> None:
        """A thread waits for it, because its disk may hang."""
        given, definition = self.shell.given, fields_of(self.tree.definition)
        record, torn = await in_thread(lambda: open_record(self.config.record, definition, given.set_aside))
        if torn:
            self.shell.teller.say(f"the record's end was torn: {torn['bytes']} bytes are set aside as {torn['aside']}")
        seals = await self.open_seals(record)
        recorder = Recorder(record, self.machine.post, seals)
        self.machine.shells |= {
            effects.Write: recorder.write,
            effects.PutBeside: recorder.put, effects.FreeBeside: recorder.put, effects.EmptyBeside: recorder.put,
        }
        self.machine.flushes.append(recorder.flush)
        self.begin(recorder.keep_looking())
        if self.config.control:
            self.begin(Control(self.config.control, self.machine, self.shell.log).serve())
        self.machine.post(await in_thread(lambda: seals.told(opened(record)) if seals else opened(record)))

    async def open_seals(self, record: RecordFile) -> Seals | None:
        """The seals of the record, if there are any. All of it is read for that."""
        if self.signer is None:
            return None
        seals = await in_thread(partial(Seals, record, self.signer))
        for warning in seals.warnings:
            self.shell.teller.say(warning)
        self.machine.shells |= {effects.LookUp: Finder(seals, self.machine.post, self.begin).look_up}
        if self.shell.stamper:
            self.begin(Stamping(self.shell.stamper, seals, self.machine.post, self.shell.log.write).keep_stamping())
        return seals

    async def leave(self) -> None:
        """Ends everything: no task goes on, and the server and the page are gone, if the system lets them end."""
        self.machine.end()
        for task in self.tasks:
            task.cancel()
        if self.board:
            await self.board.stop()
        await self.server.stop()

    # Work beside the rest, and what goes wrong.

    def begin(self, work: Work) -> asyncio.Task[None]:
        """Begins work beside the rest. If it fails, the front ends."""
        task = asyncio.create_task(work)
        self.tasks.add(task)
        task.add_done_callback(self.look_at_end)
        return task

    def look_at_end(self, task: asyncio.Task[None]) -> None:
        self.tasks.discard(task)
        if not task.cancelled() and (fault := task.exception()):
            self.fail(fault_says(fault))

    def finish(self, why: str) -> None:
        self.machine.end()
        if not self.finished.done():
            self.finished.set_result(why)

    def fail(self, why: str) -> None:
        """Ends the front for this reason, within some seconds in any case."""
        self.shell.watch.arm()
        self.finish(why)

    def fail_from_thread(self, why: str) -> None:
        self.call_from_thread(self.fail, why)

    def lose_line(self, line: str) -> None:
        self.call_from_thread(self.machine.post, events.Unpublished(line))

    def call_from_thread(self, call: Callable[[Any], None], argument: object) -> None:
        try:
            self.finished.get_loop().call_soon_threadsafe(call, argument)
        except Exception:  # Nothing is sure to work any more; the front mustn't stay as it is.
            end_at_once()

    def take_fault(self, _: asyncio.AbstractEventLoop, context: dict[str, Any]) -> None:
        """Takes faults of the event loop itself, which asyncio would only log."""
        try:
            if fault := context.get("exception"):
                self.fail(fault_says(fault))
            else:
                self.shell.teller.say(context["message"])
        except Exception:  # As above.
            end_at_once()

    # Time.

    async def keep_ticking(self) -> None:
        while True:
            await asyncio.sleep(TICK_SECONDS)
            self.tick()

    def wake(self, effect: effects.Wake) -> None:
        self.finished.get_loop().call_later(effect.seconds, self.tick)

    def tick(self) -> None:
        """Time has passed: the front gets a reading of the clocks, too."""
        self.clients.handshakes.thread.look("handshakes")
        self.shell.manager.tell_alive()
        self.machine.post(clock.read())
        self.machine.post(events.Tick())

    # Taking connections, and the terms in force.

    def admit(self, _: effects.Admit) -> None:
        self.clients.start()
        self.admitting = self.begin(self.clients.admit())
        self.begin(self.reloading.keep_looking_at_certificate())
        self.shell.manager.tell(READY)

    def shut(self, _: effects.Shut) -> None:
        if self.admitting:
            self.admitting.cancel()
        self.clients.listener.close()

    def must_end(self, _: effects.MustEnd) -> None:
        self.shell.watch.arm()
        self.shell.manager.tell(STOPPING)

    def reload(self) -> None:
        self.begin(self.reload_and_tell())

    async def reload_and_tell(self) -> None:
        """Until the front is ready for the first time, a service manager isn't told of a reload."""
        if self.admitting:
            self.shell.manager.tell(RELOADING)
        await self.reloading.change()
        if self.admitting:
            self.shell.manager.tell(READY)

    def take_terms(self, terms: Terms) -> None:
        """Puts terms in force that were read again."""
        self.allow_descriptors()
        self.clients.change(terms)
        self.machine.post(events.Reloaded(terms.limits, terms.tokens))
        if self.board:
            self.board.change()

    def allow_descriptors(self) -> None:
        """Raises the limit of descriptors to what the front's own limits need, if the system lets it."""
        limits, names = self.reloading.terms.limits, len(self.config.roles)
        own = 2 * self.config.places() + MORE_DESCRIPTORS + (MOST_WATCHERS if self.watched else 0)
        wanted = names * limits.connections + limits.unknown_connections + own
        soft, hard = resource.getrlimit(resource.RLIMIT_NOFILE)
        most = hard if hard != resource.RLIM_INFINITY else max(soft, wanted)
        if soft < wanted:
            resource.setrlimit(resource.RLIMIT_NOFILE, (min(wanted, most), hard))
        # Clients take no descriptor that record, server, page and log may need.
        self.clients.most = max(1, most - own) if most < wanted else MOST_CONNECTIONS
        if most < wanted:
            self.shell.teller.say(f"as many connections as the limits allow need {wanted} descriptors, and there may be {most} (ulimit -n)")
