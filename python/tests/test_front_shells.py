"""The shells round a front's core, each tried call by call, with calls that fail."""
from __future__ import annotations

import asyncio
import itertools
import threading
from collections.abc import Callable
from dataclasses import dataclass, field

import pytest

from front_world import LIMITS, ROLES, TREE, tokens_of
from hpb.front import recorder as front_recorder
from hpb.front.clients import Connection
from hpb.front.core import Setting, effects, events, new_front
from hpb.front.core.events import Event
from hpb.front.machine import Machine
from hpb.front.recorder import Recorder, opened
from hpb.front.server import Session
from hpb.record import New, Place, State
from hpb.record.asked import Asked
from hpb.record.kept import NotKept

SECONDS = 10


# Connections.


@dataclass
class Carrier:
    """A transport in memory."""

    written: bytes = b""
    is_reading: bool = True
    is_closed: bool = False

    def write(self, data: bytes) -> None:
        self.written += data

    def is_closing(self) -> bool:
        return self.is_closed

    def pause_reading(self) -> None:
        self.is_reading = False

    def resume_reading(self) -> None:
        self.is_reading = True

    def close(self) -> None:
        self.is_closed = True

    def abort(self) -> None:
        self.is_closed = True


@pytest.fixture
def connection() -> Connection:
    """An open connection, whose events go to `posted`."""
    posted: list[Event] = []
    made = Connection(1, posted.append, lambda number: None, is_tls=False)
    made.connection_made(Carrier())
    made.posted = posted  # type: ignore[attr-defined]
    return made


def posted(connection: Connection) -> list[Event]:
    """The events that were posted since the last call."""
    found: list[Event] = list(connection.posted)  # type: ignore[attr-defined]
    connection.posted.clear()  # type: ignore[attr-defined]
    return found


def carrier_of(connection: Connection) -> Carrier:
    assert isinstance(connection.transport, Carrier)
    return connection.transport


def test_a_connection_hands_in_one_line_each_time_it_may(connection: Connection) -> None:
    connection.data_received(b"SHOW\nNODE a\nWHO")
    assert posted(connection) == [events.Opened(1)]
    assert not carrier_of(connection).is_reading
    connection.take(128)
    assert posted(connection) == [events.Line(1, b"SHOW")]
    connection.take(128)
    assert posted(connection) == [events.Line(1, b"NODE a")]
    connection.take(128)
    assert posted(connection) == [] and carrier_of(connection).is_reading
    connection.data_received(b" x\n")
    assert posted(connection) == [events.Line(1, b"WHO x")]


def test_a_connection_reads_no_more_while_a_line_of_it_has_to_wait(connection: Connection) -> None:
    connection.take(128)
    connection.data_received(b"SHOW\n")
    assert carrier_of(connection).is_reading
    connection.data_received(b"N")
    assert not carrier_of(connection).is_reading
    connection.take(128)
    assert carrier_of(connection).is_reading
    connection.data_received(b"ODE a\nWHO x\n")
    assert not carrier_of(connection).is_reading
    connection.take(128)
    assert carrier_of(connection).is_reading
    assert posted(connection)[1:] == [events.Line(1, b"SHOW"), events.Line(1, b"NODE a"), events.Line(1, b"WHO x")]


def test_a_line_that_is_too_long_is_cut_and_what_stands_behind_it_is_gone(connection: Connection) -> None:
    posted(connection)
    connection.take(4)
    connection.data_received(b"SHOW\n")
    connection.take(4)
    connection.data_received(b"SHOWS\nSHOW\n")
    assert posted(connection) == [events.Line(1, b"SHOW"), events.TooLong(1, b"SHOW")]
    assert not connection.rest


@pytest.mark.parametrize(("data", "told"), [(b"", []), (b"BID x", []), (b"SHOW\nBID x", [events.Line(1, b"SHOW")])])
def test_half_a_line_comes_with_the_end(connection: Connection, data: bytes, told: list[Event]) -> None:
    posted(connection)
    connection.data_received(data)
    assert connection.eof_received()
    for _ in range(len(told) + 1):
        connection.take(128)
    assert posted(connection) == [*told, events.LinesEnded(1, data.split(b"\n")[-1])]


def test_who_reads_no_answers_sends_no_more(connection: Connection) -> None:
    posted(connection)
    connection.take(128)
    connection.pause_writing()
    connection.data_received(b"SHOW\n")
    assert posted(connection) == [events.Stuffed(1, True)] and not carrier_of(connection).is_reading
    connection.resume_writing()
    assert posted(connection) == [events.Stuffed(1, False), events.Line(1, b"SHOW")]


@pytest.mark.parametrize(("fault", "why"), [(None, "ended"), (OSError("reset"), "lost")])
def test_one_that_is_gone_says_how_and_nothing_is_written_to_it(connection: Connection, fault: Exception | None, why: str) -> None:
    posted(connection)
    carrier_of(connection).close()
    connection.write(b"OK 1")
    connection.connection_lost(fault)
    assert posted(connection) == [events.Gone(1, why)] and carrier_of(connection).written == b""


# The record.


@dataclass
class SlowRecord:
    """A record in memory. Its writes wait until the test allows them, and fail if there is a `fault`."""

    place: Place = Place()
    state: State = field(default_factory=State)
    kinds: list[str] = field(default_factory=list)
    times: list[str] = field(default_factory=list)
    beside: dict[int, Asked | None] = field(default_factory=dict)
    may_write: threading.Event = field(default_factory=threading.Event)
    fault: Exception | None = None

    @property
    def asked(self) -> SlowRecord:
        return self

    def write(self, entries: list[New]) -> None:
        self.wait()
        self.kinds += [entry.kind for entry in entries]
        self.times += [entry.at for entry in entries]
        self.place = Place(self.place.number + len(entries))

    def look(self) -> None:
        self.wait()

    def put(self, places: dict[int, Asked | None]) -> None:
        self.wait()
        self.beside |= places

    def left(self) -> list[Asked]:
        return [asked for asked in self.beside.values() if asked]

    def clear(self) -> None:
        self.wait()
        self.beside.clear()

    def wait(self) -> None:
        assert self.may_write.wait(SECONDS)
        if self.fault:
            raise self.fault


async def until(is_so: Callable[[], bool]) -> None:
    async with asyncio.timeout(SECONDS):
        while not is_so():
            await asyncio.sleep(0.001)


def test_an_entry_is_told_once_it_is_on_the_disk_and_those_that_come_meanwhile_go_together() -> None:
    async def talk() -> None:
        record, told = SlowRecord(), list[Event]()
        recorder = Recorder(record, told.append)
        for kind in ("a", "b", "c"):
            recorder.write(effects.Write(kind, {}))
            recorder.flush()
            await asyncio.sleep(0.02)
        assert told == []
        record.may_write.set()
        await until(lambda: len(told) == 2)
        assert told == [events.Synced(1, Place(1)), events.Synced(2, Place(3))] and record.kinds == ["a", "b", "c"]

    asyncio.run(talk())


def test_entries_of_one_step_are_written_together_and_bear_one_time() -> None:
    async def talk() -> None:
        record, told = SlowRecord(), list[Event]()
        record.may_write.set()
        recorder = Recorder(record, told.append)
        for kinds in ("ab", "c"):
            before = len(told)
            for kind in kinds:
                recorder.write(effects.Write(kind, {}))
                await asyncio.sleep(0.02)
            assert len(told) == before
            recorder.flush()
            await until(lambda: len(told) > before)
        assert told == [events.Synced(2, Place(2)), events.Synced(1, Place(3))]
        first, second, third = record.times
        assert first == second < third

    asyncio.run(talk())


def test_no_more_entries_go_together_than_may() -> None:
    async def talk() -> None:
        record, told = SlowRecord(), list[Event]()
        record.may_write.set()
        recorder = Recorder(record, told.append)
        for number in range(2 * front_recorder.MOST_AT_ONCE + 1):
            recorder.write(effects.Write(str(number), {}))
        recorder.flush()
        await until(lambda: len(told) == 3)
        assert [event.entries for event in told if isinstance(event, events.Synced)] == [128, 128, 1]
        assert record.kinds == [str(number) for number in range(257)]

    asyncio.run(talk())


def test_commands_beside_the_record_are_told_and_freed_places_are_not() -> None:
    async def talk() -> None:
        record, told = SlowRecord(), list[Event]()
        record.may_write.set()
        recorder = Recorder(record, told.append)
        recorder.put(effects.PutBeside(0, "ann", b"BID x 1 a 100"))
        recorder.flush()
        await until(lambda: told == [events.StandsBeside((0,))])
        assert opened(record).left == (events.Left("ann", b"BID x 1 a 100"),)
        recorder.put(effects.FreeBeside(0))
        recorder.put(effects.PutBeside(1, "bob", b"BID y 1 b 150"))
        recorder.flush()
        await until(lambda: told[1:] == [events.StandsBeside((1,))])
        recorder.put(effects.EmptyBeside())
        recorder.flush()
        await until(lambda: told[2:] == [events.BesideEmptied()])
        assert record.left() == []

    asyncio.run(talk())


@pytest.mark.parametrize("fault", [OSError(28, "No space left on device"), MemoryError(), ValueError("1,025 bytes")])
def test_a_record_that_fails_is_told_once_and_nothing_more_is_written(fault: Exception) -> None:
    async def talk() -> None:
        record, told = SlowRecord(fault=fault), list[Event]()
        record.may_write.set()
        recorder = Recorder(record, told.append)
        write(recorder, "a")
        await until(lambda: len(told) == 1)
        write(recorder, "b")
        await asyncio.sleep(0.05)
        recorder.entries.hand_in()
        assert isinstance(told[0], events.Failed) and told[0].why.startswith("the record can't be written: ")
        assert len(told) == 1 and record.kinds == []

    asyncio.run(talk())


def test_a_record_that_fails_ends_the_front_though_memory_for_the_word_of_it_is_refused() -> None:
    """The loop takes the fault. Else the front would go on, and answer nobody."""
    async def talk() -> None:
        record, taken = SlowRecord(fault=OSError(5, "Input/output error")), list[object]()
        record.may_write.set()

        def refuse(_: Event) -> None:
            raise MemoryError

        asyncio.get_running_loop().set_exception_handler(lambda _, context: taken.append(context.get("exception")))
        recorder = Recorder(record, refuse)
        write(recorder, "a")
        await until(lambda: len(taken) == 1)
        assert isinstance(taken[0], MemoryError)

    asyncio.run(talk())


@pytest.mark.parametrize("fault", [NotKept("R was removed"), OSError(5, "Input/output error")])
def test_a_record_that_isnt_kept_is_missed_though_nothing_is_written(fault: Exception, monkeypatch: pytest.MonkeyPatch) -> None:
    monkeypatch.setattr(front_recorder, "KEPT_SECONDS", 0.01)

    async def talk() -> None:
        record, told = SlowRecord(), list[Event]()
        record.may_write.set()
        looking = asyncio.create_task(Recorder(record, told.append).keep_looking())
        await asyncio.sleep(0.1)
        assert not told
        record.fault = MemoryError()
        await asyncio.sleep(0.1)
        assert not told
        record.fault = fault
        await until(lambda: len(told) == 1)
        assert told == [events.Failed(str(fault))]
        looking.cancel()

    asyncio.run(talk())


def write(recorder: Recorder, kind: str) -> None:
    recorder.write(effects.Write(kind, {}))
    recorder.flush()


def written_by(loses: Callable[[pytest.MonkeyPatch, asyncio.AbstractEventLoop], None]) -> list[Event]:
    """The events for one entry, if memory is refused to the thread that has written it."""
    told: list[Event] = []

    async def writes() -> None:
        with pytest.MonkeyPatch.context() as patch:
            patch.setattr(front_recorder, "KEPT_SECONDS", 0.1)
            record = SlowRecord()
            record.may_write.set()
            loses(patch, asyncio.get_running_loop())
            recorder = Recorder(record, told.append)
            looking = asyncio.create_task(recorder.keep_looking())
            write(recorder, "a")
            await until(lambda: bool(told))
            looking.cancel()

    asyncio.run(writes())
    return told


def refuse(*_: object, **__: object) -> None:
    """A request for memory that is refused."""
    raise MemoryError


@pytest.mark.filterwarnings("ignore::pytest.PytestUnraisableExceptionWarning")
def test_a_thread_that_is_lost_with_its_result_ends_the_front() -> None:
    told = written_by(lambda patch, loop: patch.setattr("hpb.front.recorder.Writer.tell", refuse))
    assert told == [events.Failed("the record can't be written: its thread has ended")]


def test_a_result_that_is_not_handed_over_is_found() -> None:
    told = written_by(lambda patch, loop: patch.setattr(loop, "call_soon_threadsafe", refuse))
    assert told == [events.Synced(1, Place(1))]


# The server, and the whole front.


def test_a_session_hands_in_whole_lines_and_says_that_it_is_lost() -> None:
    heard: list[bytes] = []
    lost = asyncio.Event()
    session = Session(heard.append, lost)
    for part in (b"OK", b" 1\nOK 2\nERR", b" 22 low\n"):
        session.data_received(part)
    assert heard == [b"OK 1", b"OK 2", b"ERR 22 low"] and not lost.is_set()
    session.connection_lost(None)
    assert lost.is_set()


def new_machine() -> Machine:
    machine = Machine(new_front(Setting(TREE, ROLES, len(ROLES)), LIMITS, tokens_of(dict.fromkeys(ROLES, 1)), 0.0), lambda: 1.0)
    machine.shells = {kind: lambda effect: None for kind in (effects.StartServer, effects.MustEnd, effects.Finish, effects.Say)}
    return machine


def test_an_event_that_a_shell_posts_is_taken_behind_all_effects() -> None:
    machine, done = new_machine(), list[str]()

    def start(effect: effects.StartServer) -> None:
        machine.post(events.ServerFailed("it is gone", is_final=True))
        done.append("start")

    machine.shells[effects.StartServer] = start
    machine.shells[effects.Finish] = lambda effect: done.append(effect.why)
    machine.post(events.RecordOpened(0, {}, 0, (), Place()))
    assert done == ["start", "it is gone"]


def test_a_shell_that_fails_is_heard_of_and_nothing_comes_of_any_event_afterwards() -> None:
    """Else an entry that was never written might be taken for one that is synced."""
    machine, done = new_machine(), list[str]()

    def fail(effect: effects.StartServer) -> None:
        raise RuntimeError("can't start new thread")

    machine.shells[effects.StartServer] = fail
    machine.shells[effects.Finish] = lambda effect: done.append(effect.why)
    with pytest.raises(RuntimeError):
        machine.post(events.RecordOpened(0, {}, 0, (), Place()))
    machine.post(events.Failed("another"))
    assert done == []


def test_events_of_one_turn_of_the_loop_are_taken_together_in_their_order_and_one_that_is_posted_comes_last() -> None:
    async def talk() -> None:
        machine, clock = new_machine(), itertools.count(1)
        machine.clock = lambda: float(next(clock))
        flushed: list[float] = []
        machine.flushes.append(lambda: flushed.append(machine.front.clock))
        machine.gather(events.Stuffed(1, True))
        machine.gather(events.Tick())
        assert flushed == []
        await asyncio.sleep(0)
        assert flushed == [1.0] and machine.events == []
        machine.gather(events.ServerFailed("first", is_final=True))
        machine.shells[effects.Finish] = lambda effect: ends.append(effect.why)
        ends: list[str] = []
        machine.post(events.ServerFailed("last", is_final=True))
        assert ends == ["first"] and flushed == [1.0, 2.0]
        await asyncio.sleep(0)
        assert ends == ["first"]

    asyncio.run(talk())


def test_a_shell_that_fails_at_a_gathered_event_is_heard_of_by_the_loop() -> None:
    async def talk() -> None:
        machine, taken = new_machine(), list[object]()
        asyncio.get_running_loop().set_exception_handler(lambda _, context: taken.append(context.get("exception")))
        machine.flushes.append(refuse)
        machine.gather(events.Tick())
        await until(lambda: len(taken) == 1)
        assert isinstance(taken[0], MemoryError) and machine.has_ended

    asyncio.run(talk())
