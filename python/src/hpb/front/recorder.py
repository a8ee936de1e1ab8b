"""The record of a front on its disk: threads of their own write the entries, in the order in which they came (docs/FRONT.md)."""
import asyncio
import collections
import contextvars
import os
from collections.abc import Callable
from typing import Any, Generic, Protocol, TypeVar

from hpb.front.core.effects import EmptyBeside, FreeBeside, PutBeside, Write
from hpb.front.core.events import BesideEmptied, Event, Failed, Left, RecordOpened, SealOnDisk, StandsBeside, Synced
from hpb.front.core.ledger import WHERE_THE_AUDIT_ENDS
from hpb.front.faults import Stops
from hpb.record import Damaged, Entry, InTheWay, InUse, New, Place, RecordFile, State, WrongSegment, time_now
from hpb.record.asked import Asked
from hpb.record.kept import NotKept
from hpb.record.segments import definition_in
from hpb.rules.mock import has_mark
from hpb.threads import Thread, free, held_lock

# One write takes at most so many entries, and one sync at most so many commands beside the record.
MOST_AT_ONCE = 128
# Seconds between two looks whether the record is still as it was written; and how often meanwhile the threads' words are looked for.
KEPT_SECONDS, LOOKS = 2.0, 2

Item = TypeVar("Item")
Beside = PutBeside | FreeBeside | EmptyBeside


class Places(Protocol):
    """The places beside a record."""

    def put(self, places: dict[int, Asked | None]) -> None: ...
    def left(self) -> list[Asked]: ...
    def clear(self) -> None: ...


class Seals(Protocol):
    """The seals of a record."""

    def fresh(self) -> tuple[SealOnDisk, ...]: ...


class Record(Protocol):
    """An open record."""

    place: Place
    state: State

    @property
    def asked(self) -> Places: ...
    def write(self, entries: list[New]) -> None: ...
    def look(self) -> None: ...


def open_record(path: str, definition: Any, may_set_aside: bool) -> tuple[RecordFile, Entry | None]:
    """Opens an auction's record. Gives the record, and the entry about its torn end if that was set aside. A Stops says why the front can't
    use it, and what to do."""
    name = os.path.basename(path)
    try:
        # Nothing is changed in the record of another auction: neither its torn end nor the file beside it.
        if is_of_another(found := definition_in(path), definition):
            raise Stops(f"{name} {other_record(found, definition)}")
        record = RecordFile(path)
        torn = record.open(may_set_aside)
        if is_of_another(record.state.definition, definition):
            raise Stops(f"{name} {other_record(record.state.definition, definition)}")
        if not record.place.number:
            record.begin(definition)
        if torn:
            record.write([New("mended", torn, time_now())])
    except InUse:
        raise Stops("another front has the record") from None
    except InTheWay as fault:
        raise Stops(f"{fault}. If it is a copy or another file move it to another folder, and start again. {way_out(name, fault)}; "
                    f"{WHERE_THE_AUDIT_ENDS}") from None
    except Damaged as fault:
        raise Stops(f"the record is damaged or isn't the right one: {fault}. {way_out(name, fault)}; {WHERE_THE_AUDIT_ENDS}") from None
    except (LookupError, TypeError, AttributeError, ValueError):
        raise Stops("the record has an entry that no front writes") from None
    except OSError as fault:
        raise Stops(f"{fault.filename or path}: {fault.strerror or fault}") from None
    return record, torn


def is_of_another(found: Any, definition: Any) -> bool:
    """Whether a record has a definition, and another one than the auction's file."""
    return found not in (None, definition)


def other_record(found: Any, definition: Any) -> str:
    """The message about a record whose definition isn't that of the auction's file."""
    if has_mark(found) and not has_mark(definition):
        return "is the record of a mock. Nothing was changed in it: name the auction's own record in the configuration"
    if has_mark(definition) and not has_mark(found):
        return "isn't the record of a mock. Nothing was changed in it: name a record of the mock's own in the configuration"
    return "is the record of an auction with another definition: name the right record in the configuration"


def way_out(name: str, fault: Damaged) -> str:
    """Advice if a record can't be used. Ways that lose something come last."""
    first = f"Look for the right record, all its segments and {name}.asked, or else for its newest backup, and start again with that. Only if there is none, "
    if isinstance(fault, WrongSegment):
        return f"{first}name a new record in the configuration, and start with --foreign"
    return f"{first}start with --set-aside, which puts all from there on into a file beside it"


def opened(record: Record) -> RecordOpened:
    """The event for a record that was opened."""
    state = record.state
    left = [Left(name, line, number) for number, (name, line) in sorted(state.open.items())]
    left += [Left(asked.name, asked.line) for asked in record.asked.left()]
    lines = None if state.lines is None else tuple(state.lines)
    return RecordOpened(
        state.count, dict(state.used), state.foreign, tuple(left), record.place, lines, dict(state.clock), tuple(state.news), dict(state.told),
        dict(state.read), tuple(state.order), state.is_unveiled,
    )


class Writer(Generic[Item]):
    """Hands items to a call in a thread of its own. All items that came meanwhile go together, up to a limit. The call's event is posted. If
    the call fails, that is posted as a failure, and it is called no more."""

    def __init__(self, call: Callable[[list[Item]], Event | None], look: Callable[[], None], post: Callable[[Event], None]) -> None:
        self.call, self.look, self.post = call, look, post
        self.loop, self.context = asyncio.get_running_loop(), contextvars.copy_context()
        self.waiting: list[Item] = []
        self.done: collections.deque[Event] = collections.deque()
        self.is_to_look = self.has_failed = self.is_told = False
        self.come = held_lock()
        self.thread = Thread(self.keep_writing).start()

    def add(self, item: Item) -> None:
        """Takes an item. The thread gets it at the next `flush`."""
        self.waiting.append(item)

    def flush(self) -> None:
        if self.waiting and self.come.locked():
            free(self.come)

    def ask_to_look(self) -> None:
        """Lets the thread look at the record, though there is nothing to write."""
        self.is_to_look = True
        free(self.come)

    def hand_in(self) -> None:
        """Posts the events of the thread. It is called for each of them, and now and then, so that none is lost if memory for a call is refused.
        A thread that has ended without a word is a failure, too."""
        has_ended = self.thread.has_ended
        while self.done:
            event = self.done.popleft()
            self.is_told = self.is_told or isinstance(event, Failed)
            self.post(event)
        if has_ended and not self.is_told:
            self.is_told = True
            self.post(Failed("the record can't be written: its thread has ended"))

    # In the thread.

    def keep_writing(self) -> None:
        while not self.has_failed:
            self.come.acquire()
            try:
                self.write_waiting()
            # Any failure, even a lack of memory, ends the front with a message: without the record nobody can be answered.
            except NotKept as fault:
                self.fail(str(fault))
            except Exception as fault:
                self.fail(f"the record can't be written: {fault if isinstance(fault, (OSError, Damaged)) else repr(fault)}")

    def write_waiting(self) -> None:
        while self.waiting:
            items = self.waiting[:MOST_AT_ONCE]
            del self.waiting[: len(items)]
            if event := self.call(items):
                self.tell(event)
        if self.is_to_look:
            self.is_to_look = False
            self.look()

    def fail(self, why: str) -> None:
        self.has_failed = True
        self.tell(Failed(why))

    def tell(self, event: Event) -> None:
        self.done.append(event)
        # If this fails, the event is found by the next call of `hand_in`.
        try:
            self.loop.call_soon_threadsafe(self.hand_in, context=self.context)
        except Exception:
            pass


class Recorder:
    """Writes entries into a record, and commands beside it. Events say when they are on the disk."""

    def __init__(self, record: Record, post: Callable[[Event], None], seals: Seals | None = None) -> None:
        self.record, self.seals, self.now = record, seals, ""
        self.entries: Writer[New] = Writer(self.write_all, self.look, post)
        self.beside: Writer[Beside] = Writer(self.put_all, lambda: None, post)

    def write(self, effect: Write) -> None:
        """Writes an entry, with the time at which it came."""
        self.now = self.now or time_now()
        self.entries.add(New(effect.kind, effect.fields, self.now))

    def put(self, effect: Beside) -> None:
        """Writes a command beside the record, or empties places there."""
        self.beside.add(effect)

    def flush(self) -> None:
        """Lets the threads begin with what has come."""
        self.now = ""
        self.entries.flush()
        self.beside.flush()

    async def keep_looking(self) -> None:
        """Looks every few seconds whether the record is still as it was written, also while no entry comes; and more often, whether a thread's
        word was lost."""
        while True:
            self.entries.ask_to_look()
            for _ in range(LOOKS):
                await asyncio.sleep(KEPT_SECONDS / LOOKS)
                self.entries.hand_in()
                self.beside.hand_in()

    # In the threads.

    def look(self) -> None:
        """If memory is refused, the next look is as good."""
        try:
            self.record.look()
        except MemoryError:
            pass
        except OSError as fault:
            raise NotKept(str(fault)) from None

    def write_all(self, entries: list[New]) -> Event:
        self.record.write(entries)
        return Synced(len(entries), self.record.place, self.seals.fresh() if self.seals else ())

    def put_all(self, effects: list[Beside]) -> Event | None:
        """Runs in the thread of the file beside the record."""
        if any(isinstance(effect, EmptyBeside) for effect in effects):
            self.record.asked.clear()
            return BesideEmptied()
        places: dict[int, Asked | None] = {}
        for effect in effects:
            if not isinstance(effect, EmptyBeside):
                places[effect.place] = Asked(effect.name, effect.line) if isinstance(effect, PutBeside) else None
        self.record.asked.put(places)
        put = tuple(place for place, asked in places.items() if asked)
        return StandsBeside(put) if put else None
