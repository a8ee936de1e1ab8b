"""Follows an auction that `hpb serve` or a front serves, over one session, by questions only. tools/board and tools/watch show it.

A `Follower` asks SHOW regularly. If that answer has changed, or a bid came during the last questions, it asks NODE and WHO too. Its
knowledge is a `View`, and each change makes a new one. Nothing here sends a command.
"""
import dataclasses
import socket
import time
from collections.abc import Callable, Sequence
from typing import Final, Protocol

from hpb.lines import Shown, parse_answer
from hpb.pages import reaching
from hpb.pages.view import Contact, State, Told, View, period, taken
from hpb.refusals import HpbError
from hpb.rounds import InformationShown, News, ReadUpTo, Schedule, SealShown, parse_front_answer
from hpb.rules.mock import is_mock
from hpb.rules.told import look_whose, read_standing, read_told
from hpb.rules.told import Told as Standing
from hpb.rules.tree import Tree
from hpb.threads import Signal, Thread

ADDRESS: Final = "127.0.0.1"
# In seconds: the pause between two questions, and how long to wait for an answer before the server is reported silent.
PACE: Final = 1.0
PATIENCE: Final = 5.0
_QUESTIONS = ("SHOW", "NODE", "WHO", "SCHEDULE", "EVENT", "READ", "INFORMATION", "SEAL")
# So many news of a name are kept.
_MOST_NEWS = 200
_MOST_LINE = 65_536
# The answer to SEAL before the first close.
_NO_SEAL_YET = "ERR front unknown"
# How many times to ask again for a state, if a close came between the answers.
_ATTEMPTS = 4
_LONGEST_PAUSE = 10.0
_ENDS = {line.decode() for line in reaching.ENDS}

# Makes a connection. The number is how many seconds to wait for an answer.
Opens = Callable[[float], socket.socket]


class NotFollowed(HpbError):
    """The auction can't be followed: the definition is another auction's, or no auction is there."""


class Lost(Exception):
    """The session has ended."""


def started(target: Callable[..., None], *words: object) -> None:
    """Starts following in a thread of its own, which ends with the process. If the system gives none, `NotFollowed` is raised."""
    try:
        Thread(lambda: target(*words)).start()
    except RuntimeError as fault:
        raise NotFollowed(f"the system gives no thread: {fault}") from None


def at_port(port: int) -> Opens:
    """A function that makes connections to a port of this machine."""
    return lambda patience: reaching.dialled((ADDRESS, port), patience)


class Asks(Protocol):
    """A session with a server or a front."""

    def ask(self, questions: Sequence[str]) -> list[str]:
        """The answer to each question, in order."""


class Session:
    """One connection. If an answer doesn't come in time, it reports that and goes on waiting: another connection would take another
    place.
    """

    def __init__(self, connection: socket.socket, is_told: Callable[[], None]) -> None:
        self._socket, self._is_told, self._received = connection, is_told, b""

    def ask(self, questions: Sequence[str]) -> list[str]:
        """The answer to each question, in order. If the session has ended, `Lost` is raised; if no line comes, `NotFollowed`."""
        for question in questions:
            if question.split(" ")[0] not in _QUESTIONS:
                raise ValueError(f"{question!r} is no question")
        try:
            self._socket.sendall("".join(f"{question}\n" for question in questions).encode())
            return [self._line() for _ in questions]
        except OSError as fault:
            raise Lost(str(fault)) from None

    def close(self) -> None:
        """Ends the connection."""
        self._socket.close()

    def _line(self) -> str:
        while b"\n" not in self._received:
            try:
                part = self._socket.recv(65_536)
            except TimeoutError:
                self._is_told()
                continue
            if not part:
                raise Lost("the server ended the connection")
            self._received += part
            if len(self._received) > _MOST_LINE and b"\n" not in self._received:
                raise NotFollowed("no line comes from this port: is it that of hpb serve?")
        line, self._received = self._received.split(b"\n", 1)
        text = line.decode("ascii", "backslashreplace")
        if text == reaching.TAKEN_AWAY.decode():
            raise NotFollowed(f"the token isn't known any more: {text}")
        if text in _ENDS:
            raise Lost(f"the session was ended by {text}")
        return text


class Follower:
    """Asks until it is stopped, or the auction is over. Each new view is passed to `publish`. `opens` makes a connection. If an
    answer takes more than `patience` seconds, the view says so. `names` are those whose news a front is asked for; an empty one is the
    name of the connection itself. Without a front there are none.
    """

    def __init__(
        self, tree: Tree, bidders: Sequence[str], opens: Opens, publish: Callable[[View], None], places: float = 1, pace: float = PACE,
        patience: float = PATIENCE, names: Sequence[str] = (),
    ) -> None:
        """`places` is how many connections may be made; `pace` is the pause between two questions, in seconds."""
        self._tree, self._bidders, self._opens, self._publish = tree, bidders, opens, publish
        self._pace, self._patience, self._stopped = pace, patience, Signal()
        self._node_lines: list[str] = []
        self._is_settled = True
        self._names, self._has_rules, self._has_seals = list(names), bool(names), bool(names)
        self.view = View(None, Contact(State.WAITING, time.time(), places), is_mock=is_mock(tree.definition))

    def greeted(self, says_mock: bool) -> None:
        """A front's greeting says whether its auction is a mock. `NotFollowed` is raised if the definition is that of a mock alone."""
        if is_mock(self._tree.definition) and not says_mock:
            raise NotFollowed("the definition is that of a mock, and the auction is none")
        self.view = self.view._replace(is_mock=says_mock)

    def stop(self) -> None:
        """Makes it end soon. May be called from any thread."""
        self._stopped.give()

    def follow(self) -> None:
        """Returns when there is nothing more to ask. If the auction isn't the definition's, `NotFollowed` or `NotTold` is raised."""
        pause = self._pace
        while not self._stopped.wait(0) and self.view.contact.places > 0:
            session = self._connect()
            if session is None:
                self._stopped.wait(pause)
                pause = min(2 * pause, _LONGEST_PAUSE)
                continue
            pause = self._pace
            try:
                self._keep_asking(session)
                return
            except Lost:
                self._tell(State.LOST)
            finally:
                session.close()
            self._stopped.wait(self._pace)

    def _connect(self) -> Session | None:
        """A session, or None if nobody listens. Only a connection that was made uses up a place."""
        try:
            session = Session(self._opens(self._patience), self._is_silent)
        except OSError:
            return None
        contact = self.view.contact
        self.view = self.view._replace(contact=contact._replace(places=contact.places - 1))
        # Perhaps another auction is served now, or by other rules: so nodes, rules and seals are asked about again.
        self._node_lines, self._has_rules, self._has_seals = [], bool(self._names), bool(self._names)
        return session

    def _keep_asking(self, session: Session) -> None:
        """Asks until the auction is over; nothing changes after that."""
        while not self._stopped.wait(0):
            self.look(session)
            if self.view.seen and self.view.seen.standing.shown.is_over and not self._waits_for_unveiling():
                self._tell(State.OVER)
                return
            self._stopped.wait(self._pace)

    def _waits_for_unveiling(self) -> bool:
        """Whether the page of a front has more to show to some of its names, once all is unveiled."""
        return self.view.information.startswith("INFORMATION running CLOSES ")

    def look(self, session: Asks) -> None:
        """Asks once, and publishes a new view if anything has changed."""
        shown = _read_shown(session.ask(["SHOW"])[0])
        old = self.view.seen.standing if self.view.seen else None
        now = old
        if old is None or shown != old.shown or not self._node_lines or not self._is_settled:
            now = self._read(session, shown, old) or old
        is_news = self._ask_front(session)
        if now is not None and now is not old:
            self._take(now)
        elif is_news:
            self._tell(State.LIVE)
        elif self.view.contact.state != State.LIVE:
            self._tell(State.LIVE)

    def _ask_front(self, session: Asks) -> bool:
        """Asks a front for the state of its round clock, and for news. Returns whether there was anything new. An older front has neither."""
        if not self._names:
            return False
        schedule = parse_answer(session.ask(["SCHEDULE"])[0])
        if not isinstance(schedule, Schedule):
            self._names = []
            return False
        told = {name: self._told(session, name) for name in self._names}
        information, seal = self._ask_rules(session), self._ask_seal(session)
        old, is_new_time = self.view, _without_time(schedule) != _without_time(self.view.schedule)
        self.view = old._replace(schedule=schedule, told=told, information=information, seal=seal)
        return is_new_time or (told, information, seal) != (old.told, old.information, old.seal)

    def _ask_rules(self, session: Asks) -> str:
        """A front's answer about the rules on information. If it has none, it isn't asked again."""
        answer = session.ask(["INFORMATION"])[0] if self._has_rules else ""
        self._has_rules = answer.startswith("INFORMATION ")
        return answer if self._has_rules else ""

    def _ask_seal(self, session: Asks) -> str:
        """A front's last seal, empty if there is none yet. If it has no seals at all, it isn't asked again."""
        answer = session.ask(["SEAL"])[0] if self._has_seals else ""
        self._has_seals = answer.startswith("SEAL ") or answer == _NO_SEAL_YET
        return answer if isinstance(parse_front_answer(answer), SealShown) else ""

    def _told(self, session: Asks, name: str) -> Told:
        """The news of a name, with those that came since."""
        told, whose = self.view.told.get(name, Told()), f" {name}" if name else ""
        for _ in range(_MOST_NEWS):
            answer = parse_answer(session.ask([f"EVENT {told.news[-1].number if told.news else 0}{whose}"])[0])
            if not isinstance(answer, News):
                break
            told = told._replace(news=(*told.news, answer)[-_MOST_NEWS:])
        if all(one.said is None or one.number <= told.read for one in told.news):
            return told
        read = parse_answer(session.ask([f"READ {name or 0}"])[0])
        return told._replace(read=read.number) if isinstance(read, ReadUpTo) else told

    def _read(self, session: Asks, shown: Shown, old: Standing | None) -> Standing | None:
        """The answers to all questions at one moment. If closes came between them at each attempt, None."""
        whos, nodes = [f"WHO {name}" for name in self._bidders], [f"NODE {name}" for name in self._tree.nodes]
        for _ in range(_ATTEMPTS):
            # Only a close changes an answer to NODE.
            known = period(old.shown) if old and self._node_lines else None
            is_same = period(shown) == known
            first, *lines, last = self._answers(session, ["SHOW", *whos, *([] if is_same else nodes), "SHOW"])
            before, shown = _read_shown(first), _read_shown(last)
            if _is_one_moment(before, shown) and (not is_same or period(shown) == known):
                self._node_lines = self._node_lines if is_same else lines[len(whos) :]
                # If a bid came between the two, its bidder may have been asked about before it.
                self._is_settled = before == shown
                return read_told(self._tree, [*self._node_lines, *lines[: len(whos)], last])
        return None

    def _answers(self, session: Asks, questions: Sequence[str]) -> list[str]:
        lines = session.ask(questions)
        for question, line in zip(questions, lines):
            if line.startswith("ERR front "):
                raise NotFollowed(f"{question} is answered {line}: it isn't this name's to ask")
            if line.startswith("ERR "):
                raise NotFollowed(f"another definition: {question} is answered {line}")
        return lines

    def _take(self, now: Standing) -> None:
        rules = self._rules()
        look_whose(self._tree, now, has_pseudonyms=rules.identities == "own")
        seen = taken(self._tree, self._bidders, self.view.seen, now)
        self.view = self.view._replace(seen=seen._replace(hides_count=not rules.is_count_exact, hides_revenue=not rules.has_revenue))
        self._tell(State.LIVE)

    def _rules(self) -> InformationShown:
        """What the name of this connection may know."""
        found = parse_front_answer(self.view.information)
        return found if isinstance(found, InformationShown) else InformationShown("running", "all", True, True)

    def _is_silent(self) -> None:
        if self._stopped.wait(0):
            raise Lost("nobody waits for the answer")
        if self.view.contact.state == State.LIVE:
            self._tell(State.SILENT)

    def _tell(self, state: State) -> None:
        contact = self.view.contact
        since = contact.since if contact.state == state else time.time()
        self.view = self.view._replace(contact=contact._replace(state=state, since=since))
        self._publish(self.view)


def _read_shown(line: str) -> Shown:
    """The answer to SHOW."""
    shown = read_standing(line)
    if not isinstance(shown, Shown):
        raise NotFollowed(f"SHOW is answered {line[:100]!a}: is it the port of hpb serve?")
    return shown


def _without_time(schedule: Schedule | None) -> Schedule | None:
    """The parts that change only with the clock's state."""
    return schedule and dataclasses.replace(schedule, left=0, now="")


def _is_one_moment(first: Shown, last: Shown) -> bool:
    """Whether neither a close nor a stage came between two answers to SHOW."""
    return dataclasses.replace(first, count=0) == dataclasses.replace(last, count=0)
