"""Events on their way through a front: the next state as far as it is made, and the effects so far."""
from typing import Any

from hpb.front.core.effects import Effect, Field, Finish, MustEnd, Note, Publish, Say, Write
from hpb.front.core.ledger import Ledger
from hpb.front.core.state import Connection, Front, Name, Phase, Server, Session
from hpb.front.core.values import changed
from hpb.rounds import MOCK


class Step:
    """Makes the next state of a front. Nobody else has `front`, that state, so it may be changed until the step is over. So may each
    connection, name and session in it, and the ledger, unless it is still the one of `before`: `connection`, `name`, `session` and `ledger`
    copy it first. Methods `set..` take the fields to change by their names."""

    def __init__(self, before: Front) -> None:
        self.before, self.front = before, changed(before)
        # The effects; and how many of them there were when the front ended.
        self.effects: list[Effect] = []
        self.last: int | None = None
        # The sessions that the event at hand has changed.
        self.touched: set[int] = set()
        # Copies for the next state; None as long as they are unchanged.
        self.connections: dict[int, Connection] | None = None
        self.names: dict[str, Name] | None = None
        self.sessions: list[Session] | None = None

    def done(self) -> tuple[Front, list[Effect]]:
        """The next state, which isn't changed any more, and the effects. A front that has ended has none after its end."""
        if self.sessions is not None:
            self.set(sessions=tuple(self.sessions))
        return self.front, self.effects if self.last is None else self.effects[: self.last]

    def do(self, *effects: Effect) -> None:
        """Adds effects."""
        self.effects += effects

    def set(self, **fields: Any) -> None:
        """Changes the front."""
        self.front.__dict__.update(fields)

    def own_connections(self) -> dict[int, Connection]:
        """The connections of the next state, which may be changed."""
        if self.connections is None:
            self.connections = dict(self.front.connections)
            self.set(connections=self.connections)
        return self.connections

    def connection(self, number: int) -> Connection:
        """A connection of the next state, which may be changed."""
        connections = self.connections or self.own_connections()
        connection = connections[number]
        if connection is self.before.connections.get(number):
            connections[number] = connection = changed(connection)
        return connection

    def name(self, name: str) -> Name:
        """A name of the next state, which may be changed."""
        if self.names is None:
            self.names = dict(self.front.names)
            self.set(names=self.names)
        known = self.names[name]
        if known is self.before.names[name]:
            self.names[name] = known = changed(known)
        return known

    def session(self, place: int) -> Session:
        """A session of the next state, which may be changed."""
        session = self.front.sessions[place]
        if session is self.before.sessions[place]:
            return self.put_session(place, changed(session))
        self.touched.add(place)
        return session

    def put_session(self, place: int, session: Session) -> Session:
        """Puts a new session in the place of the old one."""
        if self.sessions is None:
            self.sessions = list(self.front.sessions)
            self.set(sessions=self.sessions)
        self.touched.add(place)
        self.sessions[place] = session
        return session

    def ledger(self) -> Ledger:
        """The ledger of the next state, which may be changed."""
        ledger = self.front.ledger
        if ledger is self.before.ledger:
            ledger = ledger.copy()
            self.set(ledger=ledger)
        return ledger

    def set_connection(self, number: int, **fields: Any) -> Connection:
        """Changes a connection."""
        connection = self.connection(number)
        connection.__dict__.update(fields)
        return connection

    def set_name(self, name: str, **fields: Any) -> Name:
        """Changes a name."""
        known = self.name(name)
        known.__dict__.update(fields)
        return known

    def set_session(self, place: int, **fields: Any) -> Session:
        """Changes a session."""
        session = self.session(place)
        session.__dict__.update(fields)
        return session

    def set_server(self, **fields: Any) -> Server:
        """Changes the server."""
        self.set(server=changed(self.front.server, **fields))
        return self.front.server

    def set_ledger(self, **fields: Any) -> None:
        """Puts a ledger with these fields in the place of the old one."""
        self.set(ledger=changed(self.ledger(), **fields))

    def say(self, text: str) -> None:
        """A line on standard error."""
        self.do(Say(text))

    def publish(self, text: str) -> None:
        """A line on standard output. That of a mock says so at its end."""
        self.do(Publish(f"{text} {MOCK}" if self.front.setting.is_mock else text))

    def note(self, kind: str, **fields: Field) -> None:
        """A line of the log."""
        self.do(Note(kind, fields))

    def write(self, kind: str, **fields: Any) -> None:
        """An entry of the record."""
        self.ledger().written += 1
        self.do(Write(kind, fields))

    def finish(self, why: str = "") -> None:
        """Ends the front: no later event changes anything. `why` is the reason, if it can't go on."""
        self.do(MustEnd(), Finish(why))
        if self.last is None:
            self.last = len(self.effects)
        self.set(phase=Phase.ENDED)
