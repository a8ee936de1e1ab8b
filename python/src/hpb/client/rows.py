"""The rows of tickets that a client uses: one for each bidder, and one for the auctioneer."""
from dataclasses import dataclass, field

from hpb.lines import Bid, Command, Line


@dataclass(eq=False, slots=True)
class Asked:
    """A line that somebody asked for. A command has ticket 0 until it gets one."""

    number: int
    line: Line
    # It went out over a connection that was lost, and has no answer.
    was_lost: bool = False
    # Nobody waits for it any more.
    is_abandoned: bool = False
    # How often its ticket was refused for no known reason.
    wrong: int = 0


@dataclass(eq=False, slots=True)
class Row:
    """The tickets of one sender, and its commands in flight.

    `last` is the last ticket known to be used, and `next` that of the next command; None means unknown. If a command is refused
    while others are in flight behind it, the row is `stalled`: those get 15, and are collected in `again`. The row goes on when
    nothing of it is in flight any more.
    """

    bidder: str | None
    last: int | None = None
    next: int | None = None
    in_flight: list[Command] = field(default_factory=list)
    is_stalled: bool = False
    is_looked_up: bool = False
    again: list[Asked] = field(default_factory=list)
    # For each ticket, the other commands that were sent under it and lost with their connection.
    lost: dict[int, set[Command]] = field(default_factory=dict)

    def may_send_now(self, command: Command) -> bool:
        """Whether a command without a ticket may go out: a bid behind others, anything else only alone.

        If another line was lost under the same ticket, nothing may go out behind the command: a 13 wouldn't tell which of the two
        was accepted.
        """
        if self.is_stalled or any(self.was_told_otherwise(sent) for sent in self.in_flight):
            return False
        return isinstance(command, Bid) or not self.in_flight

    def take_ticket(self) -> int:
        """Takes the next ticket, which has to be known."""
        assert self.next is not None
        self.next += 1
        return self.next - 1

    def is_used_up_to(self, ticket: int) -> None:
        """Tickets up to this one are used, so lost lines under them can't count any more."""
        self.last = max(self.last or 0, ticket)
        self.lost = {number: lines for number, lines in self.lost.items() if number > self.last}

    def forget(self) -> None:
        """Its tickets aren't known any more."""
        self.last = self.next = None

    def settle(self) -> None:
        """With nothing in flight, the next ticket follows the last one. The auctioneer's is asked for each time."""
        self.is_stalled, self.again = False, []
        self.next = None if self.last is None or self.bidder is None else self.last + 1

    def end_flight(self) -> None:
        """The connection is lost. A stalled row gets new tickets; any other row keeps those that were given."""
        self.in_flight, self.is_looked_up, self.again = [], False, []
        if self.is_stalled:
            self.settle()

    def was_told_otherwise(self, command: Command) -> bool:
        """Whether another line was lost under this ticket. If so, that one may have been accepted."""
        return bool(self.lost.get(command.ticket, set()) - {command})
