"""The outcomes besides answers: why a client got none."""
from hpb.lines import Accepted
from hpb.refusals import HpbError


class Unanswered(HpbError):
    """A line got no answer in time.

    `may_count` says whether the command was sent, so that it may be accepted, now or a little later. Sending the same bid again
    does no harm, as the rules count a bid once. For a waiver, a close or a stage, look first (`who`, `show`).
    """

    def __init__(self, reason: str, may_count: bool) -> None:
        self.reason, self.may_count = reason, may_count
        told = "its command may be accepted or not" if may_count else "it wasn't sent"
        super().__init__(f"no answer in time ({reason or 'nothing came'}): {told}")


class NotWelcome(HpbError):
    """The front doesn't know the token, or not any more, or the certificate isn't trusted, or its auction is a mock and shouldn't be, or the
    other way round. Trying again can't help.

    If the token went while the client was connected, commands that were sent may be accepted or not.
    """


class TicketsNotKept(HpbError):
    """The file of tickets can't be written, and nothing is sent without a note there."""


class Ended(HpbError):
    """The client was ended, so it asks for nothing any more."""


# The outcome of a command: accepted, or why not.
Outcome = Accepted | HpbError
