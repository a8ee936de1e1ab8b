"""A freeze: for a moment no command is on its way and none begins, so that file and record can be copied (docs/FRONT.md).

Lines that come wait, the clock's CLOSE too. Questions are answered, and entries that aren't of commands go on.
"""
from hpb.front.core import sealing
from hpb.front.core.effects import Frozen
from hpb.front.core.state import Freeze, Front, Phase
from hpb.front.core.stepping import Step


def begin(step: Step) -> None:
    """Asks for a freeze. A front that ends gives none."""
    if step.front.phase < Phase.ANSWERING and step.front.freeze is Freeze.NONE:
        step.set(freeze=Freeze.WANTED)


def end(step: Step) -> None:
    """Lets commands go on."""
    step.set(freeze=Freeze.NONE)


def go_on(step: Step) -> None:
    """Says that all stands still, once it does. This is tried after each event."""
    if step.front.freeze is Freeze.WANTED and is_still(step.front):
        step.set(freeze=Freeze.STANDS)
        step.do(Frozen(step.front.ledger.count, step.front.ledger.place))


def is_still(front: Front) -> bool:
    """Whether each command that the server may have is in the record on the disk, and the last close has its seal."""
    ledger = front.ledger
    is_written = not ledger.held and ledger.synced == ledger.written
    return front.phase is Phase.OPEN and is_written and not sealing.is_due(front) and all(one.beside is None for one in front.sessions)
