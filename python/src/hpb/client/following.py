"""How a client follows an auction: which questions to ask, and how a view is made of the answers. No input or output."""
from collections.abc import Generator, Sequence
from dataclasses import dataclass
from typing import TypeVar

from hpb.lines import Answer, AskNode, AskWho, NodeShown, Question, Show, Shown, WhoShown
from hpb.refusals import HpbError


Told = TypeVar("Told", Shown, NodeShown, WhoShown)


@dataclass(frozen=True)
class View:
    """An auction at one moment: all nodes belong to the round of `shown`."""

    shown: Shown
    nodes: dict[str, NodeShown]
    whos: dict[str, WhoShown]


def look(nodes: Sequence[str], bidders: Sequence[str], before: View | None) -> Generator[list[Question], list[Answer], View | None]:
    """Asks for a view. Returns it if it differs from the one before, else None.

    It yields questions and is sent their answers. Nodes are asked about again after a close. They belong to one round if SHOW gives
    the same round and state before and after them. A refusal among the answers is raised.
    """
    shown = (yield from _asked([Show()], Shown))[0]
    if before and shown == before.shown:
        return None
    while True:
        of_nodes = before.nodes if before and _round(before.shown) == _round(shown) else None
        if of_nodes is None:
            told = yield from _asked([AskNode(name) for name in nodes], NodeShown)
            of_nodes = {node.name: node for node in told}
        whos = yield from _asked([AskWho(name) for name in bidders], WhoShown)
        first, shown = shown, (yield from _asked([Show()], Shown))[0]
        if first == shown:
            return View(shown, of_nodes, {who.bidder: who for who in whos})


def _round(shown: Shown) -> tuple[int, bool]:
    return shown.round, shown.is_over


def _asked(questions: list[Question], kind: type[Told]) -> Generator[list[Question], list[Answer], list[Told]]:
    answers = (yield questions) if questions else []
    for answer in answers:
        if isinstance(answer, HpbError):
            raise answer
    return [answer for answer in answers if isinstance(answer, kind)]
