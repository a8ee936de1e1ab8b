"""The contents of a file, and the effect of a close now: the values of a report, compared with one another."""
from collections.abc import Iterator, Sequence
from dataclasses import dataclass
from functools import cached_property
from os import PathLike

from hpb.amounts import money
from hpb.file import read_head
from hpb.limits import MOST_COMMANDS
from hpb.lines import WhoShown
from hpb.program import Copy, NotAnswered
from hpb.rules.activity import activity_needed, eligibility_left
from hpb.rules.checking import Wrong, check_sums
from hpb.rules.prices import passed_down
from hpb.rules.standing import Standing, standing_of
from hpb.rules.told import Told, read_told
from hpb.rules.tree import Tree, tree_of

# The effect of a close on a bidder's eligibility.
KEEPS, WAIVED, TAKEN, FALLS = "keeps {}", "keeps {} by its own waiver", "keeps {}, a waiver is taken", "falls to {}"


@dataclass(frozen=True, slots=True)
class Prospect:
    """The effect of a close now on a bidder: units and waivers left, and which of the four texts above applies."""

    needed: int
    missing: int
    eligibility: int
    waivers: int
    how: str

    @property
    def says(self) -> str:
        """The same in words."""
        return self.how.format(money(self.eligibility))


@dataclass(frozen=True)
class Report:
    """The contents of a file. `told` are the program's answers about it, and `closed` those about a copy after a close. If no close
    is accepted any more, `closed` is None and `prospects` empty; else `prospects` has each bidder.
    """

    image: bytes
    tree: Tree
    told: Told
    closed: Told | None

    @property
    def percentage(self) -> int:
        """The percentage of the stage in force."""
        return self.tree.definition.stages[self.told.shown.stage - 1]

    @property
    def ends_at_a_close(self) -> bool:
        """Whether a close now ends the auction."""
        return self.closed is not None and self.closed.shown.is_over

    @cached_property
    def found(self) -> Standing:
        """Winners, prices and revenue, calculated from the high bids alone."""
        return standing_of(self.tree, self.told.high)

    @cached_property
    def passed_down(self) -> dict[str, int]:
        """The dollars of surpluses that each node gets from above."""
        return passed_down(self.tree, self.found.values)

    @cached_property
    def prospects(self) -> dict[str, Prospect]:
        """The effect of a close now on each bidder."""
        return {who.bidder: self._prospect(who, self.closed.whos[who.bidder]) for who in self.told.whos.values()} if self.closed else {}

    @cached_property
    def faults(self) -> list[str]:
        """Everything that is wrong in the program's answers."""
        return [*self._closing_faults(), *self._sum_faults(), *self._result_faults()]

    def _prospect(self, who: WhoShown, after: WhoShown) -> Prospect:
        """The effect by the rules. Only the close of the copy shows whether the bidder has sent a waiver in this round."""
        needed, left = activity_needed(self.percentage, who.eligibility), who.waivers_left
        missing = max(0, needed - who.activity)
        stays = (after.eligibility, after.waivers_left) == (who.eligibility, left)
        if not missing:
            return Prospect(needed, 0, who.eligibility, left, KEEPS)
        if left < self.tree.definition.waivers and stays:
            return Prospect(needed, missing, who.eligibility, left, WAIVED)
        if left:
            return Prospect(needed, missing, who.eligibility, left - 1, TAKEN)
        return Prospect(needed, missing, eligibility_left(self.percentage, who.activity), 0, FALLS)

    def _closing_faults(self) -> Iterator[str]:
        for bidder, prospect in self.prospects.items():
            assert self.closed
            after = self.closed.whos[bidder]
            if (after.eligibility, after.waivers_left) != (prospect.eligibility, prospect.waivers):
                yield (
                    f"by the rules a close leaves {bidder} {prospect.eligibility} units and {prospect.waivers} waivers, "
                    f"and the program {after.eligibility} and {after.waivers_left}"
                )

    def _sum_faults(self) -> Iterator[str]:
        try:
            for _ in check_sums(self.tree, self.told):
                pass
        except Wrong as wrong:
            yield str(wrong)

    def _result_faults(self) -> Iterator[str]:
        found, told = self.found, self.told
        winners = [name for name in self.tree.nodes if name in found.winners]
        if winners != told.winners:
            yield f"by the high bids {listed(winners)} win, and by the program {listed(told.winners)}"
        if found.revenue != told.shown.revenue:
            yield f"by the high bids the revenue is {money(found.revenue)}, and by the program {money(told.shown.revenue)}"
        for name, node in told.nodes.items():
            if found.prices[name] != node.price:
                yield f"by the high bids the price of {name} is {money(found.prices[name])}, and by the program {money(node.price)}"


def read_report(program: str | PathLike[str], image: bytes) -> Report:
    """The report on a file with these bytes, by a program that is asked about a copy.

    Raises whatever `read_head` and `Copy` raise. If an answer is missing, `NotTold` is raised; if the program's auction isn't the
    file's, `NotAnswered`.
    """
    tree = tree_of(read_head(image).definition)
    with Copy(program, image) as copy:
        told, closed = _ask(copy, tree)
    if told.shown.stage > len(tree.definition.stages) or [*told.whos] != [*tree.bidders]:
        raise NotAnswered("the program tells of another stage, or of other bidders, than the definition has")
    return Report(image, tree, told, closed)


def _ask(copy: Copy, tree: Tree) -> tuple[Told, Told | None]:
    """The state now, and the state after a close of the copy. If no close is accepted any more, the second is None."""
    lines, questions = copy.check(), [f"WHO {bidder}" for bidder in tree.bidders]
    shown = read_told(tree, lines).shown
    closes = not shown.is_over and shown.count < MOST_COMMANDS
    more = [f"CLOSE {shown.next_ticket}", "SHOW", *questions] if closes else []
    answers = copy.run(questions + more)
    told, after = read_told(tree, lines + answers[: len(questions)]), answers[len(questions) :]
    if not closes:
        return told, None
    if after[0] != f"OK {shown.count + 1}":
        raise NotAnswered("the program doesn't close its copy")
    return told, read_told(tree, lines + after[1:])


def listed(names: Sequence[str]) -> str:
    """Names for a sentence."""
    return ", ".join(names) if names else "none"
