"""Keeps the results of each close, as the name of the public may know them."""
import asyncio
from collections.abc import Awaitable, Callable
from typing import Final

from hpb.web.documents import round_of
from hpb.web.links import Link
from hpb.web.notes import Notes
from hpb.web.problems import Problem
from hpb.web.resources import now_says
from hpb.web.results import NotKept, Results

PACE: Final = 1.0


class Keeper:
    """Looks at the auction by the link of the public. A close that comes between two looks with another one behind it isn't kept."""

    def __init__(self, link: Callable[[], Awaitable[Link]], results: Results, notes: Notes, pace: float = PACE) -> None:
        self._link, self._results, self._notes, self._pace = link, results, notes, pace
        self._said = ""

    async def run(self) -> None:
        """Looks until it is cancelled. A failure is noted once, and then it is tried again."""
        while True:
            try:
                await self.look()
                self._said = ""
            except (Problem, NotKept) as fault:
                said = fault.word if isinstance(fault, Problem) else str(fault)
                if said != self._said:
                    self._notes.note("results", why=said)
                self._said = said
            await asyncio.sleep(self._pace)

    async def look(self) -> None:
        """If the last close isn't kept yet, its results are written."""
        link = await self._link()
        standing = await link.standing()
        closed = standing.shown.round - (not standing.shown.is_over)
        if closed and self._results.round(closed) is None:
            document = round_of(link.tree, closed, now_says(), standing.shown, standing.nodes, standing.information)
            await asyncio.to_thread(self._results.add, closed, document)
            self._notes.note("closed", round=closed)
