"""Sends drafts, each once: one after the other for a sender, and on until it is clear what became of each."""
import asyncio
from collections.abc import Sequence
from typing import Final

from hpb.lines import Accepted, Command
from hpb.web.drafts import ACCEPTED, NEVER, REFUSED, SENT, UNCLEAR, Draft, Drafts, settled
from hpb.web.intents import line_of
from hpb.web.links import Link
from hpb.web.problems import Problem
from hpb.web.resources import now_says

# Seconds between two tries of a draft that has no answer.
PAUSE: Final = 1.0
# The problems that say nothing of a draft's outcome.
_OPEN: Final = ("unanswered", "away", "busy", "fault")
_TOKEN: Final = "token"
# The word for a ticket that another command has.
_TICKET: Final = "ticket"
BEFORE_IT: Final = "a draft before it wasn't accepted, so it wasn't sent"
NOT_THERE: Final = "no command with its ticket was accepted, so it doesn't count"
ANOTHER: Final = "another command has its ticket, so it doesn't count"
NOT_CLEAR: Final = "a later ticket was used by another program meanwhile: the record says whether it was accepted"


class Sender:
    """Sends drafts in tasks of their own: what a browser does meanwhile changes nothing."""

    def __init__(self, drafts: Drafts) -> None:
        self.drafts = drafts
        self._tasks: dict[tuple[str, Command], asyncio.Task[None]] = {}

    def is_under_way(self, draft: Draft) -> bool:
        """Whether a draft waits for its answer, or for its turn."""
        return (draft.name, draft.command) in self._tasks

    async def send(self, name: str, link: Link, commands: Sequence[Command], seconds: float) -> None:
        """Sends commands with their tickets in their order, and waits at most so many seconds. A command that is under way, or was accepted
        as it is, isn't sent again. After one that isn't accepted none is sent.
        """
        new = [one for one in commands if not self._is_known(name, one)]
        if new:
            task = asyncio.create_task(self._run(name, link, new))
            self._tasks |= {(name, one): task for one in new}
            task.add_done_callback(lambda _: self._forget(task))
        waiting = {self._tasks[name, one] for one in commands if (name, one) in self._tasks}
        if waiting:
            await asyncio.wait(waiting, timeout=seconds)

    def _is_known(self, name: str, command: Command) -> bool:
        found = self.drafts.find(name, command)
        return (name, command) in self._tasks or (found is not None and found.state == ACCEPTED)

    def _forget(self, task: asyncio.Task[None]) -> None:
        self._tasks = {key: one for key, one in self._tasks.items() if one is not task}
        if not task.cancelled():
            task.exception()

    async def _run(self, name: str, link: Link, commands: Sequence[Command]) -> None:
        for place, command in enumerate(commands):
            draft = Draft(name, command)
            await self.drafts.note([draft])
            outcome = await self._outcome(draft, link)
            if outcome.state != SENT:
                await self.drafts.note([outcome])
            if outcome.state != ACCEPTED:
                rest = [settled(Draft(name, one), NEVER, now_says(), why=BEFORE_IT) for one in commands[place + 1 :]]
                await self.drafts.note(rest)
                return

    async def _outcome(self, draft: Draft, link: Link) -> Draft:
        """The draft with its outcome. If the token isn't known any more, it stays `sent`: the name looks when it has signed in again."""
        while True:
            try:
                answer = await link.one(line_of(draft.command), Accepted)
            except Problem as fault:
                if fault.word == _TOKEN:
                    return draft
                if fault.word not in _OPEN:
                    return settled(draft, REFUSED, now_says(), why=_says(fault))
                await asyncio.sleep(PAUSE)
            else:
                return settled(draft, ACCEPTED, now_says(), answer.number)

    async def look(self, name: str, link: Link, bidder: str | None, used: int) -> None:
        """Finds what became of a sender's drafts whose answers were lost with a site or a token. `used` is the sender's last ticket.

        Nothing is sent that could newly count: a draft under the last ticket is repeated, and gets its number if it was accepted.
        """
        for draft in self.drafts.of(name):
            if draft.bidder != bidder or draft.state != SENT or self.is_under_way(draft):
                continue
            if draft.command.ticket > used:
                outcome = settled(draft, NEVER, now_says(), why=NOT_THERE)
            elif draft.command.ticket < used:
                outcome = settled(draft, UNCLEAR, now_says(), why=NOT_CLEAR)
            else:
                outcome = await self._repeated(draft, link)
            await self.drafts.note([outcome])

    async def _repeated(self, draft: Draft, link: Link) -> Draft:
        try:
            answer = await link.one(line_of(draft.command), Accepted)
        except Problem as fault:
            if fault.status in (401, 500, 503, 504):
                raise
            is_another = fault.word == _TICKET
            return settled(draft, NEVER if is_another else UNCLEAR, now_says(), why=ANOTHER if is_another else NOT_CLEAR)
        return settled(draft, ACCEPTED, now_says(), answer.number)

    async def end(self) -> None:
        """Ends all sending. Drafts without an answer stay `sent` in the file."""
        for task in set(self._tasks.values()):
            task.cancel()
        await asyncio.gather(*set(self._tasks.values()), return_exceptions=True)
        self.drafts.close()


def _says(fault: Problem) -> str:
    number = f"{fault.number} " if fault.number is not None else ""
    return f"{number}{fault.word}: {fault.detail or fault.meaning}"
