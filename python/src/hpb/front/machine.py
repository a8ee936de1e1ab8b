"""Runs a front's core: takes events in their order, and carries out the effects in theirs."""
import asyncio
import time
from collections.abc import Callable, Sequence
from typing import Any

from hpb.front.core import Front, steps
from hpb.front.core.effects import Effect
from hpb.front.core.events import Event


class Machine:
    """`shells` has, for each kind of effect, the call that carries it out, and `flushes` the calls that follow the effects of one step. An
    event that comes by such a call is taken after the current ones."""

    def __init__(self, front: Front, clock: Callable[[], float] = time.monotonic) -> None:
        self.front, self.clock = front, clock
        self.shells: dict[type[Effect], Callable[[Any], None]] = {}
        # Gets events that came together, with their effects, before these are carried out.
        self.see: Callable[[Sequence[Event], Sequence[Effect]], None] | None = None
        self.flushes: list[Callable[[], None]] = []
        self.events: list[Event] = []
        self.is_at_work = self.is_awaited = self.has_ended = False

    def gather(self, event: Event) -> None:
        """Takes an event soon: all that come in one turn of the loop go together."""
        self.events.append(event)
        if not self.is_awaited and not self.is_at_work:
            asyncio.get_running_loop().call_soon(self.run)
            self.is_awaited = True

    def post(self, event: Event) -> None:
        """Takes an event now, behind those that came before it."""
        self.events.append(event)
        if not self.is_at_work:
            self.run()

    def run(self) -> None:
        """Takes all events that have come. If a shell raises something, it goes through, and the remaining effects are left undone. After that
        no event is taken, and the front has to end."""
        self.is_at_work, self.is_awaited = True, False
        try:
            while self.events and not self.has_ended:
                events, self.events = self.events, []
                self.front, effects = steps(self.front, events, self.clock())
                if self.see:
                    self.see(events, effects)
                for effect in effects:
                    self.shells[type(effect)](effect)
                for flush in self.flushes:
                    flush()
        except BaseException:
            self.has_ended = True
            raise
        finally:
            self.is_at_work = False

    def end(self) -> None:
        """From now on events are ignored."""
        self.has_ended = True
