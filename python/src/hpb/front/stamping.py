"""The stamps of a front's seals: they are asked for in the order of the seals, one at a time, and again if that fails (docs/VERIFY.md)."""
import asyncio
import subprocess
import sys
from collections.abc import Callable
from typing import Protocol

from hpb.front.core.events import Event, Stamped
from hpb.front.process import end_with_parent
from hpb.front.seals import SealsPlace, StampsPlace
from hpb.seals.statement import SignedSeal
from hpb.threads import Worker

# Seconds between two looks for a seal without a stamp, and the pauses behind failures: each is twice the one before.
LOOK_SECONDS, FIRST_PAUSE, MOST_PAUSE = 0.5, 2.0, 300.0


class Gone(Exception):
    """The process that gets stamps has ended."""


class Stamper:
    """The process that gets stamps. It is started in the machine's network, before the front leaves that."""

    def __init__(self, place: StampsPlace) -> None:
        words = [sys.executable, "-P", "-m", "hpb.front.stamper", place.url, place.authority]
        self.process = subprocess.Popen(
            words, stdin=subprocess.PIPE, stdout=subprocess.PIPE, stderr=subprocess.DEVNULL, preexec_fn=end_with_parent, start_new_session=True
        )

    def ask(self, signed: SignedSeal) -> str:
        """The line for a seal. A Gone says that the process has ended."""
        assert self.process.stdin and self.process.stdout
        try:
            self.process.stdin.write(f"{signed.seal.number} {signed.stamped.hex()}\n".encode())
            self.process.stdin.flush()
            line = self.process.stdout.readline().decode("latin-1").strip()
        except OSError:
            line = ""
        if not line:
            raise Gone("the process that gets stamps has ended; it is started with the front's next start")
        return line


class Seals(Protocol):
    """The seals on the disk without a stamp, in their order."""

    def unstamped(self) -> list[SignedSeal]: ...


class Stamping:
    """Has each seal stamped. `note` writes a line into the log."""

    def __init__(self, stamper: Stamper, seals: Seals, post: Callable[[Event], None], note: Callable[..., None]) -> None:
        self.seals, self.post, self.note = seals, post, note
        self.worker: Worker[SignedSeal, str] = Worker(stamper.ask)
        # The last seal whose stamp is on its way to the record.
        self.posted = 0

    async def keep_stamping(self) -> None:
        pause = FIRST_PAUSE
        while True:
            await asyncio.sleep(LOOK_SECONDS)
            signed = next((one for one in self.seals.unstamped() if one.seal.number > self.posted), None)
            if signed is None:
                continue
            try:
                why = self.take((await self.worker.do(signed)).split(" ", 3))
            except Gone as fault:
                self.note("stamp", number=signed.seal.number, outcome="failed", why=str(fault))
                return
            if why:
                self.note("stamp", number=signed.seal.number, outcome="failed", why=why)
                await asyncio.sleep(pause)
                pause = min(2 * pause, MOST_PAUSE)
            else:
                pause = FIRST_PAUSE

    def take(self, words: list[str]) -> str:
        """Takes the line about a seal. Gives the reason if there is no stamp."""
        if words[0] != "OK":
            return " ".join(words[2:])
        _, number, time, token = words
        self.posted = int(number)
        self.note("stamp", number=self.posted, outcome="stamped")
        self.post(Stamped(self.posted, time, token))
        return ""


def begin_stamper(seals: SealsPlace | None) -> Stamper | None:
    """The process that gets stamps, if the configuration has an authority for them."""
    return Stamper(seals.stamps) if seals and seals.stamps else None
