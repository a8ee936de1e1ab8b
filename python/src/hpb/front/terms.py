"""The terms that a front reads again at SIGHUP: tokens, limits and certificate (docs/FRONT.md)."""
import asyncio
import time
from collections.abc import Callable
from dataclasses import dataclass, replace

from hpb.front.certificate import LOOK_SECONDS, Certificate
from hpb.front.config import Config
from hpb.front.faults import Wrong
from hpb.front.limits import Limits
from hpb.front.log import Log
from hpb.front.tokens import Tokens
from hpb.threads import in_thread

# Within so many seconds the files are read again, or refused: their disk may hang.
READ_SECONDS = 30.0
# Faults whose text is said. That of others may hold secrets, such as a token.
SAID = (Wrong, OSError, RuntimeError, MemoryError)


@dataclass(frozen=True)
class Terms:
    """Terms that are in force together."""

    limits: Limits
    tokens: Tokens
    certificate: Certificate | None


def read_terms(path: str, in_force: Config | None = None) -> tuple[Config, Terms]:
    """Reads a configuration and its terms. If there is one in force, its names and its file of tokens stay."""
    config = Config(path)
    known = in_force or config
    try:
        tokens = known.token_file().tokens()
    except Wrong as fault:
        if known.roles.keys() == config.roles.keys():
            raise
        raise Wrong(f"{fault}. The names are those with which the front was started: other names count from the next start on") from None
    return config, Terms(config.limits, tokens, config.read_certificate())


class Reload:
    """Keeps the terms in force. `take` gets the new terms after each change."""

    def __init__(self, config: Config, terms: Terms, take: Callable[[Terms], None], say: Callable[[str], None], log: Log) -> None:
        self.config, self.terms, self.take, self.say, self.log = config, terms, take, say, log
        self.in_turn = asyncio.Lock()

    async def change(self) -> None:
        """Reads everything again, one change after the other, so that the last signal's files stay in force. If anything in them is wrong,
        the old terms stay in force."""
        async with self.in_turn:
            try:
                reading = in_thread(lambda: read_terms(self.config.path, self.config))
                config, terms = await asyncio.wait_for(reading, READ_SECONDS)
            except asyncio.TimeoutError:
                self.refuse(f"they aren't read within {READ_SECONDS:g} seconds, as when a disk hangs")
                return
            except Exception as fault:  # Whatever is wrong with them, the front goes on as before.
                self.refuse(str(fault) if isinstance(fault, SAID) else f"a fault of the front: {type(fault).__name__}")
                return
            self.change_to(self.config.differs_in(config), terms)

    def refuse(self, why: str) -> None:
        self.say(f"the files that were read again are refused, and the old tokens, certificate and limits stay in force: {why}")
        self.log.write("reload", outcome="refused", why=why)

    def change_to(self, differs: list[str], terms: Terms) -> None:
        """Puts new terms in force. `differs` are changed fields that stay as they were."""
        if differs:
            self.say(f"these stay as they were until the front is started again: {', '.join(differs)}")
        if "certificate" in differs:
            terms = replace(terms, certificate=self.terms.certificate)
        self.terms = terms
        self.take(terms)
        self.say("tokens, certificate and limits were read again")
        self.log.write("reload", outcome="taken")
        self.look_at_certificate()

    def look_at_certificate(self) -> None:
        """Warns if the certificate ends soon."""
        if self.terms.certificate and (said := self.terms.certificate.says(time.time())):
            self.say(said)

    async def keep_looking_at_certificate(self) -> None:
        """Looks at the certificate at the start, and then daily."""
        while self.terms.certificate:
            self.look_at_certificate()
            await asyncio.sleep(LOOK_SECONDS)
