"""How a program may end if a request for memory is refused: as it would with memory, or early, by the fault of memory."""

from __future__ import annotations

import re

from harness.refusals import Tried

ILL = 1
LINE = b"ERR 90 memory\n"
PLACE = b"ERR 94 place\n"
SAID = b"hpb: 90 memory: memory was refused\n"
SAID_OF_PLACE = b"hpb: 94 place"
# Standard error of a server without memory. A refused thread counts as refused memory.
SAID_OF_SERVE = (
    b"hpb: 90 memory: memory, or a thread, was refused: free some memory, let the process have more threads (ulimit -u), or give "
    b"fewer to --sessions. All that was answered by OK is kept\n"
)
SAID_OF_RUN = (
    b"hpb: 90 memory: memory was refused. All that was answered by OK is kept. Then go on by `hpb run --file F --batch 2 --every 3`, and send again, in their order, "
    b"the lines that have no answer\n"
)
# If a definition ends too early, this follows the reason, unless memory for it is refused.
HINT = b": a script has the whole definition in its first line, as `jq -c . definition.json` writes it"
# The lines about sessions on standard error: places that are taken, who holds them, how their sessions ended, and a thread or a notice for
# which memory was refused.
BESIDE = re.compile(rb"hpb: (\d+ of \d+ places taken|place \d+ of \d+ (is held by|\(\S+\) has ended:)|a thread was refused|1 notice was not written:)[^\n]*\n")


def is_short(tried: Tried) -> bool:
    """Whether nothing was written, or the line `ERR 90 memory` alone."""
    return tried.output in (b"", LINE)


def is_said_of_serve(errors: bytes) -> bool:
    """Whether standard error says that memory was refused to a server. There may be no memory to say more."""
    return SAID.startswith(errors) or SAID_OF_SERVE.startswith(errors)


class Whole:
    """What a program does with memory. `said` are the messages that it may have if memory is refused."""

    def __init__(self, tried: Tried, *said: bytes) -> None:
        self.tried, self.said = tried, (SAID, *said)
        # It may have no memory to say why a definition is refused.
        refused = [line[4:] for line in tried.output.split(b"\n") if line.startswith(b"ERR ")]
        without_reason = b"".join(b"hpb: " + line + b": docs/PROTOCOL.md says what a definition must be\n" for line in refused)
        self.reasons = (tried.errors, tried.errors.replace(HINT, b""), without_reason)

    def allows(self, found: Tried) -> bool:
        """Whether a run did the same, or ended early by the fault of memory, with a front of it."""
        has_reason = any(reason.startswith(found.errors) for reason in self.reasons)
        if (found.status, found.output) == (self.tried.status, self.tried.output) and has_reason:
            return True
        is_front = self.tried.output.startswith(found.output) or is_short(found)
        return found.status == ILL and is_front and (has_reason or any(said.startswith(found.errors) for said in self.said))


def ending(found: Tried) -> str:
    """How a run ended, for people."""
    return f"{found.output[-200:]!r}, {found.errors[-200:]!r}, {found.status}"
