"""A stand-in for the program that does something else than it should: a test has to see that.

    python3 -S -m outside.liar LIE PROGRAM words..

It lets the program do the work on the same streams, and changes what comes of it. What each lie changes stands at its function, here or
in `outside.limited`.
"""

from __future__ import annotations

import subprocess
import sys
import time
from collections.abc import Callable

from outside.limited import LIMITS, end_with_parent, outcome

# Longer than any test may take, in seconds.
LONG = 3600
# What a reader of lines may make room for at a time, in bytes.
PART = 1 << 16

Bytes = Callable[[bytes], bytes]
Status = Callable[[int], int]


def wrong(output: bytes) -> bytes:
    """The last character of the last answer is another one."""
    return output[:-2] + b"~\n" if output else output


def late(output: bytes) -> bytes:
    """All answers are written at the end, and not as they come."""
    return output


def silent(errors: bytes) -> bytes:
    """Nothing is said on standard error."""
    return b""


def blamed(errors: bytes) -> bytes:
    """Something is said on standard error though all is well."""
    return errors or b"hpb: 60 json: the definition is empty\n"


def well(status: int) -> int:
    """The status says that all is well."""
    return 0


def ill(status: int) -> int:
    """The status says that something was refused."""
    return 1


def endless(status: int) -> int:
    """It doesn't end."""
    time.sleep(LONG)
    return status


def lines(text: bytes) -> bytes:
    """What stands behind 65,536 bytes of a line is the next one, in a script and a run."""
    return b"\n".join(line[at : at + PART] for line in text.split(b"\n") for at in range(0, max(1, len(line)), PART))


TEXTS: dict[str, Bytes] = {"lines": lines}
OUTPUTS: dict[str, Bytes] = {"wrong": wrong, "late": late}
ERRORS: dict[str, Bytes] = {"silent": silent, "blamed": blamed}
STATUSES: dict[str, Status] = {"well": well, "ill": ill, "endless": endless}


def main() -> None:
    """Does what the words ask for, but for the lie."""
    lie, program, *words = sys.argv[1:]
    if lie.partition(":")[0] in LIMITS:
        output, status = outcome(lie, program, words)
        sys.stdout.buffer.write(output)
        sys.stdout.flush()
        sys.exit(status)
    takes_text = lie in TEXTS and words[:1] in ([], ["run"])
    ran = subprocess.run(
        [program, *words],
        input=TEXTS[lie](sys.stdin.buffer.read()) if takes_text else None,
        stdout=subprocess.PIPE if lie in OUTPUTS else None,
        stderr=subprocess.PIPE if lie in ERRORS else None,
        preexec_fn=end_with_parent,
    )
    sys.stdout.buffer.write(OUTPUTS.get(lie, bytes)(ran.stdout or b""))
    sys.stdout.flush()
    sys.stderr.buffer.write(ERRORS.get(lie, bytes)(ran.stderr or b""))
    sys.stderr.flush()
    sys.exit(STATUSES.get(lie, int)(ran.returncode))


if __name__ == "__main__":
    main()
