"""Reads the clocks of the system for a front: UTC, the monotonic clock, and whether UTC is synchronised (docs/ROUNDS.md)."""
import ctypes
import time
from collections.abc import Callable

from hpb.front.core.events import ClockRead

LIBRARY = ctypes.CDLL(None)
# adjtimex(2) fills a structure of 208 bytes. Its result says whether UTC is synchronised: TIME_ERROR if not.
TIMEX_BYTES, TIME_ERROR = 256, 5
# Two readings are at one moment if no more than this passes between them.
MOST_BETWEEN = 0.05
ATTEMPTS = 5

Reads = Callable[[], float]


def read(monotonic: Reads = time.monotonic, utc: Reads = time.time) -> ClockRead:
    """Both clocks at one moment. If the process is held up between the two readings, they are read again."""
    for _ in range(ATTEMPTS):
        before, found, after = monotonic(), utc(), monotonic()
        if after - before <= MOST_BETWEEN:
            break
    return ClockRead((before + after) / 2, found, is_synchronised())


def is_synchronised() -> bool:
    """Whether the system says that UTC is right. It does while a program as chronyd or ntpd keeps it so. If it can't be asked, it isn't."""
    result = int(LIBRARY.adjtimex(ctypes.create_string_buffer(TIMEX_BYTES)))
    return 0 <= result < TIME_ERROR
