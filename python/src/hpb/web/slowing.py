"""How failed tries of tokens are slowed, by address and by name. No input or output: each call gets the time, in seconds.

After some failures in a row the next try of the same address, or for the same name, has to wait: each time twice as long. A try that
succeeds clears its address and its name.
"""
import ipaddress
from dataclasses import dataclass
from typing import Final

# So many failures cost nothing. Then a try waits for a second, two, four and so on, up to the most.
FREE: Final = 5
MOST_SECONDS: Final = 300.0
# A name waits less: else anybody could keep its owner out.
MOST_SECONDS_OF_NAME: Final = 30.0
# Failures are forgotten after so many seconds without one.
FORGOTTEN: Final = 900.0
MOST_KEYS: Final = 10_000


@dataclass(slots=True)
class _Tries:
    failures: int
    last: float


class Slowing:
    """The failures of each address and each name."""

    def __init__(self) -> None:
        self._tries: dict[str, _Tries] = {}

    def wait(self, address: str, name: str | None, now: float) -> float:
        """How many seconds are left until a try may be made; 0 if it may be made now."""
        waits = [self._left(key, most, now) for key, most in _keys(address, name)]
        return max(waits)

    def _left(self, key: str, most: float, now: float) -> float:
        tries = self._tries.get(key)
        if tries is None or tries.failures < FREE:
            return 0.0
        pause = min(most, 2.0 ** min(tries.failures - FREE, 20))
        return max(0.0, tries.last + pause - now)

    def failed(self, address: str, name: str | None, now: float) -> None:
        """A try has failed."""
        for key, _ in _keys(address, name):
            tries = self._tries.pop(key, None)
            failures = tries.failures if tries and now - tries.last < FORGOTTEN else 0
            self._tries[key] = _Tries(failures + 1, now)
        while len(self._tries) > MOST_KEYS:
            del self._tries[next(iter(self._tries))]

    def succeeded(self, address: str, name: str | None) -> None:
        """A try has succeeded."""
        for key, _ in _keys(address, name):
            self._tries.pop(key, None)


def _keys(address: str, name: str | None) -> list[tuple[str, float]]:
    """The keys of a try, each with the most seconds that it waits. Of IPv6 the 64 bits of a network count as one address."""
    try:
        known = ipaddress.ip_address(address)
    except ValueError:
        place = address
    else:
        place = str(ipaddress.ip_network((known, 64), strict=False)) if known.version == 6 else str(known)
    keys = [(f"address {place}", MOST_SECONDS)]
    return keys if name is None else [*keys, (f"name {name}", MOST_SECONDS_OF_NAME)]
