"""The limits of a front (docs/FRONT.md)."""
from dataclasses import dataclass

# Each limit: its default, and its range.
LIMITS = {
    "line_bytes": (128, 32, 128),
    "lines_waiting": (16, 1, 1024),
    "lines_per_second": (50, 1, 1_000_000),
    "connections": (16, 1, 1024),
    "unknown_connections": (64, 1, 1024),
    "token_seconds": (10, 1, 600),
    "idle_seconds": (600, 1, 604_800),
    "handshakes_per_second": (50, 1, 10_000),
    "all_handshakes_per_second": (200, 1, 10_000),
    "after_end_seconds": (60, 0, 604_800),
}
# So many seconds' worth of lines or handshakes may come at once.
BURST_SECONDS = 2


@dataclass(frozen=True)
class Limits:
    """The limits in force, by their names in the configuration."""

    line_bytes: int
    lines_waiting: int
    lines_per_second: int
    connections: int
    unknown_connections: int
    token_seconds: int
    idle_seconds: int
    handshakes_per_second: int
    all_handshakes_per_second: int
    after_end_seconds: int


DEFAULTS = Limits(**{name: default for name, (default, _, _) in LIMITS.items()})
