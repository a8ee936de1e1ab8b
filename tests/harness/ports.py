"""The listening ports of this network, as any user of the machine may see them."""

from __future__ import annotations

from pathlib import Path

LISTENS = "0A"


def listening() -> set[int]:
    """The ports at which something listens, over IPv4 or IPv6."""
    return {port for table in ("tcp", "tcp6") for port in _listening_in(Path("/proc/thread-self/net", table))}


def _listening_in(table: Path) -> set[int]:
    rows = [line.split() for line in table.read_text().splitlines()[1:]] if table.exists() else []
    return {int(row[1].rsplit(":", 1)[1], 16) for row in rows if row[3] == LISTENS}
