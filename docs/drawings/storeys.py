"""The crates by storey, from crates.txt."""
from collections.abc import Iterator, Mapping
from dataclasses import dataclass
from functools import cache
from pathlib import Path
from typing import Final

from drawings.canvas import MARGIN, WIDTH, Box, Canvas

_TOP: Final = Path(__file__).resolve().parents[2]
_PREFIX: Final = "hpb_"
_LEFT, _GAP, _HEIGHT, _COLUMNS = 150, 8, 42, 3
_CARD: Final = (WIDTH - _LEFT - MARGIN - _GAP * (_COLUMNS + 1)) / _COLUMNS


@dataclass(frozen=True, slots=True)
class Storey:
    """Some crates, the kind of their box, and what they are for."""

    name: str
    about: str
    kind: str
    crates: tuple[str, ...]


# From the top down. Each crate stands in one of them, and depends only on crates of its own storey and of those below.
STOREYS: Final = (
    Storey("text", "lines and files in, answers out", "thread", (
        "hpb", "hpb_program", "hpb_messages", "hpb_words", "hpb_run", "hpb_serve", "hpb_server", "hpb_define", "hpb_reasons", "hpb_wire")),
    Storey("edge", "many threads", "torn", ("hpb_house", "hpb_rings", "hpb_board")),
    Storey("device", "bytes that survive a crash", "kept", (
        "hpb_engine", "hpb_format", "hpb_recover", "hpb_journal", "hpb_slots", "hpb_codec", "hpb_disk")),
    Storey("auction", "bids, winners, prices, units", "plain", (
        "hpb_auction", "hpb_units", "hpb_prices", "hpb_winners", "hpb_bids", "hpb_tree", "hpb_money")),
    Storey("meaning", "definitions, laws", "plain", ("hpb_rules",)),
    Storey("tests", "no part of the program", "test", (
        "hpb_test_sessions", "hpb_test_simulation", "hpb_test_house", "hpb_test_run", "hpb_test_engine", "hpb_test_auction",
        "hpb_test_memory", "hpb_bench")),
)


def crates() -> dict[str, list[str]]:
    """For each crate, the crates of this repository that it depends on."""
    found = {}
    for line in (_TOP / "crates.txt").read_text(encoding="utf-8").splitlines():
        if ":" in line and not line.startswith("#"):
            name, _, others = line.partition(":")
            found[name.strip()] = [other for other in others.split() if other.startswith(_PREFIX)]
    return found


def check_storeys(known: Mapping[str, list[str]]) -> None:
    """Raises `ValueError` if a crate stands in no storey or in two, or if it depends on a crate above it."""
    place = {name: number for number, storey in enumerate(STOREYS) for name in storey.crates}
    placed = [name for storey in STOREYS for name in storey.crates]
    if sorted(placed) != sorted(known):
        raise ValueError(f"drawings/storeys.py: crates.txt differs in {', '.join(sorted(set(placed) ^ set(known)))}")
    for name, others in known.items():
        for other in others:
            if place[other] < place[name] and place[name] != len(STOREYS) - 1:
                raise ValueError(f"drawings/storeys.py: {name} stands below {other}")


def nearest(known: Mapping[str, list[str]], name: str) -> list[str]:
    """The crates that a crate depends on, without those that one of them depends on too."""
    @cache
    def below(crate: str) -> frozenset[str]:
        return frozenset(known[crate]).union(*(below(other) for other in known[crate]))

    return [other for other in known[name] if not any(other in below(third) for third in known[name])]


def drawn() -> str:
    """The drawing."""
    known = crates()
    check_storeys(known)
    canvas = Canvas("storeys", "The crates by storey", _description(known))
    canvas.paragraph(
        Box(MARGIN, MARGIN, WIDTH - 2 * MARGIN, 40),
        "A crate stands on crates of its own storey and of those below, one of tests on any. The line under a name has the nearest ones, "
        "without hpb_; crates.txt has all.",
        "soft",
    )
    top = float(MARGIN + 46)
    for storey in STOREYS:
        if storey.kind == "test":
            canvas.line([(MARGIN, top + 1), (WIDTH - MARGIN, top + 1)], "dashed")
            top += 10
        top = _draw(canvas, storey, known, top)
    return canvas.drawn(top + MARGIN - _GAP)


def _draw(canvas: Canvas, storey: Storey, known: Mapping[str, list[str]], top: float) -> float:
    rows = -(-len(storey.crates) // _COLUMNS)
    height = rows * (_HEIGHT + _GAP) + _GAP
    canvas.box(Box(MARGIN, top, WIDTH - 2 * MARGIN, height), "faint")
    canvas.text(MARGIN + 12, top + 21, storey.name, "heading")
    canvas.paragraph(Box(MARGIN + 12, top + 26, _LEFT - MARGIN - 16, height - 30), storey.about, "small soft")
    for number, name in enumerate(storey.crates):
        row, column = divmod(number, _COLUMNS)
        card = Box(_LEFT + _GAP + column * (_CARD + _GAP), top + _GAP + row * (_HEIGHT + _GAP), _CARD, _HEIGHT)
        canvas.box(card, storey.kind)
        canvas.text(card.left + 9, card.top + 17, name, "name code")
        canvas.text(card.left + 9, card.top + 33, _on(nearest(known, name)), "small soft")
    return top + height + _GAP


def _on(others: list[str]) -> str:
    return "on " + (", ".join(other.removeprefix(_PREFIX) for other in others) or "no other crate")


def _description(known: Mapping[str, list[str]]) -> str:
    def told() -> Iterator[str]:
        for storey in STOREYS:
            yield f"{storey.name} ({storey.about}): " + "; ".join(f"{name} {_on(nearest(known, name))}" for name in storey.crates)

    return ". ".join(told()) + "."
