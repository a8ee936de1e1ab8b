"""What names may know (docs/FRONT.md), by pairs of runs that differ in what a viewer may not know alone (`front_pairs`)."""
from __future__ import annotations

from collections.abc import Callable

import pytest

from front_pairs import EXPORT, LINES, NEWS, PAGE, RULES, SIZES, differing, pair
from hpb.front import sight
from hpb.front.core import information, news, sealing, veil
from hpb.front.core.information import Viewer
from hpb.front.core.state import Session
from hpb.front.core.stepping import Step
from hpb.lines import Shown
from hpb.pages import walls
from hpb.pages.page import Page
from hpb.pages.view import Seen

# The rule of a seed is that of its remainder.
SEEDS, MORE_SEEDS, PLANT_SEEDS = 100, 1_000, 40
VIEWERS = {"a bidder": ("ann", "bob"), "an observer": ("public", "public")}
Patch = pytest.MonkeyPatch
Plant = Callable[[Patch], None]


def seeds_of(rule: int, count: int) -> range:
    return range(rule, count, len(RULES))


@pytest.mark.parametrize("rule", range(len(RULES)))
@pytest.mark.parametrize("viewer", VIEWERS)
def test_runs_that_differ_in_what_a_viewer_may_not_know_look_alike(viewer: str, rule: int) -> None:
    for seed in seeds_of(rule, SEEDS):
        assert differing(pair(seed, VIEWERS[viewer][seed % 2])) == [], seed


@pytest.mark.parametrize("viewer", VIEWERS)
def test_runs_with_seals_and_receipts_look_alike_but_for_hashes_and_numbers_of_entries(viewer: str) -> None:
    for seed in range(2 * len(RULES)):
        assert differing(pair(seed, VIEWERS[viewer][seed % 2], has_seals=True)) == [], seed


@pytest.mark.slow
@pytest.mark.timeout(3_600)
@pytest.mark.parametrize("rule", range(len(RULES)))
@pytest.mark.parametrize("viewer", VIEWERS)
def test_many_runs_look_alike(viewer: str, rule: int) -> None:
    for seed in seeds_of(rule + SEEDS, SEEDS + MORE_SEEDS):
        assert differing(pair(seed, VIEWERS[viewer][seed % 2])) == [], seed


def test_who_may_know_all_is_given_what_differs() -> None:
    """An observer that the configuration names, in each channel but that of news: these are the same."""
    found = {channel for seed in seeds_of(0, 20) for channel in differing(pair(seed, "public", "public"))}
    assert found == {LINES, PAGE, EXPORT, SIZES}


def test_once_it_is_unveiled_names_are_given_what_differs() -> None:
    found = set()
    for seed in seeds_of(0, 20):
        runs = pair(seed, "ann")
        assert differing(runs) == []
        for run in runs:
            run.unveil()
        found |= set(differing(runs))
    # All names of bidders have one letter, so both runs give as many bytes.
    assert found == {LINES, PAGE, EXPORT}


# Leaks, each with the channel in which it shows.


def leave_it(patch: Patch) -> None:
    """Answers of the server leave as they are."""
    patch.setattr(veil, "answer_to", lambda step, session: session.answer)


def count_of_now(patch: Patch) -> None:
    """SHOW has the count of now."""
    seen = information.seen_by

    def leaky(viewer: Viewer, fact: Shown) -> Shown | None:
        found = seen(viewer, fact)
        return Shown(found.round, found.stage, found.is_over, found.revenue, fact.count) if isinstance(found, Shown) else found

    patch.setattr(veil, "seen_by", leaky)


def order_of_the_definition(patch: Patch) -> None:
    """Pseudonyms are numbered by the definition."""
    patch.setattr(Viewer, "name_for", lambda self, bidder: bidder and (bidder if bidder in self.role.bidders else f"other{'xyzw'.index(bidder) + 1}"))


def news_of_others(patch: Patch) -> None:
    """Everybody gets news that are for one name."""
    patch.setattr(news, "seen_by", lambda viewer, fact: fact)


def numbers_of_all_news(patch: Patch) -> None:
    """The numbers of news count those for others."""
    patch.setattr(news, "last_of", lambda front, name: sum(front.told.values()))


def page_of_all(patch: Patch) -> None:
    """The page isn't limited."""
    patch.setattr(sight, "limited", lambda viewer, seen: seen)


def page_knows_how_a_round_began(patch: Patch) -> None:
    """The page says whether anybody has bid in a round, as far as it saw."""
    limited = sight.limited

    def leaky(viewer: Viewer, seen: Seen) -> Seen:
        return limited(viewer, seen)._replace(hides_count=False, begin=seen.begin)

    patch.setattr(sight, "limited", leaky)


def page_tells_of_each_change(patch: Patch) -> None:
    """An event without anything new says that something has happened."""
    patch.setattr(walls.Wall, "_is_same", lambda self, own: False)


def picture_of_all(patch: Patch) -> None:
    """The picture is made of all that the page knows."""
    known: list[Seen] = []
    limited, picture = sight.limited, Page.picture

    def remembered(viewer: Viewer, seen: Seen) -> Seen:
        known.append(seen)
        return limited(viewer, seen)

    patch.setattr(sight, "limited", remembered)
    patch.setattr(Page, "picture", lambda self, view: picture(self, view._replace(seen=known[-1]) if view.seen else view))


def padded_answers(patch: Patch) -> None:
    """Each answer has as many spaces behind it as the hidden name has letters and more."""
    answer_to = veil.answer_to

    def padded(step: Step, session: Session) -> bytes | None:
        told = session.answer.split(b" ")
        answer = answer_to(step, session)
        return answer and answer + b" " * (b"xyzw".find(told[4]) + 1 if told[0] == b"NODE" else 0)

    patch.setattr(veil, "answer_to", padded)


PLANTS: list[tuple[Plant, str]] = [
    (leave_it, LINES), (count_of_now, LINES), (order_of_the_definition, LINES), (news_of_others, NEWS), (numbers_of_all_news, NEWS),
    (page_of_all, PAGE), (page_knows_how_a_round_began, PAGE), (page_tells_of_each_change, PAGE), (picture_of_all, EXPORT), (padded_answers, SIZES),
]


@pytest.mark.parametrize(("plant", "channel"), PLANTS, ids=[plant.__name__ for plant, _ in PLANTS])
def test_a_planted_leak_is_found_in_its_channel(plant: Plant, channel: str, monkeypatch: Patch) -> None:
    plant(monkeypatch)
    assert any(channel in differing(pair(seed, "ann")) for seed in range(PLANT_SEEDS))


def test_a_planted_leak_of_receipts_is_found(monkeypatch: Patch) -> None:
    """Everybody gets receipts for commands of others."""
    monkeypatch.setattr(sealing, "seen_by", lambda viewer, fact: fact)
    assert any(LINES in differing(pair(seed, "ann", has_seals=True)) for seed in range(PLANT_SEEDS))
