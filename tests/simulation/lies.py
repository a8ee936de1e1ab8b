"""Lies: each is a changed output of one seed, as it would be if something were wrong, or None if nothing of the kind happened in it."""

from __future__ import annotations

from collections.abc import Callable

from simulation.judging import LINES_OF_AN_AUCTION

Lie = Callable[[list[str]], list[str] | None]


def _is(line: str, kind: str) -> bool:
    return line.split()[0] == kind


def _places(lines: list[str], kind: str) -> list[int]:
    return [place for place, line in enumerate(lines) if _is(line, kind)]


def batch_is_lost(lines: list[str]) -> list[str] | None:
    """After a stop an older auction is found, as if an acknowledged batch, or its frame, were gone."""
    found = _places(lines, "state")
    for before, place in zip(found, found[1:]):
        old, new = (lines[at : at + LINES_OF_AN_AUCTION] for at in (before, place))
        if old != new:
            return lines[:place] + old + lines[place + LINES_OF_AN_AUCTION :]
    return None


def repeat_is_taken_twice(lines: list[str]) -> list[str] | None:
    """A command that is sent again is accepted once more."""
    for place in _places(lines, "leave"):
        *words, at, reply, number = lines[place].split()
        if reply == "ok" and int(number) <= int(at):
            return [*lines[:place], " ".join([*words, at, reply, str(int(at) + 1)]), *lines[place + 1 :]]
    return None


def answer_differs(lines: list[str]) -> list[str] | None:
    """A client takes another answer than the one that left."""
    for place in _places(lines, "take"):
        *words, number = lines[place].split()
        return [*lines[:place], " ".join([*words, str(int(number) + 1)]), *lines[place + 1 :]]
    return None


def answer_is_lost(lines: list[str]) -> list[str] | None:
    """A client's first answer never comes, and it takes the one behind it."""
    taken = _places(lines, "take")
    for place in taken:
        seat = lines[place].split()[1]
        later = [at for at in taken if at > place and lines[at].split()[1] == seat]
        if later and not any(_is(line, "stop") for line in lines[place : later[0]]):
            return lines[:place] + lines[place + 1 :]
    return None


def answer_is_early(lines: list[str]) -> list[str] | None:
    """A batch is acknowledged before the last turn."""
    for place in _places(lines, "commit"):
        if lines[place] == "commit done":
            last = max(at for at in _places(lines[:place], "commit") if lines[at] == "commit went")
            return lines[:last] + lines[last + 1 :]
    return None


def client_forgets(lines: list[str]) -> list[str] | None:
    """A command that wasn't answered isn't sent again after a stop."""
    stops = _places(lines, "stop")
    posts = [place for place in _places(lines, "post") if stops and place > stops[0]]
    sent = {line for line in lines[: stops[0]] if _is(line, "post")} if stops else set()
    for place in posts:
        if lines[place] in sent:
            return lines[:place] + lines[place + 1 :]
    return None


LIES: tuple[Lie, ...] = (batch_is_lost, repeat_is_taken_twice, answer_differs, answer_is_lost, answer_is_early, client_forgets)
