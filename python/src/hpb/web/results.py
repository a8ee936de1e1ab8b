"""The results of closed rounds, as the public may know them: a folder of files that any web server may show.

Each round has `round-N.json`, `round-N.csv` and `round-N.html`. `rounds.json`, `index.html` and `feed.atom` have them all. A file gets its
name once it is whole. The files of JSON are read again at a start.
"""
import json
import os
import pathlib
import re
from collections.abc import Mapping
from typing import Any, Final

from hpb.amounts import counted, money
from hpb.markup import Markup, element
from hpb.refusals import HpbError
from hpb.rounds import MOCK, NOTICE
from hpb.rules.tree import Tree
from hpb.web.rendering import csv_of, json_of

_ROUND: Final = re.compile(r"round-([1-9][0-9]{0,6})\.json")
ROUND_COLUMNS: Final = ("round", "is_mock", "seen_at", "is_over", "revenue")
NODE_COLUMNS: Final = ("node", "parent", "units", "high", "bidder", "price", "minimum", "wins")
# Of the nodes of a round as a list.
ROW_COLUMNS: Final = (*NODE_COLUMNS, "is_mock")
_ATOM: Final = "http://www.w3.org/2005/Atom"


class NotKept(HpbError):
    """The folder of results can't be used: it can't be read or written, or it has those of another auction."""


class Results:
    """The closed rounds that are known, by number, in a folder."""

    def __init__(self, folder: pathlib.Path, tree: Tree, title: str) -> None:
        """Reads the folder, which is made if there is none. If it can't be used, `NotKept` is raised."""
        self._folder, self._tree, self._title = folder, tree, title
        try:
            folder.mkdir(exist_ok=True)
            names = {int(found[1]): path for path in folder.iterdir() if (found := _ROUND.fullmatch(path.name))}
            self._rounds: dict[int, dict[str, Any]] = {number: self._read(names[number]) for number in sorted(names)}
        except OSError as fault:
            raise NotKept(f"{folder}: {fault.strerror}") from None

    def _read(self, path: pathlib.Path) -> dict[str, Any]:
        try:
            found: dict[str, Any] = json.loads(path.read_bytes())
            names = [node["node"] for node in found["nodes"]]
            assert type(found["is_mock"]) is bool
        except (ValueError, KeyError, TypeError, AssertionError):
            raise NotKept(f"{path} has no results of a round") from None
        if names != list(self._tree.nodes):
            raise NotKept(f"{path} has the results of another auction: give this one a folder of its own")
        return found

    @property
    def last(self) -> int:
        """The number of the last round that is known; 0 if none is."""
        return max(self._rounds, default=0)

    def rounds(self) -> list[dict[str, Any]]:
        """All that are known, in their order."""
        return [self._rounds[number] for number in sorted(self._rounds)]

    def round(self, number: int) -> dict[str, Any] | None:
        """The one with this number, if it is known."""
        return self._rounds.get(number)

    def add(self, number: int, document: dict[str, Any]) -> None:
        """A round was closed. If its files can't be written, `NotKept` is raised, and the round isn't known."""
        rounds = {**self._rounds, number: document}
        files = files_of(self._title, number, document, [rounds[one] for one in sorted(rounds)])
        # The file that is read again comes last.
        try:
            for name, data in sorted(files.items(), key=lambda one: one[0] == f"round-{number}.json"):
                _write(self._folder / name, data)
        except OSError as fault:
            raise NotKept(f"{self._folder}: {fault.strerror}") from None
        self._rounds = rounds


def _write(path: pathlib.Path, data: bytes) -> None:
    made = path.with_name(f"{path.name}.new")
    with open(made, "wb") as file:
        file.write(data)
        file.flush()
        os.fsync(file.fileno())
    made.replace(path)


def files_of(title: str, number: int, document: Mapping[str, Any], rounds: list[dict[str, Any]]) -> dict[str, bytes]:
    """The files that change with the close of a round, by name."""
    rows = [{column: one[column] for column in ROUND_COLUMNS} for one in rounds]
    return {
        f"round-{number}.json": json_of(document),
        f"round-{number}.csv": csv_of(rows_of(document), ROW_COLUMNS),
        f"round-{number}.html": round_page(title, document),
        "rounds.json": json_of({"rounds": rows}),
        "index.html": index_page(title, rounds),
        "feed.atom": feed_of(title, rounds),
    }


def rows_of(document: Mapping[str, Any]) -> list[dict[str, Any]]:
    """The nodes of a round, as rows of a list."""
    return [{**node, "is_mock": document["is_mock"]} for node in document["nodes"]]


def says(document: Mapping[str, Any]) -> str:
    """A closed round in a sentence."""
    revenue = document["revenue"]
    told = f"Round {document['round']} is closed" + ("." if revenue is None else f", with a revenue of {money(revenue)} dollars.")
    told = f"{NOTICE} {told}" if document["is_mock"] else told
    return f"{told} The auction is over." if document["is_over"] else told


def round_page(title: str, document: Mapping[str, Any]) -> bytes:
    """A round as a page without style or script."""
    sums = [f"{one['bidder']}: {counted(one['licences'], 'licence')}, {money(one['amount'])}" for one in document["bidders"]]
    head = element("tr", *(element("th", text, scope="col") for text in ("Node", "High bid", "Bidder", "Price", "Minimum", "Wins")))
    rows = [
        element(
            "tr",
            element("th", node["node"], scope="row"),
            *(element("td", text) for text in (money(node["high"]), node["bidder"] or "", money(node["price"]), money(node["minimum"]))),
            element("td", "wins" if node["wins"] else ""),
        )
        for node in document["nodes"]
    ]
    table = element("table", element("caption", f"All nodes after the close of round {document['round']}"), head, *rows)
    listed = element("ul", *(element("li", text) for text in sums)) if sums else Markup("")
    return _page(f"Round {document['round']} of {title}", element("p", says(document)), listed, table)


def index_page(title: str, rounds: list[dict[str, Any]]) -> bytes:
    """All rounds, the last one first."""
    links = [element("li", element("a", says(one), href=f"round-{one['round']}.html")) for one in reversed(rounds)]
    return _page(f"Results of {title}", element("ul", *links))


def _page(title: str, *parts: Markup) -> bytes:
    head = element("head", element("meta", charset="utf-8"), element("title", title))
    return Markup("<!DOCTYPE html>\n" + element("html", head, element("body", element("h1", title), *parts), lang="en")).encode()


def feed_of(title: str, rounds: list[dict[str, Any]]) -> bytes:
    """A feed of Atom, the last round first. Its links go by the feed's own address."""
    entries = [
        element(
            "entry",
            element("id", f"urn:hpb:{one['seen_at']}:{one['round']}"),
            element("title", f"{f'{MOCK}: ' if one['is_mock'] else ''}Round {one['round']}"),
            element("updated", one["seen_at"]),
            element("summary", says(one)),
            element("content", type="text/html", src=f"round-{one['round']}.html"),
        )
        for one in reversed(rounds)
    ]
    parts = [element("id", f"urn:hpb:{rounds[0]['seen_at']}"), element("title", f"Results of {title}"), element("updated", rounds[-1]["seen_at"])]
    author = element("author", element("name", title))
    return Markup('<?xml version="1.0" encoding="utf-8"?>\n' + element("feed", *parts, author, *entries, xmlns=_ATOM)).encode()
