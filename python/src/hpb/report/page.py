"""The page about an auction's file (docs/REPORT.md). It has no script and needs no other file."""
import pathlib
from collections.abc import Iterable, Iterator, Sequence
from typing import Final

from hpb.amounts import money
from hpb.drawing.tree import STYLE as PICTURE_STYLE
from hpb.limits import MOST_COMMANDS
from hpb.lines import Shown
from hpb.markup import Markup, element
from hpb.report.closing import Report
from hpb.report.pieces import notice, strong
from hpb.report.rest import bidders_section, definition_section, record_section, stages_section
from hpb.report.result import certificate_section, found_again_section, nodes_section, result_section, tree_section
from hpb.rounds import MOCK, NOTICE
from hpb.rules.mock import MARK, is_mock
from hpb.rules.tree import Tree

_STYLE: Final = pathlib.Path(__file__).with_name("report.css")
_SECTIONS = (
    tree_section, result_section, bidders_section, nodes_section, certificate_section, found_again_section, stages_section,
    definition_section,
)


def page(report: Report, sums: Sequence[str] = ()) -> str:
    """The whole page. Equal bytes of a file give an equal page. `sums` are the lines of the record that belongs to the file, if it is named."""
    shown = report.told.shown
    title = f"{f'{MOCK} auction' if is_mock(report.tree.definition) else 'Auction'}, round {money(shown.round)}, {_state_of(shown)}"
    named = [record_section(sums)] if sums else []
    return document(title, [*_notices(report), _summary(report), *(made(report) for made in _SECTIONS), *named])


def document(title: str, parts: Iterable[Markup]) -> str:
    """A page with a title and its parts."""
    head = element(
        "head", element("meta", charset="utf-8"), element("meta", name="viewport", content="width=device-width, initial-scale=1"),
        element("meta", name="color-scheme", content="light dark"),
        element("meta", http_equiv="Content-Security-Policy", content="default-src 'none'; style-src 'unsafe-inline'"),
        element("title", title), element("style", Markup("\n" + _STYLE.read_text(encoding="utf-8") + PICTURE_STYLE)),
    )
    main_part = element("main", element("h1", title), *parts)
    return Markup("<!DOCTYPE html>\n") + element("html", head, element("body", main_part), lang="en") + "\n"


def _state_of(shown: Shown) -> str:
    return "over" if shown.is_over else "open"


def mock_notice(tree: Tree) -> Iterator[Markup]:
    """Says of a mock that it is one."""
    if is_mock(tree.definition):
        yield notice(strong(NOTICE), f" The bidder {MARK} marks it, and nobody bids for that.", is_fault=False)


def _notices(report: Report) -> Iterator[Markup]:
    yield from mock_notice(report.tree)
    for fault in report.faults:
        yield notice(strong("Not right: "), fault, ".", is_fault=True)
    shown = report.told.shown
    if report.ends_at_a_close:
        yield notice(
            strong("A close now ends the auction, for good."), f" In round {shown.round} nobody has bid or waived yet.", is_fault=False
        )
    if not shown.is_over and report.closed is None:
        yield notice(
            strong("Nothing is accepted any more"), f", and no close either: there have been {money(MOST_COMMANDS)} commands. "
            "Bids since the last close never count.", is_fault=False,
        )


def _summary(report: Report) -> Markup:
    shown, tree = report.told.shown, report.tree
    sold = sum(len(tree.licences[name]) for name in report.told.winners)
    rows = [
        ("Auction", f"{_state_of(shown)}, in round {money(shown.round)}"),
        ("Stage", f"{shown.stage} of {len(tree.definition.stages)}, {report.percentage} percent"),
        ("Revenue", f"{money(shown.revenue)} dollars"),
        ("Licences sold", f"{sold} of {len(tree.all_licences)}"),
        ("Commands accepted", money(shown.count)),
    ]
    if report.closed:
        rows.append(("The auctioneer's next ticket", money(shown.next_ticket)))
    facts = (element("div", element("dt", what), element("dd", value)) for what, value in rows)
    return element("dl", *facts, class_="facts")
