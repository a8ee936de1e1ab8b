"""The sections of a report about bidders, stages and the definition."""
import hashlib
from collections.abc import Iterator, Sequence

from hpb.amounts import counted, money
from hpb.markup import Markup, element
from hpb.report.closing import FALLS, Report
from hpb.report.pieces import Column, Row, paragraph, section, table, text_column
from hpb.rules.writing import definition_line
from hpb.seals.sums import NAME


def bidders_section(report: Report) -> Markup:
    """Each bidder's state, and the effect of a close now on it."""
    waivers = report.tree.definition.waivers
    columns = [text_column("Bidder"), Column("Units at the start"), Column("Eligibility"), Column("Activity")]
    if report.closed:
        columns += [Column("Activity needed"), Column("Missing"), Column("At a close now", "phrase")]
    if waivers:
        columns.append(Column("Waivers left"))
    rows: list[Row] = []
    for bidder, who in report.told.whos.items():
        row: list[str | int] = [bidder, report.tree.bidders[bidder].units, who.eligibility, who.activity]
        if report.closed:
            prospect = report.prospects[bidder]
            row += [prospect.needed, prospect.missing, prospect.says]
        rows.append([*row, who.waivers_left] if waivers else row)
    falling = [bidder for bidder, prospect in report.prospects.items() if prospect.how == FALLS]
    return section(
        "bidders", "Bidders", *(paragraph(text) for text in _told_of_bidders(report, falling)),
        table("Each bidder now", columns, rows, marked=falling),
    )


def _told_of_bidders(report: Report, falling: Sequence[str]) -> Iterator[str]:
    yield (
        "The activity of a bidder is the units of all licences under the nodes on which it bid in the open round or that it won at the "
        "last close. Its eligibility is the most that its activity may be when it bids."
    )
    if not report.closed:
        return
    yield (
        f"In this stage a close wants an activity of {report.percentage} percent of the eligibility, rounded up: the activity needed. A "
        f"bidder with less, and without a waiver, falls to activity \N{MULTIPLICATION SIGN} 100 / {report.percentage}, rounded down."
    )
    yield f"At a close now {counted(len(falling), 'bidder')} of {len(report.prospects)} would lose eligibility."


def stages_section(report: Report) -> Markup:
    """Each stage, and whether it is in force."""
    shown = report.told.shown
    columns = [text_column("Stage"), Column("Percent of the eligibility"), text_column("In force")]
    rows: list[Row] = []
    for place, percentage in enumerate(report.tree.definition.stages, 1):
        when = "now" if place == shown.stage else "before" if place < shown.stage else "not yet"
        if shown.is_over:
            when = {"now": "at the end", "not yet": "never"}.get(when, when)
        rows.append((str(place), percentage, when))
    return section("stages", "Stages", table("How much activity each stage wants", columns, rows, marked=(str(shown.stage),)))


def definition_section(report: Report) -> Markup:
    """The definition, and the SHA-256 sums of its bytes and the file's."""
    definition = report.tree.definition
    line = definition_line(definition)
    waivers = "no waivers" if not definition.waivers else counted(definition.waivers, "waiver")
    told = (
        f"Each bid is a multiple of {money(definition.step)}, and at least {definition.percent} percent above its node's price once there is "
        f"one. Each bidder starts with {waivers}. This is the definition, as the file has it in its head:"
    )
    parts = [
        paragraph(told), element("pre", line.rstrip("\n"), tabindex="0"),
        table("SHA-256", [text_column("Of"), text_column("Sum")], [
            ("the file", _digest(report.image)),
            ("the definition, with its line feed", _digest(line.encode())),
        ]),
        paragraph("To compare, and to ask the program itself:"),
        element("pre", "sha256sum FILE\ntools/definition FILE | sha256sum\nhpb check --file FILE", tabindex="0"),
    ]
    return section("definition", "Definition and sums of bytes", *parts)


def record_section(sums: Sequence[str]) -> Markup:
    """The record that belongs to the file, and its seals, as lines that are compared word for word."""
    told = (
        "The file's SHA-256; the record by the hash of its first entry, the number of its entries and the hash of the last one; and each seal with "
        "its signature. Each seal names the round, and binds all entries before it."
    )
    return section(
        "record", "Record and seals", paragraph(told), element("pre", "\n".join(sums), id=NAME, tabindex="0"),
        paragraph("To compare them with the record and the file:"),
        element("pre", "hpb-verify --record RECORD --file FILE --key KEY --report REPORT", tabindex="0"),
    )


def _digest(data: bytes) -> Markup:
    return element("code", hashlib.sha256(data).hexdigest())
