"""A page for each round that was closed: winners, prices, and the sums that prove them, for a lawyer to add up (docs/VERIFY.md)."""
from collections.abc import Iterator, Mapping

from hpb.amounts import money
from hpb.lines import NodeShown
from hpb.markup import Markup, element
from hpb.record import Entry
from hpb.report.closing import Report, listed
from hpb.report.page import document, mock_notice
from hpb.report.pieces import Column, Row, equation, notice, paragraph, section, strong, table, text_column
from hpb.report.result import package_sums
from hpb.rounds import MOCK
from hpb.rules.mock import is_mock
from hpb.rules.told import read_told
from hpb.rules.tree import Tree
from hpb.seals.statement import SignedSeal

_WORDS = (
    ("A licence", " is a thing for sale. A package has several licences, and a bid on it is for all of them or for none."),
    ("A high bid", " is the highest bid on a licence or a package so far. Each round adds bids, and none is ever taken back."),
    ("A winner", " pays its bid. No licence is sold twice."),
    ("A licence's price", " is its share of what all winners pay together. The price of a package is the sum of its licences' prices."),
)


def round_page(tree: Tree, signed: SignedSeal, entry: Entry, stamped_at: str = "") -> str:
    """The page of the round that a seal closes, from the answers in the seal's entry."""
    report = Report(b"", tree, read_told(tree, entry["answers"]), None)
    mark = f"{MOCK} auction, r" if is_mock(tree.definition) else "R"
    faults = [notice(strong("Not right: "), fault, ".", is_fault=True) for fault in report.faults]
    return document(f"{mark}ound {money(signed.seal.round)}: the winners, and sums that prove them the best choice", [
        *mock_notice(tree), *faults, *_in_short(report, signed), _winners(report), _bidders(report), _proof(report), _seal_section(signed, entry, stamped_at),
    ])


def _in_short(report: Report, signed: SignedSeal) -> Iterator[Markup]:
    shown, seal = report.told.shown, signed.seal
    yield paragraph(
        f"The winners of this round pay {money(shown.revenue)} dollars together. No other choice of the bids, in which each licence is sold once at most, "
        f"brings more. Four sums prove that, and anyone can add them up. {'The auction ended with this round.' if shown.is_over else 'The auction went on.'}"
    )
    rows = [("Sealed at", f"{seal.at[:10]} {seal.at[11:19]} UTC"), ("Commands so far", money(seal.count)), ("The record begins with", f"{seal.record[:16]}..")]
    yield element("dl", *(element("div", element("dt", what), element("dd", value)) for what, value in rows), class_="facts")
    yield element("ul", *(element("li", strong(word), told) for word, told in _WORDS))


def _winners(report: Report) -> Markup:
    tree, nodes = report.tree, report.told.nodes
    columns = [text_column("Winner"), text_column("Bidder"), text_column("Licences that it takes"), Column("Bid")]
    rows: list[Row] = [(name, nodes[name].bidder or "", listed(tree.licences_of(name)), nodes[name].high) for name in report.told.winners]
    if not rows:
        return section("result", "Who wins", paragraph("Nobody: there is no bid yet."))
    return section("result", "Who wins", table("The winners of this round", columns, rows, ("Together", "", "", report.told.shown.revenue)))


def _bidders(report: Report) -> Markup:
    """The amount that each bidder pays, if the auction ends so."""
    nodes, rows = report.told.nodes, list[Row]()
    for bidder in report.tree.bidders:
        won = [name for name in report.told.winners if nodes[name].bidder == bidder]
        rows.append((bidder, ", ".join(won) or "nothing", sum(nodes[name].high for name in won)))
    columns = [text_column("Bidder"), text_column("Wins"), Column("Pays")]
    return section("each", "Each bidder", table("All bidders, if the auction ends so", columns, rows, ("Together", "", report.told.shown.revenue)))


def _proof(report: Report) -> Markup:
    """The four sums, and why they prove the result."""
    tree, nodes, revenue = report.tree, report.told.nodes, report.told.shown.revenue
    winners = {name: nodes[name].high for name in report.told.winners}
    licences = {name: nodes[name].price for name in tree.all_licences}
    steps = [
        ("What the winners pay", "No licence is in two of them. Their bids together:", equation(winners, revenue)),
        ("All licences' prices", "They come to the same amount:", equation(licences, revenue)),
        ("Each package's price", "It is the sum of its licences' prices:", package_sums(tree, nodes)),
        ("Each high bid", "None is above the price of its licence or package:", _bids(nodes)),
    ]
    items = (element("li", element("h3", title), paragraph(text), shown) for title, text, shown in steps)
    return section("sums", "The four sums", element("ol", *items), element("h3", "Why they prove it"), *_why(report))


def _bids(nodes: Mapping[str, NodeShown]) -> Markup:
    columns = [text_column("On"), text_column("Bidder"), Column("High bid"), Column("Price"), Column("Price less bid")]
    rows: list[Row] = [(name, node.bidder, node.high, node.price, node.price - node.high) for name, node in nodes.items() if node.bidder]
    return table("High bids", columns, rows) if rows else paragraph("There is no high bid.")


def _why(report: Report) -> Iterator[Markup]:
    revenue, nodes = f"{money(report.told.shown.revenue)} dollars", report.told.nodes
    yield paragraph(
        "Take any other choice of high bids that sells no licence twice. By the fourth sum each of its bids is at most a price. By the third that is the sum "
        f"of the prices of the licences that the bid takes. None is taken twice. So all of its bids together are at most all licences' prices, and by the "
        f"second sum these are {revenue}. By the first sum the winners pay {revenue}. So no choice brings more."
    )
    yield paragraph("For a bid that didn't win, see the last column: any choice with that bid brings at least so much less.")
    if ties := [name for name, node in nodes.items() if node.bidder and node.high == node.price and not node.wins]:
        yield paragraph(f"For {listed(ties)} that is 0, so another choice may bring as much. On a tie the parts win by the rules, and not their package.")
    yield paragraph("The sums don't show that the high bids are the bids that were made. The record has each bid, and the README of this bundle says how to check that.")


def _seal_section(signed: SignedSeal, entry: Entry, stamped_at: str) -> Markup:
    return section("seal", "The seal of this round", *_told_of_seal(signed, entry, stamped_at))


def _told_of_seal(signed: SignedSeal, entry: Entry, stamped_at: str) -> Iterator[Markup]:
    seal = signed.seal
    stamped = f" An authority stamped it by {stamped_at}." if stamped_at else " It has no stamp."
    yield paragraph(f"Seal {seal.number} was made at {seal.at}, behind command {money(seal.count)}.{stamped} This is its statement, with the signature:")
    yield element("pre", signed.line, tabindex="0")
    yield paragraph(
        f"Its RESULTS is the SHA-256 of the lines below, as `sha256sum seals/{seal.number}/answers.txt` shows it. The first line is a salt. All numbers of "
        "this page follow from the others:"
    )
    yield element("pre", "\n".join([entry["salt"], *entry["answers"]]), tabindex="0")
