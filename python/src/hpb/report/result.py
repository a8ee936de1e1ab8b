"""The sections of a report about the result: the tree, all nodes, the winners, the sums that show the result, and how it follows
from the bids.
"""
from collections.abc import Mapping
from typing import Final

from hpb.amounts import counted, money
from hpb.drawing.tree import pictures
from hpb.lines import NodeShown
from hpb.markup import Markup, element
from hpb.report.closing import Report, listed
from hpb.report.pieces import Column, Row, equation, paragraph, section, strong, sum_of, table, text_column
from hpb.rules.prices import surplus
from hpb.rules.tree import Tree

_NONE = "\N{EN DASH}"
_HOW_DRAWN: Final = {
    "columns": "A package stands to the left of its nodes, and is as high as they are together.",
    "outline": "The nodes of a package stand below it, indented.",
}


def tree_section(report: Report) -> Markup:
    """The tree as pictures, in one form or in two."""
    drawn = pictures(report.tree, report.told)
    parts: list[Markup] = []
    for picture in drawn:
        names = f"tree {picture.kind}" if len(drawn) == 1 else f"tree {picture.kind} one-of-two"
        parts += [paragraph(_HOW_DRAWN[picture.kind], class_=names), *(element("div", part, class_=names) for part in picture.parts())]
    told = (
        "Winners are green and have a check mark. Nothing above or under a winner wins. Amounts are dollars, after the last close. Bids of "
        "the open round aren't shown."
    )
    return section("tree", "The tree", paragraph(told), *parts)


def nodes_section(report: Report) -> Markup:
    """A row for each node."""
    columns = [
        text_column("Node"), text_column("Lies in"), Column("Units"), Column("Opening"), Column("High bid"), text_column("Bidder"),
        Column("Price"), Column("Minimum"), text_column("Wins"),
    ]
    tree, rows = report.tree, list[Row]()
    for name, node in report.told.nodes.items():
        place = (tree.nodes[name].parent or _NONE, tree.units[name], tree.opening[name])
        high, bidder = (money(node.high), node.bidder) if node.bidder else ("none", _NONE)
        rows.append((name, *place, high, bidder, node.price, node.minimum, "yes" if node.wins else "no"))
    caption = "Each node after the last close, in the order of the definition"
    return section("nodes", "All nodes", table(caption, columns, rows, marked=report.told.winners))


def result_section(report: Report) -> Markup:
    """The winning nodes, their bidders and licences, and the sum of their bids."""
    tree, nodes = report.tree, report.told.nodes
    columns = [text_column("Winner"), text_column("Bidder"), text_column("Licences that it sells"), Column("Bid")]
    rows: list[Row] = []
    for name in report.told.winners:
        rows.append((name, nodes[name].bidder or _NONE, listed(tree.licences_of(name)), nodes[name].high))
    if not rows:
        return section("result", "Who wins", paragraph("Nobody: there is no high bid."))
    bids = sum(nodes[name].high for name in report.told.winners)
    return section("result", "Who wins", table("The winners after the last close", columns, rows, ("Together", "", "", bids)))


def certificate_section(report: Report) -> Markup:
    """The sums that anyone can check with pencil and paper."""
    tree, nodes, revenue = report.tree, report.told.nodes, report.told.shown.revenue
    winners = {name: nodes[name].high for name in report.told.winners}
    licences = {name: nodes[name].price for name in tree.all_licences}
    steps = [
        ("The winners' bids", "No winner lies in another one, and their bids together are the revenue:", equation(winners, revenue)),
        ("The licences' prices", "All of them together, in the order of the definition, are the revenue too:", equation(licences, revenue)),
        ("The nodes' prices", "Each package's price is the sum of its licences' prices:", package_sums(tree, nodes)),
        ("The high bids", "None is above its node's price:", _bids_and_prices(nodes)),
    ]
    told = (
        "Anyone can check the result with pencil and paper, from the definition and the high bids. If four things hold, no other choice "
        "of these bids that sells each licence at most once brings more than the revenue."
    )
    why = (
        "So take any other choice of these bids. Each bid is at most its node's price, which is the sum of the prices of the licences that "
        "it sells. No licence is sold twice, and all licences' prices together are the revenue. These sums don't show that the high bids "
        "are those of the bids that were made."
    )
    items = (element("li", element("h3", title), paragraph(text), shown) for title, text, shown in steps)
    return section("sums", "The sums that show it", paragraph(told), element("ol", *items), paragraph(why))


def package_sums(tree: Tree, nodes: Mapping[str, NodeShown]) -> Markup:
    """A row for each package, with the sum of its licences' prices."""
    columns = [text_column("Package"), text_column("Prices of its licences"), Column("Together"), Column("Its price")]
    rows: list[Row] = []
    for name, node in tree.nodes.items():
        if not node.is_licence:
            prices = {licence: nodes[licence].price for licence in tree.licences_of(name)}
            rows.append((name, sum_of(prices), sum(prices.values()), nodes[name].price))
    return table("Packages", columns, rows) if rows else paragraph("There is no package.")


def _bids_and_prices(nodes: Mapping[str, NodeShown]) -> Markup:
    columns = [text_column("Node"), Column("High bid"), Column("Price"), Column("Price less bid")]
    rows = [(name, node.high, node.price, node.price - node.high) for name, node in nodes.items() if node.bidder]
    return table("High bids", columns, rows) if rows else paragraph("There is no high bid.")


def found_again_section(report: Report) -> Markup:
    """How winners and prices follow from the high bids."""
    tree, values, came = report.tree, report.found.values, report.passed_down
    columns = [
        text_column("Package"), Column("High bid"), Column("Inside"), Column("Value"), Column("Surplus"), Column("From above"),
        text_column("To each child"),
    ]
    rows: list[Row] = []
    for name, node in tree.nodes.items():
        if not node.is_licence:
            worth = (values.high[name], values.inside[name], values.value[name], surplus(tree, values, name), came[name])
            rows.append((name, *worth, listed([f"{child} {money(came[child])}" for child in tree.children[name]])))
    told = (
        "This page found winners, prices and revenue once more from the high bids alone, by the rules. The value inside a package is the "
        "sum of its children's values. A package wins if its bid is more than that, and no package above it wins. The difference is its "
        "surplus. The surplus, and the dollars that came from above, go down to the children in equal parts. Dollars that are left over "
        "go to the first ones."
    )
    agree = f"Winners, revenue and the prices of {counted(len(tree.nodes), 'node')} are those that the program tells."
    found = "Not all is right: see the top of the page." if report.faults else agree
    parts = [table("Packages, from the high bids", columns, rows)] if rows else []
    return section("found", "Found once more", paragraph(told), *parts, paragraph(strong(found)))
