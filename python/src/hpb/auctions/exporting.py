"""An auction's commands and results as JSON or CSV, by its record alone (packaging/README.md)."""
import csv
import io
import json
from typing import Any

from hpb.auctions.folder import Auction, CantDo
from hpb.auctions.parts import parts_of
from hpb.record import Entry
from hpb.rules.auction import Auction as Standing
from hpb.rules.auction import show, show_bidder, show_node
from hpb.rules.writing import fields_of
from hpb.seals.chain import read_chain
from hpb.seals.checked import Checked, Given
from hpb.seals.checking import look_at_commands, look_at_definition
from hpb.seals.findings import Findings

COLUMNS = ("number", "at", "round", "name", "command", "bidder", "ticket", "node", "amount")
# Of a record into which a front writes the last line may be half.
PASSING = {"cut"}


def export(auction: Auction, as_csv: bool) -> str:
    """All commands that were accepted, each with its time, its round and its sender. JSON has the definition, and the result of each close, too.
    The bids of the open round are in it: nobody but the operator may read it before the close."""
    checked = checked_of(auction)
    rows = rows_of(checked)
    if as_csv:
        made = io.StringIO()
        writer = csv.DictWriter(made, COLUMNS, lineterminator="\n")
        writer.writeheader()
        writer.writerows(rows)
        return made.getvalue()
    assert checked.auction
    closes = [{"at": at_of(checked, count), **result_of(standing)} for count, standing in checked.closes.items()]
    definition = fields_of(checked.auction.tree.definition)
    return json.dumps({"auction": auction.name, "definition": definition, "commands": rows, "closes": closes, "now": result_of(checked.auction)}, indent=2) + "\n"


def checked_of(auction: Auction) -> Checked:
    """The record, told to an auction by the rules."""
    parts, findings = parts_of(auction.folder), Findings()
    if not parts.segments():
        raise CantDo(f"{auction.name} has no record yet: it never ran")
    checked = Checked(read_chain(str(auction.folder / parts.record), findings), findings)
    if checked.chain.entries:
        look_at_definition(checked, Given())
        look_at_commands(checked)
    passing = PASSING if auction.is_served() else set[str]()
    if wrong := [one.text for one in findings.found if one.word not in passing]:
        raise CantDo(f"{auction.folder / parts.record}: {'; '.join(wrong)}")
    if checked.auction is None:
        raise CantDo(f"{auction.folder / parts.record}: it has no whole entry")
    return checked


def rows_of(checked: Checked) -> list[dict[str, Any]]:
    rows, number = list[dict[str, Any]](), 1
    for count, entry in enumerate(checked.chain.of_kind("accepted"), 1):
        rows.append({**dict.fromkeys(COLUMNS), "number": count, "at": entry["at"], "round": number, "name": entry["name"], **fields_of_line(entry)})
        number += entry["line"].startswith("CLOSE ")
    return rows


def fields_of_line(entry: Entry) -> dict[str, Any]:
    match entry["line"].split(" "):
        case ["BID", bidder, ticket, node, amount]:
            return {"command": "BID", "bidder": bidder, "ticket": int(ticket), "node": node, "amount": int(amount)}
        case ["WAIVE", bidder, ticket]:
            return {"command": "WAIVE", "bidder": bidder, "ticket": int(ticket)}
        case [word, ticket]:
            return {"command": word, "ticket": int(ticket)}
    raise CantDo(f"entry {entry['entry']}: no front writes the command {entry['line']!r}")


def at_of(checked: Checked, count: int) -> str:
    return str(checked.chain.of_kind("accepted")[count - 1]["at"])


def result_of(standing: Standing) -> dict[str, Any]:
    """What an auction shows: after a close its result."""
    shown = show(standing)
    nodes = [show_node(standing, name) for name in standing.tree.nodes]
    whos = [show_bidder(standing, bidder) for bidder in standing.tree.bidders]
    return {
        "commands": shown.count, "round": shown.round, "stage": shown.stage, "over": shown.is_over, "revenue": shown.revenue,
        "winners": [{"node": node.name, "bidder": node.bidder, "bid": node.high} for node in nodes if node.wins],
        "prices": {node.name: node.price for node in nodes},
        "eligibility": {who.bidder: who.eligibility for who in whos},
    }
