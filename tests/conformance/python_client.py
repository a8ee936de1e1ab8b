"""The package's client as a program, driven like those of examples/clients: `python_client.py PORT SECONDS`."""

from __future__ import annotations

import sys

from hpb import Accepted, Bid, Client, Close, Command, HpbError, Stage, Unanswered, Waive
from hpb.lines import Answer, format_answer
from hpb.refusals import FrontRefused, Refused


def asked(client: Client, line: str) -> Answer | HpbError:
    """The answer to a question."""
    try:
        match line.split(" "):
            case ["SHOW"]:
                return client.show()
            case ["NODE", node]:
                return client.node(node)
            case ["WHO", bidder]:
                return client.who(bidder)
    except HpbError as fault:
        return fault
    raise ValueError(line)


def command_of(line: str) -> Command | None:
    """The command in a line without a ticket; None for a question."""
    match line.split(" "):
        case ["BID", bidder, node, amount]:
            return Bid(bidder, node, int(amount))
        case ["WAIVE", bidder]:
            return Waive(bidder)
        case ["CLOSE"]:
            return Close()
        case ["STAGE"]:
            return Stage()
    return None


def text_of(outcome: Answer | HpbError) -> str:
    """An outcome as a line."""
    match outcome:
        case Accepted(None):
            return "OK ?"
        case Unanswered():
            return f"UNANSWERED {'sent' if outcome.may_count else 'unsent'}"
        case Refused() | FrontRefused():
            return outcome.line
        case HpbError():
            raise outcome
    return format_answer(outcome)


def run(client: Client, group: list[str]) -> list[str]:
    """The outcomes of a group's lines. Its commands are sent ahead together, and then its questions are asked."""
    commands = {place: command for place, line in enumerate(group) if (command := command_of(line))}
    outcomes: dict[int, Answer | HpbError] = dict(zip(commands, client.send(list(commands.values()))))
    for place, line in enumerate(group):
        if place not in commands:
            outcomes[place] = asked(client, line)
    return [text_of(outcomes[place]) for place in range(len(group))]


def main() -> int:
    """Reads groups of lines, each ended by an empty line, until the input ends."""
    port, seconds = int(sys.argv[1]), float(sys.argv[2])
    group: list[str] = []
    with Client("127.0.0.1", port, timeout=seconds, silence=seconds / 3) as client:
        for line in sys.stdin:
            if line != "\n":
                group.append(line.removesuffix("\n"))
                continue
            print(*run(client, group), "", sep="\n", flush=True)
            group = []
    return 0


if __name__ == "__main__":
    sys.exit(main())
