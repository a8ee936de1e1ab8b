"""Replays a front's record in an auction in memory, and shows who bid what.

    tools/replay RECORD                              checks the record, and prints each bid by its round
    tools/replay RECORD --file auction.hpb           compares with the file's contents, too
    tools/replay RECORD --log front.log              compares with the answers to SHOW in the front's log, too
    tools/replay RECORD --svg rounds.svg             draws revenue, prices and eligibility by round
    tools/replay RECORD --commands 41                prints only the commands from number 41 on, for a copy of the file

RECORD is the record's first segment; the others stand beside it, as RECORD.2, RECORD.3, and all are read. It checks that:

- each entry's hash is right, and each entry names the hash of the one before;
- each segment's seal is right;
- the numbers of commands follow one another;
- each bid was sent by a name that may bid for its bidder;
- the auction in memory accepts each command under the number that it got.

docs/FRONT.md says what that proves and what it doesn't. The status is:

- 0, if all of this holds;
- 1, if something differs or the record is damaged. If it merely ends within an entry, all before that is printed;
- 2, if the arguments are wrong.
"""
import argparse
import json
import os
import pathlib
import sys
from collections.abc import Iterator, Sequence

from hpb.commands import parser
from hpb.commands.shell import end_by_signals, from_shell, output_leads_to, say
from hpb.drawing.charts import Panel, picture
from hpb.plain import plain
from hpb.record import CutShort, Damaged, Entry, Place, record_entries
from hpb.record.replay import Replay, replay
from hpb.record.story import Story, read_story
from hpb.refusals import HpbError, says
from hpb.rounds import MOCK, NOTICE
from hpb.rules.mock import is_mock

_FAILED = 1
_MOST_TOLD = 20
_PICTURE = b"<svg"


class _WritesNot(Exception):
    """The output would take the place of something else."""


@from_shell
def main() -> int:
    """Reads the arguments, and returns the status."""
    given = _read_words()
    # No copy of the auction's file stays.
    end_by_signals(_FAILED)
    faults: Sequence[str]
    try:
        _look_at_places(given.svg)
        faults = _found_wrong(given)
    except BrokenPipeError:
        return 1
    except (Damaged, _WritesNot) as fault:
        faults = [str(fault)]
    except HpbError as fault:
        faults = [says(fault)]
    except OSError as fault:
        faults = [f"{fault.filename or given.record}: {fault.strerror}"]
    except (AttributeError, LookupError, TypeError, ValueError) as fault:
        faults = [f"the record has an entry that no front writes: {fault!r}"]
    for said in faults[:_MOST_TOLD]:
        say(said)
    if len(faults) > _MOST_TOLD:
        say(f"and {len(faults) - _MOST_TOLD} more")
    return 1 if faults else 0


def _read_words() -> argparse.Namespace:
    words = parser(__doc__)
    words.add_argument("record", help="the record that a front wrote")
    words.add_argument("--program", default="hpb", help="the program (default: hpb, as the shell finds it)")
    words.add_argument("--file", help="the auction's file, or a copy: its contents are compared")
    words.add_argument("--log", help="a log of the front: its answers to SHOW are compared")
    words.add_argument("--svg", help="the file for the picture")
    words.add_argument("--commands", type=int, metavar="FROM", help="print only the commands from this number on")
    return words.parse_args()


def _look_at_places(svg: str | None) -> None:
    """Checks that neither the output nor the picture replaces another file. A `_WritesNot` says that standard output leads into one of the
    files, or that a file that isn't a picture has the picture's name."""
    if name := output_leads_to():
        raise _WritesNot(f"standard output leads to {name}: lead it elsewhere")
    if svg is None or not os.path.isfile(svg):
        return
    with open(svg, "rb") as file:
        begun = file.read(len(_PICTURE))
    if begun not in (b"", _PICTURE):
        raise _WritesNot(f"{svg} is there, and is no picture: name another file by --svg")


def _found_wrong(given: argparse.Namespace) -> Sequence[str]:
    """The faults that were found. Everything else is printed."""
    cut = list[str]()
    story = read_story(_up_to_cut(record_entries(given.record), cut))
    story.faults.extend(cut)
    if given.commands is not None:
        for command in story.commands[max(given.commands, 1) - 1 :]:
            print(plain(command.line))
        return story.faults
    try:
        told = replay(story, given.program)
    except HpbError as fault:
        return [*story.faults, says(fault)]
    told.look_at_shown(story.shown, "entry")
    if given.log:
        told.look_at_shown(_shown_by(given.log), "the log, line")
    if given.file:
        told.compare(given.file, given.program)
    if given.svg:
        pathlib.Path(given.svg).write_text(_drawn(told), encoding="utf-8")
    print(*_bids_by_round(story), "", *_rounds(told), "", sep="\n")
    faults = [*story.faults, *told.faults]
    if not faults:
        _print_sum(story, given.file)
    return faults


def _up_to_cut(entries: Iterator[tuple[Entry, Place]], cut: list[str]) -> Iterator[tuple[Entry, Place]]:
    """The entries, up to one within which the record ends. A fault about that is added to `cut`."""
    try:
        yield from entries
    except CutShort as fault:
        cut.append(f"{fault}, as in a copy that was made while a front wrote. All before it was read")


def _print_sum(story: Story, file: str | None) -> None:
    compared = f", and the file {file} keeps what they lead to" if file else ""
    segments = "one segment" if story.segments == 1 else f"{story.segments} segments"
    print(f"{story.place.number} entries in one chain of hashes, in {segments}, {len(story.commands)} commands as in memory{compared}.")
    print(f"The last hash is {story.place.hash}.")
    if is_mock(story.tree.definition):
        print(NOTICE)


def _table(head: Sequence[str], rows: Sequence[Sequence[str | int]]) -> Iterator[str]:
    """Texts in columns. Columns of numbers are aligned to the right."""
    is_number = [bool(rows) and all(isinstance(row[place], int) or row[place] == "-" for row in rows) for place in range(len(head))]
    texts = [[plain(cell) for cell in row] for row in [head, *rows]]
    widths = [max(len(row[place]) for row in texts) for place in range(len(head))]
    for row in texts:
        cells = [cell.rjust(width) if right else cell.ljust(width) for cell, width, right in zip(row, widths, is_number)]
        yield "  ".join(cells).rstrip()


def _bids_by_round(story: Story) -> Iterator[str]:
    """Each bid, each waiver and each stage, with its round."""
    rows, number, stage = list[tuple[str | int, ...]](), 1, 1
    for command in story.commands:
        match command.words:
            case ["BID", bidder, _, node, amount]:
                rows.append((number, command.number, command.at, command.name, bidder, node, int(amount)))
            case ["WAIVE", bidder, _]:
                rows.append((number, command.number, command.at, command.name, bidder, "waiver", "-"))
            case ["STAGE", _]:
                stage += 1
                rows.append((number, command.number, command.at, command.name, "-", f"stage {stage}", "-"))
            case ["CLOSE", _]:
                number += 1
    return _table(("round", "number", "at", "name", "bidder", "node", "amount"), rows)


def _rounds(told: Replay) -> Iterator[str]:
    """Each close, with its result."""
    closes = [command for command in told.story.commands if command.words[0] == "CLOSE"]
    rows, before = list[tuple[str | int, ...]](), 0
    for place, close in enumerate(closes, 1):
        shown = told.standings[place].shown
        rows.append((place, close.at, close.number - before - 1, shown.revenue, "over" if shown.is_over else "open"))
        before = close.number
    return _table(("round", "closed", "commands", "revenue", "auction"), rows)


def _drawn(told: Replay) -> str:
    tree, standings = told.story.tree, told.standings
    prices = {name: [standing.nodes[name].price for standing in standings] for name in tree.all_licences}
    eligibility = {name: [standing.whos[name].eligibility for standing in standings] for name in tree.bidders}
    mock = f"{MOCK}: " if is_mock(tree.definition) else ""
    return picture(f"{mock}Revenue, prices and eligibility by round", [
        Panel(f"{mock}Revenue", "dollars", {"revenue": [standing.shown.revenue for standing in standings]}),
        Panel("Prices of licences", "dollars", prices),
        Panel("Eligibility", "units", eligibility),
    ])


def _shown_by(path: str) -> Iterator[tuple[int, str]]:
    """The answers to SHOW in a log of the front, each with its line number. Lines of other kinds are skipped, and so are lines that
    a full disk or a crash cut short.
    """
    with open(path, encoding="utf-8", errors="replace") as file:
        for number, line in enumerate(file, 1):
            entry = _object_in(line)
            if entry.get("kind") == "answered" and entry.get("line") == "SHOW" and entry["answer"].startswith("ROUND "):
                yield number, entry["answer"]


def _object_in(line: str) -> Entry:
    """The object in a line of a log; an empty one if the line isn't whole."""
    try:
        found = json.loads(line) if line.endswith("\n") else {}
    except (ValueError, RecursionError):
        return {}
    return found if isinstance(found, dict) else {}


if __name__ == "__main__":
    sys.exit(main())
