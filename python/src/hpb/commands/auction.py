"""Makes, starts, stops and lists auctions of a folder, each with a front; copies, moves and repeats them.

    tools/auction new sale --definition definition.json      makes the auction `sale`: file, tokens, certificate and configuration
    tools/auction start sale                                 starts its front; clients are let in when this ends
    tools/auction stop sale                                  stops it; each accepted command stays
    tools/auction standby sale                               waits until nobody else serves it, as after a machine's loss, and serves it then
    tools/auction list                                       the state of all, with addresses, rounds and counts
    tools/auction status sale other --json                   that of these, as JSON
    tools/auction backup sale FOLDER                         a backup in a new folder, also while the front runs
    tools/auction verify FOLDER                              checks a backup: each byte, each command, and the file
    tools/auction restore sale FOLDER                        takes a backup back, unless something would be lost
    tools/auction move sale TO                               moves a stopped auction to another folder of auctions
    tools/auction export sale --csv                          all commands, and the results as JSON
    tools/auction archive sale FOLDER --key KEY              a bundle by which anyone can check the result
    tools/auction mock sale trial --first 2026-12-01T18:00   makes the mock `trial`, which rehearses it
    tools/auction reauction sale                             the definition of an auction of what nobody won

The folder is /var/lib/hpb, if --folder names no other. There systemd runs the fronts, if the machine has it; elsewhere this command starts them itself.
Each auction is a folder of its own, with `front.toml`, and gets the next ports that no other one has. Auctions, backups and moves are made
whole or not at all. A definition that ends with .csv is the rows of a spreadsheet:

    step,10
    percent,10
    stages,80,95
    node,all
    node,a,all,10,100
    bidder,x,25

The status is:

- 0, if it is done;
- 1, if it can't be done, for the reason on standard error;
- 2, if the arguments are wrong.

packaging/README.md has more about services and backups, and docs/FRONT.md about fronts. Needs Python 3.11 and Linux.
"""
import argparse
import json
import pathlib
import sys
from collections.abc import Callable

from hpb.auctions import backup, deriving, exporting, making, moving, restoring, running, standby
from hpb.auctions.backup import Backup
from hpb.auctions.folder import STANDARD, Auction, Auctions, CantDo
from hpb.auctions.status import as_json, status_of, table
from hpb.commands import archive, explain, parser, write_out
from hpb.commands.shell import end_by_signals, from_shell, say

FAILED = 1


def port(text: str) -> int:
    """A port: 1 to 65,535."""
    if not text.isdecimal() or not 1 <= int(text) <= making.MOST_PORT:
        raise argparse.ArgumentTypeError("a port is a number from 1 to 65,535")
    return int(text)


def read_words() -> argparse.Namespace:
    words = parser(__doc__)
    words.add_argument("--folder", type=pathlib.Path, default=pathlib.Path(STANDARD), help=f"the folder of the auctions (default {STANDARD})")
    words.add_argument("--program", default="hpb", help="the program (default: hpb, as the shell finds it)")
    words.add_argument("--first-port", type=port, metavar="PORT", help="the first port for new auctions (default: 6000 for fronts, 8443 for pages, 9464 for metrics)")
    commands = words.add_subparsers(dest="command", required=True, metavar="COMMAND", help=", ".join(COMMANDS))
    parts = {name: commands.add_parser(name, help=text) for name, (text, _) in COMMANDS.items()}
    for name in ("new", "start", "stop", "standby", "backup", "restore", "move", "export", "archive", "mock", "reauction"):
        parts[name].add_argument("name", help="the auction: 1 to 16 of a to z, 0 to 9 and _")
    add_words_of_new(parts["new"])
    parts["status"].add_argument("names", nargs="+", help="the auctions")
    for name in ("list", "status"):
        parts[name].add_argument("--json", action="store_true", help="as JSON")
    for name, text in (("backup", "the new folder"), ("verify", "the backup"), ("restore", "the backup")):
        parts[name].add_argument("backup", type=pathlib.Path, metavar="FOLDER", help=text)
    parts["move"].add_argument("to", type=pathlib.Path, metavar="TO", help="the other folder of auctions")
    parts["export"].add_argument("--csv", action="store_true", help="the commands as CSV (default: JSON, with results)")
    parts["archive"].add_argument("bundle", type=pathlib.Path, metavar="FOLDER", help="the new folder")
    archive.add_words(parts["archive"])
    parts["mock"].add_argument("other", metavar="MOCK", help="the name of the mock")
    parts["mock"].add_argument("--first", metavar="TIME", help="when its first round opens, as 2026-12-01T18:00")
    return words.parse_args()


def add_words_of_new(new: argparse.ArgumentParser) -> None:
    new.add_argument("--definition", type=pathlib.Path, required=True, help="the file of its definition: JSON, or rows of a spreadsheet if it ends with .csv")
    new.add_argument("--listen", default="", metavar="ADDRESS", help="the address of its front, as 0.0.0.0:6000 (default: 127.0.0.1 and a free port)")
    new.add_argument("--host", default="localhost", help="the name of this machine, which bidders type (default localhost)")
    new.add_argument("--journal", type=int, default=1_024, help="as `hpb format --journal` (default 1024)")


# Each command, with the arguments: it returns the words for standard output.


def make(auctions: Auctions, given: argparse.Namespace) -> str:
    """Makes an auction. The result says how to go on; warnings about the definition go to standard error."""
    wanted = making.Wanted(given.definition.absolute(), given.listen, given.host, given.journal, given.program)
    text = making.definition_text(wanted.definition)
    making.become_owner(auctions)
    made = making.make(auctions, given.name, wanted)
    for warning in explain.warnings_of(text):
        say(f"warning: {warning}")
    return made_words(made)


def made_words(made: Auction) -> str:
    front, *others = made.addresses()
    page = f"PAGE https://{others[0]}/\n" if "board" in made.fields() else ""
    return f"MADE {made.name} {made.folder}\nFRONT {front}\n{page}TOKENS {made.path('tokens')}\n"


def start(auctions: Auctions, given: argparse.Namespace) -> str:
    auction = auctions.named(given.name)
    running.start(auction)
    return f"STARTED {auction.name} {auction.addresses()[0]}\n"


def stop(auctions: Auctions, given: argparse.Namespace) -> str:
    running.stop(auctions.named(given.name))
    return f"STOPPED {given.name}\n"


def stand_by(auctions: Auctions, given: argparse.Namespace) -> str:
    standby.serve(auctions.named(given.name), given.program, lambda line: write_out(f"{line}\n"))


def show_all(auctions: Auctions, given: argparse.Namespace) -> str:
    return shown(auctions.all(), given)


def show_some(auctions: Auctions, given: argparse.Namespace) -> str:
    return shown([auctions.named(name) for name in given.names], given)


def shown(found: list[Auction], given: argparse.Namespace) -> str:
    states = [status_of(one, given.program) for one in found]
    return as_json(states) if given.json else table(states)


def back_up(auctions: Auctions, given: argparse.Namespace) -> str:
    made = backup.make(auctions.named(given.name), given.backup.absolute())
    for field in made.handed:
        say(f"warning: {field} isn't in the backup: the service manager hands it in, so keep a copy of your own")
    waited = "" if made.seconds is None else f"PAUSE {made.seconds:.6f}\n"
    return f"BACKUP {told(made)} {given.backup.absolute()}\n{waited}"


def told(found: Backup) -> str:
    """How many commands a backup has, how many entries of the record, and the hash of the last."""
    return f"COUNT {found.count} RECORD {found.place.number} {found.place.hash}"


def verify(_: Auctions, given: argparse.Namespace) -> str:
    return f"WHOLE {told(backup.verify(given.backup.absolute()))}\n"


def restore(auctions: Auctions, given: argparse.Namespace) -> str:
    found = restoring.restore(auctions, given.name, given.backup.absolute())
    return f"RESTORED {given.name} {told(found)}\n"


def move(auctions: Auctions, given: argparse.Namespace) -> str:
    return f"MOVED {given.name} {moving.move(auctions, given.name, Auctions(given.to.absolute())).folder}\n"


def export(auctions: Auctions, given: argparse.Namespace) -> str:
    return exporting.export(auctions.named(given.name), given.csv)


def make_bundle(auctions: Auctions, given: argparse.Namespace) -> str:
    auction = auctions.named(given.name)
    given.record, given.file = str(auction.path("record")), str(auction.path("file"))
    # No copy of the auction's file stays.
    end_by_signals(FAILED)
    try:
        return archive.make(given, given.bundle.absolute())
    except archive.NotMade as fault:
        raise CantDo(str(fault)) from None


def make_mock(auctions: Auctions, given: argparse.Namespace) -> str:
    return made_words(deriving.mock(auctions, given.name, given.other, given.first))


def make_again(auctions: Auctions, given: argparse.Namespace) -> str:
    return json.dumps(deriving.reauction(auctions.named(given.name))) + "\n"


# For each command, its help and its call.
COMMANDS: dict[str, tuple[str, Callable[[Auctions, argparse.Namespace], str]]] = {
    "new": ("make an auction", make),
    "start": ("start its front", start),
    "stop": ("stop its front", stop),
    "standby": ("wait until nobody serves it, and serve it then", stand_by),
    "list": ("show all auctions", show_all),
    "status": ("show some auctions", show_some),
    "backup": ("make a backup, also while it runs", back_up),
    "verify": ("check a backup", verify),
    "restore": ("make an auction of a backup", restore),
    "move": ("move it to another folder of auctions", move),
    "export": ("show all its commands and results", export),
    "archive": ("make a bundle for anyone to check", make_bundle),
    "mock": ("make a mock of it", make_mock),
    "reauction": ("show a definition of what nobody won", make_again),
}


@from_shell
def main() -> int:
    """Reads the arguments, and returns the status."""
    given = read_words()
    try:
        write_out(COMMANDS[given.command][1](Auctions(given.folder.absolute(), given.first_port), given))
    except CantDo as fault:
        say(fault)
        return FAILED
    return 0


if __name__ == "__main__":
    sys.exit(main())
