"""Lets bidders and an auctioneer in to an auction in a file: each by a token, with rights of their own, from anywhere.

    tools/front --config front.toml --make-tokens     writes a token for each name into the file of tokens
    tools/front --config front.toml --make-seal-key   makes the key of seals, and shows its public key
    tools/front --config front.toml                   serves until SIGTERM, or until the auction is over
    tools/front --config front.toml tokens list       the ids of all tokens; `add NAME` and `revoke ID` change them
    tools/front --config front.toml --make-mock mock.toml --first 2026-12-01T18:00    makes a mock, which rehearses the auction

It starts `hpb serve` in a network of its own and keeps it running. It takes any number of connections, over TLS if there is a certificate.
Each accepted command is written into a record before its answer leaves. If the configuration has a board, it also serves a page that
follows the auction. docs/FRONT.md describes the configuration, the lines, the record and the log, and states the promises.

On standard output it writes:

- `LISTENING address port`, once clients can connect;
- `BOARD` and the address of the page, if there is one;
- a line with the record's hash after each close;
- `STOPPED n` at the end: n commands are accepted in all.

Each of these lines of a mock ends with MOCK.

SIGHUP makes it read tokens, certificate and limits again. The status is:

- 0, after a signal to stop, or when the auction is over;
- 1, if it can't go on;
- 2, if its arguments or its configuration are wrong.

Needs Python 3.11 and Linux.
"""
import signal

# From here on, a signal waits until the front can take it.
signal.pthread_sigmask(signal.SIG_BLOCK, {signal.SIGHUP})
import contextvars

# If memory is refused to the first context of all, Python ends by SIGSEGV; each later one is made from this one.
contextvars.copy_context()
import argparse
import asyncio
import faulthandler
import os
import socket
import sys
from typing import NoReturn

from hpb.commands import program_name
from hpb.front.config import Config
from hpb.front.faults import Stops, Wrong
from hpb.front.manager import Manager
from hpb.front.mock import make_mock
from hpb.front.network import Refused
from hpb.front.running import Running
from hpb.front.shell import Shell, change_tokens, end_at_once, end_by_fault, fault_says, make_seal_key, read_words, take_sockets
from hpb.front.stamping import begin_stamper
from hpb.front.streams import streams_lead_astray
from hpb.front.terms import Terms, read_terms
from hpb.front.watch import free_signals, hold_signals
from hpb.front.words import Teller
from hpb.rounds import MOCK, NOTICE
from hpb.rules.tree import Tree
from hpb.streams import STANDARD_ERROR, hold_closed_streams

LOG_SECONDS = 0.5


def serve(given: argparse.Namespace, teller: Teller) -> None:
    """Takes its sockets in the machine's network, leaves that network, and serves."""
    config, terms = read_terms(given.config)
    tree = config.tree()
    if config.mock:
        teller.say(f"{NOTICE} Each greeting and each page says {MOCK}")
    for bidder in config.silent_bidders(tree):
        teller.say(f"nobody may bid for {bidder}")
    for name in terms.tokens.silent(config.roles):
        teller.say(f"{name} has no token: nobody can connect as {name}")
    for path in config.read_by_all():
        teller.say(f"warning: every user may read {path}, and so the bids of the open round: `chmod 600` it")
    manager = Manager(os.environ, teller.say)
    stamper = begin_stamper(config.seals)
    sockets = take_sockets(config)
    hold_signals()
    shell = Shell(config, given, teller, manager, stamper)
    shell.start()
    loop = asyncio.new_event_loop()
    asyncio.set_event_loop(loop)
    loop.set_exception_handler(end_by_fault)
    try:
        loop.run_until_complete(run(config, terms, tree, sockets, shell))
    except (Stops, OSError) as fault:
        shell.log.write("failed", why=str(fault))
        raise
    finally:
        shell.log.end(LOG_SECONDS)


async def run(config: Config, terms: Terms, tree: Tree, sockets: list[socket.socket], shell: Shell) -> None:
    """Runs the front until its end, in its event loop."""
    await Running(config, terms, tree, sockets, shell).run()


def do(given: argparse.Namespace, teller: Teller) -> None:
    """Does what the arguments ask for."""
    if given.make_tokens or given.make_seal_key or given.make_mock or given.command:
        free_signals()
    if given.make_tokens:
        Config(given.config).token_file().make()
    elif given.make_seal_key:
        make_seal_key(given)
    elif given.make_mock:
        mock = make_mock(Config(given.config), given.make_mock, given.first)
        teller.say(f"the mock has the file {mock.file} and the record {mock.record}; tools/front --config {given.make_mock} starts it")
    elif given.command == "tokens":
        change_tokens(given, teller)
    else:
        serve(given, teller)


def main() -> int:
    """Runs the command, and returns the status for the process to end with."""
    hold_closed_streams()
    if streams_lead_astray(sys.argv[1:]):
        return 2
    # If Python or a library of C ends by a signal, as OpenSSL without memory for a session, standard error says so.
    faulthandler.enable(STANDARD_ERROR)
    teller = Teller()
    try:
        do(read_words(__doc__, program_name()), teller)
        status = 0
    except Wrong as fault:
        teller.say(str(fault))
        status = 2
    except (Stops, Refused, OSError) as fault:
        teller.say(str(fault))
        status = 1
    except Exception as fault:  # No failure may end it in silence.
        teller.say(fault_says(fault))
        status = 1
    return status if teller.end() else status or 1


def main_and_exit() -> NoReturn:
    """A thread may hang in a call to the system: it isn't waited for."""
    try:
        status = main()
    except SystemExit as ended:  # After the help, or after wrong arguments.
        status = ended.code if isinstance(ended.code, int) else 0
    except BaseException:  # As above.
        end_at_once()
    os._exit(status)


if __name__ == "__main__":
    main_and_exit()
