"""A front's process: its arguments, its output, its log, signals, sockets, and changes to the file of tokens (docs/FRONT.md)."""
import argparse
import asyncio
import os
import socket
from typing import IO, Any, NoReturn

from hpb.front.config import Config
from hpb.front.faults import Stops, Wrong
from hpb.front.manager import Manager
from hpb.front.network import Refused, enter_own, handed_in, take
from hpb.front.stamping import Stamper
from hpb.front.watch import Watch
from hpb.front.words import Teller, cry
from hpb.streams import STANDARD_OUTPUT, write_all


# Faults with a text by the system or by Python alone.
SAID = (OSError, RuntimeError, MemoryError)


def fault_says(fault: BaseException) -> str:
    """The kind of a fault. Its text follows only if nothing else can be in it: the text of other faults may hold secrets, such as a
    token."""
    if isinstance(fault, Stops):
        return str(fault)
    words = f": {fault}" if isinstance(fault, SAID) and str(fault) else ""
    return f"a fault of the front: {type(fault).__name__}{words}"


def end_at_once() -> NoReturn:
    """Ends the process at once, by calls that need hardly any memory."""
    try:
        cry(b"front: a fault of the front, for which there is no memory left to say more\n")
    finally:
        os._exit(1)


def end_by_fault(_: asyncio.AbstractEventLoop, context: dict[str, Any]) -> None:
    """Takes a fault of an event loop in which no front runs yet. asyncio would only log it, and the front would never begin."""
    try:
        fault = context.get("exception")
        cry(f"front: {fault_says(fault) if fault else 'a fault of the front: ' + context['message']}\n".encode())
    finally:
        os._exit(1)


class Shell:
    """A front's process: its arguments, its output, its log, signals, its service manager, and the process that gets stamps, if any."""

    def __init__(self, config: Config, given: argparse.Namespace, teller: Teller, manager: Manager, stamper: Stamper | None = None) -> None:
        self.given, self.teller, self.manager, self.log, self.watch = given, teller, manager, config.log.open(teller.say), Watch()
        self.stamper = stamper

    def start(self) -> None:
        """Starts its threads."""
        try:
            self.watch.start()
            self.teller.start()
            self.log.start()
        except RuntimeError as fault:
            raise Stops(f"the system gives the front no thread: {fault}") from None


def take_sockets(config: Config) -> list[socket.socket]:
    """The listening sockets, one for each address. Then enters a network of its own, in which the server will listen."""
    given = handed_in()
    sockets = [take(address, given) for address in config.addresses()]
    if config.shared_network:
        return sockets
    try:
        enter_own(sockets)
    except Refused as fault:
        raise Stops(f"{fault}. Without one each account of this machine reaches the server; shared_network = true lets the front do "
                    "without") from None
    return sockets


def make_seal_key(given: argparse.Namespace) -> None:
    """`--make-seal-key`: makes the key of seals, and shows its public key."""
    seals = Config(given.config).seals
    if seals is None:
        raise Wrong("the configuration has no table [seals]")
    show(f"{seals.make().public}\n")


def change_tokens(given: argparse.Namespace, teller: Teller) -> None:
    """`tokens add`, `revoke` and `list`. If a new token can't be shown, a Stops says so: nobody can use it."""
    file = Config(given.config).token_file()
    if given.what == "list":
        show("".join(f"{token.name} {token.id}\n" for token in file.tokens().known))
        return
    token, text = file.add(given.name) if given.what == "add" else (file.revoke(given.id), "")
    teller.say("a front that runs takes this in by SIGHUP")
    try:
        show(" ".join(filter(None, [token.name, token.id, text])) + "\n")
    except Stops as fault:
        lost = f". The token {token.id} was added, and nobody has seen it: revoke it, and add another" if text else ""
        raise Stops(f"{fault}{lost}") from None


def show(text: str) -> None:
    """Writes on standard output. A Stops says that it can't be written."""
    try:
        write_all(STANDARD_OUTPUT, text.encode())
    except OSError as fault:
        raise Stops(f"standard output can't be written: {fault.strerror}") from None


class Words(argparse.ArgumentParser):
    """The parser of the front's arguments. If the help can't be written, that is reported like any other failure of standard output."""

    def print_help(self, file: IO[str] | None = None) -> None:
        show(self.format_help())


def read_words(text: str, name: str) -> argparse.Namespace:
    """Reads the front's arguments. Ends the process after the help, or if the arguments are wrong."""
    words = Words(prog=name, description=text, formatter_class=argparse.RawDescriptionHelpFormatter)
    words.add_argument("--config", required=True, help="the configuration, a file of TOML")
    words.add_argument("--make-tokens", action="store_true", help="make the file of tokens, with one for each name, and end")
    words.add_argument("--make-mock", metavar="FILE", help="make a mock of the auction, with this new configuration, and end")
    words.add_argument("--first", metavar="TIME", help="with --make-mock: when the mock's first round opens, as 2026-12-01T18:00")
    words.add_argument("--make-seal-key", action="store_true", help="make the key of seals, show its public key, and end")
    words.add_argument("--foreign", action="store_true", help="go on if the file got commands by another way; the audit ends there")
    words.add_argument("--set-aside", action="store_true", help="go on if the record is damaged and has no backup; all from there on is set aside, and the audit ends there")
    commands = words.add_subparsers(dest="command", metavar="tokens", help="change the file of tokens; SIGHUP makes a front read it")
    tokens = commands.add_parser("tokens", help="add, revoke or list tokens").add_subparsers(dest="what", required=True)
    tokens.add_parser("add", help="a new token, which is shown this once").add_argument("name", help="its name")
    tokens.add_parser("revoke", help="a token is nobody's any more").add_argument("id", help="as `tokens list` shows it")
    tokens.add_parser("list", help="the name and the id of each token")
    given = words.parse_args()
    if given.first and not given.make_mock:
        words.error("--first goes with --make-mock")
    return given
