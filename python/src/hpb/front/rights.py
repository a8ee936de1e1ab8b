"""The lines that a front takes, and who may send which (docs/FRONT.md)."""
from typing import NamedTuple

from hpb.rounds import MOCK
from hpb.rules.mock import MARK
from hpb.rules.tree import Tree

AUCTIONEER, BIDDER, OBSERVER = "auctioneer", "bidder", "observer"
# How many words each line has.
WORDS = {b"BID": 5, b"WAIVE": 3, b"CLOSE": 2, b"STAGE": 2, b"SHOW": 1, b"NODE": 2, b"WHO": 2}
# How commands begin; and a bid or a waiver with the number of its round.
COMMANDS = (b"BID ", b"WAIVE ", b"CLOSE ", b"STAGE ", b"IN ")
NAMES_A_BIDDER = {b"BID", b"WAIVE", b"WHO"}
# Lines that the front answers by itself: how many words each has at least and at most (docs/ROUNDS.md).
OWN_WORDS = {
    b"OPEN": (4, 5), b"EXTEND": (3, 3), b"PAUSE": (1, 1), b"RESUME": (1, 1), b"SCHEDULE": (1, 1), b"EVENT": (1, 2), b"READ": (2, 2),
    b"SAY": (3, 128), b"PREVIEW": (1, 2), b"AGREE": (2, 2), b"INFORMATION": (1, 1), b"UNVEIL": (1, 1), b"SEAL": (1, 2), b"RECEIPT": (2, 2),
}
# Of these, the ones that there are only with rules on information (docs/FRONT.md).
OF_INFORMATION = {b"INFORMATION", b"UNVEIL"}
# And those that there are only with seals (docs/VERIFY.md).
OF_SEALS = {b"SEAL", b"RECEIPT"}
EVERYBODY = {b"SHOW", b"NODE", b"SCHEDULE", b"EVENT", b"READ", b"INFORMATION", b"SEAL"}
ALLOWED = {
    AUCTIONEER: {b"CLOSE", b"STAGE", b"WHO", b"OPEN", b"EXTEND", b"PAUSE", b"RESUME", b"SAY", b"PREVIEW", b"UNVEIL", b"RECEIPT", *EVERYBODY},
    BIDDER: {b"BID", b"WAIVE", b"WHO", b"RECEIPT", *EVERYBODY},
    OBSERVER: EVERYBODY,
}
TOKEN, IN, ENDING = b"TOKEN ", b"IN", b"ENDING"
# The front's own refusals: the words after `ERR front`.
FORM, RIGHTS, LONG, UNKNOWN, MANY, IDLE, *OF_ROUNDS = REFUSALS = (
    "line", "rights", "long", "token", "many", "idle", "closed", "round", "clock", "end", "second", "unknown",
    "running", "unsealed",
)
CLOSED, ROUND, CLOCK, END, SECOND, NOT_KNOWN, RUNNING, UNSEALED = OF_ROUNDS
# The most digits of a number that the front reads.
MOST_DIGITS = 7


def is_whole(word: bytes) -> bool:
    """Whether a word is a number from 1, of at most seven digits, in the form that each number has."""
    return word.isdigit() and len(word) <= MOST_DIGITS and not word.startswith(b"0")


def refused(word: str) -> bytes:
    """A refusal by the front itself. It has `front` in the place of the server's number."""
    return f"ERR front {word}".encode()


def welcome(name: str, is_mock: bool = False) -> bytes:
    """The answer to a token of this name."""
    return f"WELCOME {name}{' ' + MOCK if is_mock else ''}".encode()


class Role(NamedTuple):
    """The rights of a name. `bidders` are those for whom a bidder may bid. `agrees` says whether it may agree to a close that ends the
    auction. `has_rules` says whether there are rules on information, and `sees_all` whether they don't hold for it. `has_seals` says
    whether there are seals."""

    kind: str
    bidders: tuple[str, ...] = ()
    agrees: bool = False
    has_rules: bool = False
    sees_all: bool = False
    has_seals: bool = False

    def refusal(self, line: bytes) -> str | None:
        """The word by which the front refuses a line, or None if it takes it."""
        words = line.split(b" ")
        if words[0] == IN:
            # Behind the number of its round stands a bid or a waiver.
            if len(words) < 3 or not is_whole(words[1]) or words[2] not in (b"BID", b"WAIVE"):
                return FORM
            words = words[2:]
        elif words[0] in OWN_WORDS:
            return self.refusal_of_own(line, words)
        elif words[0] == b"CLOSE" and len(words) == 3 and words[2] == ENDING:
            words = words[:2]
        if len(words) != WORDS.get(words[0]) or b"" in words:
            return FORM
        if words[0] not in ALLOWED[self.kind] and not (self.sees_all and words[0] == b"WHO"):
            return RIGHTS
        if self.kind == BIDDER and words[0] in NAMES_A_BIDDER and words[1].decode("latin-1") not in self.bidders:
            return RIGHTS
        return None

    def refusal_of_own(self, line: bytes, words: list[bytes]) -> str | None:
        """The same, for a line that the front answers by itself."""
        least, most = OWN_WORDS[words[0]]
        if not least <= len(words) <= most or b"" in words or any(byte < 32 or byte == 127 for byte in line):
            return FORM
        if words[0] in OF_INFORMATION and not self.has_rules or words[0] in OF_SEALS and not self.has_seals:
            return FORM
        if words[0] in OF_SEALS and not all(is_whole(word) for word in words[1:]):
            return FORM
        return None if self.agrees and words[0] == b"AGREE" or words[0] in ALLOWED[self.kind] else RIGHTS

    def seen(self, tree: Tree) -> list[str]:
        """The bidders of a definition that this role is shown. It may ask WHO about all of them."""
        everyone = [bidder for bidder in tree.bidders if bidder != MARK]
        return {AUCTIONEER: everyone, OBSERVER: everyone if self.sees_all else []}.get(self.kind, list(self.bidders))

    def shown(self) -> list[str] | str:
        """The role as it stands in a configuration or a record."""
        return list(self.bidders) if self.kind == BIDDER else self.kind


def role_of(shown: list[str] | str) -> Role:
    """The role that stands so in a configuration or a record."""
    return Role(BIDDER, tuple(shown)) if isinstance(shown, list) else Role(shown)


def is_command(line: bytes) -> bool:
    """Whether a line would change the auction if it were accepted."""
    return line.startswith(COMMANDS)


def is_own(line: bytes) -> bool:
    """Whether the front answers a line by itself."""
    return line.split(b" ", 1)[0] in OWN_WORDS


def is_of_seals(line: bytes) -> bool:
    """Whether a line asks for a seal or a receipt."""
    return line.split(b" ", 1)[0] in OF_SEALS


def is_close(line: bytes) -> bool:
    """Whether a line closes a round."""
    return line.startswith(b"CLOSE ")


def for_server(line: bytes) -> bytes:
    """A command as the server gets it: without the number of its round, and without the word that it may end the auction."""
    if line.startswith(b"IN "):
        return line.split(b" ", 2)[2]
    return line.removesuffix(b" " + ENDING) if is_close(line) and line.count(b" ") == 2 else line


def sender_and_ticket(line: bytes) -> tuple[str | None, int]:
    """The sender and the ticket of a command in the server's form. The auctioneer is `None`. A ticket that isn't a number is 0."""
    words = line.split(b" ")
    sender, ticket = (words[1].decode("latin-1"), words[2]) if words[0] in NAMES_A_BIDDER else (None, words[1])
    return sender, int(ticket) if ticket.isdigit() else 0
