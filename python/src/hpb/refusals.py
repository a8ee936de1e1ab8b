"""The refusals of docs/PROTOCOL.md: for each an exception with its number, its word, what it means and what to do.

`refusal(22)` is an instance of `TooLow`, and so is the answer read from the line `ERR 22 low`. The classes below are the package's
only table of refusals.
"""
from typing import ClassVar


class HpbError(Exception):
    """Anything that goes wrong between a program and an auction."""


class Refused(HpbError):
    """An auction, or `hpb`, refused something. Each number has a class of its own.

    `number` and `word` are those of the line `ERR number word`. `meaning` says why, and `advice` what to do. `detail` adds more, if
    more is known.
    """

    number: ClassVar[int]
    word: ClassVar[str]
    meaning: ClassVar[str]
    advice: ClassVar[str]
    by_number: ClassVar[dict[int, type["Refused"]]] = {}

    def __init_subclass__(cls, number: int, word: str) -> None:
        cls.number, cls.word = number, word
        Refused.by_number[number] = cls

    def __init__(self, detail: str = "") -> None:
        self.detail = detail
        super().__init__(f"{self.number} {self.word}: {detail or self.meaning}. What to do: {self.advice}")

    def __eq__(self, other: object) -> bool:
        """Two refusals with the same number are equal, whatever their details."""
        return type(self) is type(other)

    def __hash__(self) -> int:
        return hash(type(self))

    @property
    def line(self) -> str:
        """The line of the refusal, without its LF."""
        return f"ERR {self.number} {self.word}"

    @property
    def brief(self) -> str:
        """Number, word and detail or meaning, without the advice."""
        return f"{self.number} {self.word}: {self.detail or self.meaning}"


def refusal(number: int, detail: str = "") -> Refused:
    """The refusal with a number of the table. If there is no such number, KeyError is raised."""
    return Refused.by_number[number](detail)


def says(fault: HpbError) -> str:
    """A fault in one line: for a refusal its number and word too, for anything else its text."""
    return fault.brief if isinstance(fault, Refused) else str(fault)


class BadLine(Refused, number=10, word="line"):
    meaning = "the line isn't of the grammar"
    advice = "look for double spaces, a CR, leading zeros, a missing LF at the end"


class UnknownBidder(Refused, number=11, word="bidder"):
    meaning = "no such bidder"
    advice = "take the name from the definition; names have no capital letters"


class UnknownNode(Refused, number=12, word="node"):
    meaning = "no such node"
    advice = "take the name from the definition; names have no capital letters"


class OldTicket(Refused, number=13, word="old"):
    meaning = "the ticket is 0, or below the sender's last"
    advice = "the command was overtaken; ask WHO, and take the next ticket for a new command"


class TicketTaken(Refused, number=14, word="ticket"):
    meaning = "the sender's last ticket, with another command"
    advice = "two commands share a number: use the next one, if the first was meant too"


class TicketGap(Refused, number=15, word="gap"):
    meaning = "the ticket is beyond the next"
    advice = "an earlier command was refused or didn't arrive: send that one first, or number anew"


class AuctionOver(Refused, number=20, word="closed"):
    meaning = "the auction is over"
    advice = "nothing more can be accepted"


class NotAStep(Refused, number=21, word="step"):
    meaning = "the amount isn't a multiple of the step"
    advice = "round it up to one"


class TooLow(Refused, number=22, word="low"):
    meaning = "the amount is below the minimum"
    advice = "ask NODE, and bid MIN or more"


class TooHigh(Refused, number=23, word="high"):
    meaning = "the amount is above 1,000,000,000,000"
    advice = "bid less; while MIN is above it, nobody can bid on this node"


class BidAgain(Refused, number=24, word="again"):
    meaning = "the bidder has bid on this node in this round"
    advice = "wait for the next round"


class BeyondEligibility(Refused, number=25, word="eligibility"):
    meaning = "the bid would take the activity above the eligibility"
    advice = "ask WHO; bid on a node with fewer units, or wait until fewer units are bid on or won"


class TooManyCommands(Refused, number=26, word="limit"):
    meaning = "1,000,000 commands have been accepted"
    advice = "nothing more can be accepted, not even a close"


class NoFurtherStage(Refused, number=27, word="stage"):
    meaning = "the last stage is in force"
    advice = "go on without"


class NoWaiverLeft(Refused, number=28, word="waiver"):
    meaning = "the bidder has no waiver left"
    advice = "ask WHO; if its answer has no WAIVERS, the definition has none"


class WaivedAlready(Refused, number=29, word="waived"):
    meaning = "the bidder waived in this round already"
    advice = "nothing: it keeps its eligibility at the next close"


class Unformatted(Refused, number=40, word="unformatted"):
    meaning = "the file keeps no auction: it never did, or it was cut or overwritten"
    advice = (
        "is it the right file? If it kept an auction, leave it as it is, and go back to your newest backup. If hpb format was stopped, run it again"
        " with the same words"
    )


class Formatted(Refused, number=41, word="formatted"):
    meaning = "the file keeps an auction already; it wasn't touched"
    advice = "look at it by hpb check; name another file for a new auction"


class BadHead(Refused, number=42, word="layout"):
    meaning = "the file's head is damaged, or its length was changed"
    advice = "leave the file as it is, and go back to your newest backup. If it was made longer, standard error gives the command that cuts it"


class BadLength(Refused, number=43, word="length"):
    meaning = "the layout can't have that number of frames, or the file is there and has another length"
    advice = "give 4 to 1,024, or with --layout 2 16 to 1,024 in eights; or name a file that isn't there. Standard error names the numbers that fit"


class NoCheckpoint(Refused, number=44, word="checkpoint"):
    meaning = "the file has no whole checkpoint"
    advice = "no power cut does this to an honest disk: leave the file as it is, and go back to your newest backup"


class BadFrame(Refused, number=45, word="frame"):
    meaning = "a batch in the file's journal is damaged, or one before it is missing"
    advice = (
        "no power cut does this to an honest disk: leave the file as it is, and go back to your newest backup. The batch isn't left out, since"
        " acknowledged commands would be lost without a word"
    )


class Empty(Refused, number=50, word="empty"):
    meaning = "there is no node, no bidder or no stage"
    advice = "write one"


class BadName(Refused, number=51, word="name"):
    meaning = "a name isn't 1 to 16 bytes of a-z0-9_"
    advice = "look for capital letters, spaces, hyphens, letters with accents"


class DuplicateName(Refused, number=52, word="duplicate"):
    meaning = "two nodes or two bidders have one name"
    advice = "rename one"


class BadParent(Refused, number=53, word="parent"):
    meaning = "a parent isn't the name of a node before this one"
    advice = "look for a misspelling, or move the parent up"


class TooFewChildren(Refused, number=54, word="children"):
    meaning = "a package has fewer than two children"
    advice = "give it another, or leave it out; or a licence lacks both units and opening"


class LicenceWithChild(Refused, number=55, word="leaf"):
    meaning = "a licence has a child"
    advice = "a package has no units and no opening"


class BeyondLimits(Refused, number=56, word="limits"):
    meaning = "too many nodes, licences, bidders, stages or levels"
    advice = "127, 64, 64, 4, 8"


class BadTerms(Refused, number=57, word="terms"):
    meaning = "a licence's units or opening are out of range"
    advice = "is the opening a multiple of the step?"


class NotJson(Refused, number=60, word="json"):
    meaning = "the definition isn't JSON"
    advice = "is the whole definition on one line? Try it with any JSON tool"


class BadField(Refused, number=61, word="field"):
    meaning = "a field is missing, unknown or of another type"
    advice = "compare with the table above; is parent there at each node? Are numbers without quotes?"


class BadNumber(Refused, number=62, word="number"):
    meaning = "a number isn't whole or is out of range"
    advice = "look for points, signs, exponents, and the ranges of step, percent, waivers, stages and bidders' units"


class NoMemory(Refused, number=90, word="memory"):
    meaning = "memory was refused, or a thread of hpb serve"
    advice = "the program ends with 1; free some, and try again. Each command that was answered OK is kept"


class DeviceFault(Refused, number=91, word="device"):
    meaning = (
        "the file can't be opened, made, read, written or synced, is in use, or is one of the standard streams. Or it would be made of another"
        " user's file, of one that others may write, or through another user's link or one that leads to no file"
    )
    advice = "standard error says which. To a command of hpb run, or at the end of hpb serve: see after a 91"


class StreamFault(Refused, number=92, word="stream"):
    meaning = "the input or the output failed, or more than 1,000,000,000 bytes came; or the port or as many connections can't be had"
    advice = (
        "the program ends with 1; standard error says which. Take another port, raise ulimit -n, or give fewer to --sessions. After a stream that"
        " failed, send again each line that has no answer"
    )


class Failed(Refused, number=93, word="failed"):
    meaning = "a call of the file's device failed before. Nothing is accepted any more"
    advice = "see after a 91"


class NoPlace(Refused, number=94, word="place"):
    meaning = "there was no room for a session, before any connection was taken"
    advice = "free some memory, or give fewer to --sessions"


class OutOfOrder(Refused, number=95, word="order"):
    meaning = "the answer that came to a session wasn't the one to its command"
    advice = "a fault of hpb: see after a 95"


class CountsDiffer(Refused, number=96, word="counts"):
    meaning = "the answers to all sessions don't agree with the auction that the file keeps"
    advice = "a fault of hpb: see after a 95"


class FrontRefused(HpbError):
    """The front before the server refused a line, and the server never saw it: `ERR front word` of docs/FRONT.md."""

    MEANINGS: ClassVar[dict[str, str]] = {
        "token": "the first line has no token that is known",
        "rights": "the line isn't this name's to send",
        "line": "the line isn't of the grammar, or is half a line",
        "long": "the line has more bytes than it may",
        "many": "too many connections of one name, or too many that haven't said who they are",
        "idle": "nothing has come for too long",
        "closed": "no round is open",
        "round": "another round is open",
        "clock": "the round clock doesn't allow it now",
        "end": "this close would end the auction, and doesn't say so",
        "second": "this close would end the auction, and no second name has agreed",
        "unknown": "it isn't known",
        "running": "the auction isn't over yet",
        "unsealed": "no close has sealed it yet",
    }

    def __init__(self, word: str) -> None:
        self.word = word
        super().__init__(f"front {word}: {self.MEANINGS.get(word, 'refused by the front')}")

    def __eq__(self, other: object) -> bool:
        return isinstance(other, FrontRefused) and self.word == other.word

    def __hash__(self) -> int:
        return hash(self.word)

    @property
    def line(self) -> str:
        """The line of the refusal, without its LF."""
        return f"ERR front {self.word}"
