"""The lines that a front answers by itself: those of the round clock, announcements, and what a close would do (docs/ROUNDS.md)."""
from hpb.front.core import news, rounds, veil
from hpb.front.core.clock import At, Why
from hpb.front.core.information import seen_by
from hpb.front.core.state import Front, Item
from hpb.front.core.stepping import Step
from hpb.front.rights import CLOCK, CLOSED, END, FORM, NOT_KNOWN, ROUND, RUNNING, SECOND, for_server, is_close, is_whole, refused, sender_and_ticket
from hpb.front.times import NoTime, read_time, text_of_time
from hpb.record.entries import text_of
from hpb.record.news import ALL
from hpb.rules.preview import Preview


# The questions about things that are on the disk already. A READ that changes something isn't one.
QUESTIONS = (b"EVENT", b"INFORMATION", b"READ ")


class No(Exception):
    """The front refuses a line by this word."""


def answer(step: Step, name: str, line: bytes) -> tuple[bytes, int]:
    """The answer to a line, and the number of the entry that has to be on the disk before it leaves. A question waits for no entry of which
    it doesn't tell: else its time would show that others have sent commands."""
    before = step.front.ledger.written
    try:
        told = answered(step, name, line)
    except No as no:
        told = refused(str(no))
    if line == b"SCHEDULE":
        return told, step.front.rounds.entry
    is_question = line.startswith(QUESTIONS) and step.front.ledger.written == before
    return told, 0 if is_question else step.front.ledger.written


def answered(step: Step, name: str, line: bytes) -> bytes:
    words = text_of(line).split(" ")
    match words:
        case ["SCHEDULE"]:
            return schedule_line(step.front)
        case ["EVENT"]:
            return news.next_line(step.front, name, None, step.front.ledger.synced)
        case ["EVENT", number]:
            return news.next_line(step.front, name, 0 if number == "0" else number_in(number), step.front.ledger.synced)
        case ["READ", number]:
            news.read(step, name, 0 if number == "0" else number_in(number))
            return f"READ {step.front.read.get(name, 0)}".encode()
        case ["PREVIEW", *bidder]:
            return preview(step, name, bidder)
        case ["AGREE", ticket]:
            return agree(step, name, number_in(ticket))
        case ["INFORMATION"]:
            return veil.information_line(step.front, name)
        case ["UNVEIL"]:
            return unveil(step, name)
        case ["SAY", to, *_] if to == ALL or to in step.front.setting.roles:
            news.say(step, name, to, text_of(line).split(" ", 2)[2], rounds.wall_of(step.front))
        case ["OPEN", number, "UNTIL", time]:
            open_now(step, number_in(number), time, may_end=False)
        case ["OPEN", number, "UNTIL", time, "ENDING"]:
            open_now(step, number_in(number), time, may_end=True)
        case ["EXTEND", number, time]:
            extend(step, number_in(number), time)
        case ["PAUSE"]:
            pause(step)
        case ["RESUME"]:
            resume(step)
        case _:
            raise No(FORM)
    return news.last_line(step.front, name)


def number_in(word: str) -> int:
    if not is_whole(word.encode("latin-1")):
        raise No(FORM)
    return int(word)


def time_in(step: Step, word: str) -> float:
    try:
        return read_time(word, rounds.plan_of(step).zone, rounds.wall_of(step.front))
    except NoTime:
        raise No(FORM) from None


# The clock.


def open_now(step: Step, number: int, time: str, may_end: bool) -> None:
    """Opens the auction's round by hand. From then on the clock is on."""
    now, known, until = rounds.wall_of(step.front), step.front.rounds, time_in(step, time)
    if number != known.round:
        raise No(ROUND)
    is_free = not known.is_on or (known.has_begun and known.at is At.WAITS)
    if not is_free or known.paused or known.is_over or until <= now or rounds.fault_of_clock(step):
        raise No(CLOCK)
    if may_end and step.front.setting.closing.needs_second:
        raise No(SECOND)
    rounds.change(step, is_on=True, has_begun=True, closed=rounds.closed_by(known))
    rounds.open_round(step, until, known.slot, may_end or rounds.plan_of(step).may_end)


def extend(step: Step, number: int, time: str) -> None:
    """The open round ends later than it was to end. While the clock is paused, it goes on until then at least."""
    known, until = step.front.rounds, time_in(step, time)
    if number != known.round:
        raise No(ROUND)
    is_open = known.is_on and known.at is At.OPEN and not is_late(step.front)
    if not is_open or until <= max(known.until or 0.0, rounds.wall_of(step.front)):
        raise No(CLOCK)
    if known.paused:
        rounds.change(step, until=until)
    else:
        rounds.warn_of(step, until)
    rounds.write(step, "extended")


def pause(step: Step) -> None:
    known = step.front.rounds
    if not known.is_on or not known.has_begun or known.paused or known.at not in (At.OPEN, At.WAITS) or is_late(step.front):
        raise No(CLOCK)
    rounds.pause(step, Why.AUCTIONEER)


def is_late(front: Front) -> bool:
    """Whether the open round's time is over. In a pause it isn't."""
    known = front.rounds
    return known.at is At.OPEN and not known.paused and rounds.time_of(front) >= (known.until or 0.0)


def resume(step: Step) -> None:
    known = step.front.rounds
    if not known.paused or not (known.is_synchronised or rounds.plan_of(step).may_be_unsynchronised):
        raise No(CLOCK)
    rounds.resume(step)


def schedule_line(front: Front) -> bytes:
    """The state of the clock in one line."""
    known, now = front.rounds, rounds.wall_of(front)
    state = "none" if not known.is_on else "paused" if known.paused else str(known.at)
    left = max(0.0, known.left if known.paused else (known.until or now) - now) if known.at is At.OPEN else 0.0
    opens, until = ("-" if time is None else text_of_time(time) for time in (known.opens, known.until))
    return f"SCHEDULE ROUND {known.round} STATE {state} OPENS {opens} UNTIL {until} LEFT {int(left)} NOW {text_of_time(now)}".encode()


# A close.


def refusal(step: Step, item: Item) -> str | None:
    """The word by which a command is refused because of its round, or None if it may go to the server. A repeat always may: it gets the answer
    that it got before."""
    line, known = item.line, step.front.rounds
    if is_close(line):
        return refusal_of_close(step, line.split(b" "))
    is_other = line.startswith(b"IN ") and int(line.split(b" ", 2)[1]) != known.round
    is_outside = known.is_on and not item.round and not line.startswith(b"STAGE ")
    if not is_other and not is_outside:
        return None
    sender, ticket = sender_and_ticket(for_server(line))
    if 0 < ticket <= step.front.ledger.used.get(sender, 0):
        return None
    return ROUND if is_other else CLOSED


def refusal_of_close(step: Step, words: list[bytes]) -> str | None:
    """The same for a CLOSE of the auctioneer. While the clock runs, the clock alone closes rounds."""
    known, rule, front = step.front.rounds, step.front.setting.closing, step.front
    if words[1] != b"%d" % (front.ledger.used.get(None, 0) + 1) or known.is_over:
        return None
    if known.is_on and not known.paused:
        return CLOCK
    if rule.is_plain or not front.books.would_end():
        return None
    if len(words) < 3:
        return END
    return SECOND if rule.needs_second and known.agreed != int(words[1]) else None


def agree(step: Step, name: str, ticket: int) -> bytes:
    """A second name agrees that the close with this ticket ends the auction."""
    desk = step.front.setting.desk
    if ticket != step.front.ledger.used.get(None, 0) + 1:
        raise No(CLOCK)
    rounds.change(step, agreed=ticket)
    news.say(step, name, desk, f"{name} agrees that CLOSE {ticket} ends the auction", rounds.wall_of(step.front))
    return b"AGREE %d" % ticket


def preview(step: Step, name: str, bidder: list[str]) -> bytes:
    """What a close would do now: in sum, or to one bidder."""
    step.set(books=step.front.books.read_up())
    found = step.front.books.preview()
    if found is None or not seen_by(step.front.viewer(name), found):
        raise No(NOT_KNOWN)
    if bidder and bidder[0] not in found.bidders:
        raise No(NOT_KNOWN)
    return (prospect_line(found, bidder[0]) if bidder else sum_line(found)).encode()


def unveil(step: Step, name: str) -> bytes:
    """The auction is over, and from now on names may know more."""
    if not step.front.rounds.is_over:
        raise No(RUNNING)
    return veil.unveil(step, name)


def sum_line(found: Preview) -> str:
    sums = f"SHORT {len(found.short)} WAIVERS {len(found.waivers)} LOSING {len(found.losing)}"
    return f"PREVIEW ROUND {found.round} REVENUE {found.revenue} {sums} ENDS {'yes' if found.ends else 'no'}"


def prospect_line(found: Preview, bidder: str) -> str:
    one = found.bidders[bidder]
    now = f"ELIGIBILITY {one.eligibility} ACTIVITY {one.activity} SHORT {one.short}"
    return f"PREVIEW {bidder} {now} WAIVER {one.waiver} AFTER {one.after}"
