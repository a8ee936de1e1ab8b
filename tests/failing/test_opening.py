"""Calls fail while a file is opened, made or looked at. The answer and the message have to be those of the documents."""

from __future__ import annotations

import errno
import os
from collections.abc import Callable

import pytest

from failing.bidders import wrong_of
from failing.trials import DEFINITION, FIRST, Trial
from failing.waiting import SHORT_BOUND, bid_of, wait_until_held
from harness.auctions import PAGE, text_of
from harness.failing_calls import EVER, By, Call, Rule, Way
from harness.programs import Ran, TookTooLong, format_words, shown
from harness.serving import NotServing
from outside.answering import same

DEVICE, STREAM = "91 device", "92 stream"
ERRORS = (errno.EIO, errno.ENOSPC)
# Before a file is served it is read several times. This is the number of the read of its first pages, by which the file is recognized
# later: if that one fails, it is served all the same.
LOOK_AT_FILE = 2


def system(code: int) -> str:
    """An error in the system's own words."""
    return f"{os.strerror(code)} (os error {code})"


def calls_of_opening(trial: Trial, kinds: Call) -> int:
    """How many such calls are made before a client connects."""
    trial.begin()
    trial.faults.set(Rule(kinds, Way.MADE, last=EVER))
    trial.start(1)
    count = trial.faults.begun()
    trial.server.kill()
    assert count > 0, "there are no such calls"
    return count


def refuses_to_open(trial: Trial, rule: Rule, answer: str, words: str = "") -> None:
    """Nothing is served, the message has these words, and the file is as it was."""
    _, found = trial.refuse(rule).served()
    same((found.output, found.status), (f"ERR {answer}\n", 1), f"call {rule.first} to {rule.calls!r}")
    assert found.errors.startswith(f"hpb: {answer}: ") and words in found.errors, found
    assert trial.file.read_bytes() == trial.before


@pytest.mark.parametrize(
    ("kinds", "code", "answer"),
    [
        (Call.OPEN | Call.LOCK | Call.SYNC | Call.ADVICE, errno.EIO, DEVICE),
        (Call.READ, errno.EIO, DEVICE),
        (Call.PORT, errno.EADDRINUSE, STREAM),
    ],
    ids=["file", "reads", "port"],
)
def test_each_call_of_opening(trial: Trial, kinds: Call, code: int, answer: str) -> None:
    for number in range(1, calls_of_opening(trial, kinds) + 1):
        if (kinds, number) != (Call.READ, LOOK_AT_FILE):
            refuses_to_open(trial, Rule(kinds, Way.NOTHING, number, error=code), answer)


@pytest.mark.parametrize(
    ("kinds", "code", "words"),
    [
        (Call.LOCK, errno.EWOULDBLOCK, "in use by another process"),
        (Call.LOCK, errno.ENOLCK, os.strerror(errno.ENOLCK)),
        (Call.ADVICE, errno.EINVAL, os.strerror(errno.EINVAL)),
    ],
    ids=["in-use", "no-locks", "advice"],
)
def test_why_a_file_is_not_opened(trial: Trial, kinds: Call, code: int, words: str) -> None:
    refuses_to_open(trial, Rule(kinds, Way.NOTHING, error=code), DEVICE, words)


def last_page(trial: Trial, way: Way = Way.NOTHING) -> None:
    """A read of the file fails. It is then read once more, and its last page fails too. The system's own words are reported."""
    number, pages = LOOK_AT_FILE + 1, len(trial.before) // PAGE
    trial.refuse(Rule(Call.READ, Way.NOTHING, number), Rule(Call.READ, way, number + pages))
    _, found = trial.served()
    same((found.output, found.status), (f"ERR {DEVICE}\n", 1), "the end")
    assert os.strerror(errno.EIO) in found.errors, f"the system's words: {found}"


def test_a_disk_that_is_read_once_more(trial: Trial) -> None:
    last_page(trial)


def last_sync(trial: Trial, last: int | None = EVER) -> None:
    """The last sync before serving fails, and so does the one that tests the disk once more. This has to be reported."""
    trial.refuse(Rule(Call.SYNC, Way.NOTHING, calls_of_opening(trial, Call.SYNC), last))
    _, found = trial.served()
    same((found.output, found.status), (f"ERR {DEVICE}\n", 1), "the end")
    said = f"hpb: {DEVICE}: {trial.file} could not be read or synced: {system(errno.EIO)}: see to its disk, and try again\n"
    same(found.errors, said, "what is said")


def test_a_disk_that_is_synced_once_more(trial: Trial) -> None:
    last_sync(trial)


def test_too_few_files_may_be_open(paged: Trial) -> None:
    """If the top folder can't be opened that often because of EMFILE, nothing is served. Any other error there doesn't matter."""
    refuses_to_open(paged, Rule(Call.TOP, Way.NOTHING, error=errno.EMFILE), STREAM)
    for code in (errno.EACCES, errno.ENFILE):
        paged.begin().refuse(Rule(Call.TOP, Way.NOTHING, error=code)).start(1)


# A write or a sync that fails at one bid: the end says why, in the system's own words.

Job = Callable[[Trial, Rule], str]


def serves_one(trial: Trial, rule: Rule) -> str:
    """The messages on a bid that is served."""
    trial.serve(1)
    trial.faults.set(rule)
    trial.bid([0], 1)
    return trial.ended()[2]


def runs_one(trial: Trial, rule: Rule) -> str:
    """The messages on a run. The first such call after those that open the file fails."""
    conditions = trial.faults.conditions()
    trial.faults.set(Rule(rule.calls, Way.MADE, last=EVER))
    trial.program.run_lines(trial.file, text_of(["SHOW"]), conditions=conditions, seconds=trial.bound)
    trial.faults.set(Rule(rule.calls, rule.way, trial.faults.begun() + 1, error=rule.error))
    return trial.program.run_lines(trial.file, bid_of(0), conditions=conditions, seconds=trial.bound).errors


def tells_why(trial: Trial, job: Job, rule: Rule) -> None:
    """The job is given one bid, whose commit fails."""
    said = job(trial.begin(), rule)
    words = f"hpb: {DEVICE}: the disk of {trial.file} failed: {system(rule.error)}. "
    assert words in said, f"the system's words: {said}"


@pytest.mark.parametrize("job", [serves_one, runs_one])
@pytest.mark.parametrize(("number", "kinds"), enumerate((Call.WRITE, Call.SYNC)), ids=["write", "sync"])
def test_why_a_disk_failed(trial: Trial, job: Job, number: int, kinds: Call) -> None:
    code = ERRORS[(number + trial.layout.value) % len(ERRORS)]
    tells_why(trial, job, Rule(kinds, Way.NOTHING, error=code, thread=By.COMMITTER if job is serves_one else By.ANYBODY))


@pytest.mark.parametrize("last", [1, EVER], ids=["once", "always"])
def test_a_look_at_the_file_that_fails(trial: Trial, last: int) -> None:
    """The sessions go on, and nothing is said about another writer."""
    trial.serve(1)
    trial.faults.set(Rule(Call.READ, Way.NOTHING, 1, last))
    trial.bid([0], 20)
    assert (len(trial.bidders[0].numbers), wrong_of(trial.bidders)) == (20, [])
    assert trial.ended() == (f"CLOSED {len(FIRST) + 20}\n", 0, "")
    assert trial.faults.met() > 0


# Making and formatting.


def formatted(trial: Trial, rule: Rule) -> Ran:
    """Formats a file of zeros while such writes fail."""
    trial.begin()
    trial.file.write_bytes(bytes(len(trial.before)))
    trial.faults.set(rule)
    return trial.program.format(trial.file, trial.layout, text=DEFINITION, conditions=trial.faults.conditions())


def test_a_disk_that_is_full_at_each_write_of_formatting(trial: Trial) -> None:
    """The program says so, and what to do."""
    found = formatted(trial, Rule(Call.WRITE, Way.MADE, last=EVER))
    assert (found.errors, found.status) == ("", 0)
    writes = trial.faults.begun()
    assert writes > 0
    said = f"hpb: {DEVICE}: {trial.file} could not be opened, made or written: {system(errno.ENOSPC)}: make room on its disk, and try again\n"
    for number in range(1, writes + 1):
        found = formatted(trial, Rule(Call.WRITE, Way.NOTHING, number, error=errno.ENOSPC))
        assert found.told() == (f"ERR {DEVICE}\n", said, 1)


def made_meanwhile(trial: Trial, does: Callable[[], object]) -> tuple[str, str, int]:
    """The end of making a file. Its first sync is held until something is done; then the file is read again and gets its name."""
    trial.file.unlink()
    trial.faults.set(Rule(Call.SYNC, Way.HELD))
    definition = trial.folder / "definition"
    definition.write_bytes(DEFINITION)
    with definition.open("rb") as text:
        maker = trial.program.start(*format_words(trial.file, trial.layout), input=text, conditions=trial.faults.conditions())
    try:
        wait_until_held(trial, "no sync is held")
        does()
        trial.faults.release()
        written, said = maker.communicate(timeout=trial.bound)
    finally:
        maker.kill()
        maker.wait()
    return shown(written), shown(said), maker.returncode


def writes_meanwhile(trial: Trial, data: bytes = b"x") -> None:
    """Another process that has the file open writes to it."""

    def write() -> None:
        with open(f"{trial.file}.new", "r+b") as opened:
            opened.seek(PAGE)
            opened.write(data)

    said = f"hpb: {DEVICE}: {trial.file} is in use by another process: wait until that has ended\n"
    same(made_meanwhile(trial, write), (f"ERR {DEVICE}\n", said, 1), "the end")
    assert [*trial.folder.glob(f"{trial.file.name}*")] == []


def names_meanwhile(trial: Trial, is_named: bool = True) -> None:
    """The name is given to another file."""
    written, said, status = made_meanwhile(trial, lambda: is_named and trial.file.write_bytes(trial.before))
    same((written, status), ("ERR 41 formatted\n", 1), f"the end: {said}")
    assert [*trial.folder.glob(f"{trial.file.name}*")] == [trial.file]
    assert trial.file.read_bytes() == trial.before


def test_a_file_that_is_written_while_it_is_made(trial: Trial) -> None:
    writes_meanwhile(trial)


def test_a_file_whose_name_is_taken_while_it_is_made(trial: Trial) -> None:
    names_meanwhile(trial)


# Lies: each of these is found.


@pytest.mark.parametrize("job", [serves_one, runs_one])
def test_a_disk_that_is_well_is_found(paged: Trial, job: Job) -> None:
    with pytest.raises(AssertionError, match="the system's words"):
        tells_why(paged, job, Rule(Call.SYNC, Way.MADE, thread=By.COMMITTER if job is serves_one else By.ANYBODY))


def test_a_page_that_is_read_is_found(paged: Trial) -> None:
    with pytest.raises(AssertionError, match="the system's words"):
        last_page(paged, Way.MADE)


def test_a_disk_that_is_well_once_more_is_found(paged: Trial) -> None:
    with pytest.raises(AssertionError, match="what is said"):
        last_sync(paged, None)


def test_files_that_may_be_open_are_found(paged: Trial) -> None:
    with pytest.raises(NotServing):
        paged.refuse(Rule(Call.TOP, Way.NOTHING, error=errno.EMFILE)).start(1)


def test_a_lock_that_is_had_is_found(paged: Trial) -> None:
    paged.bound = SHORT_BOUND
    with pytest.raises(TookTooLong):
        refuses_to_open(paged, Rule(Call.LOCK, Way.MADE), DEVICE)


@pytest.mark.parametrize("does", [lambda trial: writes_meanwhile(trial, b"\0"), lambda trial: names_meanwhile(trial, False)], ids=["file", "name"])
def test_a_file_that_is_left_alone_is_found(paged: Trial, does: Callable[[Trial], None]) -> None:
    with pytest.raises(AssertionError, match="the end"):
        does(paged)
