"""A file that somebody else overwrites or cuts, or whose name he takes, while it is served or run: it is said, and nothing else."""

from __future__ import annotations

import os
import re
import subprocess
from collections.abc import Callable, Iterator
from pathlib import Path

import pytest

from harness.auctions import PAGE, Layout, commands, text_of
from harness.programs import Program
from harness.serving import Client, Serve, Server

PLACE = re.compile(r"hpb: (\d+ of \d+ places taken|place \d+ of \d+ (is held by|\(\S+\) has ended:) .*)\n")
SPOILED = (
    "hpb: {0} was cut, made longer or overwritten while it was in use, and may lack commands that get OK: "
    "end all sessions, and go back to your newest backup\n"
)
WAS_SPOILED = (
    "hpb: 91 device: {0} was cut, made longer or overwritten while it was in use, and may lack commands that got OK. "
    "See it by `hpb check --file {0}`, go back to your newest backup, and send again, in their order, the commands since then\n"
)
WAS_REPLACED = (
    "hpb: 91 device: {0} was moved, removed or replaced while it was in use. Commands that got OK are in the file that was opened: "
    "if that has another name, give it its own name again. If it has none, go back to your newest backup, and send again, in their order, "
    "the commands since then\n"
)
UNNAMED = (
    "hpb: {0} was removed or replaced while it was served, but its file has another name, which `find / -inum {2}` finds: "
    "commands that {1}, and are kept as long as that name stays. See that it gets its name again\n"
)
HEAD_PAGES = 3
GOES_ON, IS_IN_IT = "get OK go on into it", "got OK are in it"
# How many commands there are before a file is served, before it is changed, and after that. The last are more than a journal has
# room for, with one in a batch.
BEFORE, MEANWHILE, BEHIND = 3, 8, 80
SECONDS = 20
Run = Callable[[Callable[[Path], None]], tuple[str, str, int]]


def told(said: str) -> str:
    """The messages, except those about places and their sessions."""
    return PLACE.sub("", said)


def asked(client: Client, first: int, last: int) -> None:
    """Sends these commands, one at a time; all are accepted."""
    for number, line in enumerate(commands(last)[first:], first + 1):
        assert client.ask(line) == f"OK {number}"


def is_told_at_a_checkpoint(server: Server, client: Client, first: int, words: str) -> int:
    """Sends commands until these words are said while the session goes on. Returns how many commands the auction then has."""
    for last in range(first + 1, first + BEHIND):
        asked(client, last - 1, last)
        if words in server.said():
            return last
    raise AssertionError(f"{words!r} isn't said at a checkpoint: {server.said()!r}")


def overwrite(file: Path, data: bytes, at: int = 0) -> None:
    """Writes into the same file, as `cp` does."""
    with file.open("r+b") as opened:
        opened.seek(at)
        opened.write(data)


def cut(file: Path) -> None:
    os.truncate(file, file.stat().st_size - 1)


def emptied(file: Path) -> None:
    """As long as before, with zeros after the head."""
    length = file.stat().st_size
    os.truncate(file, HEAD_PAGES * PAGE)
    os.truncate(file, length)


def longer(file: Path) -> None:
    with file.open("ab") as opened:
        opened.write(b"x")


def swapped(file: Path) -> None:
    """Another auction of the same length."""
    overwrite(file, bytes(byte ^ 1 for byte in file.read_bytes()))


def restored(file: Path) -> None:
    overwrite(file, file.with_name("backup").read_bytes())


CHANGES: dict[str, Callable[[Path], None]] = {
    "a backup": restored,
    "all bytes": swapped,
    "cut": cut,
    "emptied": emptied,
    "longer": longer,
}


@pytest.fixture
def kept(program: Program, file: Path) -> Path:
    """A file with some commands, and a backup of it."""
    assert program.run_lines(file, text_of(commands(BEFORE))).status == 0
    file.with_name("backup").write_bytes(file.read_bytes())
    return file


@pytest.fixture
def calm(program: Program, kept: Path) -> Path:
    """A file with more commands than its backup, and with nothing in its journal. Tests only ask it questions: a checkpoint would
    overwrite the change of the file.
    """
    assert program.run_lines(kept, text_of(commands(MEANWHILE)[BEFORE:]), "--every", 1).status == 0
    return kept


@pytest.mark.parametrize("change", CHANGES)
def test_it_is_told_at_a_checkpoint(kept: Path, serve: Serve, change: str) -> None:
    server = serve(kept)
    with server.connect() as client:
        asked(client, BEFORE, MEANWHILE)
        CHANGES[change](kept)
        count = is_told_at_a_checkpoint(server, client, MEANWHILE, SPOILED.format(kept))
        assert client.finish() == []
    ran = server.ended()
    assert (ran.output, ran.status) == (f"CLOSED {count}\n", 1)
    assert told(ran.errors) == SPOILED.format(kept) + WAS_SPOILED.format(kept)


@pytest.mark.parametrize("change", CHANGES)
def test_it_is_told_at_the_end(calm: Path, serve: Serve, change: str) -> None:
    server = serve(calm)
    with server.connect() as client:
        assert client.ask("SHOW").endswith(f" COUNT {MEANWHILE}")
        CHANGES[change](calm)
        assert client.finish() == []
    ran = server.ended()
    assert (ran.output, ran.status) == (f"CLOSED {MEANWHILE}\n", 1)
    assert told(ran.errors) == SPOILED.format(calm) + WAS_SPOILED.format(calm)


def places_of(layout: Layout) -> list[int]:
    """The first byte of each part of a file (head, nodes, bidders, both slots, the journal), and its last byte."""
    return [page * PAGE for page in (0, 1, 2, 3, 8, 13)] + [layout.pages(layout.least_journal) * PAGE - 1]


@pytest.mark.parametrize("number", range(7))
def test_each_byte_counts(calm: Path, layout: Layout, serve: Serve, number: int) -> None:
    at = places_of(layout)[number]
    server = serve(calm)
    with server.connect() as client:
        assert client.ask("SHOW").endswith(f" COUNT {MEANWHILE}")
        overwrite(calm, bytes([calm.read_bytes()[at] ^ 1]), at)
        assert client.finish() == []
    ran = server.ended()
    assert (told(ran.errors), ran.status) == (SPOILED.format(calm) + WAS_SPOILED.format(calm), 1)


def test_what_the_engine_writes_is_no_difference(kept: Path, serve: Serve) -> None:
    """Over many checkpoints, while another client asks questions."""
    server = serve(kept, 2)
    with server.connect() as client, server.connect() as other:
        for last in range(BEFORE + 10, BEFORE + 300, 10):
            asked(client, last - 10, last)
            assert other.ask("SHOW").endswith(f" COUNT {last}")
        assert (client.finish(), other.finish()) == ([], [])
    ran = server.ended()
    assert (told(ran.errors), ran.status) == ("", 0)


def test_a_copy_of_itself_is_no_difference(kept: Path, serve: Serve) -> None:
    server = serve(kept)
    with server.connect() as client:
        asked(client, BEFORE, MEANWHILE)
        overwrite(kept, kept.read_bytes())
        asked(client, MEANWHILE, MEANWHILE + BEHIND)
        assert client.finish() == []
    ran = server.ended()
    assert (told(ran.errors), ran.status) == ("", 0)


def test_a_backup_that_is_put_back_is_seen_by_check_as_an_older_auction(program: Program, calm: Path, serve: Serve) -> None:
    """This is why status 0 would be wrong: commands that were answered by OK are gone."""
    server = serve(calm)
    with server.connect() as client:
        assert client.ask("SHOW").endswith(f" COUNT {MEANWHILE}")
        restored(calm)
        assert client.finish() == []
    assert server.ended().status == 1
    assert program.count(calm) == BEFORE


def test_a_name_that_is_removed_beside_another_is_told(program: Program, kept: Path, serve: Serve) -> None:
    """`rm F` of a file with a second name. At first the message was that it had been moved."""
    other, inode = kept.with_name("other"), kept.stat().st_ino
    os.link(kept, other)
    server = serve(kept)
    with server.connect() as client:
        asked(client, BEFORE, MEANWHILE)
        kept.unlink()
        goes_on, is_in_it = (UNNAMED.format(kept, words, inode) for words in (GOES_ON, IS_IN_IT))
        count = is_told_at_a_checkpoint(server, client, MEANWHILE, goes_on)
        assert client.finish() == []
    ran = server.ended()
    assert (ran.output, told(ran.errors)) == (f"CLOSED {count}\n", goes_on + is_in_it)
    assert program.count(other) == count


def test_a_name_that_is_replaced_beside_another_is_told(program: Program, calm: Path, serve: Serve) -> None:
    """`mv backup F`, for a file with a second name."""
    other, inode = calm.with_name("other"), calm.stat().st_ino
    os.link(calm, other)
    server = serve(calm)
    with server.connect() as client:
        assert client.ask("SHOW").endswith(f" COUNT {MEANWHILE}")
        calm.with_name("backup").rename(calm)
        assert client.finish() == []
    assert told(server.ended().errors) == UNNAMED.format(calm, IS_IN_IT, inode)
    assert program.count(other) == MEANWHILE


def moved(file: Path) -> None:
    file.rename(file.with_name("moved"))


def removed(file: Path) -> None:
    file.unlink()


def replaced(file: Path) -> None:
    """By its backup, which has the same length."""
    file.with_name("backup").rename(file)


@pytest.fixture
def run(program: Program, calm: Path) -> Iterator[Run]:
    """Runs a file, changes it once an answer shows that the run has begun, and returns output, messages and status."""
    with program.start("run", "--file", calm, input=subprocess.PIPE) as running:

        def ends(change: Callable[[Path], None]) -> tuple[str, str, int]:
            assert running.stdin and running.stdout
            running.stdin.write(b"SHOW\n")
            running.stdin.flush()
            assert running.stdout.readline().endswith(b" COUNT %d\n" % MEANWHILE)
            change(calm)
            output, errors = running.communicate(text_of(commands(MEANWHILE + 1)[MEANWHILE:]), timeout=SECONDS)
            return output.decode(), errors.decode(), running.returncode

        yield ends
        running.kill()


@pytest.mark.parametrize("change", CHANGES)
def test_a_run_says_at_its_end_that_its_file_was_changed(calm: Path, run: Run, change: str) -> None:
    """Its answers are those of the auction in its memory."""
    assert run(CHANGES[change]) == (f"OK {MEANWHILE + 1}\n", WAS_SPOILED.format(calm), 1)


@pytest.mark.parametrize("change", [moved, removed, replaced])
def test_a_run_says_at_its_end_that_its_file_lost_its_name(calm: Path, run: Run, change: Callable[[Path], None]) -> None:
    assert run(change) == (f"OK {MEANWHILE + 1}\n", WAS_REPLACED.format(calm), 1)


@pytest.mark.parametrize("change", [Path.stat, Path.read_bytes])
def test_a_run_whose_file_is_only_read_ends_well(run: Run, change: Callable[[Path], None]) -> None:
    assert run(change) == (f"OK {MEANWHILE + 1}\n", "", 0)


def test_a_run_of_many_batches_and_checkpoints_finds_its_own_writes(program: Program, kept: Path) -> None:
    ran = program.run_lines(kept, text_of(commands(BEFORE + 300)[BEFORE:]), "--batch", 7, "--every", 3)
    assert (ran.errors, ran.status) == ("", 0)
