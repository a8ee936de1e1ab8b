"""Streams that fail: standard output is full or closed, standard input fails, must not wait, or has more bytes than are read; and a disk
that fails."""

from __future__ import annotations

import socket
import subprocess
from collections.abc import Callable
from contextlib import AbstractContextManager
from pathlib import Path

import pytest

from harness.auctions import EXAMPLES
from harness.conditions import Conditions
from harness.full_disks import filled, no_signal
from harness.programs import Program, Ran, format_words
from harness.serving import ADDRESS, free_port
from harness.streams import WITHOUT_SIGNAL, full, not_waiting, opened, unread
from outside.lies import Liar
from outside.texts import CLOSED, COAST, EMPTY, FULL, NO_FILE, NODES, SHOWN, TOO_MUCH, Wanted, disk_of, refused, stream, stream_of_run

SCRIPT = COAST + b"SHOW\n"
MOST_BYTES = 1_000_000_000
# Standard outputs that fail, and the message about each.
OUTPUTS = [pytest.param(full, FULL, id="full"), pytest.param(unread, CLOSED, id="closed")]
Output = Callable[[], AbstractContextManager[int]]


@pytest.fixture
def file(program: Program, room: Path) -> Path:
    """A new auction of the coast."""
    assert program.format(room / "F", text=COAST).told() == ("FORMATTED 17\n", "", 0)
    return room / "F"


def run_to(program: Program, output: Output, text: bytes, *words: object) -> Ran:
    """With an output that fails."""
    with output() as descriptor:
        return program.run(*words, text=text, output=descriptor, conditions=WITHOUT_SIGNAL)


def run_on_folder(program: Program, *words: object) -> Ran:
    """With an input that is a folder."""
    with opened(EXAMPLES) as descriptor:
        return program.run(*words, input=descriptor, conditions=WITHOUT_SIGNAL)


def run_not_waiting(program: Program, text: bytes, *words: object) -> Ran:
    """With an input from which a read must not wait."""
    with not_waiting(text) as descriptor:
        return program.run(*words, input=descriptor, conditions=WITHOUT_SIGNAL)


def serve_words(file: Path) -> list[object]:
    return ["serve", "--file", file, "--port", free_port(), "--sessions", 1]


def script_to(program: Program, output: Output, said: str) -> None:
    """A script whose output fails has no answer."""
    assert run_to(program, output, SCRIPT).told() == ("", stream(said), 1)


def script_on_folder(program: Program) -> None:
    """So has one whose input fails."""
    assert run_on_folder(program).told() == ("", stream(NO_FILE), 1)


def script_answers(program: Program) -> None:
    """A script is answered from a pipe, from a file, and from a pipe that must not wait."""
    assert program.run(text=SCRIPT).told() == (SHOWN, "", 0)
    assert run_not_waiting(program, SCRIPT).told() == (SHOWN, "", 0)
    assert run_not_waiting(program, b"").told() == EMPTY
    assert program.run().told() == EMPTY
    assert program.run(input=subprocess.DEVNULL).told() == EMPTY


def test_a_script_is_answered(program: Program) -> None:
    script_answers(program)


def test_a_script_is_read_from_a_file(program: Program, room: Path) -> None:
    (room / "script").write_bytes(SCRIPT)
    with opened(room / "script") as descriptor:
        assert program.run(input=descriptor).told() == (SHOWN, "", 0)


@pytest.mark.parametrize("output, said", OUTPUTS)
def test_a_script_is_told_that_its_output_fails(program: Program, output: Output, said: str) -> None:
    script_to(program, output, said)


def test_a_script_is_told_that_its_input_fails(program: Program) -> None:
    script_on_folder(program)


def test_format_is_told_that_its_input_fails(program: Program, room: Path) -> None:
    words = format_words(room / "F")
    assert run_on_folder(program, *words).told() == ("ERR 92 stream\n", stream(NO_FILE), 1)
    assert run_not_waiting(program, b"", *words).told() == EMPTY
    assert not (room / "F").exists()


@pytest.mark.parametrize("output, said", OUTPUTS)
def test_format_makes_a_file_though_its_output_fails(program: Program, room: Path, output: Output, said: str) -> None:
    assert run_to(program, output, COAST, *format_words(room / "F")).told() == ("", stream(said), 1)
    assert program.check(room / "F").told() == (SHOWN + NODES, "", 0)


@pytest.mark.parametrize("output, said", OUTPUTS)
def test_check_is_told_that_its_output_fails(program: Program, file: Path, output: Output, said: str) -> None:
    assert program.check(file).told() == (SHOWN + NODES, "", 0)
    assert run_to(program, output, b"", "check", "--file", file).told() == ("", stream(said), 1)


def test_a_run_is_told_that_its_input_fails(program: Program, file: Path) -> None:
    words = ("run", "--file", file)
    assert program.run(*words, text=b"SHOW\n").told() == (SHOWN, "", 0)
    assert run_on_folder(program, *words).told() == ("", stream_of_run(NO_FILE, file), 1)
    assert run_not_waiting(program, b"SHOW\n", *words).told() == (SHOWN, "", 0)


@pytest.mark.parametrize("output, said", OUTPUTS)
def test_a_run_is_told_that_its_output_fails(program: Program, file: Path, output: Output, said: str) -> None:
    assert run_to(program, output, b"SHOW\n", "run", "--file", file).told() == ("", stream_of_run(said, file), 1)


@pytest.mark.parametrize("output, said", OUTPUTS)
def test_serve_is_told_that_its_output_fails(program: Program, file: Path, output: Output, said: str) -> None:
    assert run_to(program, output, b"", *serve_words(file)).told() == ("", stream(said), 1)


def test_serve_is_told_that_its_port_is_taken(program: Program, file: Path) -> None:
    with socket.create_server((ADDRESS, 0)) as other:
        port = other.getsockname()[1]
        said = f"port {port} can't be had: Address already in use (os error 98): choose another, by --port"
        ran = program.run("serve", "--file", file, "--port", port, "--sessions", 1)
    assert ran.told() == refused("92 stream", said)


def on_zeros(program: Program, room: Path, front: bytes, count: int, *words: object) -> Wanted:
    """The outcome of a text with zeros behind it, so many bytes in all, through a pipe."""
    (room / "front").write_bytes(front)
    feed = ["sh", "-c", 'cat "$0"; head -c "$1" /dev/zero', str(room / "front"), str(count - len(front))]
    with subprocess.Popen(feed, stdout=subprocess.PIPE, stderr=subprocess.DEVNULL) as feeding:
        assert feeding.stdout is not None
        try:
            return program.run(*words, input=feeding.stdout, conditions=WITHOUT_SIGNAL, seconds=100).told()
        finally:
            feeding.stdout.close()
            feeding.kill()


def test_as_many_bytes_are_read_as_may_be(program: Program, room: Path) -> None:
    assert on_zeros(program, room, SCRIPT, MOST_BYTES) == (SHOWN + "ERR 10 line\n", "", 0)


def test_a_byte_more_is_told(program: Program, room: Path) -> None:
    assert on_zeros(program, room, SCRIPT, MOST_BYTES + 1) == (SHOWN, stream(TOO_MUCH), 1)


def test_a_byte_more_in_a_run_is_told(program: Program, room: Path, file: Path) -> None:
    assert on_zeros(program, room, b"", MOST_BYTES + 1, "run", "--file", file) == ("", stream_of_run(TOO_MUCH, file), 1)


LINES = b"BID ann 1 bay 1000\nBID ann 2 cape 1500\nSHOW\n"


def on_full_disk(program: Program, file: Path, output: int) -> tuple[str, str, int]:
    """A run in which a write behind the third page of a file fails."""
    return filled(program.start("run", "--file", file, input=subprocess.PIPE, output=output, conditions=Conditions(last=no_signal)), LINES)


def test_a_run_is_told_that_its_disk_fails(program: Program, file: Path) -> None:
    told = on_full_disk(program, file, subprocess.PIPE)
    assert told == ("ERR 91 device\nERR 93 failed\n" + SHOWN, disk_of(file), 1)


def test_a_run_is_told_of_both_its_output_and_its_disk(program: Program, file: Path) -> None:
    with full() as output:
        _, said, status = on_full_disk(program, file, output)
    assert (said, status) == (stream_of_run(FULL, file) + disk_of(file), 1)


@pytest.mark.parametrize("lie", ["wrong", "blamed", "ill", "endless"])
def test_other_answers_are_seen(liar: Liar, lie: str) -> None:
    with pytest.raises(AssertionError):
        script_answers(liar(lie))


@pytest.mark.parametrize("lie", ["silent", "well"])
def test_faults_that_are_not_told_are_seen(liar: Liar, lie: str) -> None:
    with pytest.raises(AssertionError):
        script_on_folder(liar(lie))
    with pytest.raises(AssertionError):
        script_to(liar(lie), full, FULL)
