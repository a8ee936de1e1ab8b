"""A front's output and messages are never written into one of its files, and a failure of standard output isn't ignored."""

from __future__ import annotations

import fcntl
import os
import pty
import re
import select
import signal
import subprocess
import sys
import termios
from collections.abc import Iterator
from contextlib import ExitStack
from pathlib import Path

import pytest
from fronts import Caller, Front, token_of
from harness.fronts import tool_words, with_package
from harness.programs import Program
from harness.serving import wait_until
from test_front_tokens import id_of, tokens

FULL = "/dev/full"
# The least that a pipe holds.
PIPE_BYTES = 4_096
SAID_FULL = "front: standard output can't be written: No space left on device"


@pytest.fixture
def front(program: Program, room: Path) -> Iterator[Front]:
    """A front of a new auction, with a record of two segments and a log. It isn't running."""
    made = Front(program, room)
    assert program.format(made.file).status == 0
    for name in ("R", "R.2", "R.asked", "R.log", "R.log.3"):
        (room / name).touch(mode=0o600)
    yield made
    made.kill()


def waiting_in(reader: int) -> int:
    """How many bytes wait to be read."""
    counted = fcntl.ioctl(reader, termios.FIONREAD, bytes(4))
    return int.from_bytes(counted, sys.byteorder)


def shell(front: Front, redirection: str, *words: str) -> subprocess.CompletedProcess[str]:
    """Runs the front to its end with a redirection of the shell."""
    command = ["bash", "-c", f'exec "$@" {redirection}', "bash", *front.words(*words)]
    return subprocess.run(command, cwd=front.folder, capture_output=True, text=True, timeout=60, stdin=subprocess.DEVNULL)


@pytest.mark.parametrize(
    ("name", "field"),
    [
        ("F", "file"),
        ("R", "record"),
        ("R.2", "record"),
        ("R.asked", "record"),
        ("R.log", "log"),
        ("R.log.3", "log"),
        ("T", "tokens"),
        ("C", "configuration"),
        ("P", "program"),
    ],
)
@pytest.mark.parametrize(("number", "stream"), [(1, "standard output"), (2, "standard error")])
def test_a_stream_that_leads_into_a_file_of_the_front_is_refused(front: Front, name: str, field: str, number: int, stream: str) -> None:
    """The message goes to the other stream."""
    path = front.folder / name
    before = path.read_bytes()
    ran = shell(front, f"{number}>> {name}")
    said = f"front: {stream} leads to {path}, which is the {field} or stands beside it: lead it elsewhere\n"
    assert (ran.returncode, ran.stdout, ran.stderr) == (2, "" if number == 1 else said, said if number == 1 else "")
    assert path.read_bytes() == before


@pytest.mark.parametrize("words", [["--colour"], ["tokens", "paint"], ["tokens", "add", "eve"], ["--help"]])
def test_words_that_are_wrong_arent_written_into_the_record(front: Front, words: list[str]) -> None:
    """If both streams lead there, there is no message at all."""
    ran = shell(front, ">> R 2>&1", *words)
    assert (ran.returncode, ran.stdout, ran.stderr) == (2, "", "")
    assert front.record.read_bytes() == b""


@pytest.mark.parametrize("text", ["colour = 1\n", "limits = 7\n", '[names]\nann = "king"\n'])
def test_a_wrong_configuration_isnt_written_into_the_record(front: Front, text: str) -> None:
    front.config.write_text(f"record = 'R'\ntokens = 7\n{text}")
    assert shell(front, "2>> R").returncode == 2
    assert front.record.read_bytes() == b""


@pytest.mark.parametrize("option", ["--conf {}", "--config={}", "--c={}", "tokens list --config {}"])
def test_a_configuration_that_is_named_in_another_way(front: Front, option: str) -> None:
    command = f"exec {' '.join(tool_words('front'))} {option.format('C')} 2>> R"
    assert subprocess.run(["bash", "-c", command], cwd=front.folder, capture_output=True, timeout=60).returncode == 2
    assert front.record.read_bytes() == b""


@pytest.mark.parametrize("words", ["--config other --config C", "--config C --config other", "--config=other --c C"])
def test_of_several_configurations_each_is_looked_at(front: Front, words: str) -> None:
    """The last one counts, and another one may be named first."""
    (front.folder / "other").write_text("colour = 1\n")
    for number in (1, 2):
        command = f"exec {' '.join(tool_words('front'))} {words} {number}>> R"
        assert subprocess.run(["bash", "-c", command], cwd=front.folder, capture_output=True, timeout=60).returncode == 2
        assert front.record.read_bytes() == b""


def test_a_name_that_was_added_isnt_written_into_the_tokens(front: Front) -> None:
    before = front.tokens.read_bytes()
    assert shell(front, ">> T", "tokens", "add", "ann").returncode == 2
    assert front.tokens.read_bytes() == before


def test_nothing_gets_the_number_of_a_stream_that_is_closed(front: Front) -> None:
    """Otherwise the record would, and the front's messages would be written into it."""
    for name in ("R", "R.2", "R.asked", "R.log", "R.log.3"):
        (front.folder / name).unlink()
    words = ["bash", "-c", 'exec "$@" 0<&- 2>&-', "bash", *front.words()]
    front.process = subprocess.Popen(words, stdout=subprocess.PIPE)
    assert front.process.stdout
    listening = front.process.stdout.readline().decode()
    front.port = int(listening.split()[2])
    assert Caller(front, "ann").ask("BID x 1 a 100") == "OK 1"
    os.kill(front.child("serve"), 9)
    assert Caller(front, "ann").ask("SHOW").endswith(" COUNT 1")
    assert front.stop().status == 0
    for path in (front.record, front.folder / "R.asked", front.file, front.log):
        assert b"front: " not in path.read_bytes()
    assert re.fullmatch(r'([0-9a-f]{64} \{"entry":.*\}\n)+', front.record.read_text())


# Standard output that fails.


def test_a_front_whose_output_fails_says_so_and_ends_with_1(front: Front) -> None:
    for name in ("R", "R.2", "R.asked"):
        (front.folder / name).unlink()
    with open(FULL, "wb") as full:
        front.process = subprocess.Popen(front.words(), stdout=full, stderr=front.said)
    ran = front.ended(60)
    assert ran.status == 1 and ran.errors.count(SAID_FULL) == ran.errors.count("it stops, because anyone who waits for its line LISTENING") == 1
    assert [entry["kind"] for entry in front.entries("started", "stopped")] == ["started", "stopped"]


def test_a_front_whose_output_is_closed_ends_by_itself(front: Front) -> None:
    for name in ("R", "R.2", "R.asked"):
        (front.folder / name).unlink()
    ran = shell(front, ">&-")
    assert ran.returncode == 1 and "front: standard output can't be written: Bad file descriptor\n" in ran.stderr


def test_a_page_whose_line_is_lost_ends_the_front(program: Program, room: Path) -> None:
    """A pipe has room for the line LISTENING alone. The line BOARD waits, and then its reader is gone."""
    reader, writer = os.pipe()
    fcntl.fcntl(writer, fcntl.F_SETPIPE_SZ, PIPE_BYTES)
    os.write(writer, b"x" * (PIPE_BYTES - len("LISTENING 127.0.0.1 60000\n")))
    with Front(program, room, has_board=True) as front:
        assert program.format(front.file).status == 0
        front.process = subprocess.Popen(front.words(), stdout=writer, stderr=front.said)
        os.close(writer)
        wait_until(lambda: waiting_in(reader) == PIPE_BYTES, 30, "the line LISTENING")
        os.close(reader)
        ran = front.ended(60)
    assert ran.status == 1 and "standard output can't be written: Broken pipe" in ran.errors
    assert "it stops, because anyone who waits for its line BOARD would wait without end" in ran.errors


def test_a_result_that_is_lost_ends_no_front(program: Program, room: Path) -> None:
    """Bidders don't need the line: the front goes on, and ends with 1 when it is stopped."""
    with Front(program, room) as front:
        assert program.format(front.file).status == 0
        front.start()
        assert front.process and front.process.stdout
        front.process.stdout.close()
        front.process.stdout = None
        assert [front.ask(*line) for line in (("ann", "BID x 1 a 100"), ("desk", "CLOSE 1"))] == ["OK 1", "OK 2"]
        front.wait_until_said("standard output can't be written: Broken pipe")
        assert front.ask("ann", "BID x 2 a 200") == "OK 3"
        ran = front.stop()
    assert ran.status == 1 and "it stops" not in ran.errors


def test_help_that_cannot_be_written(front: Front) -> None:
    for words in (["--help"], ["tokens", "add", "--help"]):
        ran = shell(front, f"> {FULL}", *words)
        assert (ran.returncode, ran.stderr) == (1, f"{SAID_FULL}\n")


def test_tokens_that_cannot_be_shown(front: Front) -> None:
    """A token that was added and that nobody has seen is named, so that it can be revoked."""
    ran = shell(front, f"> {FULL}", "tokens", "list")
    assert (ran.returncode, ran.stderr) == (1, f"{SAID_FULL}\n")
    ran = shell(front, f"> {FULL}", "tokens", "add", "ann")
    [id] = [id for name, id in tokens(front, "list") if name == "ann" and id != id_of(token_of("ann"))]
    last = f"{SAID_FULL}. The token {id} was added, and nobody has seen it: revoke it, and add another\n"
    assert (ran.returncode, ran.stderr) == (1, f"front: a front that runs takes this in by SIGHUP\n{last}")


def test_a_terminal_that_stops_who_writes_from_the_background(front: Front, cleanup: ExitStack) -> None:
    """By `stty tostop`, in the session of a shell that has started the front by `&`."""
    for name in ("R", "R.2", "R.asked"):
        (front.folder / name).unlink()
    mine, its = pty.openpty()
    cleanup.callback(os.close, mine)
    modes = termios.tcgetattr(its)
    modes[3] |= termios.TOSTOP
    termios.tcsetattr(its, termios.TCSANOW, modes)
    script = f"{' '.join(front.words())} > {front.folder}/written & echo $! > {front.folder}/number; wait; sleep 60"
    shell = subprocess.Popen(
        ["bash", "--norc", "-m", "-c", script], stdin=its, stdout=its, stderr=its, env=with_package(os.environ), start_new_session=True,
        preexec_fn=lambda: fcntl.ioctl(0, termios.TIOCSCTTY, 0),
    )
    os.close(its)
    cleanup.callback(shell.kill)
    written, number = front.folder / "written", front.folder / "number"
    wait_until(lambda: written.exists() and written.read_text().startswith("LISTENING "), 30, "a front in the background")
    process = int(number.read_text())
    cleanup.callback(os.kill, process, signal.SIGKILL)
    front.port = int(written.read_text().split()[2])
    os.kill(process, signal.SIGHUP)
    said = b""
    while b"were read again" not in said:
        assert select.select([mine], [], [], 20)[0], said
        said += os.read(mine, 10_000)
    assert front.client("ann", seconds=20).ask("BID x 1 a 100") == "OK 1"


def test_a_terminal_that_is_set_not_to_block_is_waited_for(front: Front) -> None:
    """The pipe is full of another program's bytes, and is read later."""
    reader, writer = os.pipe()
    os.set_blocking(writer, False)
    filled = 0
    while True:
        try:
            filled += os.write(writer, b"x" * 65_536)
        except BlockingIOError:
            break
    process = subprocess.Popen(front.words("tokens", "list"), stdout=writer, stderr=subprocess.PIPE)
    os.close(writer)
    with open(reader, "rb") as rest:
        data = rest.read()
    assert process.communicate(timeout=60)[1] == b"" and process.returncode == 0
    assert data[filled:].decode().splitlines()[0] == f"desk {id_of(token_of('desk'))}"


def test_a_configuration_that_cannot_be_found_is_named_though_a_stream_is_a_file(front: Front) -> None:
    """The files that it names are looked for before anything is said."""
    errors = front.folder / "errors"
    text = front.config.read_text()
    front.config.write_text(text.replace('record = "R"', 'record = "a\\u0000b/R"'))
    assert shell(front, f"2> {errors}").returncode == 2
    assert errors.read_text() == "front: record has to be there, as a text\n"
    front.config.unlink()
    front.config.symlink_to("C")
    assert shell(front, f"2> {errors}").returncode == 2
    assert errors.read_text() == f"front: {front.config}: Too many levels of symbolic links\n"
    front.config.unlink()
    front.config.write_text(text)
    gone = f"mkdir gone && cd gone && rmdir ../gone && exec {' '.join(tool_words('front'))} --config C 2> {errors}"
    assert subprocess.run(["bash", "-c", gone], cwd=front.folder, capture_output=True, timeout=60).returncode != 0
    assert errors.read_text() == "front: C: No such file or directory\n"
