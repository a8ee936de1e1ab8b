"""At SIGHUP, front and page take over the same values. No signal is lost, not even while the page comes up, or in the first moment."""

from __future__ import annotations

import asyncio
import os
import signal
import threading
import time
from collections.abc import Iterator
from contextlib import suppress
from pathlib import Path
from unittest import mock

import pytest
from faults import FRONT, PAGE
from fronts import Front, make_certificate, token_of
from harness.conditions import Conditions
from harness.programs import Program
from harness.serving import wait_until

from hpb.front import terms
from hpb.front.limits import DEFAULTS
from hpb.front.tokens import Tokens
from hpb.front.watch import Watch

READ_AGAIN = "tokens, certificate and limits were read again"
NEW = "a-new-token-of-ann-0123"
SECONDS = 30


@pytest.fixture
def front(program: Program, room: Path) -> Iterator[Front]:
    """A front with a page, for a new auction, not started yet."""
    made = Front(program, room, has_board=True)
    assert program.format(made.file).status == 0
    yield made
    made.kill()


def shows(front: Front, token: str | None = None) -> int:
    """The HTTP status of ann's page, once there is a page."""
    end = time.monotonic() + SECONDS
    while time.monotonic() < end:
        with suppress(OSError):
            return front.page("ann", token)
        time.sleep(0.05)
    raise AssertionError("there is no page")


def kill_page(front: Front) -> None:
    """Kills the page, and returns once there is another one."""
    page = front.child(PAGE)
    os.kill(page, signal.SIGKILL)
    wait_until(lambda: front.child(PAGE) not in (0, page), SECONDS, "another page")


def new_token(front: Front) -> None:
    front.write_tokens({name: token_of(name) for name in front.names} | {"ann": NEW})


def before_python(front: Front, text: str) -> Conditions:
    """A module that each program of Python reads before it begins."""
    folder = front.folder / "before"
    folder.mkdir()
    (folder / "sitecustomize.py").write_text(text)
    return Conditions(environment={"PYTHONPATH": str(folder)})


def test_a_page_that_is_started_again_takes_what_the_front_has(front: Front) -> None:
    """It doesn't take the files' present contents, which the front wasn't asked to read."""
    front.start()
    assert shows(front) == 200
    new_token(front)
    front.config.write_text("colour = 1\n")
    kill_page(front)
    assert (shows(front), shows(front, NEW)) == (200, 401)
    assert front.client("ann").welcome == "WELCOME ann"  # type: ignore[attr-defined]
    assert front.stop().status == 0


def test_what_the_front_refuses_the_page_doesnt_take(front: Front) -> None:
    front.start()
    new_token(front)
    front.config.write_text("colour = 1\n")
    front.signal(signal.SIGHUP)
    front.wait_until_said("stay in force: colour")
    kill_page(front)
    assert (shows(front), shows(front, NEW)) == (200, 401)


def test_what_stays_for_the_front_stays_for_the_page(front: Front) -> None:
    """Names are read only at the start. So a name that was added to the configuration since then is unknown to the page, too."""
    front.start()
    front.names = {**front.names, "eve": "observer"}
    front.write_config()
    front.signal(signal.SIGHUP)
    front.wait_until_said("these stay as they were until the front is started again: roles")
    front.wait_until_said(READ_AGAIN)
    assert shows(front) == 200
    kill_page(front)
    assert shows(front) == 200


def test_the_page_shows_the_certificate_that_the_front_shows(front: Front) -> None:
    """Even if there is another certificate, or none, when the page is started again."""
    front.context = make_certificate(front.folder)
    front.write_config(certificate="S", key="K")
    front.start()
    assert shows(front) == 200
    for name in ("S", "K"):
        (front.folder / name).unlink()
    kill_page(front)
    assert shows(front) == 200
    assert front.stop().status == 0


SLOW_PAGE = """
import os, sys, time
if %r in sys.orig_argv:
    def slowly(_):
        open(%r, "w").close()
        time.sleep(2)
    os.nice = slowly
"""


def test_a_signal_while_the_page_comes_up_reaches_it(front: Front) -> None:
    """The page has read everything by then, and takes two more seconds to come up."""
    mark = front.folder / "mark"
    front.begin(conditions=before_python(front, SLOW_PAGE % (PAGE, str(mark))))
    wait_until(mark.exists, SECONDS, "a page that comes up")
    new_token(front)
    front.signal(signal.SIGHUP)
    front.wait_until_said(READ_AGAIN)
    assert front.process and front.process.stdout
    assert front.process.stdout.readline().startswith(b"LISTENING ")
    front.board_port = int(front.process.stdout.readline().decode().rstrip("/\n").rsplit(":", 1)[1])
    wait_until(lambda: shows(front, NEW) == 200, SECONDS, "a page by the new token")
    assert shows(front) == 401
    assert front.stop().status == 0


def test_a_configuration_by_a_link_is_read_where_the_link_leads_now(front: Front) -> None:
    front.write_config()
    old, new = front.folder / "C.old", front.folder / "C.new"
    front.config.rename(old)
    front.config.symlink_to(old)
    front.start()
    front.config.unlink()
    front.limits = {"line_bytes": 32}
    front.write_config()
    front.config.rename(new)
    front.config.symlink_to(new)
    front.signal(signal.SIGHUP)
    front.wait_until_said(READ_AGAIN)
    assert front.client("ann").ask("BID x 1 a 10000000000000000000000000000") == "ERR front long"


@pytest.mark.parametrize("has_board", [True, False])
def test_a_board_that_comes_or_goes_stays_as_it_was(front: Front, has_board: bool) -> None:
    """The page is there until the front ends, or isn't before another front."""
    front.has_board = has_board
    front.write_config()
    front.start()
    front.has_board = not has_board
    front.write_config()
    front.signal(signal.SIGHUP)
    front.wait_until_said("these stay as they were until the front is started again: board")
    front.wait_until_said(READ_AGAIN)
    assert front.client("ann").ask("BID x 1 a 100") == "OK 1"
    assert not has_board or shows(front) == 200
    assert front.stop().status == 0


def test_a_lower_limit_takes_no_line_back_that_was_let_in(front: Front) -> None:
    """Two lines wait, so by the new limit no more may come; but the front let the client send one more before."""
    front.start()
    with front.client("ann").socket as connection, connection.makefile("rb") as reader:
        server = front.child("serve")
        os.kill(server, signal.SIGSTOP)
        connection.sendall(b"WHO x\nWHO x\n")
        time.sleep(0.3)
        front.configure({"lines_waiting": 1, "line_bytes": 32})
        front.signal(signal.SIGHUP)
        front.wait_until_said(READ_AGAIN)
        connection.sendall(b"SHOW\n" + 33 * b"x")
        time.sleep(0.3)
        os.kill(server, signal.SIGCONT)
        answers = [reader.readline().split(b" ")[0] for _ in range(3)]
        assert (answers, reader.read()) == ([b"WHO", b"WHO", b"ROUND"], b"ERR front long\n")
    assert front.stop().status == 0


FIRST_MOMENT = """
import os, signal, sys
class Hook:
    def find_spec(self, name, *_):
        if name == "asyncio":
            sys.meta_path.remove(self)
            os.kill(os.getpid(), signal.SIGHUP)
if %r in sys.orig_argv:
    sys.meta_path.insert(0, Hook())
"""


def test_a_signal_in_the_first_moment_is_kept(front: Front) -> None:
    """When the front has read none of its modules yet."""
    front.start(conditions=before_python(front, FIRST_MOMENT % FRONT))
    front.wait_until_said(READ_AGAIN)
    assert front.stop().status == 0


def test_a_signal_before_there_is_a_loop_is_kept() -> None:
    told: list[str] = []
    watch, loop = Watch(), asyncio.new_event_loop()
    watch.take(signal.SIGHUP)
    watch.attach(loop, lambda: told.append("stop"), lambda: told.append("reload"))
    loop.close()
    assert told == ["reload"]


@pytest.mark.parametrize("number", ["1" + "0" * 5_000, "0x" + "f" * 5_000], ids=["decimal", "hexadecimal"])
@pytest.mark.parametrize("field", ["", "lines_waiting"], ids=["no field of it", "a limit"])
def test_a_number_of_too_many_digits_changes_nothing(front: Front, field: str, number: str) -> None:
    """Python reads or writes no number with so many. A front that goes on at SIGHUP, and names it at its start."""
    front.start()
    front.write_config()
    front.config.write_text(front.config.read_text().replace("[limits]", f"[limits]\n{field or 'colour'} = {number}"))
    front.signal(signal.SIGHUP)
    front.wait_until_said("the old tokens, certificate and limits stay in force")
    assert front.client("ann").ask("BID x 1 a 100") == "OK 1"
    assert front.stop().status == 0
    ran = front.run()
    assert (ran.output, ran.status) == ("", 2) and "a fault of the front" not in ran.errors


def test_a_fault_that_nobody_thought_of_changes_nothing_at_a_signal() -> None:
    """And its text isn't said: it could have a token."""
    said: list[str] = []

    def fails(path: str, in_force: object) -> None:
        raise KeyError(NEW)

    async def reload() -> None:
        with mock.patch.object(terms, "read_terms", fails):
            config = mock.Mock(path="C")
            reloading = terms.Reload(config, terms.Terms(DEFAULTS, Tokens("", ()), None), lambda _: None, said.append, mock.Mock())
            await reloading.change()

    asyncio.run(reload())
    assert [line.rpartition(": ")[2] for line in said] == ["KeyError"]


def test_files_that_a_disk_doesnt_give_are_refused_in_time() -> None:
    said, given = list[str](), threading.Event()

    async def reload() -> None:
        with mock.patch.object(terms, "read_terms", lambda path, in_force: given.wait()), mock.patch.object(terms, "READ_SECONDS", 0.5):
            reloading = terms.Reload(mock.Mock(path="C"), terms.Terms(DEFAULTS, Tokens("", ()), None), mock.Mock(), said.append, mock.Mock())
            await asyncio.wait_for(reloading.change(), SECONDS)

    asyncio.run(reload())
    given.set()
    assert [line.rpartition(": ")[2] for line in said] == ["they aren't read within 0.5 seconds, as when a disk hangs"]


def test_how_long_questions_are_answered_after_the_end_follows_a_signal(front: Front) -> None:
    """Longer, and then no longer. Before, the limit held that was in force when the auction ended."""
    front.limits = {"after_end_seconds": 4}
    front.write_config()
    front.start()
    client = front.client("desk")
    assert client.ask("CLOSE 1 ENDING") == "OK 1"
    for seconds in (3_600, 0):
        front.limits = {"after_end_seconds": seconds}
        front.write_config()
        front.signal(signal.SIGHUP)
        if seconds:
            front.wait_until_said(READ_AGAIN)
            time.sleep(6)
            assert client.ask("SHOW") == "ROUND 1 STAGE 1 CLOSED REVENUE 0 COUNT 1"
    assert front.ended().status == 0


def test_a_token_of_a_name_that_was_added_says_when_names_count(front: Front) -> None:
    """The configuration has the name, so it isn't enough to say that it hasn't."""
    front.start()
    front.names = {**front.names, "eve": "observer"}
    front.write_config()
    front.write_tokens({name: token_of(name) for name in front.names})
    front.signal(signal.SIGHUP)
    front.wait_until_said("The names are those with which the front was started: other names count from the next start on\n")
    assert front.stop().status == 0
    front.start()
    assert front.client("eve").ask("SHOW").startswith("ROUND 1 ")
