"""The end of a front whose server ends with a fault, or has other commands than the record."""

from __future__ import annotations

import os
import signal

import pytest
from fronts import Caller, Front

DOCUMENT = "see what it said before this, and docs/OPERATIONS.md"


def behind(front: Front, *lines: str) -> None:
    """Makes the front start a script, which runs the program and then these lines."""
    script = front.folder / "behind"
    script.write_text("\n".join(["#!/bin/sh", f'{front.program.path} "$@"', *lines]) + "\n")
    script.chmod(0o755)
    front.write_config(program=str(script))


@pytest.mark.parametrize(("line", "how"), [("exit 1", "status 1"), ("kill -9 $$", "signal 9"), ("exit 77", "status 77")])
def test_a_server_that_ends_with_a_fault_ends_the_front_with_1(front: Front, line: str, how: str) -> None:
    """The record is still written to its end, and the next front goes on."""
    behind(front, line)
    front.start()
    assert Caller(front, "ann").ask("BID x 1 a 100") == "OK 1"
    ran = front.stop()
    assert (ran.status, ran.output) == (1, "")
    assert f"front: the server ended by 'CLOSED 1' and {how}, and the record has 1 commands: {DOCUMENT}\n" in ran.errors
    assert "the server ended by" in str(front.log_lines("failed")[-1]["why"])
    front.write_config()
    front.start()
    assert Caller(front, "ann").ask("BID x 1 a 100") == "OK 1"
    assert front.stop().status == 0


def test_a_server_that_has_other_commands_ends_the_front_with_1(front: Front) -> None:
    """By hand: the server says that it has eight commands, and the record has one."""
    script = front.folder / "behind"
    script.write_text(f'#!/bin/sh\n{front.program.path} "$@" | sed -u "s/CLOSED 1/CLOSED 8/"\n')
    script.chmod(0o755)
    front.write_config(program=str(script))
    front.start()
    assert Caller(front, "ann").ask("BID x 1 a 100") == "OK 1"
    ran = front.stop()
    assert (ran.status, ran.output) == (1, "")
    assert f"front: the server ended by 'CLOSED 8' and status 0, and the record has 1 commands: {DOCUMENT}\n" in ran.errors


def test_an_auction_that_is_over_looks_at_its_server_too(front: Front) -> None:
    front.limits = {"after_end_seconds": 0}
    behind(front, "exit 1")
    front.start()
    assert Caller(front, "desk").ask("CLOSE 1 ENDING") == "OK 1"
    assert front.ended(30).status == 1


def test_how_a_server_ended_that_is_started_again_is_told(front: Front) -> None:
    front.start()
    assert Caller(front, "ann").ask("BID x 1 a 100") == "OK 1"
    os.kill(front.child("serve"), signal.SIGKILL)
    assert Caller(front, "ann").ask("SHOW").endswith(" COUNT 1")
    front.wait_until_said("the server is gone (signal 9); it is started again")
    ran = front.stop()
    assert ran.status == 0 and ran.output.splitlines()[-1].startswith("STOPPED 1 RECORD ")
    assert [line.get("why") for line in front.log_lines("restart") if line["outcome"] == "gone"] == ["signal 9"]
