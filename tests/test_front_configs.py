"""The front refuses a wrong configuration or file of tokens before it starts anything, and names the field."""

from __future__ import annotations

from pathlib import Path
from typing import Any

import pytest
from fronts import ADDRESS, NAMES, Front, listening_socket, token_of
from harness.fronts import run_tool
from harness.programs import Program
from harness.users import User

GOOD = "".join(f"{name} {token_of(name)}\n" for name in NAMES)
OTHERS_READ = "others may read it"


def refused(front: Front) -> str:
    """The words about a wrong configuration. No record is begun."""
    ran = front.run()
    assert (ran.output, ran.status, (front.folder / "R").exists()) == ("", 2, False)
    assert not any(token_of(name) in ran.errors for name in NAMES)
    return ran.errors.removeprefix("front: ").removesuffix("\n")


def is_let_in(front: Front, name: str, token: str) -> bool:
    return front.client().ask(f"TOKEN {token}") == f"WELCOME {name}"


@pytest.mark.parametrize("mode", [0o640, 0o604, 0o622, 0o660])
def test_tokens_that_others_may_read_are_refused(front: Front, mode: int) -> None:
    front.tokens.chmod(mode)
    assert OTHERS_READ in refused(front)


@pytest.mark.as_root
def test_tokens_of_another_user_are_refused(front: Front, nobody: User) -> None:
    nobody.own(front.tokens)
    assert OTHERS_READ in refused(front)


@pytest.mark.parametrize(
    "text",
    [
        GOOD.split("\n", 1)[1],
        f"{GOOD}eve token-of-eve-in-a-trial\n",
        f"{GOOD}ann short\n",
        f"{GOOD}ann {token_of('bob')}\n",
        f"{GOOD}ann token-of-ann-in-another trial\n",
        f"{GOOD}ann {'t' * 15}\n",
        f"{GOOD}ann {'t' * 129}\n",
    ],
    ids=["a name without a token", "nobody's", "short", "a token twice", "three words", "15 characters", "129 characters"],
)
def test_tokens_that_are_wrong_are_refused(front: Front, text: str) -> None:
    """And none of them is said."""
    front.tokens.write_text(text)
    assert refused(front).startswith("tokens")


def test_tokens_of_each_length_are_made_and_taken(front: Front) -> None:
    """Each name has one of its own, and may have more, of 16 to 128 characters. None is said or recorded."""
    assert front.run("--make-tokens").status == 2
    front.tokens.unlink()
    ran = front.run("--make-tokens")
    assert (ran.output, ran.errors, ran.status) == ("", "", 0)
    made = dict(line.split() for line in front.tokens.read_text().splitlines())
    assert (front.tokens.stat().st_mode & 0o777, list(made), len(set(made.values()))) == (0o600, list(NAMES), len(NAMES))
    more = [token_of("another"), "t" * 16, "T" * 128]
    front.tokens.write_text(front.tokens.read_text() + "".join(f"ann {token}\n" for token in more))
    front.start()
    assert [name for name, token in [*made.items(), *(("ann", token) for token in more)] if not is_let_in(front, name, token)] == []
    ran = front.stop()
    assert [token for token in made.values() if token in ran.output + ran.errors + front.record.read_text()] == []


# One change of a front that would be right, by the attributes of `Front`, and a word of the refusal.
WRONG: dict[str, tuple[dict[str, Any], str]] = {
    "a field that there isn't": ({"fields": {"colour": "red"}}, "colour: there is no such field"),
    "a limit that there isn't": ({"limits": {"speed": 5}}, "limits.speed"),
    "a limit out of range": ({"limits": {"connections": 0}}, "limits.connections"),
    "no address": ({"fields": {"listen": "localhost"}}, "listen"),
    "an address for all, in clear": ({"fields": {"listen": "0.0.0.0:0"}}, "certificate"),
    "a key alone": ({"fields": {"key": "K"}}, "certificate"),
    "a port out of range": ({"fields": {"port": 80}}, "port"),
    "a file that there isn't": ({"fields": {"file": "nowhere"}}, "nowhere"),
    "a record that is the auction's file": ({"fields": {"record": "F"}}, "record"),
    "a record that is the file by another name": ({"fields": {"record": "../room/F"}}, "record"),
    "tokens in the configuration": ({"fields": {"tokens": "C"}}, "tokens"),
    "a record that isn't there and the tokens": ({"fields": {"record": "N", "tokens": "N"}}, "tokens"),
    "a zero byte": ({"fields": {"file": "F\0"}}, "file"),
    "a number for a word": ({"fields": {"plain": 1}}, "plain"),
    "a board at no address": ({"tables": {"board": {}}}, "board"),
    "a board without a port": ({"tables": {"board": {"listen": ADDRESS}}}, "board.listen"),
    "a board for all, in clear": ({"tables": {"board": {"listen": "0.0.0.0:0"}}}, "board.listen"),
    "a field of the board that there isn't": ({"tables": {"board": {"listen": f"{ADDRESS}:0", "colour": "red"}}}, "board.colour"),
    "names of the board that are none": ({"tables": {"board": {"listen": f"{ADDRESS}:0", "names": ["a b"]}}}, "board.names"),
    "a name of the board alone": ({"tables": {"board": {"listen": f"{ADDRESS}:0", "names": "a"}}}, "board.names"),
    "no auctioneer": ({"names": {"ann": ["x"]}}, "names"),
    "two auctioneers": ({"names": {**NAMES, "second": "auctioneer"}}, "names"),
    "a bidder twice": ({"names": {**NAMES, "eve": ["x"]}}, "names"),
    "a bidder that there isn't": ({"names": {**NAMES, "eve": ["v"]}}, "names"),
    "a role that there isn't": ({"names": {**NAMES, "eve": "king"}}, "names"),
    "a list of nothing": ({"names": {**NAMES, "eve": []}}, "names"),
    "a name with a capital letter": ({"names": {**NAMES, "Eve": "observer"}}, "names"),
}


@pytest.mark.parametrize(("change", "word"), WRONG.values(), ids=WRONG)
def test_a_configuration_that_is_wrong_is_named(program: Program, room: Path, change: dict[str, Any], word: str) -> None:
    (room / "room").mkdir()
    program.keep(room / "room" / "F")
    said = refused(Front(program, room / "room", **change))
    assert said.startswith(word) if "names" in change else word in said


def test_a_table_of_limits_may_be_empty_or_missing(front: Front) -> None:
    for text in (front.config.read_text(), front.config.read_text().replace("[limits]\n", "")):
        front.config.write_text(text)
        assert front.start().stop().status == 0


def test_a_board_whose_port_is_taken_is_named(front: Front) -> None:
    with listening_socket() as taken:
        front.tables = {"board": {"listen": f"{ADDRESS}:{taken.getsockname()[1]}"}}
        front.write_config()
        ran = front.run()
    assert (ran.output, ran.status) == ("", 1) and f"front: board.listen: {ADDRESS}:" in ran.errors


def test_help() -> None:
    ran = run_tool("front", "--help")
    assert ran.status == 0 and "--config" in ran.output
