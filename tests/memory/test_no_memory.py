"""Calls that take no memory: as many requests are made when the call is made ten times as when it isn't made."""

from __future__ import annotations

from pathlib import Path

import pytest

from harness.fixtures import Companion
from harness.refusals import Refusals

CALLS = ("encode-batch", "decode-batch", "encode-state", "encode-state-1", "decode-state", "encode-head", "save", "restore", "copy-from", "lists")
NEVER, TEN_TIMES = "00", "10"


@pytest.mark.parametrize("call", CALLS)
def test_calls(companion: Companion, refusals: Refusals, room: Path, call: str) -> None:
    program = companion("hpb_bench")
    without = refusals.run(program, [call, NEVER], room)
    made = refusals.run(program, [call, TEN_TIMES], room, allowed=without.requests)
    assert without.requests and (made.status, made.requests) == (0, without.requests)
    # The answer is one that only the call gives.
    assert made.output != without.output


@pytest.mark.parametrize("call", CALLS)
def test_a_refused_request_is_seen(companion: Companion, refusals: Refusals, room: Path, call: str) -> None:
    """With one request less the program fails."""
    program = companion("hpb_bench")
    without = refusals.run(program, [call, NEVER], room)
    assert refusals.run(program, [call, TEN_TIMES], room, allowed=without.requests - 1).status != 0
