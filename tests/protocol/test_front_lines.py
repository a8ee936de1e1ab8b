"""Lines that a front takes, and `hpb` itself refuses."""

from __future__ import annotations

import pytest

from harness.programs import Program
from protocol.page import PAGE, sentences

LINES = (
    "IN 1 BID x 1 a 100",
    "IN 1 WAIVE x 1",
    "CLOSE 1 ENDING",
    "SCHEDULE",
    "EVENT 0",
    "READ 1",
    "OPEN 1 UNTIL 10:30",
    "EXTEND 1 10:45",
    "PAUSE",
    "RESUME",
    "SAY all text",
    "PREVIEW",
    "AGREE 1",
    "INFORMATION",
    "UNVEIL",
)


@sentences(
    """A front takes each .. `hpb` itself refuses these .. `IN r BID ..`, `IN r WAIVE ..` | a command .. `CLOSE ticket ENDING` | a close .. `SCHEDULE`, `EVENT n`, ..
    `OPEN`, `EXTEND`, .. `INFORMATION`, `UNVEIL` | what this .."""
)
@pytest.mark.parametrize("line", LINES)
def test_the_program_itself_refuses_lines_of_a_front(program: Program, line: str) -> None:
    """Nothing is accepted, and the auction stays as it was."""
    ran = program.run(text=PAGE.definition.encode() + f"{line}\nSHOW\n".encode())
    assert ran.lines() == ["ERR 10 line", "ROUND 1 STAGE 1 OPEN REVENUE 0 COUNT 0"]
