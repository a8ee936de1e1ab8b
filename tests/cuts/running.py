"""Cuts of `run`: each command whose OK had left is there afterwards, each command is there once, and tickets go on."""

from __future__ import annotations

import random
from functools import cache
from pathlib import Path

from cuts.setting import Setting, new_file
from harness.auctions import commands, definition, text_of
from harness.programs import Program, Ran

CUTS = 5
BATCHES = (1, 3, 8, 64)
# The number of batches between two checkpoints; 0 leaves it to the journal.
EVERIES = (0, 1, 3)
MOST_LINES = 40
MORE_CALLS = 4
# More than any story has.
MOST_COMMANDS = 500
SHOW = "SHOW"
FAILED = ("ERR 91 device", "ERR 93 failed")
NODES = ("all", "east", "a", "b", "c", "d")


@cache
def shown_up_to(program: Program, count: int) -> list[str]:
    """The output of an auction in memory before the first command, and after each of the first `count` commands."""
    questions = [SHOW, *(f"NODE {node}" for node in NODES)]
    lines = list(questions)
    for command in commands(count):
        lines += [command, *questions]
    answers = program.run(text=definition() + text_of(lines)).lines()
    step = 1 + len(questions)
    return ["".join(f"{line}\n" for line in answers[at : at + len(questions)]) for at in range(0, len(answers), step)]


def story(setting: Setting, seed: int) -> None:
    """Runs of one file. Each is cut, and the next goes on with the file that it left."""
    dice = random.Random(seed)
    journal = setting.layout.least_journal * dice.choice((1, 4))
    data = new_file(setting.program, setting.layout, journal, definition(), setting.beside)
    setting.disk.reset(setting.lie)
    setting.disk.put(setting.file.name, data)
    count, calls = 0, 2 * MOST_LINES
    for _ in range(CUTS):
        lines = lines_from(dice, count)
        before = setting.disk.calls()
        setting.disk.arm(dice.randint(1, calls))
        words = ("--batch", dice.choice(BATCHES), "--every", dice.choice(EVERIES))
        ran = setting.program.run_lines(setting.file, text_of(lines), *words)
        least = least_kept(ran, lines, count)
        calls = max(MORE_CALLS, min(calls, setting.disk.calls() - before + MORE_CALLS))
        left = setting.leave(dice)
        most = count + sum(line != SHOW for line in lines)
        count = kept(setting.program, setting.file, least, most, left)


def lines_from(dice: random.Random, count: int) -> list[str]:
    """The commands after the first `count`, with a question now and then."""
    lines: list[str] = []
    for line in commands(count + dice.randint(1, MOST_LINES))[count:]:
        lines += [line, SHOW] if dice.randrange(5) == 0 else [line]
    return lines


def least_kept(ran: Ran, lines: list[str], count: int) -> int:
    """The least number of commands that the file keeps after a run that was cut. It had `count` of them before, and the run
    answered these lines.
    """
    least, has_failed = count, False
    for line, answer in zip(lines, ran.lines()):
        if answer in FAILED:
            has_failed = True
        elif line == SHOW:
            assert answer.endswith(f" COUNT {least}"), f"{line} was answered {answer}, behind OK {least}: {ran}"
        else:
            least += 1
            assert answer == f"OK {least}" and not has_failed, f"{line} was answered {answer}, behind OK {least - 1}: {ran}"
    return least


def kept(program: Program, file: Path, least: int, most: int, left: str) -> int:
    """The number of commands that the file keeps. It is compared with an auction in memory, and then goes on by one command."""
    checked = program.check(file)
    assert checked.status == 0, f"{checked}: {left}"
    count = int(checked.lines()[0].rsplit(" ", 1)[1])
    assert least <= count <= most, f"{count} commands are kept, and {least} to {most} may be: {left}"
    assert checked.output == shown_up_to(program, MOST_COMMANDS)[count], f"{count} commands are kept, and show {checked.output}"
    last = commands(count + 1)[max(0, count - 1) :]
    wanted = [f"OK {number}" for number in range(max(1, count), count + 2)]
    ran = program.run_lines(file, text_of(last))
    assert ran.lines() == wanted, f"{last} were answered {ran}"
    return count + 1
