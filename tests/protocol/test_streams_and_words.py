"""What the page says of streams and terminals, of hints, and of the reasons why a definition is refused."""

from __future__ import annotations

import json
import os
import re
import subprocess
from pathlib import Path

import pytest

from harness.auctions import EXAMPLES
from harness.conditions import Conditions
from harness.programs import Program, Ran, shown
from harness.streams import terminal
from protocol.page import PAGE, TOP, codes, sentences
from protocol.talking import EMPTY, FIRST, SHOWN, Hpb, transcript

COUNT = 10_000


@sentences(
    """Answers are gathered .. So a client may .. A script that is .. `hpb run` also makes .. All this holds for .. An answer waits .. In `hpb run`
    these .. All answers that .."""
)
@pytest.mark.parametrize("words", ["", "run --file F"], ids=["script", "run"])
def test_answers_leave_before_the_program_waits(hpb: Hpb, words: str) -> None:
    hpb.formats()
    talk = hpb.starts(words)
    talk.send("" if words else PAGE.definition)
    for part, count in (("SHOW\n", 1), ("SHOW\nSH", 1), ("OW\n", 1), ("SHOW\n" * COUNT, COUNT)):
        talk.send(part)
        talk.answers(EMPTY * count)
    (writes,) = re.findall(r"^syscw: (\d+)$", Path(f"/proc/{talk.process.pid}/io").read_text(), re.MULTILINE)
    assert 0 < int(writes) * 10 < COUNT
    talk.asks(FIRST)
    talk.ends()


def typed(hpb: Hpb, words: str, text: str) -> Ran:
    """What it does at a terminal at which this is typed, and then Ctrl-D."""
    with terminal() as (typing, device):
        os.set_blocking(device, False)
        process = hpb.program.start(*words.split(), input=device, conditions=Conditions(folder=hpb.folder))
        data = f"{text}\x04".encode()
        for place in range(0, len(data), 1000):
            os.write(typing, data[place : place + 1000])
        written, errors = process.communicate(timeout=20)
    return Ran(shown(written), shown(errors), process.returncode, 0.0)


COAST = (EXAMPLES / "coast.txt").read_text().splitlines()[0]
AT_START = [codes(row[1])[0] for row in PAGE.table("Of", "Its line").rows]
ACCEPTED = "hpb: the definition is accepted: type commands and questions"
HINTS = [codes(row[1])[0] for row in PAGE.table("Refused by", "Its line").rows]
# Lines by which each of these hints comes, in this order.
HINTED = "BID ann 2 bay 1000; BID ann 1 bay 1025; BID ann 1 bay 950; BID ann 1 bay 1000000000050; BID bob 1 bay 1000; BID bob 2 cape 1500; CLOSE 2"


@sentences(
    """If standard input is a terminal, this .. Of | Its line .. Once a script has .. `check` and `serve` .. Behind the answer .. Refused by | Its
    line .. If standard input is a terminal, standard .. From a file or a .."""
)
def test_hints_at_a_terminal(hpb: Hpb) -> None:
    hpb.formats(definition=COAST)
    lines = HINTED.replace("; ", "\n") + "\n"
    wanted = [*HINTS, "hpb: 15 gap: the next ticket of the auctioneer is 1"]
    for words, before, start in (("", COAST + "\n", [AT_START[0], AT_START[2], ACCEPTED]), ("run --file F --batch 64", "", [AT_START[3]])):
        ran = typed(hpb, words, before + lines)
        assert ran.errors.splitlines() == start + wanted and ran.status == 0
        if not words:
            hpb.gives("", ran.output, before + lines)
    ran = typed(hpb, "format --file G --journal 4", COAST + "\n")
    assert (ran.output, ran.errors, ran.status) == ("FORMATTED 17\n", "".join(f"{line}\n" for line in AT_START[1:3]), 0)
    assert typed(hpb, "check --file G", "").errors == ""


@sentences("A terminal of Linux .. A longer definition ..")
@pytest.mark.parametrize("length", [4_095, 4_096, 6_000])
def test_a_terminal_cuts_a_line(hpb: Hpb, length: int) -> None:
    text = PAGE.definition[:-2].ljust(length - 1) + "}\nSHOW\n"
    ran = typed(hpb, "", text)
    assert (ran.output, ran.status) == ((EMPTY, 0) if length == 4_095 else ("ERR 60 json\n", 1))
    hpb.gives("", EMPTY, text)


def bash(hpb: Hpb, script: str) -> str:
    """What a script prints in whose folder are the program, examples and tools."""
    for name, place in (("hpb", hpb.program.path), ("examples", EXAMPLES), ("tools", TOP / "tools")):
        (hpb.folder / name).unlink(missing_ok=True)
        (hpb.folder / name).symlink_to(place)
    path = f"{hpb.folder}:{os.environ['PATH']}"
    ran = subprocess.run(["bash", "-c", script], capture_output=True, cwd=hpb.folder, env={**os.environ, "PATH": path}, timeout=60, check=False)
    return shown(ran.stdout) + shown(ran.stderr)


@sentences(
    """Which answer belongs .. To stop at the first .. Lines that are piped .. In bash .. A definition over .. `hpb format` takes .. `tools/explain
    definition.json` .."""
)
def test_commands_of_the_page(hpb: Hpb) -> None:
    lines, answers = transcript(FIRST)
    assert bash(hpb, PAGE.block("hpb < ")) == answers + "ROUND 2 STAGE 1 OPEN REVENUE 500 COUNT 5\n"
    (hpb.folder / "script.txt").write_text(PAGE.definition + lines)
    assert bash(hpb, PAGE.block("paste ")) == "".join(f"{pair[0]}|{pair[1]}\n" for pair in zip(lines.splitlines(), answers.splitlines(), strict=True))
    hpb.formats("auction.hpb")
    (hpb.folder / "lines.txt").write_text("BID x 1 a 100\nBID y 1 b 150\nBID z 2 all 500\nBID w 1 c 100\n")
    assert bash(hpb, PAGE.block("coproc ")) == "BID x 1 a 100: OK 1\nBID y 1 b 150: OK 2\nBID z 2 all 500: ERR 15 gap\n"
    hpb.gives("run --file auction.hpb", SHOWN.format(2), "SHOW\n")
    hpb.gives("run --file auction.hpb", "ERR 15 gap\nOK 3\n", "BID z 2 all 500\nBID w 1 c 100\n")
    (hpb.folder / "definition.json").write_text(PAGE.definition.replace(",", ",\n"))
    assert bash(hpb, "(jq -c . definition.json; echo SHOW) | hpb; hpb format --file F --journal 4 < definition.json") == EMPTY + "FORMATTED 17\n"
    odd = PAGE.definition.replace("80,95", "95,80").replace('"x","units":10', '"x","units":4')
    (hpb.folder / "definition.json").write_text(odd)
    hpb.gives("", "", odd)
    warned = """stage 2 asks for less activity than the one before it: 95, then 80 percent
x has 4 units and can bid on nothing: the smallest node, d, has 5
"""
    assert bash(hpb, "tools/explain definition.json") == warned


@sentences(
    """Here is a definition .. `examples/coast.txt` .. A path is as `jq` .. Only the first fault .. With a definition .. A script and `format` .. It
    gives the place .. Lines count from .. In a script all .. It doesn't warn of .. Such a bid gets .."""
)
def test_the_definition_of_coast(hpb: Hpb) -> None:
    definition = PAGE.block("{\n")
    assert json.loads(definition) == json.loads(COAST) and len((EXAMPLES / "coast.txt").read_text().splitlines()) > 1
    hpb.gives("format --file F --journal 4", "FORMATTED 17\n", definition)
    hpb.gives("", "ERR 25 eligibility\n", COAST + "\nBID bob 1 twin 2500\n")
    wrong = COAST.replace('"opening":2000', '"opening":1525')
    number, _, said = PAGE.block("hpb: 57 ").strip().removeprefix("hpb: ").partition(": ")
    for words in ("", "format --file G --journal 4"):
        hpb.refuses(words, number, wrong, said)
    (hpb.folder / "definition.json").write_text(wrong)
    assert bash(hpb, "jq '.nodes[4].opening, .nodes[0].name' definition.json; tools/explain examples/coast.txt") == '1525\n"coast"\n'
    hpb.refuses("", "60 json", '["\xc3\xa9" 1]\n', "line 1 column 7: ")
    twice = COAST.replace('"percent":5', '"percent":0.05').replace('"bob"', '"Bob"')
    hpb.refuses("", "62 number", twice, "percent: 0.05 is no whole number in plain digits")
    hpb.refuses("", "51 name", twice.replace("0.05", "5"), 'bidders[1].name: "Bob" has "B"; a name has a to z, 0 to 9 and _ alone')


@sentences(
    """Each mistake stands .. Mistake | Answer | On standard error .. The first mistake .. Put the definition .. `format` takes it .. The ninth:
    with these .."""
)
def test_ten_mistakes(program: Program, hpb: Hpb) -> None:
    rows, scripts = PAGE.table("Mistake", "Answer", "On standard error").rows, sorted((EXAMPLES / "ten-mistakes").glob("*.txt"))
    for script, row in zip(scripts, rows, strict=True):
        ran = program.run(text=script.read_bytes())
        assert (ran.output, ran.errors, ran.status) == (f"{codes(row[1])[0]}\n", f"{codes(row[2])[0]}\n", 1), script.name
    first = scripts[0].read_text()
    assert first.startswith("{\n") and bash(hpb, f"jq -c . {scripts[0]} | hpb") == ""
    hpb.gives("format --file F --journal 4", "FORMATTED 17\n", first)
