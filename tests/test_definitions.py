"""`tools/definition`: what a head has comes back as it was, what it can't have is refused, and so is each damage, as by the program."""

from __future__ import annotations

import json
import os
import random
import re
from collections import Counter
from collections.abc import Callable
from pathlib import Path

import pytest
from harness.auctions import EXAMPLES, PAGE, Layout, definition, greatest_definition
from harness.fronts import run_tool
from harness.programs import Program
from reports import report

from hpb.file import read_head, read_image
from hpb.refusals import Refused
from hpb.rules.writing import definition_line, read_script

HEAD_AT, HEAD_END, FORM = 16, 3 * PAGE, 25
SCRIPTS = sorted(EXAMPLES.glob("*.txt"))
MADE = {script.stem: script.read_bytes().split(b"\n")[0] + b"\n" for script in SCRIPTS}
MADE |= {"with waivers": definition(waivers=20), "greatest": greatest_definition()}
BOTH = list(Layout)


@pytest.mark.parametrize("layout", BOTH)
@pytest.mark.parametrize("text", MADE.values(), ids=MADE)
def test_the_definition_of_a_file_makes_a_file_with_the_same_head(program: Program, memory: Path, text: bytes, layout: Layout) -> None:
    file = program.keep(memory / "F", (), text, layout)
    line = definition_line(read_head(read_image(file)).definition)
    assert {"waivers": 0, **json.loads(line)} == {"waivers": 0, **json.loads(text)}
    again = program.keep(memory / "again", (), line.encode(), layout)
    assert again.read_bytes()[:HEAD_END] == file.read_bytes()[:HEAD_END]
    if text in (definition(), greatest_definition()):
        ran = run_tool("definition", file)
        assert (ran.output, ran.errors, ran.status) == (line, "", 0)
    assert line.encode() == text or text != definition()


@pytest.mark.parametrize("layout", BOTH)
def test_the_definition_of_a_head_of_the_first_format(program: Program, memory: Path, layout: Layout) -> None:
    image = bytearray(program.keep(memory / "F", (), None, layout).read_bytes())
    image[FORM] = 1
    assert definition_line(read_head(bytes(image)).definition).encode() == definition()


# Texts that are no definitions.


def is_refused(text: str) -> bool:
    try:
        read_script(text.encode())
    except Refused:
        return True
    return False


@pytest.mark.parametrize("folder", ["refused-definitions", "refused-definitions-one-change", "ten-mistakes"])
def test_what_is_refused_by_the_program_is_refused_here(folder: str) -> None:
    """All of a folder but the first one, which is laid out over several lines."""
    scripts = sorted((EXAMPLES / folder).glob("*.txt"))
    accepted = [script.name for script in scripts if not is_refused(script.read_text().strip())]
    assert len(scripts) > 5 and accepted == [script.name for script in scripts if script.name.startswith("01-")]


def changed(**fields: object) -> str:
    return json.dumps({**json.loads(definition()), **fields})


def licence(name: str, parent: str | None = None, **fields: int) -> dict[str, object]:
    return {"name": name, "parent": parent, "units": 1, "opening": 10, **fields}


def nest(levels: int) -> list[dict[str, object]]:
    """A package in a package, and so on, with a licence beside each and two in the last."""
    packages: list[dict[str, object]] = [{"name": f"p{level}", "parent": f"p{level - 1}" if level > 1 else None} for level in range(1, levels)]
    return [*packages, *(licence(f"l{level}", f"p{level}") for level in range(1, levels)), licence("last", f"p{levels - 1}")]


LICENCES, BIDDERS = [licence(f"l{place}") for place in range(65)], [{"name": f"b{place}", "units": 1} for place in range(65)]
# The most that there may be, and one more.
LIMITS = {
    "licences": (changed(nodes=LICENCES[:64]), changed(nodes=LICENCES)),
    "bidders": (changed(bidders=BIDDERS[:64]), changed(bidders=BIDDERS)),
    "levels": (changed(nodes=nest(8)), changed(nodes=nest(9))),
    "stages": (changed(stages=[50, 100, 50, 50]), changed(stages=[50] * 5)),
    "children": (changed(nodes=[licence("a"), licence("b")]), changed(nodes=[licence("a"), licence("b", "a")])),
    "waivers": (changed(waivers=20), changed(waivers=21)),
    "percent": (changed(percent=50), changed(percent=51)),
    "units": (changed(nodes=[licence("a", units=1_000_000)]), changed(nodes=[licence("a", units=1_000_001)])),
    "opening": (changed(nodes=[licence("a", opening=10_000_000_000)]), changed(nodes=[licence("a", opening=10_000_000_010)])),
    "a bidder's units": (changed(bidders=[{"name": "x", "units": 64_000_000}]), changed(bidders=[{"name": "x", "units": 64_000_001}])),
    "a name": (changed(nodes=[licence("a" * 16)]), changed(nodes=[licence("a" * 17)])),
}


@pytest.mark.parametrize(("most", "more"), LIMITS.values(), ids=LIMITS)
def test_sizes_and_shapes_at_each_limit(program: Program, most: str, more: str) -> None:
    """As by the program, too."""
    assert (is_refused(most), is_refused(more)) == (False, True)
    assert (program.run(text=most.encode()).output, program.run(text=more.encode()).output[:3]) == ("", "ERR")


# Damage.


def refusal_of(image: bytes) -> tuple[str, str]:
    """By which number the head is refused, or nothing; and the definition that it has."""
    try:
        return "", definition_line(read_head(image).definition)
    except Refused as fault:
        return str(fault.number), ""


def head_behind_the_gate(image: bytes) -> bytes:
    """Without the format of states, which no definition names."""
    return image[HEAD_AT:FORM] + image[FORM + 1 : HEAD_END]


PLACES = {
    "fields": [*range(50), PAGE - 1],
    "nodes": [*range(PAGE, PAGE + 200), 2 * PAGE - 1],
    "bidders": [*range(2 * PAGE, 2 * PAGE + 100), 3 * PAGE - 1],
}


@pytest.mark.timeout(300)
@pytest.mark.parametrize(("page", "places"), PLACES.items(), ids=PLACES)
def test_a_head_with_a_changed_byte_is_read_if_the_program_opens_it(program: Program, memory: Path, page: str, places: list[int]) -> None:
    file, kinds = program.keep(memory / "F", (), definition(waivers=3)), Counter[str]()
    image = file.read_bytes()
    for place in places:
        for value in {image[place] ^ 1, 255} - {image[place]}:
            other = image[:place] + bytes([value]) + image[place + 1 :]
            file.write_bytes(other)
            answer = program.check(file).output
            wanted = answer[4:6] if answer.startswith(("ERR 40", "ERR 42")) else ""
            number, line = refusal_of(other)
            assert number == wanted, f"{value:#x} at {place}"
            kinds[wanted] += 1
            if line and place >= HEAD_AT:
                again = program.keep(memory / "again", (), line.encode())
                assert head_behind_the_gate(again.read_bytes()) == head_behind_the_gate(other), f"{value:#x} at {place}"
                again.unlink()
    met = {"fields": {"", "40", "42"}, "nodes": {"", "42"}, "bidders": {"", "42"}}
    assert {kind for kind, count in kinds.items() if count > 10} == met[page]


NO_FILES: dict[str, Callable[[Path], object]] = {"folder": Path.mkdir, "pipe": os.mkfifo, "nothing": Path.exists}
NO_FILES |= {"device": lambda path: path.symlink_to("/dev/zero"), "long": lambda path: path.symlink_to("n" * 300)}


@pytest.mark.parametrize("make", NO_FILES.values(), ids=NO_FILES)
@pytest.mark.parametrize("name", ["definition", "report"])
def test_what_is_no_file_is_refused_in_one_line(memory: Path, name: str, make: Callable[[Path], object]) -> None:
    make(memory / "F")
    look_at_words(name, memory / "F", "91")


def look_at_words(name: str, file: Path, number: str) -> None:
    """One line on standard error, and nothing else."""
    ran = run_tool(name, file)
    assert (ran.output, ran.status) == ("", 1)
    assert re.fullmatch(rf"{name}: {number} [a-z]+: [ -~]+\n", ran.errors), ran.errors


NOISE = random.Random(7).randbytes(17 * PAGE)
OTHERS: dict[str, tuple[Callable[[bytes], bytes], str]] = {
    "empty": (lambda image: b"", "40"),
    "text": (lambda image: definition(), "40"),
    "cut": (lambda image: image[:-1], "40"),
    "page": (lambda image: image[:-PAGE], "40"),
    "longer": (lambda image: image + bytes(PAGE), "42"),
    "huge": (lambda image: image + bytes(1100 * PAGE), "40"),
    "zeros": (lambda image: bytes(len(image)), "40"),
    "closed": (lambda image: b"\0" + image[1:], "40"),
    "noise": (lambda image: NOISE, "40"),
    "magic": (lambda image: image[:24] + NOISE[24:], "42"),
    "markup": (lambda image: image.replace(b"east\0\0\0\0\0\0\0\0", b"<b>&\"'</b>\0\0"), "42"),
    "latin": (lambda image: image.replace(b"east", b"\xe9ast"), "42"),
}


@pytest.mark.parametrize(("change", "number"), OTHERS.values(), ids=OTHERS)
def test_other_bytes_are_refused(program: Program, memory: Path, change: Callable[[bytes], bytes], number: str) -> None:
    file = program.keep(memory / "F")
    image = file.read_bytes()
    file.write_bytes(change(image))
    assert file.read_bytes() != image
    with pytest.raises(Refused) as refused:
        read_head(read_image(file))
    assert str(refused.value.number) == number
    for name in ("definition", "report"):
        look_at_words(name, file, number)


def test_a_file_without_a_checkpoint_has_no_report(program: Program, memory: Path) -> None:
    """By docs/FORMATS.md: the gate of its only slot is closed."""
    image = bytearray(program.keep(memory / "F").read_bytes())
    image[3 * PAGE] = 0
    (memory / "F").write_bytes(image)
    ran = report(program, memory / "F")
    assert (ran.output, ran.errors[:23], ran.status) == ("", "report: 44 checkpoint: ", 1)
