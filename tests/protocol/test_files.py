"""What the page says of the command line, of making a file, and of running one."""

from __future__ import annotations

import fcntl
import re
import resource

import pytest

from harness.auctions import FIRST_ROUND, Layout, commands
from harness.conditions import NORMAL, Conditions
from harness.full_disks import fill_disk
from harness.serving import Server
from harness.streams import WITHOUT_SIGNAL, full, unread
from protocol.page import PAGE, codes, sentences
from protocol.talking import EMPTY, FIRST, FULL_DISK, SHOWN, Hpb

SLOTS = slice(3 * 4096, 13 * 4096)
ZEROS = bytes(17 * 4096)
STATE = """ROUND 2 STAGE 1 OPEN REVENUE 500 COUNT 5
NODE all HIGH 500 z PRICE 500 MIN 550 WIN yes
NODE east HIGH 0 - PRICE 325 MIN 360 WIN no
NODE a HIGH 100 x PRICE 138 MIN 160 WIN no
NODE b HIGH 150 y PRICE 187 MIN 210 WIN no
NODE c HIGH 100 w PRICE 175 MIN 200 WIN no
NODE d HIGH 0 - PRICE 0 MIN 100 WIN no
"""


@sentences("`hpb format --file .. `--layout L` (default 1) .. 1 | a page of 4,096 .. 2 | three cells ..")
def test_files_are_made_of_their_layout(hpb: Hpb) -> None:
    made = {"F": ("0004", 17), "G": ("4 --layout 1", 17), "H": ("1024 --layout 1", 1037), "I": ("16 --layout 2", 19), "J": ("1024 --layout 2", 397)}
    for name, (journal, pages) in made.items():
        text = PAGE.definition.replace(",", ",\n") if name == "F" else PAGE.definition
        hpb.gives(f"format --file {name} --journal {journal}", f"FORMATTED {pages}\n", text)
    for journal in ("3", "0", "1025", "20 --layout 2", "12 --layout 2", "8 --layout 2", "1032 --layout 2"):
        hpb.refuses(f"format --file none --journal {journal}", "43 length", PAGE.definition)
    hpb.gives("format --file K --journal 64", "FORMATTED 77\n", PAGE.definition.ljust(65_536))
    hpb.refuses("format --file none --journal 4", "60 json", PAGE.definition.ljust(65_537))
    images = {path.name: path.read_bytes() for path in hpb.folder.iterdir()}
    assert sorted(images) == [*made, "K"] and images["F"] == images["G"] and images["I"][24] == 2
    assert (len(images["F"]), len(images["I"])) == (69_632, 77_824)


@sentences("`hpb run --file .. `hpb check --file .. `run`, `check` and .. OPERATIONS.md says .. Standard input has .. A batch in which ..")
def test_a_file_is_run_and_shown(hpb: Hpb, layout: Layout) -> None:
    file = hpb.formats(journal=layout.least_journal, layout=layout)
    hpb.runs(FIRST, "--batch", "64", "--every", "1")
    before = file.read_bytes()
    hpb.gives("check --file F", STATE, "CLOSE 2\n")
    hpb.runs("BID x 1 a 100 = OK 1; BID x 2 a 150 = 22; CLOSE 0 = 13", "--batch", "3")
    half = "NODE d = HIGH 0 - PRICE 0 MIN 100 WIN no; BID z 2 b 210<EOF> = 10"
    hpb.runs(f"{PAGE.definition[:-1]} = 10; {half}", "--every", "007")
    assert file.read_bytes() == before


# By sentences: words of which each is wrong.
WRONG = {
    """A number has digits .. Zeros may stand .. Numbers are decimal ..""": """
        run --file F --every=-0; serve --file F --port +5000 --sessions 2; run --file F --batch 0x10
        run --file F --batch 1.0; run --file F --every ten""",
    """2 | `hpb` doesn't know the words, or .. The path F has at .. Any other L ..""": """
        script; format; check --file F again; check --file ''; format --file F --journal 16 --layout 0
        format --file F --journal 16 --layout 3""",
    """2 | `hpb` doesn't know the words, a .. `--batch N` | 1 .. `--every K` | 0 ..""": """
        run; run --file F --journal 4; run --file F --batch 0; run --file F --batch 65; run --file F --every 4294967296
        run --file F --every=-1""",
    """2 | `hpb` doesn't know the words, one .. All three have to .. `--port P` | 1,024 .. `--sessions N` | 1 ..""": """
        serve --file F --port 5000 --sessions 1 --batch 1; serve --port 5000 --sessions 1; serve --file F --sessions 1
        serve --file F --port 5000; serve --file F --port 0x1388 --sessions 1; serve --file F --port 5000 --sessions one
        serve --file F --port 1023 --sessions 1; serve --file F --port 65536 --sessions 1; serve --file F --port 5000 --sessions 0
        serve --file F --port 5000 --sessions 33""",
}


@sentences("A number out of its .. Wrong words are .. A word that isn't .. `--file F` | a path | | has .. `--file F` | a path | a ..")
@pytest.mark.parametrize("fronts", WRONG, ids=[fronts[:30] for fronts in WRONG])
def test_wrong_words_end_with_2_before_a_file_is_opened(hpb: Hpb, fronts: str) -> None:
    hpb.misreads(*re.split(r"; |\n +", WRONG[fronts].strip()))
    # These numbers are right, so that the file is looked for, which isn't there.
    for words in ("run --file F", "run --file F --batch 10", "serve --file F --port 1024 --sessions 32", "serve --file F --port 65535 --sessions 1"):
        hpb.refuses(words, "91 device", "SHOW\n", "F could not be opened: ")
    for command in ("", "check --file", "run --file", "serve --port 5000 --sessions 1 --file"):
        ran = hpb.program.run(*command.split(), b"F\xff")
        assert (ran.output, ran.errors, ran.status) == ("", "hpb: an argument is not UTF-8\n", 2)
    assert not list(hpb.folder.iterdir())


@sentences(
    """Each subcommand may .. The table of refusals .. `hpb` looks for .. the words .. whether a standard .. the definition; .. the number of
    frames .. the file itself .. whether the process .. the contents of .. the port .. If the file is refused, it .. If it can't have .."""
)
def test_faults_are_looked_for_in_their_order(hpb: Hpb) -> None:
    (hpb.folder / "zeros").write_bytes(ZEROS)
    hpb.misreads("format --file none/F --journal three", "format --file none/F --journal 20 --layout 3", "run --file zeros --batch 65")
    with open(hpb.folder / "F.new", "wb") as stream:
        ran = hpb.ran("format --file F --journal 3", "{}", output=stream.fileno())
    assert (ran.errors[:15], ran.status) == ("hpb: 91 device:", 1)
    for journal in ("3", "20 --layout 2"):
        hpb.refuses(f"format --file none/F --journal {journal}", "61 field", "{}", "step: missing")
        hpb.refuses(f"format --file none/F --journal {journal}", "43 length", PAGE.definition)
    hpb.refuses("format --file none/F --journal 4", "91 device", PAGE.definition, "none/F could not be opened, made or written: ")
    few = Conditions(limits={resource.RLIMIT_NOFILE: 16})
    hpb.formats("G")
    with Server(hpb.program, hpb.formats("taken")) as taken:
        words = f"--port {taken.port} --sessions 32"
        serves = [("none", "91 device", few), ("zeros", "92 stream", few), ("zeros", "40 unformatted", NORMAL), ("G", "92 stream", NORMAL)]
        for name, refusal, conditions in serves:
            ran = hpb.ran(f"serve --file {name} {words}", conditions=conditions)
            assert (ran.output, ran.status) == (f"ERR {refusal}\n", 1), ran


@sentences("If `format`, `run` .. The name of a file .. A command between .. In it the name stands ..")
def test_a_file_that_is_there(hpb: Hpb) -> None:
    for name in ("auction.hpb", "it's mine"):
        image = hpb.formats(f"{name}").read_bytes()
        said = PAGE.block("hpb: 41 ").strip().removeprefix("hpb: 41 formatted: ")
        if name != "auction.hpb":
            said = said.replace("auction.hpb`", r"'it'\''s mine'`").replace("auction.hpb", name)
        hpb.refuses(f'format --file "{name}" --journal 4', "41 formatted", PAGE.definition, said)
        assert (hpb.folder / name).read_bytes() == image
    for name, image in (("longer", ZEROS + b"\0"), ("zeros", ZEROS)):
        (hpb.folder / name).write_bytes(image)
    hpb.refuses("format --file longer --journal 4", "43 length", PAGE.definition)
    hpb.formats("zeros")
    names = {"no\u202efile": r"no\u{202e}file", "n" * 100: "n" * 100, "n" * 101: "n" * 100 + ".."}
    for name, escaped in names.items():
        hpb.refuses(f"check --file {name}", "91 device", "", f"{escaped} could not be opened: ")
    hpb.refuses("check --file .", "91 device", "", ". is ")


def test_a_file_in_use(hpb: Hpb) -> None:
    file = hpb.formats()
    image = file.read_bytes()
    for kind in (fcntl.LOCK_EX, fcntl.LOCK_SH):
        with open(file, "rb") as held:
            fcntl.flock(held, kind)
            for words in ("run --file F", "format --file F --journal 4"):
                hpb.refuses(words, "91 device", PAGE.definition, "F is in use ")
            if kind == fcntl.LOCK_EX:
                hpb.refuses("check --file F", "91 device", "", "F is in use ")
            else:
                assert hpb.ran("check --file F").output.startswith(EMPTY)
    assert file.read_bytes() == image


ALL_KEPT = PAGE.block(". All that was answered").strip()
SAID = {row[0]: codes(row[1])[0] for row in PAGE.table("Event", "Its line").rows}


@sentences(
    """All answers go to .. Everything else .. 1 | the definition .. In a script, and .. Earlier answers .. `format` and `check` .. `format` writes
    .. If standard output .. reading standard .. writing standard .. If a run of the .. If F's disk failed .. It has the system's .. It is the last
    line .."""
)
def test_streams_that_fail(hpb: Hpb) -> None:
    hpb.formats()
    writing, reading = SAID["writing standard output failed"], SAID["reading standard input failed"]
    both = f"{writing}{ALL_KEPT}\nhpb: 91 device: the disk of F failed: File too large (os error 27). "
    asked = [("", PAGE.definition), ("format --file G --journal 4", PAGE.definition), ("check --file F", ""), ("run --file F", "BID x 1 a 100\n")]
    with full() as output:
        for words, text in asked:
            ran = hpb.ran(words, text + "SHOW\n" * (not words), output)
            assert (ran.errors, ran.status) == (f"{writing}{ALL_KEPT if words[:3] == 'run' else ''}\n", 1), words
        hpb.runs(f"SHOW = {SHOWN.format(1)}")
        hpb.fills("run --file F", "BID y 1 b 150", both, output)
    # The memory of a process has nothing at its front, and a read there fails.
    reads = [("", "", f"{reading}\n"), ("run --file F", "", f"{reading}{ALL_KEPT}\n"), ("format --file H --journal 4", "ERR 92 stream\n", "")]
    for words, written, said in reads:
        with open("/proc/self/mem", "rb") as memory:
            ran = hpb.program.run(*words.split(), input=memory, conditions=Conditions(folder=hpb.folder))
        assert (ran.output, ran.errors[: len(said)], ran.status) == (written, said, 1)


@sentences("If the reader of .. Commands that were accepted ..")
@pytest.mark.parametrize("conditions", [NORMAL, WITHOUT_SIGNAL], ids=["SIGPIPE as it comes", "SIGPIPE is ignored"])
def test_an_output_that_nobody_reads(hpb: Hpb, conditions: Conditions) -> None:
    hpb.formats()
    for words, text in (("", PAGE.definition + "SHOW\n"), ("run --file F", "BID x 1 a 100\n"), ("check --file F", "")):
        with unread() as output:
            ran = hpb.ran(words, text, output, conditions)
        assert (ran.errors[:38], ran.status) == ("hpb: 92 stream: writing: Broken pipe (", 1)
    hpb.runs(f"SHOW = {SHOWN.format(1)}")


BOUGHT = "BID x 1 a 100 = 91; {} = {}; BID y 1 b 150 = 93"
# By sentences: the greatest batch of a run whose disk is full, and its lines and answers.
FULL = {
    """A batch ends with ..""": ("1", "BID x 1 a 100 = 91; BID y 1 b 150 = 93"),
    "two": ("2", "BID x 1 a 100 = 91; BID y 1 b 150 = 91; BID z 1 all 500 = 93"),
    "all": ("64", "BID x 1 a 100 = 91; BID y 1 b 150 = 91; BID z 1 all 500 = 91"),
    "sixty-four": ("64", "; ".join(["BID x 1 a 100 = 91"] * 64) + "; CLOSE 1 = 93"),
    """It also ends before ..""": ("64", BOUGHT.format("SHOW", EMPTY[:-1])),
    "a line": ("64", BOUGHT.format("BID x 2 c", "ERR 10 line")),
    "no bidder": ("64", BOUGHT.format("BID nobody 1 b 150", "ERR 11 bidder")),
    "no node": ("64", BOUGHT.format("BID x 2 nowhere 100", "ERR 12 node")),
    """`SHOW`, `NODE` and ..""": (
        "2",
        f"""BID x 1 a 100 = 91; CLOSE 1 = 91; SHOW = {EMPTY}NODE a = HIGH 0 - PRICE 0 MIN 100 WIN no
        WHO x = ELIGIBILITY 10 ACTIVITY 0 TICKET 0""",
    ),
}


@pytest.mark.parametrize("quotes", FULL)
def test_a_disk_that_is_full(hpb: Hpb, layout: Layout, quotes: str) -> None:
    hpb.formats(journal=layout.least_journal, layout=layout)
    batch, text = FULL[quotes]
    hpb.fills(f"run --file F --batch {batch}", text)


@sentences(
    """When a call of the device .. a call for a batch .. Each command that .. If a batch was answered .. No command that .. 0 | the input was read
    to its end, .."""
)
def test_a_disk_that_is_full_keeps_what_was_answered_ok(hpb: Hpb, layout: Layout) -> None:
    hpb.formats(journal=layout.least_journal, layout=layout)
    hpb.runs("BID x 1 a 100 = OK 1")
    repeat, low, new, later = "BID x 1 a 100", "BID y 1 b 155", "BID y 1 b 150", "BID z 1 all 500"
    asked = f"SHOW = {SHOWN.format(1)}NODE b = HIGH 0 - PRICE 0 MIN 100 WIN no; WHO y = ELIGIBILITY 10 ACTIVITY 0 TICKET 0"
    failed = "; ".join(f"{line} = 91" for line in (repeat, low, new))
    hpb.fills("run --file F --batch 3", f"{failed}; {later} = 93; {asked}; {repeat} = 93")
    hpb.fills("format --file G --journal 4", f"{PAGE.definition[:-1]} = 91", "hpb: 91 device: G ")
    # Such a disk takes nothing of the batch.
    hpb.runs(f"SHOW = {SHOWN.format(1)}{repeat} = OK 1; {low} = 21; {new} = OK 2; {later} = OK 3", "--batch", "3")


@sentences("An `OK` leaves when its command is durable: .. With it leave .. So no command waits .. `hpb run` also makes ..")
def test_an_ok_leaves_when_its_command_is_durable(hpb: Hpb, layout: Layout) -> None:
    for batch in ("1", "2", "64"):
        file = hpb.formats(journal=layout.least_journal, layout=layout)
        run, image = hpb.starts(f"run --file F --batch {batch}"), file.read_bytes()
        for number, line in enumerate(FIRST_ROUND, 1):
            run.asks(f"{line} = OK {number}")
            before, image = image, file.read_bytes()
            assert before != image, "a command is in the file before the next line"
        # A repeat, a refused command, and the end of them by a kill.
        run.asks("CLOSE 1 = OK 5; BID x 1 a 110 = 14; BID x 2 a 160 = OK 6")
        run.process.kill()
        run.process.communicate()
        assert hpb.ran("check --file F").output.startswith("ROUND 2 STAGE 1 OPEN REVENUE 500 COUNT 6\n")
        file.unlink()


def test_half_a_line_ends_no_batch(hpb: Hpb) -> None:
    hpb.formats()
    run = hpb.starts("run --file F --batch 64")
    run.asks(f"SHOW = {EMPTY}")
    fill_disk(run.process)
    run.asks("BID x 1 a 100 = 91; BID y 1 b <EOF>")
    run.asks("150 = 93")
    run.ends(1, FULL_DISK)


@sentences("a call for a checkpoint ..")
def test_a_checkpoint_that_fails(hpb: Hpb, layout: Layout) -> None:
    hpb.formats(journal=layout.least_journal, layout=layout)
    run = hpb.starts("run --file F")
    *lines, last = commands(layout.least_journal + 1)
    for number, line in enumerate(lines, 1):
        run.asks(f"{line} = OK {number}")
    fill_disk(run.process)
    asked = f"SHOW = {SHOWN.format(4)}NODE a = HIGH 0 - PRICE 0 MIN 100 WIN no; WHO x = ELIGIBILITY 10 ACTIVITY 10 TICKET 1"
    run.asks(f"{last} = 93")
    if layout is Layout.PAGES:
        run.asks(asked)
    run.asks(f"{lines[0]} = 93; BID nobody 1 a 100 = 11")
    run.ends(1, FULL_DISK)
    assert hpb.program.count(hpb.folder / "F") == len(lines)


def test_checkpoints(hpb: Hpb) -> None:
    """After which of the first five batches the slots of the file are others."""
    for every, wanted in ((0, [5]), (1, [1, 2, 3, 4, 5]), (2, [2, 4]), (3, [3]), (4, [4]), (5, [5]), (4_294_967_295, [5])):
        slots = []
        for count in range(6):
            file = hpb.formats()
            hpb.runs("; ".join(FIRST.split("; ")[:count]), *(["--every", str(every)] if every else []))
            slots.append(file.read_bytes()[SLOTS])
            file.unlink()
        assert [count for count in range(1, 6) if slots[count] != slots[count - 1]] == wanted, every


@sentences("Each line gets one answer, in .. Without a fault .. Standard output ..")
def test_runs_answer_as_scripts(hpb: Hpb, layout: Layout) -> None:
    rows = PAGE.table("Line, behind the first example", "Answer", "Usual causes").pairs()
    shows = "SHOW = ROUND 3 STAGE 2 CLOSED REVENUE 500 COUNT 9; NODE a = HIGH 160 x PRICE 183 MIN 210 WIN no"
    asked = [*FIRST.split("; "), *(" = ".join(row) for row in rows), *shows.split("; "), "WHO x = ELIGIBILITY 0 ACTIVITY 0 TICKET 2"]
    for batch, every, cut in ((1, 0, 5), (1, 1, 0), (2, 3, 7), (3, 2, 15), (64, 0, 1), (64, 1, 20), (64, 4_294_967_295, 9)):
        file = hpb.formats(journal=layout.least_journal, layout=layout)
        for part in (asked[:cut], asked[cut:]):
            hpb.runs("; ".join(part), "--batch", str(batch), "--every", str(every))
        file.unlink()
