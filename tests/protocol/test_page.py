"""Each sentence of the page is held by a test here, or by tests that stand elsewhere; or it only says what words mean, or gives advice.

A text here that ends with two points holds the sentences that begin with its parts. The head of a table holds all its rows.
"""

from __future__ import annotations

import ast
import re
from collections.abc import Iterator
from pathlib import Path

import pytest

from protocol.page import PAGE, TOP, Page, codes, sentences
from protocol.talking import WORDS, prepared
from protocol.test_transcripts import CASES, EXAMPLES

HERE = Path(__file__).parent
TESTS = ("tests", "examples", "bench", "python/tests", "crates/*/src")

# What words mean, advice, and what can't be tried: it would take a fault of `hpb`, or memory that is refused for one line.
WORDS_ALONE = (
    """For anyone who writes .. RULES.md says what .. Four subcommands are .. A batch is the .. The journal is .. A checkpoint writes .. If clients
    are to .. `ERR 95 order` says .. `hpb` checks each .. It would be a fault .. The session ends .. The client connects .. The program then .. The
    meaning of an .. Don't write one .. Go by the `ERR` .. Standard error is .. How long to wait .. No answer is promised .. So wait long, a .. Each
    reconnection takes .. `serve` writes the .. 94, 95 and 96 come .. Lines on standard .. Their text may change .. If memory is refused .. A run at a
    terminal .. OPERATIONS.md has .."""
)

# By sentences: words that stand in the tests elsewhere that show them; of words with `or` between them one stands there.
ELSEWHERE: dict[str, str] = {
    """A session sees every .. An `OK` leaves when its command is durable. .. No kill of the program ..""": (
        "def test_a_server_that_is_killed_keeps_what_it_answered(; def test_a_power_cut_loses_nothing_that_was_promised("
    ),
    """Nobody can connect ..""": "if is_served(address, port)] == []",
    """| `nodes` | list of .. | `bidders` | list of ..""": "65 nodes on eight levels; nodes: 65 licences are more than 64; nodes[8]: on level 9",
    """A session waits ..""": "def test_a_session_that_misbehaves_stops_nobody_else(",
    """So a client sends one .. It never gives a ..""": (
        "def test_a_waiver_goes_out_alone_and_bids_go_out_behind_it(; def test_a_waiver_whose_line_was_lost_is_never_numbered_anew("
    ),
    """The clients of CLIENTS ..""": "def test_no_command_is_lost_or_counted_twice_wherever_a_connection_ends(",
    """Of each session ..""": "The first bid that was answered by 93 may have been kept",
    """An answer waits .. In a session these .. Their answers leave .. A client that sends many .. A client that ends ..""": (
        "def test_the_first_answers_leave_at_once(; most_in_flight"
    ),
    """The program reads .. At the next byte .. too many bytes came ..""": "reading: more than 1,000,000,000 bytes",
    """`hpb --help` says .. `hpb format --help` .. `hpb --version` says .. All of these end .. 0 | the input was read to its end and .. Help and
    version .. `hpb --version` writes ..""": "def test_help(; def test_help_of_a_command(; def test_the_version(",
    """If the file is refused, the .. No line of the input .. 1 | the file was .. 10 to 29 answer .. 41 and 43 are refusals .. `run`, `serve` and
    ..""": "def test_a_damaged_file(; def test_an_auction_whose_length_changed(; def test_no_file(",
    """standard output ..""": "writing: nothing more was taken",
    """In a script, and .. If there isn't even .. `format` and `check` .. memory was refused ..""": (
        "def try_run(; def try_format(; def try_check("
    ),
    """memory, or a thread ..""": "memory, or a thread, was refused: free some memory,",
    """The usual mistakes .. `hpb` accepts some .. a key that stands .. a second definition .. stages that fall .. a node for which .. a bidder who
    has .. a stage that asks .. `tools/explain` ..""": """
        def test_explain_warns_of_one_that_is_accepted(; the field 'percent' stands there twice
        the second line looks like a definition too; stage 2 asks for less activity than the one before it; nobody can bid on coast
        ann has 9 units and can bid on nothing""",
    """Lines and columns .. The fault stands ..""": "line 1 column 129: nested more than 127 deep; a number too large to be read",
    """A name, a parent .. It is cut after .. An unknown field ..""": """
        a line feed, escaped; an unknown parent with a control character; a control character where JSON has none
        a name of 32 characters is not cut; a name of more than 32 characters is cut; an unknown field of 33 characters""",
    """A number of the .. A limit has commas ..""": "a number that is cut; more than 64 bits hold; an opening with an exponent",
    """If the first line .. It says that a script ..""": "the front of a definition; the definition on the second line; no input",
    """Control characters ..""": "\\u202e\\u2028",
    """If standard error ..""": "def test_no_words_make_errors_of_the_auction(",
    """`F` stands there ..""": "(400, 100, true)",
    """If a file opens .. This line has no ..""": "def test_a_damaged_checkpoint(",
    """Pipes and terminals .. If a read finds ..""": (
        "def test_an_input_that_never_waits_is_waited_for(; def test_an_output_that_never_waits_is_waited_for("
    ),
    """While a file is .. Only the lines about .. If the disk fails .. No session waits .. A line that finds .. At its end `serve` .. The line
    that says .. its client has ended .. the third of eight .. a fault has ended .. twelve such lines ..""": """
        def test_who_has_which_place_is_told(; def test_nobody_reads_at_all(; def test_a_server_ends_once_somebody_reads_why(
        def test_notices_that_find_no_room_are_counted_and_told(; def test_a_connection_that_breaks_is_told_with_its_fault(""",
    """one could not be ..""": "a connection could not be accepted, and its session has ended:",
    """a thread was refused ..""": "a thread was refused (ulimit -u tells how many there may be): sessions that have one are served to their end,",
    """If somebody else .. `run` looks for ..""": (
        "def test_it_is_told_at_the_end(; def test_a_run_says_at_its_end_that_its_file_was_changed(; "
        "def test_a_run_says_at_its_end_that_its_file_lost_its_name("
    ),
    """the file was cut ..""": "def test_it_is_told_at_the_end(; def test_a_name_that_is_replaced_beside_another_is_told(",
    """Its first line is ..""": "def test_each_greeting_of_a_mock_says_so_and_no_other(",
    """An answer to these has .. `ERR front word` is .. A command that it refuses ..""": (
        "def test_answers_of_a_front_are_read_and_written(; def test_a_bid_of_another_round_is_sent_nowhere("
    ),
    """A front whose rules limit .. A high bidder may be .. So a `-` behind a .. The number in an `OK` ..""": (
        "def test_each_name_sees_its_own_high_bids_and_pseudonyms_for_others(; def test_without_names_there_are_but_the_viewers_own(; "
        "def test_the_count_is_that_of_the_last_close_and_the_revenue_is_left_out(; def test_all_is_unveiled_once_the_auction_is_over_and_stays_so("
    ),
    """Several answers ..""": "def check_one_moment(folder) or def test_what_is_shown_is_of_one_moment(",
}


def held() -> Iterator[tuple[str, Path]]:
    """The front of each sentence that a module of tests holds, with this module."""
    for module in sorted(HERE.glob("test_*.py")):
        for part in ast.walk(ast.parse(module.read_text())):
            if isinstance(part, ast.Constant) and isinstance(part.value, str) and part.value.endswith(" ..") and len(part.value) > 3:
                yield from ((" ".join(front.split()), module) for front in re.split(r"\s\.\.\s+", part.value[:-3]))


def faults(page: Page) -> Iterator[str]:
    """Sentences that no test holds, fronts that no sentence has, and numbers of sentences that their tests don't have."""
    left = page.all_held()
    for front, module in held():
        found = page.held(front)
        left -= set(found)
        if not found:
            yield f"{module.name}: no sentence begins so: {front}"
        text = re.sub("[,_]", "", module.read_text())
        numbers = re.findall(r"\d{1,3}(?:,\d{3})+", found[0]) if len(found) == 1 else []
        yield from (f"{module.name} hasn't {number}: {found[0]}" for number in numbers if number.replace(",", "") not in text)
    yield from (f"no test holds: {words}" for words in sorted(left))


def test_each_sentence_is_held_by_a_test() -> None:
    assert list(faults(PAGE)) == []


@pytest.mark.parametrize("words", ELSEWHERE.values())
def test_the_tests_elsewhere_stand_there(words: str) -> None:
    files = [file for top in TESTS for place in TOP.glob(top) for file in place.rglob("*") if file.is_file() and HERE not in file.parents]
    texts = [file.read_text(errors="replace") for file in files]
    for part in re.split(r"; |\n +", words.strip()):
        assert any(word in text for word in part.split(" or ") for text in texts), part


def test_each_refusal_of_a_document_stands_in_the_table() -> None:
    for document in [*sorted((TOP / "docs").glob("*.md")), TOP / "README.md"]:
        for number, word in re.findall(r"ERR (\d+) ([a-z]+)", document.read_text()):
            assert WORDS.get(number) == word, f"{document.name}: ERR {number} {word}"


@sentences("By number, with .. Refusal | The text behind number and word .. `examples/mistakes` .. `tests/outside/mistakes.py` ..")
def test_each_form_of_a_reason_is_tried() -> None:
    tried = "".join((TOP / name).read_text() for name in ("examples/mistakes", "examples/each-reason", "tests/outside/mistakes.py"))
    for row in PAGE.table("Refusal", "The text behind number and word").rows:
        number, word = row[0].replace("`", "").split()
        assert f"{number} {word}: {codes(row[1])[0]}" in tried


def test_each_refusal_of_a_line_is_tried() -> None:
    tried = {number for text in [*EXAMPLES.values(), *CASES.values()] for number in re.findall(r"ERR (\d+)", prepared(text, "")[2])}
    assert tried == {number for number in WORDS if 10 <= int(number) < 30} - {"26"}
