"""Mock auctions (docs/ROUNDS.md): made in one step, shown everywhere, and never taken for the auction itself, nor the other way round."""

from __future__ import annotations

import hashlib
import time
from pathlib import Path

import pytest
from boards import Site
from fronts import ADDRESS, Front, make_certificate, token_of
from harness.auctions import FIRST_ROUND, definition
from harness.fronts import run_tool
from harness.programs import Program
from harness.serving import Serve, read_line, wait_until

from hpb import Client, NotWelcome
from hpb.front.times import text_of_time
from hpb.record import read_record

SECONDS = 60
NOTICE = "MOCK auction: a rehearsal. Nothing of it counts."
SENDERS = {"x": "ann", "y": "bob", "z": "bob", "w": "carl"}


@pytest.fixture
def front(program: Program, room: Path) -> Front:
    """A front of a new auction, with a page; it isn't started."""
    front = Front(program, room, has_board=True)
    program.keep(front.file, text=definition())
    return front


def mock_of(front: Front, *words: str) -> Front:
    """The mock of a front's auction, made in one step."""
    ran = front.run("--make-mock", str(front.folder / "M"), *words)
    assert ran.status == 0 and ran.output == "", ran
    assert f"the mock has the file {front.folder}/mock-F and the record {front.folder}/mock-R" in ran.errors
    return at(front, "M", file="mock-F", record="mock-R")


def at(front: Front, config: str, **fields: str) -> Front:
    """A front with another configuration in the same folder, which is there already."""

    class Other(Front):
        @property
        def config(self) -> Path:
            return self.folder / config

        def write_config(self, **more: object) -> None:
            """It was written by somebody else."""

    return Other(front.program, front.folder, front.names, front.limits, fields, has_board=front.has_board)


def contents(folder: Path) -> dict[str, str]:
    """The digest of each file but the log."""
    return {file.name: hashlib.sha256(file.read_bytes()).hexdigest() for file in folder.iterdir() if file.is_file() and not file.name.endswith(".log")}


def listens(front: Front) -> tuple[str, str]:
    """The lines on standard output of a front that comes up."""
    front.begin()
    assert front.process
    lines = read_line(front.process, SECONDS), read_line(front.process, SECONDS)
    front.port, front.board_port = int(lines[0].split(" ")[2]), int(lines[1].split(" ")[1].rstrip("/").rsplit(":", 1)[1])
    return lines


def accept(front: Front, *lines: str) -> None:
    answers = [front.ask(SENDERS.get(line.split(" ")[1], "desk"), line) for line in lines]
    assert [answer for answer in answers if not answer.startswith("OK ")] == []


@pytest.mark.timeout(240)
def test_a_mock_is_made_in_one_step_and_says_so_everywhere(front: Front) -> None:
    before = contents(front.folder)
    mock = mock_of(front)
    assert {name: digest for name, digest in contents(front.folder).items() if name in before} == before
    with mock:
        lines = listens(mock)
        assert all(line.endswith(" MOCK") for line in lines), lines
        mock.wait_until_said(f"front: {NOTICE} Each greeting and each page says MOCK\n")
        assert mock.client("ann").welcome == "WELCOME ann MOCK"  # type: ignore[attr-defined]
        accept(mock, *FIRST_ROUND)
        look_at_page(mock)
        look_at_tools(mock)
        ran = mock.stop()
    assert ran.status == 0 and [line.endswith(" MOCK") for line in ran.lines()] == [True, True], ran
    reported = run_tool("report", mock.file, "--program", mock.program.path)
    assert reported.status == 0 and "<h1>MOCK auction, round 2, open</h1>" in reported.output and NOTICE in reported.output
    pictured = run_tool("report", mock.file, "--program", mock.program.path, "--picture")
    assert pictured.output.endswith(">MOCK auction</text></svg>\n")
    replayed = run_tool("replay", mock.record, "--program", mock.program.path, "--file", mock.file, "--svg", mock.folder / "S")
    assert replayed.status == 0 and replayed.lines()[-1] == NOTICE and "MOCK: Revenue" in (mock.folder / "S").read_text()


def look_at_page(mock: Front) -> None:
    site = Site(mock.board_port, "ann", token_of("ann"), mock.context)
    wait_until(lambda: site.shows(round="2"), SECONDS, "the page doesn't follow")
    page = site.get("/")[2].decode()
    assert "<title>MOCK auction</title>" in page and f'<p id="mock" class="mock">{NOTICE}</p>' in page
    assert site.get("/tree.svg")[2].decode().endswith(">MOCK auction</text></svg>\n")
    desk = Site(mock.board_port, "desk", token_of("desk"), mock.context).get("/")[2].decode()
    assert "bidder-x-" in desk and "mock_auction" not in desk


def look_at_tools(mock: Front) -> None:
    """The client, the library and the terminal. The auction's own definition may be used at the mock, and the mock's at the mock alone."""
    asked = run_tool("client", f"{ADDRESS}:{mock.port}", "--token", mock.tokens, "--name", "ann", "--plain", text=b"SHOW\n")
    assert (asked.output, asked.errors) == ("ROUND 2 STAGE 1 OPEN REVENUE 500 COUNT 5\n", f"client: {NOTICE}\n")
    with Client(ADDRESS, mock.port, token=token_of("ann"), plain=True) as client:
        assert client.is_mock() is None and client.show().round == 2 and client.is_mock() is True
    with Client(ADDRESS, mock.port, token=token_of("ann"), plain=True, mock=False) as client:
        with pytest.raises(NotWelcome, match="this front's auction is a mock"):
            client.bid("x", "a", 300)
    text, token = mock.folder / "D", mock.folder / "token"
    text.write_bytes(definition())
    token.touch(mode=0o600)
    token.write_text(token_of("ann"))
    words = ["--front", f"{ADDRESS}:{mock.port}", "--token", token, "--plain", "--definition", text, "--bidders", "x", "--once"]
    watched = run_tool("watch", *words)
    assert watched.status == 0 and watched.lines()[:2] == [NOTICE, "Live."], watched


def test_a_front_and_a_mock_are_refused_each_others_files_and_records_and_change_nothing(front: Front) -> None:
    """Also with the record left away, and with the words that let a front go on over much else."""
    mock = mock_of(front)
    for one in (front, mock):
        with one:
            listens(one)
            accept(one, *FIRST_ROUND[:2])
            one.stop()
    # A torn end, which a front of the right auction would set aside.
    for one in (front, mock):
        one.record.write_bytes(one.record.read_bytes() + b"0123")
    rows = [
        ("F", "none", True, "F isn't the file of a mock: its definition lacks the bidder mock_auction. Nothing was changed."),
        ("F", "R", True, "F isn't the file of a mock"),
        ("mock-F", "R", True, "R isn't the record of a mock. Nothing was changed in it: name a record of the mock's own in the configuration"),
        ("mock-F", "none", False, "mock-F is the file of a mock: its definition has the bidder mock_auction. Name the auction's own file and record."),
        ("mock-F", "mock-R", False, "mock-F is the file of a mock"),
        ("F", "mock-R", False, "mock-R is the record of a mock. Nothing was changed in it: name the auction's own record in the configuration"),
    ]
    before = contents(front.folder)
    for file, record, is_mock, words in rows:
        wrong = at(front, "W", file=file, record=record)
        text = front.config.read_text().replace('file = "F"', f'file = "{file}"').replace('record = "R"', f'record = "{record}"')
        wrong.config.write_text(f"mock = {'true' if is_mock else 'false'}\n{text}")
        for more in ((), ("--foreign", "--set-aside")):
            ran = wrong.run(*more)
            assert ran.status in (1, 2) and words in ran.errors and ran.output == "", (file, record, is_mock, ran)
        wrong.config.unlink()
    assert contents(front.folder) == before


def test_another_server_behind_a_port_is_found_though_nobody_has_bid(front: Front, serve: Serve) -> None:
    """A front of the auction, whose port leads to the server of the mock."""
    server = serve(mock_of(front).file, sessions=len(front.names) + 1)
    ran = front.configure(port=server.port, shared_network=True).run()
    assert ran.status == 1 and "the server has another auction than the file: another definition: it has no bidder mock_auction" in ran.errors, ran


def test_a_mock_has_the_same_names_tokens_certificate_and_clock(front: Front, room: Path) -> None:
    """In another folder, too, and with its first round at another time."""
    context = make_certificate(room)
    other = room / "evening"
    other.mkdir()
    front.tables = {
        "rounds": {"zone": "Europe/Berlin", "first": text_of_time(time.time() + 86_400), "length_seconds": 60, "gap_seconds": 5, "unsynchronised": True},
        "information": {"observers": ["public"]}, "information.running": {"identities": "own", "count": "closes"},
    }
    front.configure(certificate="S", key="K")
    first = text_of_time(time.time() + 3_600)
    ran = front.run("--make-mock", str(other / "M"), "--first", first)
    assert ran.status == 0, ran
    text = (other / "M").read_text()
    assert f'first = "{first}"\nlength_seconds = 60\ngap_seconds = 5\n' in text and f'tokens = "{room}/T"' in text
    assert f'certificate = "{room}/S"' in text and 'file = "mock-F"' in text and "[information.running]\n" in text
    mock = at(front, "evening/M")
    with mock:
        listens(mock)
        mock.context = context
        assert mock.ask("ann", "SCHEDULE").startswith(f"SCHEDULE ROUND 1 STATE waits OPENS {first} UNTIL ")
        assert mock.ask("ann", "INFORMATION") == "INFORMATION running IDENTITIES own COUNT closes REVENUE yes"
    assert read_record(other / "mock-R")[0][0]["definition"]["bidders"][-1] == {"name": "mock_auction", "units": 1}
