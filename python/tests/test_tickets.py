"""The file of tickets, tokens, and the turns of addresses."""
import os
import pathlib

import pytest

from fake import Fake, Listener
from hpb import Accepted, Bid, Client, TicketsInUse, TicketsNotKept, Waive, read_token
from hpb.client.reaching import Turns
from hpb.client.tickets import TicketFile
from serving import ADDRESS


def test_a_file_tells_the_last_tickets_and_what_has_no_answer(tmp_path: pathlib.Path) -> None:
    path = tmp_path / "tickets"
    file = TicketFile(path)
    sent = ["SENT BID x 1 a 100", "SENT BID x 2 b 90", "SENT WAIVE y 3"]
    for text in (*sent, "DONE BID x 1 a 100 = OK 1", "DONE BID x 2 b 90 = ERR 22 low", "SENT CLOSE 4"):
        file.note(text, is_urgent=text.startswith("SENT"))
    file.close()
    with path.open("a") as torn:
        torn.write("SENT BID x 3 c 1")
    file = TicketFile(path)
    assert file.known() == [("x", 1)]
    assert [str(command) for command in file.unanswered] == ["Waive(bidder='y', ticket=3)", "Close(ticket=4)"]
    assert path.read_text() == "DONE WAIVE x 1 = OK\nSENT WAIVE y 3\nSENT CLOSE 4\n"
    file.close()


def test_a_carriage_return_ends_no_line_of_a_file(tmp_path: pathlib.Path) -> None:
    """A name may have one: it is refused by the auction, and noted all the same."""
    file = TicketFile(tmp_path / "tickets")
    file.note("SENT BID x 1 a\rb 100", is_urgent=True)
    file.close()
    file = TicketFile(tmp_path / "tickets")
    assert file.unanswered == (Bid("x", "a\rb", 100, ticket=1),)
    file.close()


def test_one_client_has_a_file(tmp_path: pathlib.Path) -> None:
    file = TicketFile(tmp_path / "tickets")
    with pytest.raises(TicketsInUse):
        TicketFile(tmp_path / "tickets")
    file.close()
    TicketFile(tmp_path / "tickets").close()


def test_a_file_of_something_else_is_refused(tmp_path: pathlib.Path) -> None:
    (tmp_path / "tickets").write_text("dear diary\n")
    with pytest.raises(ValueError):
        TicketFile(tmp_path / "tickets")
    assert (tmp_path / "tickets").read_text() == "dear diary\n"


@pytest.mark.parametrize("name", ["tickets", "tickets.new"])
def test_a_file_that_others_may_write_is_refused(tmp_path: pathlib.Path, name: str) -> None:
    """They could have made it, and would read each bid before its round is closed."""
    (tmp_path / name).touch()
    (tmp_path / name).chmod(0o666)
    with pytest.raises(PermissionError, match="others may write it"):
        TicketFile(tmp_path / "tickets")
    assert (tmp_path / name).read_text() == ""


@pytest.mark.skipif(os.geteuid() != 0, reason="needs the rights of root")
@pytest.mark.parametrize("name", ["tickets", "tickets.new"])
def test_a_file_of_another_user_is_refused(tmp_path: pathlib.Path, name: str) -> None:
    (tmp_path / name).touch(mode=0o600)
    os.chown(tmp_path / name, 65534, 65534)
    with pytest.raises(PermissionError, match="another user owns it"):
        TicketFile(tmp_path / "tickets")


@pytest.mark.parametrize("text", ["a-token-of-ann-without-LF", "SENT BID x 1 a 100\ndear diary"])
def test_half_a_line_of_something_else_is_refused_too(tmp_path: pathlib.Path, text: str) -> None:
    (tmp_path / "tickets").write_text(text)
    with pytest.raises(ValueError):
        TicketFile(tmp_path / "tickets")
    assert (tmp_path / "tickets").read_text() == text


@pytest.mark.parametrize("rest", ["", "S", "SENT", "SENT BID x 2", "DONE BID x 1 a 10", "\0\0\0", "SENT BID\0\0"])
def test_what_a_crash_leaves_at_the_end_is_passed_over(tmp_path: pathlib.Path, rest: str) -> None:
    (tmp_path / "tickets").write_text(f"SENT BID x 1 a 100\n{rest}")
    (tmp_path / "tickets.new").write_text(rest)
    file = TicketFile(tmp_path / "tickets")
    assert [str(command) for command in file.unanswered] == ["Bid(bidder='x', node='a', amount=100, ticket=1)"]
    assert (tmp_path / "tickets").read_text() == "SENT BID x 1 a 100\n"
    file.close()


def test_a_pipe_is_refused(tmp_path: pathlib.Path) -> None:
    os.mkfifo(tmp_path / "tickets")
    with pytest.raises(ValueError, match="regular file"):
        TicketFile(tmp_path / "tickets")


@pytest.mark.parametrize("is_link", [False, True])
def test_no_other_file_is_written_in_the_place_of_the_new_one(tmp_path: pathlib.Path, is_link: bool) -> None:
    other = tmp_path / ("diary" if is_link else "tickets.new")
    other.write_text("dear diary")
    if is_link:
        (tmp_path / "tickets.new").symlink_to(other)
    with pytest.raises((OSError, ValueError)):
        TicketFile(tmp_path / "tickets")
    assert other.read_text() == "dear diary"


def test_a_link_stays_one_and_the_file_that_it_leads_to_is_one_client_s(tmp_path: pathlib.Path) -> None:
    (tmp_path / "tickets").write_text("SENT BID x 1 a 100\nSENT BI")
    (tmp_path / "link").symlink_to(tmp_path / "tickets")
    file = TicketFile(tmp_path / "link")
    with pytest.raises(TicketsInUse):
        TicketFile(tmp_path / "tickets")
    assert (tmp_path / "link").is_symlink() and (tmp_path / "tickets").read_text() == "SENT BID x 1 a 100\n"
    file.close()


@pytest.mark.parametrize("call", ["write", "fdatasync"])
def test_nothing_is_sent_that_can_not_be_noted(tmp_path: pathlib.Path, monkeypatch: pytest.MonkeyPatch, call: str) -> None:
    fake = Fake()

    def fails(*_: object) -> int:
        raise OSError(28, "No space left on device")

    with Listener(fake) as listener, Client(ADDRESS, listener.port, tickets=tmp_path / "tickets", timeout=20) as client:
        assert client.bid("x", "a", 100) == Accepted(1)
        monkeypatch.setattr(os, call, fails)
        with pytest.raises(TicketsNotKept, match="No space"):
            client.bid("y", "b", 150)
        monkeypatch.undo()
        with pytest.raises(TicketsNotKept):
            client.bid("z", "c", 100)
        assert client.show().count == 1


def test_where_one_line_can_not_be_sent_none_is(tmp_path: pathlib.Path) -> None:
    fake = Fake()
    with Listener(fake) as listener, Client(ADDRESS, listener.port, timeout=20) as client:
        with pytest.raises(ValueError):
            client.send([Bid("x", "a", 100), Waive("x y")])
        assert client.show().count == 0


def test_addresses_come_in_turn_and_pauses_grow_up_to_two_seconds() -> None:
    turns = Turns((("a", 1), ("b", 2)))
    found = []
    for _ in range(20):
        found.append(turns.next())
        turns.failed()
    assert [address[0] for address, _ in found[:4]] == ["a", "b", "a", "b"]
    assert [pause for _, pause in found] == [0, 0, 0.1, 0, 0.2, 0, 0.4, 0, 0.8, 0, 1.6, 0, *[2, 0] * 4]
    turns.answered()
    assert turns.next()[1] == 0


def test_a_token_is_that_of_its_name_and_of_a_file_that_nobody_else_reads(tmp_path: pathlib.Path) -> None:
    path = tmp_path / "tokens"
    path.write_text("# all\nann WeSU47zBdlc16WNG2a\nbob 2a-3T9yRfjLLTu0f12\n")
    path.chmod(0o600)
    assert read_token(path, "bob") == "2a-3T9yRfjLLTu0f12"
    for name in ("carl", None):
        with pytest.raises(ValueError):
            read_token(path, name)
    path.chmod(0o644)
    with pytest.raises(ValueError, match="others may read"):
        read_token(path, "bob")
