"""Changes of the file of tokens: each stays, however many are made at once, and one that was killed doesn't hinder others."""

from __future__ import annotations

import os
import signal
import subprocess
import time
from pathlib import Path

import pytest
from fronts import Front, token_of
from harness.fronts import with_package
from harness.serving import wait_until
from harness.users import User
from test_front_tokens import id_of, refused, tokens

from hpb.front import change as front_change
from hpb.front.change import Busy, changing
from hpb.front.faults import Wrong
from hpb.front.tokens import TokenFile

ANN, BOB = "ann " + "a" * 16, "bob " + "b" * 16
AT_ONCE = 8


@pytest.fixture
def file(room: Path) -> TokenFile:
    """A file of two names, with a token each."""
    path = room / "T"
    path.touch(mode=0o600)
    path.write_text(f"# by hand\n{ANN}\n{BOB}\n")
    return TokenFile(str(path), ["ann", "bob"])


def lines(file: TokenFile) -> list[str]:
    return Path(file.path).read_text().splitlines()


def is_written(new: Path) -> bool:
    """Whether a change has its lock, and has written the file that it will rename."""
    return new.exists() and b"sha256" in new.read_bytes()


def test_no_change_is_lost_that_is_made_beside_another(front: Front) -> None:
    """By hand: five tokens are there, one of them goes, and eight come."""
    words = [front.words("tokens", "add", "ann") for _ in range(AT_ONCE)] + [front.words("tokens", "revoke", id_of(token_of("bob")))]
    running = [subprocess.Popen(each, stdout=subprocess.PIPE, stderr=subprocess.PIPE, text=True) for each in words]
    ended = [(*process.communicate(timeout=60), process.returncode) for process in running]
    assert [(said, status) for _, said, status in ended] == [("front: a front that runs takes this in by SIGHUP\n", 0)] * (AT_ONCE + 1)
    added = [written.split()[1] for written, _, _ in ended[:AT_ONCE]]
    shown = tokens(front, "list")
    assert sorted(id for name, id in shown if name == "ann") == sorted([*added, id_of(token_of("ann"))])
    assert [name for name, _ in shown if name == "bob"] == [] and "bob -" in front.tokens.read_text().splitlines()
    assert not (front.folder / "T.new").exists()


def test_a_change_that_was_killed_hinders_none(front: Front) -> None:
    """A library stops the change before it has renamed its file, and then the change is killed."""
    slow = front.folder / "slow"
    slow.mkdir()
    (slow / "sitecustomize.py").write_text("import os, time\nos.replace = lambda *_: time.sleep(1000)\n")
    words = front.words("tokens", "add", "ann")
    with subprocess.Popen(words, env=with_package({**os.environ, "PYTHONPATH": str(slow)})) as killed:
        wait_until(lambda: is_written(front.folder / "T.new"), 30, "a change")
        killed.kill()
    assert (front.folder / "T.new").exists()
    [[name, id, _]] = tokens(front, "add", "ann")
    assert [name, id] in tokens(front, "list") and len(tokens(front, "list")) == len(front.names) + 1
    assert not (front.folder / "T.new").exists()


@pytest.mark.parametrize("rest", ["", f"# by hand\n{ANN}\n", f"{ANN}\nbob -\n", f"{ANN}\n{BOB}\nann sha256:{'0' * 64}\n", "\0" * 40])
def test_a_rest_is_taken_away(rest: str, file: TokenFile) -> None:
    new = Path(f"{file.path}.new")
    new.touch(mode=0o600)
    new.write_text(rest)
    file.add("ann")
    assert not new.exists() and len(lines(file)) == 4


@pytest.mark.parametrize("text", ["ann another-token-0123456\nbob -\n", "notes\n"])
def test_a_file_that_somebody_prepares_stays(text: str, file: TokenFile) -> None:
    """The file is named, and nothing is changed."""
    new = Path(f"{file.path}.new")
    new.touch(mode=0o600)
    new.write_text(text)
    before = lines(file)
    with pytest.raises(Wrong, match=f"^tokens: {new} is in the way, and is no rest of a change: look what it is, and move it$"):
        file.add("ann")
    assert new.read_text() == text and lines(file) == before


@pytest.mark.as_root
def test_a_file_of_another_user_in_the_way_is_named(file: TokenFile, nobody: User) -> None:
    new = Path(f"{file.path}.new")
    new.touch()
    nobody.own(new)
    with pytest.raises(Wrong, match=f"^tokens: {new}: another user owns it; look whose it is, and move it$"):
        file.add("ann")
    assert new.exists()


def test_a_change_waits_for_another_for_a_time(file: TokenFile, monkeypatch: pytest.MonkeyPatch) -> None:
    before = lines(file)
    with changing(file.path, file.is_rest):
        began = time.monotonic()
        with pytest.raises(Busy, match="another program changes T, and isn't done after 0 seconds"), changing(file.path, file.is_rest, 0.2):
            pass
        assert 0.2 <= time.monotonic() - began < 5
    assert lines(file) == before
    file.add("ann")
    assert len(lines(file)) == 4 and front_change.WAIT_SECONDS == 10


def test_a_change_that_is_stopped_is_told_to_the_next(front: Front) -> None:
    """The next change waits for ten seconds, and ends with a message."""
    slow = front.folder / "slow"
    slow.mkdir()
    (slow / "sitecustomize.py").write_text("import os, time\nos.replace = lambda *_: time.sleep(1000)\n")
    with subprocess.Popen(front.words("tokens", "add", "ann"), env=with_package({**os.environ, "PYTHONPATH": str(slow)})) as stopped:
        wait_until(lambda: is_written(front.folder / "T.new"), 30, "a change")
        stopped.send_signal(signal.SIGSTOP)
        said = refused(front, "revoke", id_of(token_of("ann")))
        stopped.kill()
    assert said == f"front: tokens: {front.folder / 'T.new'}: another program changes T, and isn't done after 10 seconds\n"


def test_a_change_that_fails_leaves_nothing(file: TokenFile) -> None:
    with pytest.raises(Wrong, match="no token has the id 0123456789ab"):
        file.revoke("0123456789ab")
    assert [each.name for each in Path(file.path).parent.iterdir()] == ["T"]


def test_tokens_that_are_made_take_no_files_place(front: Front) -> None:
    """Even if there is a remainder of a change that was killed between two steps."""
    ran = front.run("--make-tokens")
    assert (ran.status, ran.errors) == (2, f"front: tokens: {front.tokens}: File exists\n")
    os.link(front.tokens, front.folder / "T.new")
    assert front.run("--make-tokens").status == 2 and not (front.folder / "T.new").exists()
    front.tokens.unlink()
    assert front.run("--make-tokens").status == 0
    assert [name for name, _ in tokens(front, "list")] == list(front.names)
    assert front.tokens.stat().st_mode & 0o777 == 0o600 and not (front.folder / "T.new").exists()


def test_two_who_make_tokens_make_them_once(front: Front) -> None:
    front.tokens.unlink()
    running = [subprocess.Popen(front.words("--make-tokens"), stderr=subprocess.PIPE, text=True) for _ in range(AT_ONCE)]
    ended = sorted((process.communicate(timeout=60)[1], process.returncode) for process in running)
    assert ended == [("", 0)] + [(f"front: tokens: {front.tokens}: File exists\n", 2)] * (AT_ONCE - 1)
    assert len(tokens(front, "list")) == len(front.names)


@pytest.mark.parametrize("what", ["add", "revoke"])
def test_a_link_to_the_tokens_stays_one(front: Front, what: str) -> None:
    """The file to which it leads is changed. Before, a file took the link's place, and that one kept a revoked token."""
    secret = front.folder / "secret"
    secret.mkdir()
    front.tokens.rename(secret / "tokens")
    front.tokens.symlink_to("secret/tokens")
    shown = tokens(front, what, "ann" if what == "add" else id_of(token_of("ann")))
    assert os.readlink(front.tokens) == "secret/tokens" and os.listdir(secret) == ["tokens"]
    assert (shown[0][1] in [id for _, id in tokens(front, "list")]) == (what == "add")
    assert (token_of("ann") in (secret / "tokens").read_text()) == (what == "add")
