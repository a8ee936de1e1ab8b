"""By which calls a record is written: an entry is on the disk when its write returns; one that can't be synced isn't written."""

from __future__ import annotations

import errno
import os
from collections.abc import Callable
from pathlib import Path
from unittest import mock

import pytest

from hpb.record import New, RecordFile, time_now

Calls = Callable[..., mock.Mock]


@pytest.fixture
def calls(monkeypatch: pytest.MonkeyPatch) -> Calls:
    """Notes the calls of `os` with these names from then on."""
    noted = mock.Mock()

    def note(*names: str) -> mock.Mock:
        for name in names:
            watched = mock.Mock(wraps=getattr(os, name))
            noted.attach_mock(watched, name)
            monkeypatch.setattr(os, name, watched)
        return noted

    return note


def names_of(noted: mock.Mock) -> list[str]:
    return [name for name, _, _ in noted.mock_calls]


def begun(path: Path) -> RecordFile:
    record = RecordFile(str(path))
    record.open()
    record.begin({})
    return record


def entry() -> New:
    return New("started", {"names": {}, "count": 0}, time_now())


def test_an_entry_is_written_synced_and_then_noted_beside(tmp_path: Path, calls: Calls) -> None:
    """The note needs no sync of its own."""
    record = begun(tmp_path / "R")
    noted = calls("write", "fdatasync", "pwrite")
    record.write([entry()])
    assert names_of(noted) == ["write", "fdatasync", "pwrite"]
    record.close()


def test_an_entry_that_cannot_be_synced_is_not_written(tmp_path: Path, monkeypatch: pytest.MonkeyPatch) -> None:
    def fails(_: int) -> None:
        raise OSError(errno.EIO, "refused")

    record = begun(tmp_path / "R")
    record.write([entry()])
    with monkeypatch.context() as patch, pytest.raises(OSError, match="refused"):
        patch.setattr(os, "fdatasync", fails)
        record.write([entry()])
    assert record.place.number == 2
    record.close()


def test_names_are_synced_with_their_folder(tmp_path: Path, calls: Calls) -> None:
    """The name of a new record, and the torn bytes with their new name before the record is cut."""
    noted = calls("fsync", "ftruncate")
    record = RecordFile(str(tmp_path / "R"))
    assert names_of(noted) == ["fsync"]
    record.open()
    record.begin({})
    record.close()
    with (tmp_path / "R").open("ab") as stream:
        stream.write(b"torn")
    noted.reset_mock()
    record = RecordFile(str(tmp_path / "R"))
    assert record.open() == {"bytes": 4, "aside": "R.torn-1"}
    assert names_of(noted) == ["fsync", "fsync", "fsync", "ftruncate", "fsync"]
    record.close()
