"""A folder whose writes are watched, so that the possible results of a power cut can be made.

Between two syncs of a file, each part of it (a page of 4,096 bytes, or a sector of 512) may be kept as any write left it. The parts
don't depend on each other. The length may be any that the file had, or end at the edge of a part. Names are kept as they were at
the last sync of the folder, or after any later change.
"""

from __future__ import annotations

import os
import random
from collections.abc import Callable
from dataclasses import dataclass, field
from pathlib import Path
from typing import Any

import pytest

PAGE, SECTOR = 4_096, 512
CHANGES = ("write", "pwrite", "ftruncate", "link", "unlink")
SYNCS = ("fsync", "fdatasync")


class Cut(BaseException):
    """The power is cut."""


@dataclass
class Kept:
    """The versions of a file since its last sync, beginning with the synced one."""

    versions: list[bytes] = field(default_factory=lambda: [b""])


Names = dict[str, int]


class Disk:
    """Watches a folder through the calls of `os`. The power is cut after `changes_left` more changes, or when `syncs_left` more
    syncs are done and another is called.
    """

    def __init__(self, folder: Path, patch: pytest.MonkeyPatch) -> None:
        self.folder, self.changes_left, self.syncs_left = folder, 1 << 30, 1 << 30
        self.files: dict[int, Kept] = {}
        self.names: list[Names] = [self.names_now()]
        for name in CHANGES + SYNCS:
            patch.setattr(os, name, self.watched(name, getattr(os, name)))

    def names_now(self) -> Names:
        return {path.name: path.stat().st_ino for path in self.folder.iterdir()}

    def watched(self, name: str, call: Callable[..., Any]) -> Callable[..., Any]:
        def watches(*words: Any) -> Any:
            self.look_at_names()
            self.changes_left -= name in CHANGES
            self.syncs_left -= name in SYNCS
            if self.syncs_left < 0:
                raise Cut
            result = call(*words)
            self.look(name, words[0])
            if self.changes_left < 0:
                raise Cut
            return result

        return watches

    def look_at_names(self) -> Names:
        """Notes which files there are. If a file is new, the bytes that other calls have written to it may be kept or lost."""
        names = self.names_now()
        for name, inode in names.items():
            if inode not in self.files:
                self.files[inode] = Kept(sorted({b"", (self.folder / name).read_bytes()}))
        if names != self.names[-1]:
            self.names.append(names)
        return names

    def look(self, name: str, what: int | str) -> None:
        """Notes the changes of a call."""
        names = self.look_at_names()
        if isinstance(what, str):
            return
        inode = os.fstat(what).st_ino
        if name in SYNCS and inode == self.folder.stat().st_ino:
            self.names = [names]
            return
        kept = self.files.setdefault(inode, Kept())
        content = Path(f"/proc/self/fd/{what}").read_bytes()
        if name in SYNCS:
            kept.versions = [content]
        elif content != kept.versions[-1]:
            kept.versions.append(content)

    def image(self, dice: random.Random, part: int) -> dict[str, bytes]:
        """The files of one image that a cut may leave now."""
        names = dice.choice(self.names)
        return {name: left(self.files[inode].versions, dice, part) for name, inode in names.items()}


def left(versions: list[bytes], dice: random.Random, part: int) -> bytes:
    """A possible content of a file after a cut."""
    if len(versions) == 1:
        return versions[0]
    lengths = {len(version) for version in versions}
    most = max(lengths)
    lengths |= {at for at in range(min(lengths), most, part) if at % part == 0}
    data = bytearray(most)
    for at in range(0, most, part):
        piece = dice.choice(versions)[at : at + part]
        data[at : at + len(piece)] = piece
    return bytes(data[: dice.choice(sorted(lengths))])
