"""File systems for the tests alone: on loop devices, and one in memory."""

from __future__ import annotations

import enum
import shutil
import subprocess
from collections.abc import Iterator
from contextlib import contextmanager
from pathlib import Path

MIB = 1 << 20


class Lacking(Exception):
    """The machine lacks a tool or a right."""


class FileSystem(enum.Enum):
    """The kinds of file systems, by their names for `mount`."""

    EXT4 = "ext4"
    XFS = "xfs"
    BTRFS = "btrfs"
    TMPFS = "tmpfs"

    @property
    def is_on_a_device(self) -> bool:
        """Whether it needs a block device; tmpfs lives in memory."""
        return self is not FileSystem.TMPFS

    @property
    def least_mib(self) -> int:
        """The least size that its tool makes, in MiB."""
        return 300 if self is FileSystem.XFS else 128

    @contextmanager
    def mounted(self, folder: Path, mib: int | None = None) -> Iterator[Path]:
        """A new file system at a folder with this name. Every user may make files in it. Without the tool or the rights, `Lacking`
        is raised.
        """
        image = folder.with_name(f"{folder.name}.image")
        folder.mkdir()
        try:
            if self.is_on_a_device:
                self._make(image, mib or self.least_mib)
                _called("mount", "-o", "loop", str(image), str(folder))
            else:
                _called("mount", "-t", "tmpfs", "-o", f"size={mib or self.least_mib}m", "none", str(folder))
            folder.chmod(0o1777)
            try:
                yield folder
            finally:
                _called("umount", "--lazy", str(folder))
        finally:
            image.unlink(missing_ok=True)

    def _make(self, image: Path, mib: int) -> None:
        with image.open("wb") as opened:
            opened.truncate(mib * MIB)
        _called(f"mkfs.{self.value}", "-q", str(image))


def _called(tool: str, *words: str) -> None:
    found = shutil.which(tool, path="/usr/sbin:/usr/bin:/sbin:/bin")
    if found is None:
        raise Lacking(f"there is no {tool}")
    ran = subprocess.run([found, *words], capture_output=True, timeout=60)
    if ran.returncode:
        raise Lacking(f"{tool}: {ran.stderr.decode(errors='replace').strip()}")
