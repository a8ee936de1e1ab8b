"""A disk whose power can be cut, mounted for the tests. tests/disk/cutdisk.c says how it behaves, and what its commands do."""

from __future__ import annotations

import enum
import os
import shutil
import subprocess
from collections.abc import Iterator
from contextlib import contextmanager
from pathlib import Path

from harness.file_systems import Lacking
from harness.namespaces import is_mounted
from harness.serving import wait_until

SOURCE = Path(__file__).resolve().parents[1] / "disk" / "cutdisk.c"
CONTROL = ".disk"
SECONDS = 10
ANSWER = 1 << 12
MOST_LOGGED = 1 << 22


class Lie(enum.Enum):
    """The lies of a dishonest disk. A sync of a file, or of a folder, does nothing; or the last write before a sync is lost."""

    NONE = "none"
    SYNC = "sync"
    LAST = "last"
    FOLDER = "folder"


class CutDisk:
    """The disk, mounted at this folder. Seeds are whole numbers from 0 on."""

    def __init__(self, folder: Path) -> None:
        self.folder = folder
        self._control = os.open(folder / CONTROL, os.O_RDWR | os.O_CLOEXEC)

    def _command(self, text: str, most: int = ANSWER) -> str:
        os.pwrite(self._control, text.encode(), 0)
        return os.pread(self._control, most, 0).decode()

    def reset(self, lie: Lie = Lie.NONE) -> None:
        """Makes the disk empty, with power, and honest or not."""
        self._command("reset")
        self._command(f"lie {lie.value}")

    def put(self, name: str, data: bytes, mode: int = 0o600) -> Path:
        """Writes a file with these bytes. Then all files and folders of the disk are synced."""
        made = self.folder / name
        made.write_bytes(data)
        made.chmod(mode)
        self._command("settle")
        return made

    def arm(self, calls: int) -> None:
        """Sets the disk to cut the power at the `calls`-th change or sync from now on, counted from 1."""
        self._command(f"arm {calls}")

    def cut(self) -> None:
        """Cuts the power now. From then on each call of the disk fails with EIO."""
        self._command("cut")

    def image(self, seed: int) -> str:
        """Turns the power on again, with contents that the cut may have left. Another seed gives other contents after the same cut."""
        return self._command(f"image {seed}").strip()

    def calls(self) -> int:
        """How many changes and syncs there were since the disk was made empty."""
        return int(self._command("count").split()[0])

    def is_cut(self) -> bool:
        """Whether the power is cut."""
        return "CUT" in self._command("count")

    def log(self) -> list[str]:
        """One line for each change, each sync and each image."""
        return self._command("log", MOST_LOGGED).splitlines()

    def close(self) -> None:
        """Ends the use of commands."""
        os.close(self._control)


@contextmanager
def mounted_disk(program: Path, folder: Path) -> Iterator[CutDisk]:
    """The disk of a built cutdisk, mounted at this new folder until the end of `with`. If the system has no FUSE, `Lacking` is raised."""
    if not os.access("/dev/fuse", os.R_OK | os.W_OK):
        raise Lacking("there is no /dev/fuse that may be used")
    if os.geteuid() != 0 and shutil.which("fusermount3") is None:
        raise Lacking("there is no fusermount3")
    folder.mkdir()
    with subprocess.Popen([program, folder], stdin=subprocess.DEVNULL) as process:
        try:
            wait_until(lambda: is_mounted(folder) or process.poll() is not None, SECONDS, "the disk isn't mounted")
            if process.poll() is not None:
                raise Lacking(f"the disk can't be mounted: {process.returncode}")
            disk = CutDisk(folder)
            yield disk
            disk.close()
        finally:
            process.terminate()
