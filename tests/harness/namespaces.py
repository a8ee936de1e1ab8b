"""Namespaces of the system: mounts and networks of a process's own."""

from __future__ import annotations

import ctypes
import fcntl
import os
import socket
import struct
from collections.abc import Iterator
from contextlib import contextmanager
from dataclasses import dataclass
from pathlib import Path

CLONE_NEWNS, CLONE_NEWNET = 0x00020000, 0x40000000
MS_REC, MS_PRIVATE = 0x4000, 0x40000
SIOCGIFFLAGS, SIOCSIFFLAGS, IFF_UP = 0x8913, 0x8914, 1
INTERFACE = struct.Struct("16sH22x")

_libc = ctypes.CDLL(None, use_errno=True)


def _checked(result: int, what: str) -> None:
    if result != 0:
        number = ctypes.get_errno()
        raise OSError(number, f"{what}: {os.strerror(number)}")


def leave_mounts() -> None:
    """From here on this process has mounts of its own. Nobody else sees them, and they are gone when the process ends."""
    _checked(_libc.unshare(CLONE_NEWNS), "unshare mounts")
    _checked(_libc.mount(b"none", b"/", None, MS_REC | MS_PRIVATE, None), "make mounts private")


def hide(folder: str) -> None:
    """From here on this process sees an empty folder in the place of this one. It gets mounts of its own for that."""
    leave_mounts()
    _checked(_libc.mount(b"none", folder.encode(), b"tmpfs", 0, None), f"hide {folder}")


def leave_network() -> None:
    """From here on this thread has a network of its own, with its loopback up."""
    _checked(_libc.unshare(CLONE_NEWNET), "unshare network")
    with socket.socket(socket.AF_INET, socket.SOCK_DGRAM) as opened:
        flags = INTERFACE.unpack(fcntl.ioctl(opened, SIOCGIFFLAGS, INTERFACE.pack(b"lo", 0)))[1]
        fcntl.ioctl(opened, SIOCSIFFLAGS, INTERFACE.pack(b"lo", flags | IFF_UP))


@dataclass(frozen=True)
class Network:
    """A network namespace, held by a descriptor that stays open while it is used."""

    descriptor: int

    @classmethod
    def own(cls) -> Network:
        """The network of this thread. The caller ends its use by `close`."""
        return cls(os.open("/proc/thread-self/ns/net", os.O_RDONLY | os.O_CLOEXEC))

    @classmethod
    def of_process(cls, process: int) -> Network:
        """The network of a process. The caller ends its use by `close`."""
        return cls(os.open(f"/proc/{process}/ns/net", os.O_RDONLY | os.O_CLOEXEC))

    def enter(self) -> None:
        """From here on this thread is in this network."""
        _checked(_libc.setns(self.descriptor, CLONE_NEWNET), "enter a network")

    def close(self) -> None:
        """Ends the use. The namespace stays as long as a process is in it."""
        os.close(self.descriptor)

    @contextmanager
    def inside(self) -> Iterator[None]:
        """Within `with`, the connections of this thread are in that network."""
        own = Network.own()
        self.enter()
        try:
            yield
        finally:
            own.enter()
            own.close()


@contextmanager
def new_network() -> Iterator[Network]:
    """A network of its own, with its loopback up."""
    own = Network.own()
    try:
        leave_network()
        made = Network.own()
        own.enter()
        try:
            yield made
        finally:
            made.close()
    finally:
        own.close()


def is_mounted(folder: Path) -> bool:
    """Whether something is mounted at this folder, as this process sees it."""
    lines = Path("/proc/self/mountinfo").read_text().splitlines()
    return any(line.split(" ")[4] == str(folder) for line in lines)
