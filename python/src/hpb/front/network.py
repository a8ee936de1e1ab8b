"""The sockets that a front listens on, and the network of its own in which its server listens (docs/FRONT.md).

The sockets are taken first, in the network of the machine, and stay there. The process then enters a new network, which has a loopback
interface alone: what listens there can be reached by this process and its children, and by nobody else's.
"""
import ctypes
import errno
import fcntl
import os
import re
import socket
import struct
from dataclasses import dataclass

BACKLOG = 256
CLONE_NEWUSER, CLONE_NEWNET = 0x10000000, 0x40000000
LOOPBACK = b"lo"
SIOCGIFFLAGS, SIOCSIFFLAGS, IFF_UP, IFF_LOOPBACK = 0x8913, 0x8914, 0x1, 0x8
# An interface's name of 16 bytes, its flags of 2, and the rest of the kernel's `struct ifreq`.
INTERFACE = struct.Struct("16sh22x")
SO_NETNS_COOKIE = 71
COOKIE_BYTES = 8
# By these variables systemd hands sockets in: how many, for which process, and their names. The first is descriptor 3.
FIRST_GIVEN = 3
GIVEN_COUNT, GIVEN_PROCESS = "LISTEN_FDS", "LISTEN_PID"


class Refused(Exception):
    """The system refuses a socket or a network. The text says which one, and why."""


@dataclass(frozen=True)
class Address:
    """An address to listen at: the host in figures, a port (0 for any that is free), and the configuration's field that names it."""

    field: str
    host: str
    port: int

    def __str__(self) -> str:
        return f"[{self.host}]:{self.port}" if ":" in self.host else f"{self.host}:{self.port}"

    def is_of(self, taken: socket.socket) -> bool:
        """Whether a socket has this address."""
        host, port = taken.getsockname()[:2]
        return taken.family == self.family() and host == self.host and self.port in (0, port)

    def family(self) -> socket.AddressFamily:
        return socket.AF_INET6 if ":" in self.host else socket.AF_INET


def take(address: Address, given: list[socket.socket]) -> socket.socket:
    """The listening socket of an address: one of those that were handed in, or a new one. Clients that connect wait until the front takes
    them."""
    taken = next((handed for handed in given if address.is_of(handed)), None)
    try:
        if taken is None:
            taken = bound(address)
        taken.setblocking(False)
        # It has to listen at once. Before it does, another account may bind a socket to the same address and listen first; then this fails.
        taken.listen(BACKLOG)
    except OSError as fault:
        raise Refused(f"{address.field}: {address}: {fault.strerror or fault}") from None
    return taken


def bound(address: Address) -> socket.socket:
    taken = socket.socket(address.family(), socket.SOCK_STREAM)
    try:
        taken.setsockopt(socket.SOL_SOCKET, socket.SO_REUSEADDR, 1)
        taken.bind((address.host, address.port))
    except BaseException:
        taken.close()
        raise
    return taken


def handed_in() -> list[socket.socket]:
    """The sockets that systemd handed in. Children get neither these sockets nor the variables about them."""
    count, process = os.environ.pop(GIVEN_COUNT, ""), os.environ.pop(GIVEN_PROCESS, "")
    os.environ.pop("LISTEN_FDNAMES", None)
    if process != str(os.getpid()):
        return []
    if not re.fullmatch(r"[0-9]{1,4}", count):
        raise Refused(f"the sockets that were handed in: {GIVEN_COUNT} has {len(count)} characters, and isn't a number of at most four digits")
    try:
        return [given_socket(number) for number in range(FIRST_GIVEN, FIRST_GIVEN + int(count))]
    except OSError as fault:
        raise Refused(f"the sockets that were handed in: {fault.strerror or fault}") from None


def given_socket(number: int) -> socket.socket:
    os.set_inheritable(number, False)
    given = socket.socket(fileno=number)
    if given.type != socket.SOCK_STREAM or given.family not in (socket.AF_INET, socket.AF_INET6):
        raise OSError(errno.EINVAL, f"descriptor {number} is no socket of TCP")
    return given


def enter_own(listeners: list[socket.socket]) -> None:
    """Enters a network of its own. If the system refuses one, the process stays in a network that is apart already.

    It has to come before the first thread: the system gives a process of several threads no user namespace.
    """
    may_stay = is_apart(listeners)
    if (number := unshare()) and not may_stay:
        raise Refused(f"the system gives the front no network of its own: {os.strerror(number)}")
    try:
        bring_up_loopback()
    except OSError as fault:
        raise Refused(f"the loopback interface of the front's own network: {fault.strerror or fault}") from None


def is_apart(listeners: list[socket.socket]) -> bool:
    """Whether the process's network has a loopback interface alone, and all these sockets are of another one, as with PrivateNetwork= of
    systemd."""
    with socket.socket() as probe:
        own = cookie_of(probe)
    are_elsewhere = bool(listeners) and own is not None and all(cookie_of(one) not in (None, own) for one in listeners)
    return are_elsewhere and not reaches_others()


def reaches_others() -> bool:
    """Whether an interface is up besides the loopback. The system may make some in each network, which are down."""
    return any(flags_of(name.encode()) & (IFF_UP | IFF_LOOPBACK) == IFF_UP for _, name in socket.if_nameindex())


def cookie_of(one: socket.socket) -> bytes | None:
    """The kernel's number of the socket's network, or nothing if the kernel is older than 5.14."""
    try:
        return one.getsockopt(socket.SOL_SOCKET, SO_NETNS_COOKIE, COOKIE_BYTES)
    except OSError:
        return None


def unshare() -> int:
    """Enters a new network. If only root may have one, it enters a new user namespace too, in which this user keeps its own id. Returns 0,
    or the number of the error if the system refuses that."""
    user, group = os.geteuid(), os.getegid()
    if not call_unshare(CLONE_NEWNET):
        return 0
    if number := call_unshare(CLONE_NEWUSER | CLONE_NEWNET):
        return number
    try:
        write("/proc/self/setgroups", "deny")
        write("/proc/self/uid_map", f"{user} {user} 1")
        write("/proc/self/gid_map", f"{group} {group} 1")
    except OSError as fault:
        raise Refused(f"the system gives the front no user namespace of its own: {fault.strerror or fault}") from None
    return 0


def call_unshare(flags: int) -> int:
    """Calls unshare(2). Returns 0, or the number of the error."""
    library = ctypes.CDLL(None, use_errno=True)
    return 0 if library.unshare(flags) == 0 else ctypes.get_errno() or errno.EPERM


def write(path: str, text: str) -> None:
    with open(path, "w", encoding="ascii") as file:
        file.write(text)


def bring_up_loopback() -> None:
    with socket.socket(socket.AF_INET, socket.SOCK_DGRAM) as control:
        flags = flags_of(LOOPBACK)
        if not flags & IFF_UP:
            fcntl.ioctl(control, SIOCSIFFLAGS, INTERFACE.pack(LOOPBACK, flags | IFF_UP))


def flags_of(interface: bytes) -> int:
    with socket.socket(socket.AF_INET, socket.SOCK_DGRAM) as control:
        flags: int = INTERFACE.unpack(fcntl.ioctl(control, SIOCGIFFLAGS, INTERFACE.pack(interface, 0)))[1]
    return flags
