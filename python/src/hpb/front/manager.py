"""Tells a service manager how the front is doing, by the messages of sd_notify(3) (docs/OPERATIONS.md).

The manager names its socket in the environment. If it doesn't, the front tells nobody.
"""
import os
import socket
import time
from collections.abc import Callable, MutableMapping

SOCKET, WATCHDOG_MICROSECONDS, WATCHDOG_PROCESS = "NOTIFY_SOCKET", "WATCHDOG_USEC", "WATCHDOG_PID"
READY, STOPPING, RELOADING, ALIVE = "READY=1", "STOPPING=1", "RELOADING=1", "WATCHDOG=1"
# A name that begins so is one of the kernel's, not of a file.
ABSTRACT = "@"
MICROSECONDS = 1_000_000


class Manager:
    """The service manager. The front's children don't get the variables about it, so they can't speak for the front."""

    def __init__(self, variables: MutableMapping[str, str], warn: Callable[[str], None]) -> None:
        """`variables` is the environment. `warn` gets the reason if the manager doesn't take the word that the front is ready. The front
        calls this in the network in which it was started: there the manager has its name, if that is one of the kernel's."""
        self.address = variables.pop(SOCKET, "")
        period, process = variables.pop(WATCHDOG_MICROSECONDS, ""), variables.pop(WATCHDOG_PROCESS, "")
        is_watched = self.address != "" and period.isdecimal() and process in ("", str(os.getpid()))
        # Seconds between two words that the front is alive, half of those that the manager waits; 0 if it doesn't wait for any.
        self.pace = int(period) / MICROSECONDS / 2 if is_watched else 0.0
        self.told_alive = -self.pace
        self.warn = warn
        self.letters = socket.socket(socket.AF_UNIX, socket.SOCK_DGRAM) if self.address else None
        if self.letters:
            self.letters.setblocking(False)

    def tell(self, word: str) -> None:
        """Tells one thing. If the manager takes nothing, it ends the front after its own limit of time."""
        if not self.letters:
            return
        try:
            self.letters.sendto(word.encode(), f"\0{self.address[1:]}" if self.address.startswith(ABSTRACT) else self.address)
        except OSError as fault:
            if word == READY:
                self.warn(f"the front can't tell the service manager that it is ready: {fault.strerror or fault}")

    def tell_alive(self) -> None:
        """Tells that the front is alive, if the manager waits for that and it is time. The front's loop calls it again and again."""
        now = time.monotonic()
        if self.pace and now - self.told_alive >= self.pace:
            self.told_alive = now
            self.tell(ALIVE)
