"""A relay before a server. It lets a test act when a line goes out, or when an answer comes back."""
from __future__ import annotations

import socket
import threading
from collections.abc import Callable
from types import TracebackType

from harness.serving import ADDRESS, SECONDS


class Relay:
    """Takes connections and hands their lines on to a port, one by one.

    At line `at`, counted over all connections from 1, it calls `act` once, and the connection ends. It calls it before the line is
    handed on; with `behind`, when the line's answer is there, and the answer isn't handed back.
    """

    def __init__(self, port: int, at: int, behind: bool, act: Callable[[], None]) -> None:
        self.to, self.at, self.behind, self.act = port, at, behind, act
        self.lines, self.has_acted = 0, False
        self.listener = socket.create_server((ADDRESS, 0))
        self.port: int = self.listener.getsockname()[1]
        self.thread = threading.Thread(target=self._accept, daemon=True)

    def __enter__(self) -> Relay:
        self.thread.start()
        return self

    def __exit__(self, kind: type[BaseException] | None, value: BaseException | None, trace: TracebackType | None) -> None:
        self.listener.shutdown(socket.SHUT_RDWR)
        self.listener.close()
        self.thread.join(SECONDS)

    def _accept(self) -> None:
        """One connection after the other."""
        while True:
            try:
                taken, _ = self.listener.accept()
            except OSError:
                return
            with taken:
                try:
                    with socket.create_connection((ADDRESS, self.to), SECONDS) as server:
                        taken.settimeout(SECONDS)
                        self._hand_on(taken, server)
                except OSError:
                    continue

    def _hand_on(self, client: socket.socket, server: socket.socket) -> None:
        lines, answers = client.makefile("rb"), server.makefile("rb")
        while line := lines.readline():
            self.lines += 1
            is_the_one = self.lines == self.at and not self.has_acted
            if is_the_one and not self.behind:
                return self._acts()
            server.sendall(line)
            answer = answers.readline()
            if is_the_one:
                return self._acts()
            if not answer:
                return
            client.sendall(answer)

    def _acts(self) -> None:
        self.has_acted = True
        self.act()
