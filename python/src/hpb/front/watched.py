"""A front that shows its metrics and its health at an address of its own (docs/FRONT.md)."""
import socket
from collections.abc import Coroutine
from typing import Any

from hpb.front.health import Health, said
from hpb.front.log import Log
from hpb.front.machine import Machine
from hpb.front.terms import Reload


class Watched:
    """Joins a front with its metrics, and with the pages that show them. The library of the metrics is imported only here: without
    `[metrics]` a front does without it."""

    def __init__(self, listener: socket.socket, machine: Machine, reloading: Reload, log: Log, record: str) -> None:
        from hpb.front.metrics import Metrics

        self.metrics = Metrics(machine, reloading, record)
        machine.see, log.seen = self.metrics.see, self.metrics.note
        self.health = Health(listener, {"/metrics": self.show, "/live": self.live, "/ready": self.ready})

    def works(self) -> list[Coroutine[Any, Any, None]]:
        """The works that go on as long as the front."""
        return [self.health.serve(), self.metrics.keep_measuring()]

    def show(self, accept: str) -> tuple[int, str, bytes]:
        return 200, *self.metrics.shown(accept)

    def live(self, _: str) -> tuple[int, str, bytes]:
        """The front's loop answers this, so it is alive."""
        return said(200, "live")

    def ready(self, _: str) -> tuple[int, str, bytes]:
        if self.metrics.is_ready():
            return said(200, "ready")
        front = self.metrics.front
        return said(503, f"not ready: {front.phase.name.lower()}, server {'up' if front.server.is_up else 'down'}")
