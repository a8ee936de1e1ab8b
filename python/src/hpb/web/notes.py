"""The site's log: lines of JSON on standard error. No token stands there, and nobody waits until the lines are read."""
import json
import logging
import logging.handlers
import queue
import time
from collections.abc import Iterator
from contextlib import contextmanager
from typing import Final

# So many lines may wait for a reader; those beyond that are left out.
MOST_UNREAD: Final = 1_000


class _Queue(logging.handlers.QueueHandler):
    """Puts lines before a thread. A line that finds no room is left out without a word."""

    def handleError(self, record: logging.LogRecord) -> None:
        """For `logging`."""


class Notes:
    """Notes what names do that others may have to look at: signing in and out, failed tries, faults."""

    def __init__(self, logger: logging.Logger) -> None:
        self._logger = logger

    def note(self, kind: str, **fields: object) -> None:
        """A line of this kind."""
        now = time.time()
        at = time.strftime("%Y-%m-%dT%H:%M:%S", time.gmtime(now)) + f".{int(now * 1000) % 1000:03}Z"
        self._logger.info(json.dumps({"at": at, "kind": kind, **fields}))


@contextmanager
def noted() -> Iterator[Notes]:
    """Notes that a thread writes until the end."""
    logger, waiting = logging.Logger("hpb.web"), queue.Queue[logging.LogRecord](MOST_UNREAD)
    logger.addHandler(_Queue(waiting))
    listener = logging.handlers.QueueListener(waiting, logging.StreamHandler())
    listener.start()
    try:
        yield Notes(logger)
    finally:
        listener.stop()
