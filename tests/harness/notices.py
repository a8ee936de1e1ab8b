"""Notices of `serve` about its places on standard error, and the rest of its messages."""

from __future__ import annotations

import re

from harness.programs import Ran
from harness.serving import Client, Server

PLACE = re.compile(r"hpb: (\d+) of (\d+) places taken\n")
HOLDER = re.compile(r"hpb: place (\d+) of (\d+) is held by ([0-9.:]+)\n")
ENDED = re.compile(r"hpb: place (\d+) of (\d+) \(([0-9.:]+)\) has ended: [^\n]+\n")


def without_places(said: str, sessions: int, tells_ends: bool = True) -> str:
    """The messages but for places. AssertionError unless notices say of each place, one after another, that it is taken, then by whom, and
    how that session ended. To say that takes memory, so without memory there may be fewer ends."""
    taken, holders, ended = PLACE.findall(said), HOLDER.findall(said), ENDED.findall(said)
    assert taken == [(str(place), str(sessions)) for place in range(1, len(taken) + 1)], said
    assert len({place for place, _, _ in holders}) == len(holders), said
    assert {(place, places) for place, places, _ in holders} <= set(taken), said
    assert sorted(ended) == (sorted(holders) if tells_ends else sorted(set(ended) & set(holders))), said
    return ENDED.sub("", HOLDER.sub("", PLACE.sub("", said)))


def closes(server: Server, count: int, status: int = 0, said: str = "") -> Ran:
    """Waits for the end of a server, whose places were all taken. AssertionError unless it has so many commands, this status, and these
    messages beside those of places."""
    ran = server.ended()
    assert len(PLACE.findall(ran.errors)) == server.sessions, ran
    assert (ran.output, ran.status, without_places(ran.errors, server.sessions)) == (f"CLOSED {count}\n", status, said)
    return ran


def peer(client: Client) -> str:
    """A client as the server names it: address and port."""
    address, port = client.socket.getsockname()
    return f"{address}:{port}"
