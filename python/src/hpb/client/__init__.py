"""Clients of an auction: `Client` blocks, `AsyncClient` is awaited. Both are shells round one core without input or output."""
from hpb.client.aio import AsyncClient
from hpb.client.following import View
from hpb.client.outcomes import Ended, NotWelcome, Outcome, TicketsNotKept, Unanswered
from hpb.client.reaching import read_token
from hpb.client.sync import Client
from hpb.client.tickets import TicketsInUse

__all__ = [
    "AsyncClient", "Client", "Ended", "NotWelcome", "Outcome", "TicketsInUse", "TicketsNotKept", "Unanswered", "View", "read_token",
]
