"""Images of a file that a crash may leave, made from the calls of a job."""

from __future__ import annotations

import random
from collections.abc import Callable, Sequence

from calls.promises import Durable, last_number, numbers_in
from harness.file_calls import Call
from outside.encoder import JOURNAL_AT, OPEN

SECTOR = 512
FILLS = (0x00, 0xFF, 0xA5)
UNFORMATTED = "ERR 40 unformatted\n"

# What becomes of a write at a place, over the old bytes: the bytes that are found, and how that is said.
Fate = Callable[[random.Random, int, bytes, bytes], tuple[bytes, str]]


def sectors(at: int, size: int) -> list[tuple[int, int]]:
    """The first byte and the end of each part of a range. Each part is in one sector."""
    cuts = [0, *range(SECTOR - at % SECTOR, size, SECTOR), size]
    return list(zip(cuts, cuts[1:]))


def kept(_dice: random.Random, _at: int, _old: bytes, new: bytes) -> tuple[bytes, str]:
    """All of it is there."""
    return new, "kept"


def lost(_dice: random.Random, _at: int, old: bytes, _new: bytes) -> tuple[bytes, str]:
    """Nothing of it is."""
    return old, "lost"


def torn_at_a_byte(dice: random.Random, _at: int, old: bytes, new: bytes) -> tuple[bytes, str]:
    """Half of the time it is torn at a byte that differs from the old one, because zeros over zeros show nothing."""
    places = [place for place in range(len(new)) if old[place] != new[place]] if dice.random() < 0.5 else []
    place = dice.choice(places) if places else dice.randrange(len(new) + 1)
    if dice.random() < 0.5:
        return new[:place] + old[place:], f"kept up to byte {place}"
    return old[:place] + new[place:], f"kept from byte {place} on"


def torn_at_sectors(dice: random.Random, at: int, old: bytes, new: bytes) -> tuple[bytes, str]:
    """Some sectors of it are there."""
    parts = [(start, end, dice.random() < 0.5) for start, end in sectors(at, len(new))]
    lasting = [str(place) for place, part in enumerate(parts) if part[2]]
    data = b"".join((new if stays else old)[start:end] for start, end, stays in parts)
    return data, f"kept in its sectors {' '.join(lasting) or 'nowhere'}"


def filled(dice: random.Random, _at: int, _old: bytes, new: bytes) -> tuple[bytes, str]:
    """Its range has one byte all over."""
    byte = dice.choice(FILLS)
    return bytes([byte]) * len(new), f"filled with {byte:#04x}"


def filled_sectors(dice: random.Random, at: int, _old: bytes, new: bytes) -> tuple[bytes, str]:
    """Some sectors of it are there, and the others have one byte all over."""
    byte = dice.choice(FILLS)
    data, places = b"", []
    for place, (start, end) in enumerate(sectors(at, len(new))):
        if dice.random() < 0.5:
            places.append(str(place))
            data += bytes([byte]) * (end - start)
        else:
            data += new[start:end]
    return data, f"filled with {byte:#04x} in its sectors {' '.join(places) or 'nowhere'}"


def bytes_of(dice: random.Random, size: int) -> bytes:
    """Any bytes, so many."""
    return dice.getrandbits(8 * size).to_bytes(size, "little")


def any_bytes(dice: random.Random, _at: int, _old: bytes, new: bytes) -> tuple[bytes, str]:
    """Its range has any bytes."""
    return bytes_of(dice, len(new)), "any bytes"


FATES: tuple[Fate, ...] = (kept, lost, torn_at_a_byte, torn_at_a_byte, torn_at_sectors, filled, filled_sectors, any_bytes)


class Traced:
    """The calls of one job, the bytes that its file held before, and how many commands these keep."""

    def __init__(self, calls: Sequence[Call], before: bytes, count: int) -> None:
        self.calls, self.before, self.count = calls, before, count
        self.writes = [place for place, call in enumerate(calls) if call.name == "write"]

    def image(self, dice: random.Random) -> tuple[bytes, Sequence[Call], str]:
        """An image that a crash may leave after a random call, most often a write: its bytes, the calls up to there, and how it came
        about.
        """
        end = 1 + (dice.choice(self.writes) if dice.random() < 0.75 else dice.randrange(self.writes[0], len(self.calls)))
        durable = Durable(self.before)
        for call in self.calls[:end]:
            durable.take(call)
        image, came = durable.image, [f"behind call {end}, {self.calls[end - 1]}"]
        for at, data in durable.pending:
            fate = dice.choice(FATES)
            image[at : at + len(data)], how = fate(dice, at, bytes(image[at : at + len(data)]), data)
            came.append(f"{len(data)} bytes at {at}: {how}")
        return bytes(image), self.calls[:end], "; ".join(came)

    def counts(self, calls: Sequence[Call]) -> list[int]:
        """How many commands may be kept: those of whole batches, at least the answered ones, at most up to the last batch whose gate
        was written.
        """
        answered, last, ends = self.count, self.count, [self.count]
        for call in calls:
            if call.name == "put":
                answered = max([answered, *numbers_in(call.data)])
            elif call.name == "write" and len(call.data) > 1 and call.at > JOURNAL_AT:
                last = last_number(call.data)
            elif call.name == "write" and call.data == OPEN and call.at >= JOURNAL_AT:
                ends.append(last)
        return [count for count in ends if count >= answered] or [answered]

    def shown(self, calls: Sequence[Call], texts: Sequence[str]) -> dict[str, int]:
        """The texts that may be shown after these calls, with the number of commands of each. `texts` has the text of each number."""
        return {texts[count]: count for count in self.counts(calls)}


class TracedFormat(Traced):
    """The calls of a format. Until it is answered, the file is unformatted or has the new auction. From then on it has the new auction."""

    def shown(self, calls: Sequence[Call], texts: Sequence[str]) -> dict[str, int]:
        """As of any job."""
        is_answered = any(call.name == "put" for call in calls)
        return {texts[0]: 0} if is_answered else {texts[0]: 0, UNFORMATTED: 0}
