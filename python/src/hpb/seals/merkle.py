"""Merkle trees as RFC 6962 has them: the root of a list, inclusion proofs and consistency proofs, all with SHA-256.

A leaf's hash is that of a byte 0 and the leaf's data, and a node's that of a byte 1 and its two children. Of a list the first part, as long as
the greatest power of two below its length, is the left child.
"""
import hashlib
from collections.abc import Sequence
from typing import Final

HASH_BYTES: Final = 32
_LEAF, _NODE = b"\0", b"\1"


def leaf_hash(data: bytes) -> bytes:
    """The hash of a leaf."""
    return hashlib.sha256(_LEAF + data).digest()


def node_hash(left: bytes, right: bytes) -> bytes:
    """The hash of a node."""
    return hashlib.sha256(_NODE + left + right).digest()


class MerkleTree:
    """A list that only grows, with the hashes of all its whole subtrees: 64 bytes a leaf. `root`, `inclusion_proof` and `consistency_proof` take
    as many hashes as the list's length has binary digits, squared at most. Another thread may ask while one adds."""

    def __init__(self) -> None:
        # Each level has the hashes of the whole subtrees of 2 to the power of its place.
        self._levels = [bytearray()]

    @property
    def size(self) -> int:
        """How many leaves it has."""
        return len(self._levels[0]) // HASH_BYTES

    def append(self, data: bytes) -> None:
        """Adds a leaf."""
        made, place = leaf_hash(data), self.size
        self._levels[0] += made
        for level in range(1, place.bit_length() + 1):
            if not place & 1:
                return
            place >>= 1
            made = node_hash(self._at(level - 1, 2 * place), made)
            if level == len(self._levels):
                self._levels.append(bytearray())
            self._levels[level] += made

    def has(self, index: int, data: bytes) -> bool:
        """Whether the leaf at this index, from 0, has this data."""
        return 0 <= index < self.size and self._at(0, index) == leaf_hash(data)

    def root(self, size: int | None = None) -> bytes:
        """The root of the first leaves. A ValueError says that there aren't so many."""
        return self._range(0, self._looked_at(self.size if size is None else size))

    def inclusion_proof(self, index: int, size: int) -> list[bytes]:
        """The proof that the leaf at this index, from 0, is among the first leaves."""
        if not 0 <= index < self._looked_at(size):
            raise ValueError(f"there is no leaf {index} among {size}")
        return self._path(index, 0, size)

    def consistency_proof(self, first: int, second: int) -> list[bytes]:
        """The proof that the first leaves of a longer list are those of a shorter one."""
        if not 0 < first <= self._looked_at(second):
            raise ValueError(f"{first} leaves aren't the first ones of {second}")
        return self._subproof(first, 0, second, is_whole=True)

    def _looked_at(self, size: int) -> int:
        if not 0 <= size <= self.size:
            raise ValueError(f"there are {self.size} leaves, and not {size}")
        return size

    def _at(self, level: int, place: int) -> bytes:
        return bytes(self._levels[level][place * HASH_BYTES : (place + 1) * HASH_BYTES])

    def _range(self, begin: int, end: int) -> bytes:
        """The root of the leaves from `begin` up to `end`. `begin` is a multiple of the greatest power of two that goes into so many."""
        count = end - begin
        if not count:
            return hashlib.sha256().digest()
        level = count.bit_length() - 1
        if count == 1 << level:
            return self._at(level, begin >> level)
        middle = begin + _split(count)
        return node_hash(self._range(begin, middle), self._range(middle, end))

    def _path(self, index: int, begin: int, end: int) -> list[bytes]:
        if end - begin == 1:
            return []
        middle = begin + _split(end - begin)
        if index < middle:
            return [*self._path(index, begin, middle), self._range(middle, end)]
        return [*self._path(index, middle, end), self._range(begin, middle)]

    def _subproof(self, first: int, begin: int, end: int, is_whole: bool) -> list[bytes]:
        if first == end:
            return [] if is_whole else [self._range(begin, end)]
        middle = begin + _split(end - begin)
        if first <= middle:
            return [*self._subproof(first, begin, middle, is_whole), self._range(middle, end)]
        return [*self._subproof(first, middle, end, is_whole=False), self._range(begin, middle)]


def _split(count: int) -> int:
    """The greatest power of two below a number of at least 2."""
    return 1 << (count - 1).bit_length() - 1


def proves_inclusion(data: bytes, index: int, size: int, proof: Sequence[bytes], root: bytes) -> bool:
    """Whether a proof shows that a leaf with this data stands at this index, from 0, of the list with this size and root (RFC 9162, 2.1.3.2)."""
    if not 0 <= index < size:
        return False
    place, last, found = index, size - 1, leaf_hash(data)
    for one in proof:
        if last == 0:
            return False
        if place & 1 or place == last:
            found = node_hash(one, found)
            while not place & 1 and place:
                place, last = place >> 1, last >> 1
        else:
            found = node_hash(found, one)
        place, last = place >> 1, last >> 1
    return last == 0 and found == root


def proves_consistency(first: int, second: int, proof: Sequence[bytes], first_root: bytes, second_root: bytes) -> bool:
    """Whether a proof shows that the list with the first size and root begins the list with the second ones (RFC 9162, 2.1.4.2)."""
    if not 0 < first <= second or (first == second) != (not proof):
        return False
    if first == second:
        return first_root == second_root
    begin, *rest = proof if first & (first - 1) else [first_root, *proof]
    place, last, of_first, of_second = first - 1, second - 1, begin, begin
    while place & 1:
        place, last = place >> 1, last >> 1
    for one in rest:
        if last == 0:
            return False
        if place & 1 or place == last:
            of_first, of_second = node_hash(one, of_first), node_hash(one, of_second)
            while not place & 1 and place:
                place, last = place >> 1, last >> 1
        else:
            of_second = node_hash(of_second, one)
        place, last = place >> 1, last >> 1
    return last == 0 and of_first == first_root and of_second == second_root
