"""Merkle trees: the roots and proofs that the reference implementation of RFC 6962 tests, and all proofs of small trees."""
from __future__ import annotations

import pytest

from hpb.seals.merkle import MerkleTree, proves_consistency, proves_inclusion

# The leaves of the reference implementation, and the root of the first one, two, .. of them.
LEAVES = [bytes.fromhex(text) for text in (
    "", "00", "10", "2021", "3031", "40414243", "5051525354555657", "606162636465666768696a6b6c6d6e6f",
)]
ROOTS = [
    "6e340b9cffb37a989ca544e6bb780a2c78901d3fb33738768511a30617afa01d",
    "fac54203e7cc696cf0dfcb42c92a1d9dbaf70ad9e621f4bd8d98662f00e3c125",
    "aeb6bcfe274b70a14fb067a5e5578264db0fa9b51af5e0ba159158f329e06e77",
    "d37ee418976dd95753c1c73862b9398fa2a2cf9b4ff0fdfe8b30cd95209614b7",
    "4e3bbb1f7b478dcfe71fb631631519a3bca12c9aefca1612bfce4c13a86264d4",
    "76e67dadbcdf1e10e1b74ddc608abd2f98dfb16fbce75277b5232a127f2087ef",
    "ddb89be403809e325750d3d263cd78929c2942b7942a34b77e122c9594a74c8c",
    "5dc9da79a70659a9ad559cb701ded9a2ab9d823aad2f4960cfe370eff4604328",
]
NOTHING = "e3b0c44298fc1c149afbf4c8996fb92427ae41e4649b934ca495991b7852b855"


def tree_of(leaves: list[bytes]) -> MerkleTree:
    tree = MerkleTree()
    for leaf in leaves:
        tree.append(leaf)
    return tree


def hexes(proof: list[bytes]) -> list[str]:
    return [one.hex() for one in proof]


def test_the_roots_are_those_of_the_reference_implementation() -> None:
    tree = tree_of(LEAVES)
    assert MerkleTree().root().hex() == NOTHING
    assert [tree.root(size).hex() for size in range(1, 9)] == ROOTS
    assert [tree_of(LEAVES[:size]).root().hex() for size in range(1, 9)] == ROOTS


def test_the_proofs_are_those_of_the_reference_implementation() -> None:
    tree = tree_of(LEAVES)
    assert hexes(tree.inclusion_proof(0, 1)) == []
    assert hexes(tree.inclusion_proof(0, 8)) == [
        "96a296d224f285c67bee93c30f8a309157f0daa35dc5b87e410b78630a09cfc7",
        "5f083f0a1a33ca076a95279832580db3e0ef4584bdff1f54c8a360f50de3031e",
        "6b47aaf29ee3c2af9af889bc1fb9254dabd31177f16232dd6aab035ca39bf6e4",
    ]
    assert hexes(tree.consistency_proof(6, 8)) == [
        "0ebc5d3437fbe2db158b9f126a1d118e308181031d0a949f8dededebc558ef6a",
        "ca854ea128ed050b41b35ffc1b87b8eb2bde461e9e3b5596ece6b9d5975a0ae0",
        "d37ee418976dd95753c1c73862b9398fa2a2cf9b4ff0fdfe8b30cd95209614b7",
    ]


def test_each_proof_proves_its_leaf_and_no_other() -> None:
    leaves = [bytes([place]) for place in range(33)]
    tree = tree_of(leaves)
    for size in range(1, 34):
        root = tree.root(size)
        for index in range(size):
            proof = tree.inclusion_proof(index, size)
            assert proves_inclusion(leaves[index], index, size, proof, root)
            assert not proves_inclusion(b"another", index, size, proof, root)
            assert not proves_inclusion(leaves[index], index ^ 1, size, proof, root)
            assert not proves_inclusion(leaves[index], index, size, [*proof, root], root)
            assert not proof or not proves_inclusion(leaves[index], index, size, proof[:-1], root)


def test_each_pair_of_sizes_is_consistent_and_other_lists_are_not() -> None:
    leaves = [bytes([place]) for place in range(20)]
    tree, other = tree_of(leaves), tree_of([b"another", *leaves[1:]])
    for second in range(1, 21):
        for first in range(1, second + 1):
            proof = tree.consistency_proof(first, second)
            roots = tree.root(first), tree.root(second)
            assert proves_consistency(first, second, proof, *roots)
            assert not proves_consistency(first, second, proof, other.root(first), roots[1])
            assert not proves_consistency(first, second, proof, roots[0], other.root(second))
            assert not proves_consistency(first, second, [*proof, roots[0]], *roots)


@pytest.mark.parametrize(("index", "size"), [(-1, 3), (3, 3), (0, 9)])
def test_what_isnt_in_the_tree_has_no_proof(index: int, size: int) -> None:
    with pytest.raises(ValueError):
        tree_of(LEAVES).inclusion_proof(index, size)
    assert not proves_inclusion(b"", index, min(size, 0), [], b"")


@pytest.mark.parametrize(("first", "second"), [(0, 3), (4, 3), (3, 9)])
def test_a_longer_list_doesnt_begin_a_shorter_one(first: int, second: int) -> None:
    with pytest.raises(ValueError):
        tree_of(LEAVES).consistency_proof(first, second)
    assert not proves_consistency(first, second, [], b"", b"")
