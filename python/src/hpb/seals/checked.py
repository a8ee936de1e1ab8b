"""The things given to a check of a record, and those that the check has read so far (docs/VERIFY.md)."""
from collections.abc import Sequence
from dataclasses import dataclass, field

from hpb.record.entries import Entry
from hpb.rules.auction import Auction
from hpb.rules.definition import Definition
from hpb.seals.chain import Chain
from hpb.seals.findings import Findings
from hpb.seals.receipt import Receipt
from hpb.seals.statement import SignedSeal


@dataclass(frozen=True)
class Given:
    """Things that are checked with a record. `keys` are public keys that are known from elsewhere, in the order of their use, and `authority` the
    certificates of stamps. `receipts` and `kept` are those that somebody kept."""

    keys: Sequence[str] = ()
    authority: bytes = b""
    definition: Definition | None = None
    image: bytes | None = None
    receipts: Sequence[Receipt] = ()
    kept: Sequence[SignedSeal] = ()


@dataclass
class Checked:
    """What a check has read: the chain, the right seals with the entry of each, when each was stamped, and the auction after each close. `auction`
    is the one after all commands, or None if they aren't those of an auction."""

    chain: Chain
    findings: Findings
    seals: list[tuple[SignedSeal, Entry]] = field(default_factory=list)
    stamped: dict[int, str] = field(default_factory=dict)
    closes: dict[int, Auction] = field(default_factory=dict)
    auction: Auction | None = None

    def keys(self, given: Given, key: str) -> Sequence[str]:
        """The keys by which a seal with this key may be signed: those that were given, or else that of the first seal."""
        return given.keys or [self.seals[0][0].seal.key if self.seals else key]
