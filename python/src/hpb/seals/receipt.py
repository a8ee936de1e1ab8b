"""A bidder's receipt for a command: its entry of the record, and the proof that a seal has this entry (docs/VERIFY.md)."""
import hashlib
import json
import re
from dataclasses import dataclass
from typing import Any, Final

from hpb.seals.merkle import proves_inclusion
from hpb.seals.statement import NoSeal, SignedSeal, read_seal

FORM: Final = 1
_HASH: Final = re.compile("[0-9a-f]{64}")
_SIGNATURE: Final = re.compile("[0-9a-f]{128}")


class NoReceipt(ValueError):
    """A text isn't a receipt."""


@dataclass(frozen=True)
class Receipt:
    """A receipt. `entry` is the text of the command's entry, without its hash, and `hash` that hash. `path` is the proof of inclusion in the tree
    of the seal `signed`."""

    entry: str
    hash: str
    path: tuple[bytes, ...]
    signed: SignedSeal

    @property
    def text(self) -> str:
        """The receipt in one line of JSON."""
        return json.dumps({
            "receipt": FORM, "entry": self.entry, "hash": self.hash, "path": [one.hex() for one in self.path],
            "seal": self.signed.seal.text, "signature": self.signed.signature,
        }, separators=(",", ":"))

    @property
    def fields(self) -> dict[str, Any]:
        """The fields of the entry. A NoReceipt says that it has none."""
        try:
            found = json.loads(self.entry)
        except (ValueError, RecursionError):
            found = None
        if not isinstance(found, dict) or not {"entry", "at", "name", "line", "answer"} <= found.keys() or type(found["entry"]) is not int:
            raise NoReceipt("its entry is none of a command")
        return found

    def fault(self) -> str:
        """The word of a fault within the receipt, apart from its signature: `receipt`. Empty if there is none."""
        index = self.fields["entry"] - 1
        is_right = hashlib.sha256(self.entry.encode("latin-1", "replace")).hexdigest() == self.hash and proves_inclusion(
            bytes.fromhex(self.hash), index, self.signed.seal.entries, self.path, bytes.fromhex(self.signed.seal.root)
        )
        return "" if is_right else "receipt"


def read_receipt(text: str) -> Receipt:
    """The receipt in a text: the line of JSON, also behind the word RECEIPT and a number as the front answers it. A NoReceipt says that it is
    none."""
    try:
        found = json.loads(re.sub(r"\ARECEIPT [0-9]+ ", "", text.strip()))
        if found["receipt"] != FORM or not _HASH.fullmatch(found["hash"]) or not _SIGNATURE.fullmatch(found["signature"]):
            raise NoReceipt("it has another form")
        if not all(_HASH.fullmatch(one) for one in found["path"]):
            raise NoReceipt("its path has another form")
        signed = SignedSeal(read_seal(found["seal"]), found["signature"])
        receipt = Receipt(str(found["entry"]), found["hash"], tuple(map(bytes.fromhex, found["path"])), signed)
    except NoSeal as fault:
        raise NoReceipt(str(fault)) from None
    except (ValueError, LookupError, TypeError, RecursionError) as fault:
        raise NoReceipt(str(fault) if isinstance(fault, NoReceipt) else "it is no receipt") from None
    receipt.fields
    return receipt
