"""Checks the seals of a record, their stamps, and seals that somebody kept."""
import base64
import binascii
import re
from typing import Final

from hpb.file import state_of
from hpb.lines import Answer, format_answer
from hpb.record.entries import Entry
from hpb.rules.auction import Auction, show, show_bidder, show_node
from hpb.seals.chain import ends_in_order
from hpb.seals.checked import Checked, Given
from hpb.seals.merkle import MerkleTree
from hpb.seals.openssl import is_signed, stamp_fault, time_in
from hpb.seals.statement import SEAL, STAMP, NoSeal, SignedSeal, definition_sum, results_sum, signed_seal_of, sum_of

_OK: Final = re.compile("OK ([0-9]{1,7})")
_SALT: Final = re.compile("[0-9a-f]*")
_ANSWER: Final = re.compile("[ -~]*")


def answers_of(auction: Auction) -> list[str]:
    """The answers that show an auction's whole state: to SHOW, NODE of each node, and WHO of each bidder."""
    shown: list[Answer] = [show(auction), *(show_node(auction, name) for name in auction.tree.nodes)]
    return [format_answer(one) for one in [*shown, *(show_bidder(auction, bidder) for bidder in auction.tree.bidders)]]


def look_at_seals(checked: Checked, given: Given) -> None:
    """Checks each seal against the entries before it, its signature, its answers and its state; and that each close has one."""
    chain, findings, tree = checked.chain, checked.findings, MerkleTree()
    close, is_sealing, sealed, count = 0, False, 0, 0
    for entry, digest in zip(chain.entries, chain.hashes):
        if entry["kind"] == SEAL:
            is_sealing, close = True, 0
            if _is_right(checked, given, entry, tree, count):
                sealed = tree.size
        elif entry["kind"] == "accepted":
            if close and is_sealing:
                findings.add("unsealed", close, "this close has no seal, and closes before it have")
            close = entry["entry"] if str(entry.get("line")).startswith("CLOSE ") else 0
        count = _count_behind(entry, count)
        tree.append(bytes.fromhex(digest))
    if chain.is_whole:
        _look_at_end(checked, given, close, is_sealing)
    _say(checked, given, sealed, is_sealing)


def _count_behind(entry: Entry, count: int) -> int:
    """How many commands are accepted behind an entry."""
    if entry["kind"] == "accepted" and (found := _OK.fullmatch(str(entry.get("answer")))):
        return int(found[1])
    to = entry.get("to")
    return to if entry["kind"] == "foreign" and isinstance(to, int) and not isinstance(to, bool) else count


def _look_at_end(checked: Checked, given: Given, close: int, is_sealing: bool) -> None:
    chain, findings = checked.chain, checked.findings
    if given.image is not None and not ends_in_order(chain):
        findings.add("cut", len(chain.entries) + 1, "the record doesn't end as a front ends it: its end is cut, or the front was killed. Then start it "
                     "once more, and stop it")
    if close and (is_sealing or given.keys):
        findings.add("unsealed", close, "this close has no seal: the record's end is cut, or its front was killed and not started again")
    elif given.keys and not is_sealing:
        findings.add("unsealed", 0, "the record has no seal of the key that was given")


def _say(checked: Checked, given: Given, sealed: int, is_sealing: bool) -> None:
    findings, seals = checked.findings, checked.seals
    if not is_sealing:
        findings.say("Seals: none. Whoever may write the record may have written all of it.")
        return
    findings.say(
        f"Seals: {len(seals)}, signed. Their roots bind the record's first {sealed} entries: nobody without the key can have written "
        f"others there. {len(checked.chain.entries) - sealed} entries stand behind."
    )
    if seals and not given.keys:
        findings.say(f"The key wasn't given: compare {seals[0][0].seal.key} with the one that was announced before the auction.")
    for before, (signed, _) in zip(seals, seals[1:]):
        if signed.seal.key != before[0].seal.key:
            findings.say(f"From seal {signed.seal.number} on the key is {signed.seal.key}.")


def _is_right(checked: Checked, given: Given, entry: Entry, tree: MerkleTree, count: int) -> bool:
    chain, findings, number = checked.chain, checked.findings, entry["entry"]
    try:
        signed = signed_seal_of(entry)
    except NoSeal as fault:
        findings.add("seal", number, str(fault))
        return False
    seal = signed.seal
    keys = _keys_now(checked, given, seal.key)
    is_of = (seal.number, seal.entries, seal.root, seal.last, seal.at, seal.count, seal.definition)
    if seal.record != chain.first:
        findings.add("other", number, f"it has the seal of another record, which begins with {seal.record}")
    elif seal.key not in keys:
        findings.add("key", number, f"its seal was signed by the key {seal.key}, and not by {' or '.join(keys)}")
    elif not is_signed(seal.key, seal.text, signed.signature):
        findings.add("signature", number, "its seal's signature isn't right")
    elif is_of != (len(checked.seals) + 1, tree.size, tree.root().hex(), entry["before"], entry["at"], count, definition_sum(chain.definition)):
        behind = checked.seals[-1][0].seal.entries + 1 if checked.seals else 1
        findings.add("seal", number, f"seal {seal.number} isn't that of the entries before it: of entries {behind} to {number - 1} at least one "
                     "is another than the one that was sealed, or is missing")
    else:
        checked.seals.append((signed, entry))
        _look_at_answers(checked, signed, entry)
        return True
    return False


def _keys_now(checked: Checked, given: Given, key: str) -> list[str]:
    """The keys that may sign the next seal: behind a key that has signed, those before it in the order of their use don't sign any more."""
    keys = list(checked.keys(given, key))
    return keys[keys.index(checked.seals[-1][0].seal.key):] if checked.seals else keys


def has_salt(entry: Entry) -> bool:
    """Whether an entry has a salt as a front makes it."""
    return isinstance(entry.get("salt"), str) and _SALT.fullmatch(entry["salt"]) is not None


def _look_at_answers(checked: Checked, signed: SignedSeal, entry: Entry) -> None:
    seal, answers, findings, number = signed.seal, entry.get("answers"), checked.findings, entry["entry"]
    is_list = isinstance(answers, list) and all(isinstance(one, str) and _ANSWER.fullmatch(one) for one in answers)
    if not is_list or not has_salt(entry):
        findings.add("answers", number, "it has no answers")
        return
    assert isinstance(answers, list)
    salt = str(entry["salt"])
    if seal.results != results_sum(salt, answers) or bool(answers) != bool(seal.round):
        findings.add("answers", number, "its answers aren't those that its seal names")
        return
    if not seal.round or checked.auction is None:
        if not seal.round and seal.state != sum_of(salt, b""):
            findings.add("state", number, "a seal at a front's end has no state, and this one has")
        return
    if (auction := checked.closes.get(seal.count)) is None:
        findings.add("answers", number, f"command {seal.count} is no close")
        return
    if wrong := _other_answer(auction, answers):
        findings.add("answers", number, wrong)
    elif auction.round - (not auction.is_over) != seal.round:
        findings.add("answers", number, f"by the rules the close is that of round {auction.round - (not auction.is_over)}")
    elif seal.state != sum_of(salt, state_of(auction)):
        findings.add("state", number, "the state that its seal names isn't the one to which the commands lead")


def _other_answer(auction: Auction, answers: list[str]) -> str:
    """The first answer that isn't that of the rules. Empty if all are."""
    by_rules = answers_of(auction)
    for mine, told in zip(by_rules, answers):
        if mine != told:
            return f"by the rules {mine!r}, and sealed is {told!r}"
    return "" if len(by_rules) == len(answers) else f"it has {len(answers)} answers, and the auction {len(by_rules)}"


# Stamps.


def look_at_stamps(checked: Checked, given: Given) -> None:
    """Checks each stamp against its seal. Stamps come in the order of the seals, each once."""
    findings, last = checked.findings, 0
    known = {signed.seal.number: signed for signed, _ in checked.seals}
    for entry in checked.chain.of_kind(STAMP):
        number = entry.get("seal")
        if isinstance(number, bool) or number != last + 1:
            findings.add("stamp", entry["entry"], f"it stamps seal {number}, and seal {last + 1} comes next")
            return
        last = number
        if number not in known:
            continue
        token = _token_in(entry)
        time = time_in(token)
        if given.authority and (fault := stamp_fault(token, known[number].stamped, given.authority)):
            findings.add("stamp", entry["entry"], f"it is no stamp of seal {number}: {fault}")
        elif not time or entry.get("time") != time:
            findings.add("stamp", entry["entry"], f"it has another time than its token, {time or 'which has none'}")
        else:
            checked.stamped[number] = time
    _say_stamps(checked, given, [number for number in known if number not in checked.stamped])


def _token_in(entry: Entry) -> bytes:
    try:
        return base64.b64decode(str(entry.get("token")).encode(), validate=True)
    except (binascii.Error, UnicodeError):
        return b""


def _say_stamps(checked: Checked, given: Given, left: list[int]) -> None:
    findings = checked.findings
    if checked.stamped and not given.authority:
        findings.say(f"Stamps: {len(checked.stamped)}, which aren't checked: the authority's certificates weren't given.")
    elif checked.stamped:
        times = ", ".join(f"seal {number} by {time}" for number, time in checked.stamped.items())
        findings.say(f"Stamps: each is the authority's. So these were made: {times}.")
    if left and checked.stamped:
        findings.say(f"Seals without a stamp: {', '.join(map(str, left))}.")


# Seals that somebody kept.


def look_at_kept(checked: Checked, given: Given) -> None:
    """Compares seals that somebody kept with those of the record."""
    for signed in given.kept:
        look_at_seal(checked, given, signed, "kept", 0)
    if given.kept and not any(one.word == "kept" for one in checked.findings.found):
        checked.findings.say(f"Kept seals: {len(given.kept)}. Each is the record's.")


def look_at_seal(checked: Checked, given: Given, signed: SignedSeal, word: str, entry: int) -> bool:
    """Whether a seal of somebody's is that of the record with the same number, or is a forgery. Two seals with one number and two
    signatures of one key show that the key's owner wrote two records."""
    seal, findings = signed.seal, checked.findings
    keys = checked.keys(given, seal.key)
    its = next((one for one, _ in checked.seals if one.seal.number == seal.number), None)
    if seal.record != checked.chain.first:
        findings.add(word, entry, f"seal {seal.number} is one of another record, which begins with {seal.record}")
    elif seal.key not in keys or not is_signed(seal.key, seal.text, signed.signature):
        findings.add(word, entry, f"seal {seal.number} isn't signed by {' or '.join(keys)}")
    elif its is None:
        findings.add(word, entry, f"the record has no seal {seal.number}, and the key signed one: the record was cut, or written anew")
    elif its.seal != seal:
        findings.add(word, entry, f"the record has another seal {seal.number}, and one key signed both: there were two records")
    else:
        return True
    return False
