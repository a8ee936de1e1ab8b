"""Checks a record, its seals, their stamps, receipts and the auction's file, offline (docs/VERIFY.md). Nothing but `openssl` is asked."""
from hpb.file import auctions_in, read_auction, state_of
from hpb.front.rights import role_of
from hpb.lines import Accepted, Answer, format_answer
from hpb.record.entries import OK, Entry
from hpb.refusals import HpbError, Refused, says
from hpb.rules.auction import Auction, answer, begin
from hpb.rules.writing import read_fields
from hpb.seals.chain import read_chain
from hpb.seals.checked import Checked, Given
from hpb.seals.findings import Findings
from hpb.seals.sealing import answers_of, has_salt, look_at_kept, look_at_seal, look_at_seals, look_at_stamps
from hpb.seals.statement import definition_sum, sum_of


def check(path: str, given: Given) -> Checked:
    """Checks the record at this path with all that is given."""
    findings = Findings()
    checked = Checked(read_chain(path, findings), findings)
    if not checked.chain.entries:
        return checked
    look_at_definition(checked, given)
    look_at_commands(checked)
    look_at_seals(checked, given)
    look_at_stamps(checked, given)
    look_at_kept(checked, given)
    look_at_receipts(checked, given)
    look_at_file(checked, given)
    return checked


# Definition and commands.


def look_at_definition(checked: Checked, given: Given) -> None:
    findings, chain = checked.findings, checked.chain
    try:
        definition = read_fields(chain.definition)
    except HpbError as fault:
        findings.add("definition", 1, f"its definition isn't one: {says(fault)}")
        return
    checked.auction = begin(definition)
    if given.definition is not None:
        if given.definition != definition:
            findings.add("definition", 1, "the record has another definition than the one that was given")
        else:
            findings.say(f"Definition: that of the record, SHA-256 {definition_sum(chain.definition)}.")


def look_at_commands(checked: Checked) -> None:
    """Tells the commands to an auction by the rules. Each has to be accepted under its number, from a name that may send it."""
    if checked.auction is None:
        return
    findings, auction = checked.findings, checked.auction
    checked.auction, roles = None, {}
    for entry in checked.chain.entries:
        try:
            if entry["kind"] == "started":
                roles = {name: role_of(given) for name, given in entry["names"].items()}
            elif entry["kind"] == "foreign":
                findings.add("command", entry["entry"], f"commands {entry['from']} to {entry['to']} stand in no record")
                return
            elif entry["kind"] == "accepted":
                line, role = str(entry["line"]), roles.get(entry["name"])
                if role is None or role.refusal(line.encode("latin-1")):
                    findings.add("command", entry["entry"], f"{entry['name']} had no right to send {line!r}")
                before = auction.count
                auction, told = answer(auction, line)
                if told != Accepted(before + 1) or entry["answer"] != f"{OK}{auction.count}":
                    findings.add("command", entry["entry"], f"{line!r} got {entry['answer']}, and by the rules {_text(told)}")
                    return
                if line.startswith("CLOSE "):
                    checked.closes[auction.count] = auction
        except (LookupError, TypeError, ValueError, AttributeError):
            findings.add("command", entry["entry"], "no front writes such an entry")
            return
    checked.auction = auction
    findings.say(f"Commands: {auction.count}. By the rules each is accepted under its number, and by its rights each name may send its own.")


def _text(told: Answer) -> str:
    return str(told) if isinstance(told, Refused) else format_answer(told)


# Receipts and the file.


def look_at_receipts(checked: Checked, given: Given) -> None:
    """Checks that each receipt is right, and that the record has its entry."""
    hashes, findings = checked.chain.hashes, checked.findings
    for receipt in given.receipts:
        fields = receipt.fields
        number, what = fields["entry"], f"{fields['line']!r}, {fields['answer']}, of {fields['name']} at {fields['at']}"
        if receipt.fault():
            findings.add("receipt", number, f"the receipt for {what} isn't one: its path doesn't lead to its seal")
        elif number <= len(hashes) and hashes[number - 1] == receipt.hash:
            if look_at_seal(checked, given, receipt.signed, "receipt", number):
                findings.say(f"Receipt: {what} is entry {number} of the record, under seal {receipt.signed.seal.number}.")
        else:
            findings.add("receipt", number, f"there is a receipt for {what}, and the record doesn't have that entry: it was left out or changed")
            look_at_seal(checked, given, receipt.signed, "receipt", number)


def look_at_file(checked: Checked, given: Given) -> None:
    """Compares the auction in the file with that of the record, and each state that the file still shows with that of its seal."""
    if given.image is None:
        return
    findings = checked.findings
    try:
        file = read_auction(given.image)
    except Refused as fault:
        findings.add("file", 0, f"the file isn't that of an auction: {says(fault)}")
        return
    shown = _look_at_states(checked, given.image)
    if checked.auction is None or not checked.chain.is_whole:
        findings.say("File: not compared, since the record isn't right.")
    elif file.head.definition != checked.auction.tree.definition:
        findings.add("file", 0, "the file has another definition than the record")
    elif file.auction.count != checked.auction.count:
        more = "the record was cut, or is older" if file.auction.count > checked.auction.count else "the file is older, or another"
        findings.add("file", 0, f"the file has {file.auction.count} commands, and the record {checked.auction.count}: {more}")
    elif state_of(file.auction) != state_of(checked.auction):
        findings.add("file", 0, _other_state(checked.auction, file.auction))
    else:
        sealed = f" It still shows the state of seal {', '.join(map(str, shown))}." if shown else ""
        findings.say(f"File: it has the definition and the state of the record after its {file.auction.count} commands.{sealed}")


def _look_at_states(checked: Checked, image: bytes) -> list[int]:
    """Compares each sealed state that the file still shows. Gives the numbers of the seals whose state is the file's."""
    wanted: dict[int, tuple[int, str, Entry]] = {}
    for signed, entry in checked.seals:
        if signed.seal.round and has_salt(entry) and signed.seal.state != sum_of(entry["salt"], b""):
            wanted[signed.seal.count] = signed.seal.number, signed.seal.state, entry
    shown, wrong = set[int](), set[int]()
    for auction in auctions_in(image):
        if auction.count in wanted:
            number, state, entry = wanted[auction.count]
            (shown if sum_of(entry["salt"], state_of(auction)) == state else wrong).add(number)
    told = {one.entry for one in checked.findings.found if one.word == "state"}
    for number, _, entry in wanted.values():
        if number in wrong and entry["entry"] not in told:
            checked.findings.add("state", entry["entry"], f"the state of seal {number} isn't the one that the file shows")
    return sorted(shown - wrong)


def _other_state(by_record: Auction, of_file: Auction) -> str:
    for mine, told in zip(answers_of(by_record), answers_of(of_file)):
        if mine != told:
            return f"by the record {mine!r}, and in the file {told!r}"
    return "the file has other bids of the open round, or other last commands, than the record"
