"""Makes the vectors of sealed records, `docs/vectors/seals.json`: two records with their seals, stamps, receipts and file, and cases in which one
thing is wrong. The findings of each case are written down here by hand; no checker is asked.

    PYTHONPATH=python/src:tests /usr/bin/python3 tests/vectors_of_seals.py PROGRAM > docs/vectors/seals.json

Keys and times are new each time, so the file is made once, and again only if the format changes.
"""

from __future__ import annotations

import base64
import dataclasses
import gzip
import hashlib
import json
import sys
import tempfile
from collections.abc import Callable, Iterator, Sequence
from pathlib import Path
from typing import Any

from sealed_days import DAY, DEFINITION, Writer, at, entry_of, file_of, rewritten, text_of
from stamps import Authority

from hpb.record import Entry
from hpb.seals.signing import Signer, make_key

# Days that differ from DAY in some commands.
OTHER_DAY = ["BID x 1 a 100", "BID y 1 all 230", "CLOSE 1", "BID x 2 b 210", "CLOSE 2"]
SHORT_DAY = ["BID x 1 a 100", "CLOSE 1", "BID x 2 a 200", "CLOSE 2"]
OTHER_DEFINITION = {**DEFINITION, "step": 20}
# So small that the first segment has five entries.
SEGMENT = 1_500
Line = str | int
Case = dict[str, Any]


def packed(data: bytes) -> str:
    return base64.b64encode(gzip.compress(data, mtime=0)).decode()


def numbered(known: Sequence[str], lines: Sequence[str]) -> list[Line]:
    """Lines as a case has them: those of the right records are given by their numbers."""
    return [known.index(line) + 1 if line in known else line for line in lines]


class Maker:
    """Makes all records and files in a folder, with two keys and an authority."""

    def __init__(self, program: str, folder: Path) -> None:
        self.program, self.folder, self.count = program, folder, 0
        (folder / "authority").mkdir()
        self.signer, self.other = make_key(str(folder / "key")), make_key(str(folder / "other-key"))
        self.authority = Authority(folder / "authority", days=36_500)
        self.day = self.writer().day()
        self.lines = self.day.lines
        # The lines of right records.
        self.known = list(self.lines)
        self.entries = [entry_of(line) for line in self.lines]
        self.first, self.second, self.end = (at(self.entries, "seal", place) for place in range(3))

    def writer(self, signer: Signer | None = None, has_stamps: bool = True, most_segment: int = 4_000_000) -> Writer:
        self.count += 1
        return Writer(self.folder / f"record-{self.count}", signer or self.signer, self.authority if has_stamps else None, most_segment)

    def file(self, lines: Sequence[str], definition: object = DEFINITION) -> str:
        """The file of an auction with these commands, in gzip and base64."""
        return packed(file_of(self.program, self.folder, lines, definition))

    def case(self, name: str, lines: Sequence[str], found: Sequence[str], **more: object) -> Case:
        return {"name": name, "record": numbered(self.lines, lines), "found": list(found), **more}


# Without the key.


def broken(made: Maker) -> Iterator[Case]:
    """Each entry changed, left out, doubled, moved, and the record cut within it, without new hashes."""
    lines, count = made.lines, len(made.lines)
    for number in range(1, count + 1):
        before, own, behind = lines[: number - 1], lines[number - 1], lines[number:]
        changed = own.replace('"at":"2026', '"at":"2027')
        yield made.case(f"entry {number} is changed", [*before, changed, *behind], [f"changed {number}"])
        yield made.case(f"entry {number} is left out", [*before, *behind], [f"order {number}" if behind else f"cut {number}"])
        yield made.case(f"entry {number} is doubled", [*before, own, own, *behind], [f"order {number + 1}"])
        if behind:
            yield made.case(f"entry {number} is moved", [*before, behind[0], own, *behind[1:]], [f"order {number}"])
        yield made.case(f"the record is cut within entry {number}", before, [f"cut {number}"], tail=own[:100])


def seals_behind(made: Maker, number: int) -> list[str]:
    """The findings if entry `number` is another one than the seals from there on were made of."""
    return [f"{'other' if number == 1 else 'seal'} {seal}" for seal in (made.first, made.second, made.end) if seal >= number]


def rehashed(made: Maker) -> Iterator[Case]:
    """Each entry changed, with new hashes from there on."""
    for number in range(1, len(made.lines) + 1):
        entries = [dict(entry) for entry in made.entries]
        entries[number - 1]["at"] = entries[number - 1]["at"].replace(".000000Z", ".000001Z") if number > 1 else "2026-12-01T11:00:00.000000Z"
        yield made.case(f"entry {number} is changed, with new hashes from there on", rewritten(entries), seals_behind(made, number))


def edited(made: Maker, name: str, edit: Callable[[list[Entry]], object], found: list[str], **more: object) -> Case:
    """A case whose record is written anew behind an edit."""
    entries = [dict(entry) for entry in made.entries]
    edit(entries)
    return made.case(f"{name}, with new hashes from there on", rewritten(entries), found, **more)


def put(number: int, **fields: object) -> Callable[[list[Entry]], object]:
    return lambda entries: entries[number - 1].update(fields)


def without(*numbers: int) -> Callable[[list[Entry]], object]:
    return lambda entries: [entries.pop(number - 1) for number in sorted(numbers, reverse=True)]


def forged(made: Maker) -> Iterator[Case]:
    """Forgeries with right hashes."""
    first, second, end = made.first, made.second, made.end
    stamps, bid = [at(made.entries, "stamp", place) for place in range(2)], at(made.entries, "accepted")
    behind = [f"seal {second}", f"seal {end}"]
    seal, signature, answers = (made.entries[first - 1][name] for name in ("seal", "signature", "answers"))
    changed = [answers[0].replace("REVENUE 220", "REVENUE 240"), *answers[1:]]
    other_seal = seal.replace(made.signer.public, made.other.public)
    stamp, other_stamp = (made.entries[number - 1] for number in stamps)

    def swap(entries: list[Entry]) -> None:
        for number, other in ((stamps[0], other_stamp), (stamps[1], stamp)):
            entries[number - 1].update(token=other["token"], time=other["time"])

    yield edited(made, "a bid is another one", put(bid, line="BID x 1 a 110"), [f"seal {first}", *behind, "file 0"])
    yield edited(made, "a bid has another sender", put(bid, name="bob"), [f"seal {first}", *behind])
    yield edited(made, "a bid is left out", without(bid), [f"seal {number - 1}" for number in (first, second, end)], file=None)
    yield edited(made, "a signature is wrong", put(first, signature=("1" if signature[0] == "0" else "0") + signature[1:]), [f"signature {first}", *behind])
    yield edited(made, "a seal is signed by another key", put(first, signature=made.other.sign(seal)), [f"signature {first}", *behind])
    yield edited(made, "a seal names another key, and is signed by it", put(first, seal=other_seal, signature=made.other.sign(other_seal)), [f"key {first}", *behind])
    yield edited(made, "a signature is too short", put(first, signature=signature[:-2]), [f"seal {first}", *behind])
    yield edited(made, "the answers of a seal are others", put(first, answers=changed), [f"answers {first}", *behind])
    yield edited(made, "a seal has no answers", put(first, answers=None), [f"answers {first}", *behind])
    yield edited(made, "a seal has another salt", put(first, salt="00" * 16), [f"answers {first}", f"state {first}", *behind])
    yield edited(made, "the first seal is left out with its stamp", without(first, stamps[0]),
                 [f"seal {second - 2}", f"seal {end - 2}", f"stamp {stamps[1] - 2}"])
    yield edited(made, "two stamps are exchanged", swap, [*behind, f"stamp {stamps[0]}"])
    yield edited(made, "the first stamp is left out", without(stamps[0]), [f"seal {second - 1}", f"seal {end - 1}", f"stamp {stamps[1] - 1}"])
    yield edited(made, "a stamp has another time than its token", put(stamps[0], time="2026-01-01T00:00:00Z"), [*behind, f"stamp {stamps[0]}"])
    yield edited(made, "a stamp is cut", put(stamps[0], token=stamp["token"][:400]), [*behind, f"stamp {stamps[0]}"])
    yield edited(made, "a stamp is no stamp", put(stamps[0], token="AAAA", time=""), [*behind, f"stamp {stamps[0]}"])
    content = made.lines[bid - 1][65:].replace("ann", "\u00e4nn")
    yield made.case("a byte isn't of ASCII", [*made.lines[: bid - 1], f"{hashlib.sha256(content.encode('latin-1')).hexdigest()} {content}", *made.lines[bid:]],
                    [f"changed {bid}"])


def cut(made: Maker) -> Iterator[Case]:
    """The record ends behind a whole entry. Only its own end, its closes and the file show it."""
    close = at(made.entries, "accepted", 4)
    numbers: dict[int, list[str]] = {made.end - 1: [], made.second + 1: [], made.second: [], made.second - 1: [f"unsealed {close}"]}
    for number, found in numbers.items():
        yield made.case(f"the record is cut behind entry {number}", made.lines[:number], [f"cut {number + 1}", *found])
    for number in (close - 1, made.first + 1, 3):
        unsealed = ["unsealed 0"] if number < made.first else []
        yield made.case(f"the record is cut behind entry {number}, before commands of the file", made.lines[:number], [f"cut {number + 1}", *unsealed, "file 0"])
    kept = made.day.book.seals[2].signed.line
    yield made.case("the record is cut before a seal that somebody kept", made.lines[: made.end - 2], [f"cut {made.end - 1}", "kept 0"], seals=[kept])
    yield made.case("no front ever ended the record, and nobody has the file", made.lines[: made.end - 2], [], file=None)


# Other auctions, files and definitions.


def others(made: Maker) -> Iterator[Case]:
    first, second = made.first, made.second
    other, foreign = made.writer(has_stamps=False).day(OTHER_DAY), made.writer(made.other, has_stamps=False).day()
    its = next(entry for entry in map(entry_of, other.lines) if entry["kind"] == "seal")
    states = [f"state {first}", f"state {second}"]
    yield edited(made, "the first seal is one of another auction", put(first, seal=its["seal"], signature=its["signature"]),
                 [f"other {first}", f"seal {second}", f"seal {made.end}"])
    yield made.case("the file is that of another auction with the same definition", made.lines, [*states, "file 0"], file=made.file(OTHER_DAY))
    yield made.case("the file is an older one", made.lines, ["file 0"], file=made.file(DAY[:-1]))
    yield made.case("the file has another definition", made.lines, ["file 0"], file=made.file([], OTHER_DEFINITION))
    yield made.case("the file is none of an auction", made.lines, ["file 0"], file=packed(bytes(69_632)))
    yield made.case("the file went on behind the record", made.lines, ["file 0"], file=made.file([*DAY, "BID y 2 all 350"]))
    yield made.case("another definition was announced", made.lines, ["definition 1"], definition=text_of(OTHER_DEFINITION))
    yield made.case("all seals are signed by another key", foreign.lines, [f"key {entry['entry']}" for entry in map(entry_of, foreign.lines) if entry["kind"] == "seal"])
    yield made.case("a seal that somebody kept is one of another record of the same key", made.lines, ["kept 0"], seals=[other.book.seals[0].signed.line])


# With the key.


def owners(made: Maker) -> Iterator[Case]:
    """The key's owner leaves a bid out, and seals and stamps all anew. Only a receipt shows it."""
    short, file = made.writer().day(SHORT_DAY), made.file(SHORT_DAY)
    receipts = [found.receipt for number in range(1, 6) if (found := made.day.book.receipt(number))]
    its = short.book.receipt(3)
    assert its
    own, bid = [json.loads(json.loads(one)["entry"])["entry"] for one in (receipts[0], receipts[1])]
    path = json.loads(receipts[0])
    cut_path = json.dumps({**path, "path": path["path"][:-1]}, separators=(",", ":"))
    yield made.case("the key's owner left a bid out, and sealed and stamped all anew: alone it can't be seen", short.lines, [], file=file)
    yield made.case("the same, and the bid has a receipt", short.lines, [f"receipt {bid}"] * 2, file=file, receipts=[receipts[1]])
    yield made.case("a receipt is one of another record", made.lines, [f"receipt {json.loads(json.loads(its.receipt)['entry'])['entry']}"] * 2, receipts=[its.receipt])
    yield made.case("a receipt's path lacks its end", made.lines, [f"receipt {own}"], receipts=[cut_path])
    changed = json.dumps({**path, "entry": path["entry"].replace("a 100", "a 900")}, separators=(",", ":"))
    yield made.case("a receipt has another bid", made.lines, [f"receipt {own}"], receipts=[changed])


def lies(made: Maker) -> Iterator[Case]:
    """The key's owner signs what isn't so."""

    def lying(name: str, found: Callable[[int], list[str]], **fields: object) -> Case:
        writer = made.writer(has_stamps=False)
        writer.take_key(made.signer, lambda seal: dataclasses.replace(seal, **fields) if seal.number == 1 else seal)
        return made.case(name, writer.day().lines, found(made.first))

    yield lying("a seal lies about the state", lambda first: [f"state {first}"], state="0" * 64)
    yield lying("a seal lies about the results", lambda first: [f"answers {first}"], results="0" * 64)
    # Then the second seal, whose number is 2, is the first right one.
    yield lying("a seal lies about COUNT", lambda first: [f"seal {first}", f"seal {first + 3}", f"seal {first + 5}"], count=2)
    yield lying("a seal lies about its round", lambda first: [f"answers {first}"], round=2)
    yield lying("a seal lies about its time", lambda first: [f"seal {first}", f"seal {first + 3}", f"seal {first + 5}"], at="2026-12-01T11:00:00.000000Z")
    yield lying("a seal lies about the definition", lambda first: [f"seal {first}", f"seal {first + 3}", f"seal {first + 5}"], definition="0" * 64)
    writer = made.writer(has_stamps=False)
    writer.change_answers = lambda answers: [line.replace("REVENUE 220", "REVENUE 240") for line in answers]
    yield made.case("the answers under a seal lie", writer.day().lines, [f"answers {made.first}"])


def keys(made: Maker) -> Iterator[Case]:
    """Another key from the second round on, and the first one again at the end."""
    writer = made.writer(has_stamps=False)
    writer.start()
    for line in DAY[:3]:
        writer.tell(line)
    writer.stop()
    writer.take_key(made.other)
    writer.start()
    for line in DAY[3:]:
        writer.tell(line)
    writer.stop()
    lines, keys = writer.lines, [made.signer.public, made.other.public]
    seals = [entry["entry"] for entry in map(entry_of, lines) if entry["kind"] == "seal"]
    yield made.case("the key was changed, and both were announced", lines, [], keys=keys)
    yield made.case("the key was changed, and the second wasn't announced", lines, [f"key {number}" for number in seals[2:]])
    yield made.case("the key was changed, and both were announced the other way round", lines, [f"key {number}" for number in seals[2:]], keys=keys[::-1])
    writer.take_key(made.signer)
    writer.start()
    writer.stop()
    last = len(writer.lines)
    yield made.case("the first key signs again behind the second", writer.lines, [f"key {last}"], keys=keys)
    writer.record.close()


# Segments.


def parts_of(writer: Writer) -> list[list[str]]:
    """The lines of each segment of a record that is closed."""
    paths = [writer.path, *(Path(f"{writer.path}.{number}") for number in range(2, 1 + writer.record.segment))]
    return [path.read_text().splitlines() for path in paths]


def segments(made: Maker) -> Iterator[Case]:
    """A record of several segments, of which each is a list of lines."""
    parts = parts_of(made.writer(most_segment=SEGMENT).day())
    other = parts_of(made.writer(most_segment=SEGMENT).day())
    made.known += [line for part in parts for line in part]
    entries, begin = [entry_of(line) for part in parts for line in part], len(parts[0]) + 1
    seals = [entry["entry"] for entry in entries if entry["kind"] == "seal"]
    assert len(parts) >= 3 and len(other[0]) == len(parts[0]) and seals[0] > begin and "CLOSE" not in "".join(parts[0])

    def case(name: str, own: Sequence[Sequence[str]], found: list[str]) -> Case:
        return {"name": name, "segments": [numbered(made.known, part) for part in own], "found": found}

    changed = [dict(entry) for entry in entries]
    changed[begin - 2]["sha256"] = "0" * 64
    lines = rewritten(changed)
    ends = [sum(map(len, parts[:place])) for place in range(len(parts) + 1)]
    yield case("all is right in several segments", parts, [])
    yield case("the second segment is missing", [parts[0], [], *parts[2:]], ["segment 0"])
    yield case("the first segment is missing", [[], *parts[1:]], ["segment 0"])
    yield case("all segments but the first are missing", parts[:1], [f"cut {begin}", "unsealed 0", "file 0"])
    yield case("two segments are exchanged", [parts[0], parts[2], parts[1], *parts[3:]], ["segment 0"])
    yield case("the second segment is one of another record", [parts[0], other[1], *parts[2:]], [f"before {begin}"])
    yield case("the first segment lacks its end", [parts[0][:-1], *parts[1:]], [f"order {begin - 1}"])
    yield case("the first segment's end has another sum, with new hashes from there on", [lines[one:two] for one, two in zip(ends, ends[1:])],
               ["segment 0", *(f"seal {number}" for number in seals)])


def made(program: str, folder: Path) -> dict[str, Any]:
    """All vectors."""
    maker = Maker(program, folder)
    receipts = [found.receipt for number in range(1, 6) if (found := maker.day.book.receipt(number))]
    right = maker.case("all is right", maker.lines, [], receipts=receipts, seals=[one.signed.line for one in maker.day.book.seals])
    ways = (broken, rehashed, forged, cut, others, owners, lies, keys, segments)
    cases = [right, *(case for way in ways for case in way(maker))]
    return {
        "what": "Records of hpb with seals; docs/VERIFY.md describes the format. In a case a number stands for that line of `lines`.",
        "keys": [maker.signer.public], "authority": maker.authority.certificates.read_text(), "definition": text_of(DEFINITION),
        "file": maker.file(DAY), "lines": maker.known, "cases": cases,
    }


def lines_of(vectors: dict[str, Any]) -> Iterator[str]:
    """The vectors as JSON, with a line for each line and each case."""
    yield "{"
    for name, value in vectors.items():
        end = "" if name == "cases" else ","
        if isinstance(value, list):
            yield f"{json.dumps(name)}: ["
            yield from (f"{json.dumps(one)}{'' if place == len(value) else ','}" for place, one in enumerate(value, 1))
            yield f"]{end}"
        else:
            yield f"{json.dumps(name)}: {json.dumps(value)}{end}"
    yield "}"


if __name__ == "__main__":
    with tempfile.TemporaryDirectory() as room:
        print("\n".join(lines_of(made(sys.argv[1], Path(room)))))
