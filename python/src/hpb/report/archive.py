"""A bundle of an auction: all that is needed to check its result, also in ten years (docs/VERIFY.md)."""
import base64
import hashlib
import io
import pathlib
import shutil
import zipfile
from collections.abc import Mapping, Sequence
from dataclasses import dataclass
from typing import Final

import hpb
from hpb.file import state_of
from hpb.record.segments import segment_paths
from hpb.refusals import HpbError
from hpb.report.closing import read_report
from hpb.report.page import page
from hpb.report.readme import pem_name, readme, round_of
from hpb.report.rounds import round_page
from hpb.rules.writing import definition_line
from hpb.seals import verifying
from hpb.seals.checked import Checked, Given
from hpb.seals.checking import check
from hpb.seals.openssl import public_pem
from hpb.seals.receipt import Receipt
from hpb.seals.sealing import answers_of
from hpb.seals.statement import STAMP
from hpb.seals.sums import sums_of

_SEALS: Final = pathlib.Path(__file__).parents[1] / "seals"
# What the package brings into each bundle.
CHECKERS, VECTORS, PACKAGE, README, LIST = ("verify.mjs", "state.mjs"), "vectors.json", "hpb-verify.pyz", "README.md", "SHA256SUMS"
# The vectors of an installed package, and those of a checkout.
_VECTORS: Final = (_SEALS / VECTORS, pathlib.Path(__file__).parents[4] / "docs" / "vectors" / "seals.json")


class NoBundle(HpbError):
    """There is no bundle: something is wrong, or can't be read or written."""


@dataclass(frozen=True)
class Wanted:
    """The things of which a bundle is made. `keys` are public, in the order of their use; `authority` has the certificates of an authority.

    `record` is a path, and `image` the file's bytes. `program` answers about the file.
    """

    record: str
    image: bytes
    keys: Sequence[str]
    authority: bytes
    receipts: Mapping[str, Receipt]
    program: str


def archive(wanted: Wanted, folder: pathlib.Path) -> Checked:
    """Makes a bundle in a new folder. A NoBundle says that the record, the file, a receipt or a page isn't right; then there is no folder."""
    image, keys = wanted.image, wanted.keys
    checked = check(wanted.record, Given(keys, wanted.authority, None, image, list(wanted.receipts.values())))
    if checked.findings.found:
        raise NoBundle("; ".join(one.text for one in checked.findings.found))
    report = read_report(wanted.program, image)
    if report.faults:
        raise NoBundle("; ".join(report.faults))
    files = {
        verifying.FILE: image,
        verifying.DEFINITION: definition_line(report.tree.definition).encode(),
        verifying.KEY: "".join(f"{key}\n" for key in keys).encode(),
        **{pem_name(place): public_pem(key) for place, key in enumerate(keys)},
        verifying.REPORT: page(report, sums_of(image, checked.chain)).encode(),
        **{name: own(name) for name in CHECKERS},
        VECTORS: vectors(), PACKAGE: package(),
        **({verifying.AUTHORITY: wanted.authority} if wanted.authority else {}),
        **{f"{verifying.RECEIPTS}/{name}": f"{receipt.text}\n".encode() for name, receipt in wanted.receipts.items()},
        **record_files(wanted.record), **files_of_seals(checked), **files_of_rounds(checked),
    }
    files[README] = readme(checked, image, keys, files).encode()
    files[LIST] = "".join(f"{hashlib.sha256(files[name]).hexdigest()}  {name}\n" for name in sorted(files)).encode()
    write(folder, files)
    return checked


def own(name: str) -> bytes:
    """A file that the package brings into each bundle."""
    return (_SEALS / name).read_bytes()


def vectors() -> bytes:
    """The vectors for other checkers."""
    return next((path for path in _VECTORS if path.exists()), _VECTORS[0]).read_bytes()


def record_files(record: str) -> dict[str, bytes]:
    """All segments, under the names of a bundle."""
    tails = ["", *(f".{number}" for number in range(2, len(segment_paths(record)) + 1))]
    return {f"{verifying.RECORD}{tail}": pathlib.Path(path).read_bytes() for tail, path in zip(tails, segment_paths(record))}


def files_of_seals(checked: Checked) -> dict[str, bytes]:
    """The seals one a line, and of each in a folder of its own all that is signed, summed and stamped."""
    files = {verifying.SEALS: "".join(f"{signed.line}\n" for signed, _ in checked.seals).encode()}
    for signed, entry in checked.seals:
        seal, folder = signed.seal, f"seals/{signed.seal.number}"
        files[f"{folder}/statement.txt"] = seal.text.encode()
        files[f"{folder}/signature.bin"] = bytes.fromhex(signed.signature)
        files[f"{folder}/line.txt"] = signed.stamped
        if seal.round:
            files[f"{folder}/answers.txt"] = "".join(f"{line}\n" for line in [entry["salt"], *entry["answers"]]).encode()
            files[f"{folder}/state.bin"] = f"{entry['salt']}\n".encode() + state_of(checked.closes[seal.count])
    for entry in checked.chain.of_kind(STAMP):
        files[f"seals/{entry['seal']}/stamp.tst"] = base64.b64decode(entry["token"])
    return files


def files_of_rounds(checked: Checked) -> dict[str, bytes]:
    """A page for each sealed round, and the answers after each close."""
    files, lines = dict[str, bytes](), list[str]()
    for signed, entry in checked.seals:
        if not signed.seal.round:
            continue
        tree = checked.closes[signed.seal.count].tree
        stamped = checked.stamped.get(signed.seal.number, "")
        files[round_of(signed.seal)] = round_page(tree, signed, entry, stamped).encode()
    for count, auction in checked.closes.items():
        lines += [f"after command {count}", *answers_of(auction), ""]
    return {**files, "results.txt": "\n".join(lines).encode()}


def package() -> bytes:
    """The package as one file that Python runs as `hpb-verify`. Equal sources give equal bytes."""
    made, source = io.BytesIO(), pathlib.Path(hpb.__file__).parent
    with zipfile.ZipFile(made, "w", zipfile.ZIP_DEFLATED) as zipped:
        for path in sorted(source.rglob("*.py")):
            zipped.writestr(zipfile.ZipInfo(f"hpb/{path.relative_to(source)}"), path.read_bytes())
        zipped.writestr(zipfile.ZipInfo("__main__.py"), "import sys\nfrom hpb.commands.verify import main\nsys.exit(main())\n")
    return b"#!/usr/bin/env python3\n" + made.getvalue()


def write(folder: pathlib.Path, files: Mapping[str, bytes]) -> None:
    """Writes all files into a new folder. If that fails, there is no folder."""
    try:
        folder.mkdir()
    except OSError as fault:
        raise NoBundle(f"{folder}: {fault.strerror}") from None
    try:
        for name, data in files.items():
            (folder / name).parent.mkdir(parents=True, exist_ok=True)
            (folder / name).write_bytes(data)
    except OSError as fault:
        shutil.rmtree(folder, ignore_errors=True)
        raise NoBundle(f"{fault.filename}: {fault.strerror}") from None
