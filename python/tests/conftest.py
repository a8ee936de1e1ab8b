"""Fixtures of the package's tests. The program is the one named by HPB_PROGRAM, or the one built here, or `hpb` on the path."""
import os
import pathlib
import shutil
import tempfile
from collections.abc import Iterator

import hypothesis
import pytest

from serving import DEFINITION, Program, Server

MEMORY = pathlib.Path("/dev/shm")
TOP = pathlib.Path(__file__).resolve().parents[2]
BUILT = TOP / "crates" / "hpb" / "out" / "hpb"

# The same examples in each run. With `--hypothesis-profile=long`, other ones each time, and many more.
hypothesis.settings.register_profile("quick", max_examples=60, deadline=None, derandomize=True)
hypothesis.settings.register_profile("long", max_examples=2000, deadline=None)
hypothesis.settings.load_profile("quick")


@pytest.fixture(scope="session")
def documents() -> pathlib.Path:
    """The folder of the documents whose tables are compared."""
    return TOP / "docs"


@pytest.fixture(scope="session")
def examples() -> pathlib.Path:
    """The folder of the scripts and their answers."""
    return TOP / "examples"


@pytest.fixture(scope="session")
def program() -> Program:
    """The program with which the package is compared."""
    named = os.environ.get("HPB_PROGRAM") or (str(BUILT) if BUILT.exists() else shutil.which("hpb"))
    if not named:
        pytest.fail("there is no hpb: name one by HPB_PROGRAM, build it, or put it on the path")
    return Program(pathlib.Path(named).resolve())


@pytest.fixture(scope="session")
def new_file(program: Program, tmp_path_factory: pytest.TempPathFactory) -> bytes:
    """The bytes of a new file of the first example's auction."""
    file = tmp_path_factory.mktemp("new") / "auction.hpb"
    program.format(file, DEFINITION)
    return file.read_bytes()


@pytest.fixture
def room() -> Iterator[pathlib.Path]:
    """A folder in memory, so that nothing waits for a disk."""
    with tempfile.TemporaryDirectory(dir=MEMORY if MEMORY.is_dir() else None) as folder:
        yield pathlib.Path(folder)


@pytest.fixture
def server(program: Program, room: pathlib.Path, new_file: bytes) -> Iterator[Server]:
    """`hpb serve` for the first example's auction, with 32 places. A test may kill it and start it again."""
    file = room / "auction.hpb"
    file.write_bytes(new_file)
    with Server(program, file) as served:
        yield served
