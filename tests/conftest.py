"""Options and fixtures of all tests.

    /usr/bin/python3 -m pytest -n 4 tests --program crates/hpb/out/hpb --also crates/hpb/out/hpb.by-rattle

A test that asks for `program` runs once for each program that is named. Those of OF_THE_PROGRAM also run for each one of `--also`. If the machine lacks the rights or tools that a test needs,
the test is skipped with the reason. With `--complete` it fails instead, as in the gate.
"""

from __future__ import annotations

import os
import shutil
import signal
import tempfile
from collections.abc import Generator, Iterator
from contextlib import AbstractContextManager, ExitStack, suppress
from pathlib import Path
from typing import Any, TypeVar

import fronts
import pytest
from boards import Tools

from harness import building, file_calls
from harness.auctions import Layout
from harness.conditions import NORMAL, Conditions
from harness.disks import SOURCE, CutDisk, mounted_disk
from harness.file_calls import Recorder
from harness.file_systems import FileSystem, Lacking
from harness.fixtures import Companion, Lack, Library
from harness.fronts import with_package
from harness.namespaces import Network, leave_mounts, new_network
from harness.programs import Program, Stream
from harness.serving import Serve, Server
from harness.users import User

HERE = Path(__file__).resolve().parent
TOP = HERE.parent
BUILT = TOP / "crates" / "hpb" / "out" / "hpb"
MEMORY = Path("/dev/shm")
REACHABLE = 0o711
PROGRAMS = pytest.StashKey[tuple[list[Path], list[Path]]]()
# The marks of tests that may be left out even with `--complete`.
MAY_BE_LEFT_OUT = ("long", "busy", "by_libc")
# The folders and modules whose tests look at the program alone, and not at front and tools.
OF_THE_PROGRAM = ("calls", "failing", "outside", "protocol", "test_stack.py")

Value = TypeVar("Value")


def pytest_addoption(parser: pytest.Parser) -> None:
    """The options of these tests."""
    group = parser.getgroup("hpb")
    group.addoption("--program", action="append", type=Path, help="a built hpb; may be given more than once")
    group.addoption("--also", action="append", type=Path, default=[], help="another build of it, for the tests of the program alone; may be given more than once")
    group.addoption("--companions", type=Path, help="a folder with the other programs of crates/, by their names; by default they stand where they are built")
    group.addoption("--complete", action="store_true", help="what the machine lacks for a test makes it fail")
    group.addoption("--cuts", type=int, default=2000, help="how many power cuts are made in all (default 2,000)")
    group.addoption("--turns", type=int, default=1, help="how often calls fail while a file is served, by other faults each time (default 1)")
    group.addoption("--seed", type=int, help="the one story of power cuts that is told")
    group.addoption("--long", action="store_true", help="run what takes minutes, too")


def pytest_configure(config: pytest.Config) -> None:
    """If allowed, gives this process mounts of its own, so that none outlives it, however it ends. Programs that it starts find the
    package.
    """
    os.environ.update(with_package(os.environ))
    if signal.getsignal(signal.SIGINT) is signal.SIG_IGN:
        # A shell ignores it for what it starts in the background, and each process that is started here would inherit that.
        signal.signal(signal.SIGINT, signal.default_int_handler)
    if os.geteuid() == 0:
        with suppress(PermissionError):
            leave_mounts()


def pytest_generate_tests(metafunc: pytest.Metafunc) -> None:
    """One test for each program that is named, and of the tests of the program alone for each other build of it."""
    if "built" in metafunc.fixturenames:
        programs, others = programs_of(metafunc.config)
        if metafunc.definition.path.relative_to(HERE).parts[0] in OF_THE_PROGRAM:
            programs = [*programs, *others]
        metafunc.parametrize("built", programs, ids=[program.name for program in programs], scope="session")


def programs_of(config: pytest.Config) -> tuple[list[Path], list[Path]]:
    """The programs under test, and other builds: the same lists each time, so that a fixture for one of them lasts for the whole run."""
    if PROGRAMS not in config.stash:
        config.stash[PROGRAMS] = found_programs(config), [program.resolve() for program in config.getoption("--also")]
    return config.stash[PROGRAMS]


def found_programs(config: pytest.Config) -> list[Path]:
    """The programs that are named, or else the one that is built here, or else the one on the path."""
    if named := config.getoption("--program"):
        return [program.resolve() for program in named]
    if BUILT.exists():
        return [BUILT]
    if found := shutil.which("hpb"):
        return [Path(found)]
    raise pytest.UsageError("there is no hpb, built or on the path: name one by --program")


def pytest_collection_modifyitems(config: pytest.Config, items: list[pytest.Item]) -> None:
    """Skips tests that take minutes, and tests that need root's rights if this isn't root."""
    long = pytest.mark.skip(reason="takes minutes: --long runs it")
    rights = pytest.mark.skip(reason="needs the rights of root")
    for item in items:
        if item.get_closest_marker("long") and not config.getoption("--long"):
            item.add_marker(long)
        if item.get_closest_marker("as_root") and os.geteuid() != 0 and not config.getoption("--complete"):
            item.add_marker(rights)


@pytest.hookimpl(hookwrapper=True)  # type: ignore[misc]
def pytest_runtest_makereport(item: pytest.Item) -> Generator[None, Any, None]:
    """With `--complete` a test that is left out has failed, unless it is one of those that may be."""
    outcome = yield
    report = outcome.get_result()
    may_be = any(item.get_closest_marker(name) for name in MAY_BE_LEFT_OUT)
    if report.skipped and item.config.getoption("--complete") and not may_be:
        report.outcome, report.longrepr = "failed", f"it was left out: {report.longrepr}"


@pytest.fixture(scope="session")
def lack(request: pytest.FixtureRequest) -> Lack:
    """Skips a test with this reason. With `--complete` the test fails instead."""

    def lacks(reason: object) -> None:
        if request.config.getoption("--complete"):
            pytest.fail(str(reason))
        pytest.skip(str(reason))

    return lacks


@pytest.fixture(scope="session")
def place() -> Iterator[Path]:
    """A folder of this run that every user may pass through."""
    made = Path(tempfile.mkdtemp(prefix="hpb-tests-"))
    made.chmod(REACHABLE)
    yield made
    shutil.rmtree(made, ignore_errors=True)


@pytest.fixture
def room(place: Path) -> Iterator[Path]:
    """A folder of this test that every user may pass through, and its owner alone may write."""
    made = Path(tempfile.mkdtemp(prefix="room-", dir=place))
    made.chmod(REACHABLE)
    yield made
    shutil.rmtree(made, ignore_errors=True)


@pytest.fixture
def memory() -> Iterator[Path]:
    """A folder of this test in memory, that every user may pass through: a sync of it takes no time."""
    with tempfile.TemporaryDirectory(dir=MEMORY if os.access(MEMORY, os.W_OK) else None) as folder:
        made = Path(folder)
        made.chmod(REACHABLE)
        yield made


@pytest.fixture(scope="session")
def program(built: Path, place: Path, request: pytest.FixtureRequest) -> Program:
    """The program under test: a copy that every user may run, made once in a run."""
    programs, others = programs_of(request.config)
    copy = place / f"program-{[*programs, *others].index(built)}" / "hpb"
    if not copy.exists():
        copy.parent.mkdir(REACHABLE)
        shutil.copyfile(built, copy)
        copy.chmod(0o755)
    return Program(copy)


@pytest.fixture(scope="session")
def companion(request: pytest.FixtureRequest, lack: Lack) -> Companion:
    """Another program of crates/, which is there for tests alone: `companion("hpb_bench")`."""
    folder: Path | None = request.config.getoption("--companions")

    def finds(name: str) -> Program:
        path = TOP / "crates" / name / "out" / name if folder is None else folder.resolve() / name
        if not path.exists():
            lack(f"{name} isn't built")
        return Program(path)

    return finds


@pytest.fixture(params=list(Layout), ids=[layout.name.lower() for layout in Layout])
def layout(request: pytest.FixtureRequest) -> Layout:
    """Each layout of a file."""
    value: Layout = request.param
    return value


@pytest.fixture
def file(program: Program, layout: Layout, room: Path) -> Path:
    """A new auction of the first example, in the test's own room, with the least journal."""
    made = room / "F"
    ran = program.format(made, layout)
    assert ran.status == 0, ran
    return made


@pytest.fixture
def cleanup() -> Iterator[ExitStack]:
    """Everything entered here ends with the test."""
    with ExitStack() as stack:
        yield stack


@pytest.fixture
def serve(program: Program, cleanup: ExitStack) -> Serve:
    """Starts `hpb serve`: `serve(file, sessions=2, ..)`, by the words of `harness.serving.Server`. It is killed with the test."""

    def serves(
        file: Path,
        sessions: int = 1,
        port: int | None = None,
        errors: Stream | None = None,
        conditions: Conditions = NORMAL,
    ) -> Server:
        return cleanup.enter_context(Server(program, file, sessions, port, errors, conditions))

    return serves


@pytest.fixture
def front(program: Program, room: Path) -> Iterator[fronts.Front]:
    """A front of a new auction of the first example, which isn't started: `front.start()`. It is killed with the test."""
    made = fronts.Front(program, room)
    program.keep(made.file)
    yield made
    made.kill()


@pytest.fixture
def tools(cleanup: ExitStack, room: Path) -> Tools:
    """Starts boards and watches of the first example's auction, with a waiver for each bidder. They are killed with the test."""
    return Tools(cleanup, room)


@pytest.fixture(scope="session")
def nobody(lack: Lack) -> User:
    """The user nobody, who has no rights from the tests' owner."""
    if os.geteuid() != 0:
        lack("only root can be another user")
    return User.named("nobody")


@pytest.fixture
def network(lack: Lack, cleanup: ExitStack) -> Network:
    """A network of its own, with its loopback: `Conditions(network=network)` starts a program there."""
    return entered(new_network(), cleanup, lack)


@pytest.fixture(params=list(FileSystem), ids=[kind.value for kind in FileSystem])
def file_system(request: pytest.FixtureRequest) -> FileSystem:
    """Each kind of file system."""
    value: FileSystem = request.param
    return value


@pytest.fixture
def mounted(file_system: FileSystem, room: Path, lack: Lack, cleanup: ExitStack) -> Path:
    """A folder on a new file system of each kind. Every user may make files in it."""
    return entered(file_system.mounted(room / file_system.value), cleanup, lack)


@pytest.fixture(scope="session")
def library(place: Path, lack: Lack) -> Library:
    """Builds a library of a C source, once a run: `Conditions().with_library(library(source))` loads it before the C library."""
    made: dict[Path, Path] = {}
    folder = Path(tempfile.mkdtemp(prefix="libraries-", dir=place))
    folder.chmod(REACHABLE)

    def builds(source: Path) -> Path:
        if source not in made:
            try:
                made[source] = building.library(source, folder)
            except Lacking as reason:
                lack(reason)
        return made[source]

    return builds


@pytest.fixture
def recorder(program: Program, library: Library, memory: Path) -> Recorder:
    """Writes down the calls that the program makes. The test is left out if it doesn't make them by the C library."""
    made = Recorder(library(file_calls.SOURCE), memory)
    assert program.run("--version", conditions=made.conditions()).status == 0
    if not made.sees():
        pytest.skip("the program doesn't make its calls by the C library")
    return made


@pytest.fixture(scope="session")
def disk(place: Path, lack: Lack) -> Iterator[CutDisk]:
    """The disk whose power can be cut, mounted once for many cuts; `disk.reset()` makes it empty."""
    with ExitStack() as stack:
        try:
            program = building.executable(SOURCE, place, "fuse3")
            made = stack.enter_context(mounted_disk(program, place / "disk"))
        except (Lacking, PermissionError) as reason:
            lack(reason)
            raise
        yield made


def entered(manager: AbstractContextManager[Value], stack: ExitStack, lack: Lack) -> Value:
    """The value of a context that is left with the stack. If the machine lacks something that it needs, the test is skipped."""
    try:
        return stack.enter_context(manager)
    except (Lacking, PermissionError) as reason:
        lack(reason)
        raise
