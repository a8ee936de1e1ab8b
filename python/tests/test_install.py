"""Wheel and source distribution are built without a network, and each installed package can bid on a server."""
import hashlib
import pathlib
import shutil
import subprocess
import sys
import venv

import pytest

from serving import DEFINITION, Program, Server

PACKAGE = pathlib.Path(__file__).resolve().parents[1]
VECTORS = PACKAGE.parent / "docs" / "vectors" / "seals.json"
SECONDS = 100
ASSETS = "from hpb.pages.page import STATIC; print([path.name for path in STATIC.iterdir()])"
# What each bundle of an auction has from the package.
BRINGS = "import hashlib; from hpb.report import archive; print(hashlib.sha256(archive.vectors()).hexdigest(), [len(archive.own(name)) for name in archive.CHECKERS])"
BIDS = 'from hpb import Client; print(Client("127.0.0.1", {}).bid("x", "a", 100))'


def run(*words: object, folder: pathlib.Path, text: str = "") -> str:
    """The output of a command, which has to succeed."""
    ran = subprocess.run([str(word) for word in words], input=text, capture_output=True, text=True, timeout=SECONDS, cwd=folder)
    assert ran.returncode == 0, ran.stdout + ran.stderr
    return ran.stdout


@pytest.fixture(scope="module")
def built(tmp_path_factory: pytest.TempPathFactory) -> pathlib.Path:
    """A folder with the wheel and the source distribution of a copy of the package, beside the vectors of seals."""
    if "No module named" in subprocess.run([sys.executable, "-m", "build", "--version"], capture_output=True, text=True).stderr:
        pytest.skip("python3-build isn't installed")
    folder = tmp_path_factory.mktemp("build")
    shutil.copytree(VECTORS.parent, folder / "docs" / "vectors")
    shutil.copytree(PACKAGE, folder / "python", ignore=shutil.ignore_patterns("__pycache__", "build", "dist", "*.egg-info", ".*"))
    run(sys.executable, "-m", "build", "--no-isolation", "--outdir", folder / "dist", folder / "python", folder=folder)
    return folder / "dist"


@pytest.mark.slow
@pytest.mark.timeout(300)
@pytest.mark.parametrize("kind", ["hpb-*.whl", "hpb-*.tar.gz"])
def test_what_is_built_is_installed_and_bids(
    built: pathlib.Path, server: Server, program: Program, new_file: bytes, tmp_path: pathlib.Path, kind: str
) -> None:
    (found,) = built.glob(kind)
    # A source distribution is built by the system's setuptools and wheel. Nothing is fetched.
    venv.create(tmp_path / "fresh", with_pip=True, system_site_packages=found.suffix != ".whl")
    python = tmp_path / "fresh" / "bin" / "python"
    run(python, "-m", "pip", "install", "--quiet", "--no-index", "--no-deps", "--no-build-isolation", found, folder=tmp_path)
    assert run(python, "-I", "-c", BIDS.format(server.port), folder=tmp_path) == "Accepted(number=1)\n"
    assert "fresh" in run(python, "-I", "-c", "import hpb; print(hpb.__file__)", folder=tmp_path)
    assert pathlib.Path(run(python, "-I", "-c", "import hpb; print(hpb.__file__)", folder=tmp_path).strip()).with_name("py.typed").exists()
    run_commands(python.parent, program, new_file, tmp_path)


def run_commands(scripts: pathlib.Path, program: Program, image: bytes, folder: pathlib.Path) -> None:
    """Runs the installed commands. Those that need neither server nor front do some work."""
    file, definition = folder / "F", folder / "definition.json"
    file.write_bytes(image)
    definition.write_text(run(scripts / "hpb-definition", file, folder=folder))
    assert definition.read_bytes() == DEFINITION
    answers = "".join(f"{line}\n" for line in program.run("check", "--file", file)[0])
    said = run(scripts / "hpb-verify", definition, folder=folder, text=answers)
    assert said.splitlines()[-1] == "So no choice of these bids brings more than 0."
    page = run(scripts / "hpb-report", file, "--program", program.path, folder=folder)
    assert page.startswith("<!DOCTYPE html>") and ".facts { display: grid;" in page
    assert run(scripts / "hpb-explain", definition, folder=folder) == ""
    for name in ("board", "client", "front", "replay", "watch", "web"):
        assert run(scripts / f"hpb-{name}", "--help", folder=folder).startswith(f"usage: hpb-{name} ")
    assert "board.css" in run(scripts / "python", "-I", "-c", ASSETS, folder=folder)
    sizes = [(PACKAGE / "src" / "hpb" / "seals" / name).stat().st_size for name in ("verify.mjs", "state.mjs")]
    assert run(scripts / "python", "-I", "-c", BRINGS, folder=folder) == f"{hashlib.sha256(VECTORS.read_bytes()).hexdigest()} {sizes}\n"
