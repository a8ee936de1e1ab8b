"""C programs and libraries that the tests build for themselves."""

from __future__ import annotations

import shutil
import subprocess
from pathlib import Path

from harness.file_systems import Lacking

SOURCES = Path(__file__).resolve().parents[1]
WARNINGS = ("-O2", "-Wall", "-Wextra", "-Werror")
SECONDS = 120


def library(source: Path, folder: Path) -> Path:
    """A library made from one source, to be loaded before the C library."""
    return _built(source, folder / f"{source.stem}.so", "-shared", "-fPIC", "-ldl", "-lpthread")


def executable(source: Path, folder: Path, *packages: str) -> Path:
    """A program made from one source, with these packages of `pkg-config`."""
    words = [word for package in packages for word in _package(package)]
    return _built(source, folder / source.stem, *words, "-lpthread")


def _package(name: str) -> list[str]:
    if shutil.which("pkg-config") is None:
        raise Lacking("there is no pkg-config")
    ran = subprocess.run(["pkg-config", "--cflags", "--libs", name], capture_output=True, text=True, timeout=SECONDS)
    if ran.returncode:
        raise Lacking(f"the package {name} isn't installed")
    return ran.stdout.split()


def _built(source: Path, made: Path, *words: str) -> Path:
    compiler = shutil.which("gcc") or shutil.which("cc")
    if compiler is None:
        raise Lacking("there is no C compiler")
    command = [compiler, *WARNINGS, "-o", str(made), str(source), *words]
    ran = subprocess.run(command, capture_output=True, text=True, timeout=SECONDS)
    assert ran.returncode == 0, f"{source.name}: {ran.stderr}"
    made.chmod(0o755)
    return made
