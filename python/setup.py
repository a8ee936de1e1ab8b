"""Puts the vectors of seals into packages that are built. In the tree they stand once, in docs/vectors, and `hpb-archive` copies them into bundles."""
import shutil
from pathlib import Path

from setuptools import setup
from setuptools.command.build_py import build_py
from setuptools.command.sdist import sdist

HERE = Path(__file__).resolve().parent
# In a checkout, and in a source distribution.
PLACES = (HERE.parent / "docs" / "vectors" / "seals.json", HERE / "vectors.json")


def put(path: Path) -> None:
    """Copies the vectors. A StopIteration says that there are none."""
    shutil.copyfile(next(place for place in PLACES if place.exists()), path)


class BuildPy(build_py):
    """Builds the package. An editable one finds the vectors in its checkout."""

    def run(self) -> None:
        super().run()
        if not self.editable_mode:
            put(Path(self.build_lib, "hpb", "seals", "vectors.json"))


class Sdist(sdist):
    """Makes a source distribution, which has the vectors beside its setup.py."""

    def make_release_tree(self, base_dir: str, files: list[str]) -> None:
        super().make_release_tree(base_dir, files)
        put(Path(base_dir, "vectors.json"))


setup(cmdclass={"build_py": BuildPy, "sdist": Sdist})
