"""Makes the pages of the manual and the completions of `hpb` and of each tool.

    packaging/make-manual --program crates/hpb/out/hpb OUT

Each is made from what the command says of itself when it is asked for help; hpb-front.toml(5) is made from the pages of docs/. Below OUT are
the folders `man`, `bash`, `zsh` and `fish`.
"""
import argparse
import datetime
import os
import re
import subprocess
import sys
from collections.abc import Iterator
from pathlib import Path

from manual import completion, markdown, mdoc
from manual.help import Help, read_help

TOP = Path(__file__).resolve().parents[2]
# So wide that argparse breaks no line.
WIDE = "1000"
# The folder of the packages with the pages of docs/.
PAGES = "/usr/share/doc/hpb/docs"
# The sections of docs/ that describe a front's configuration.
OF_CONFIGURATION = [
    ("FRONT.md", "The configuration", "CONFIGURATION"),
    ("FRONT.md", "Limits", "LIMITS"),
    ("FRONT.md", "The log", "LOG"),
    ("ROUNDS.md", "A plan", "ROUNDS"),
    ("ROUNDS.md", "A look before a close", "CLOSES"),
    ("FRONT.md", "What names may know", "INFORMATION"),
]


def asked(words: list[str]) -> str:
    """What a command says of itself, with the names that an installed command has. `hpb` says it on standard error."""
    paths = os.pathsep.join([str(TOP / "python" / "src"), *filter(None, [os.environ.get("PYTHONPATH")])])
    ran = subprocess.run([*words, "--help"], env={**os.environ, "COLUMNS": WIDE, "PYTHONPATH": paths}, capture_output=True, text=True, check=True)
    return with_names(ran.stdout or ran.stderr)


def with_names(text: str) -> str:
    """A text with the names that commands and pages have in the packages."""
    text = re.sub(r"\btools/([a-z]+)", r"hpb-\1", text)
    return re.sub(r"\bdocs/([A-Z-]+\.md)", rf"{PAGES}/\1", text)


def helps_of(program: Path) -> Iterator[tuple[Help, list[Help]]]:
    """The help of each command, and of the program those of its own commands."""
    own = read_help("hpb", asked([str(program)]))
    yield own, [read_help(f"hpb {row.name}", asked([str(program), row.name])) for row in own.commands]
    for tool in sorted((TOP / "tools").iterdir()):
        name = f"hpb-{tool.name}"
        text = re.sub(rf"(?m)^usage: {tool.name}\b", f"usage: {name}", asked([str(tool)]))
        yield read_help(name, text), []


def released() -> tuple[str, str]:
    """The last version of CHANGELOG, and its day."""
    found = re.search(r"^## \[([0-9.]+)\] - (\d{4}-\d{2}-\d{2})$", (TOP / "CHANGELOG.md").read_text(encoding="utf-8"), re.MULTILINE)
    assert found, "CHANGELOG.md has no version"
    day = datetime.date.fromisoformat(found[2])
    return found[1], f"{day:%B} {day.day}, {day.year}"


def configuration_page(date: str, version: str) -> str:
    """hpb-front.toml(5)."""
    parts = [(title, list(markdown.converted(section_of(page, section)))) for page, section, title in OF_CONFIGURATION]
    about = "configuration of a front of an hpb auction"
    words = f"A front reads this file of TOML when it starts, and in part again at SIGHUP. {PAGES}/FRONT.md says more about it."
    first = ("DESCRIPTION", list(mdoc.filled(words)))
    sections = [first, *parts, ("SEE ALSO", mdoc.see_also(["hpb-front 1"]))]
    return mdoc.page("hpb-front.toml", 5, about, date, version, sections)


def section_of(page: str, section: str) -> list[str]:
    """The lines of a section of docs/, with the names that an installed command has."""
    return [with_names(line) for line in markdown.section_of(TOP / "docs" / page, section)]


def write(path: Path, text: str) -> None:
    path.parent.mkdir(parents=True, exist_ok=True)
    path.write_text(text, encoding="utf-8")


def main() -> int:
    words = argparse.ArgumentParser(description=__doc__, formatter_class=argparse.RawDescriptionHelpFormatter)
    words.add_argument("--program", type=Path, default=TOP / "crates" / "hpb" / "out" / "hpb", help="the program (default: the one that is built here)")
    words.add_argument("out", type=Path, help="the folder to write to")
    given = words.parse_args()
    version, date = released()
    helps = list(helps_of(given.program.resolve()))
    names = [help.name for help, _ in helps]
    for help, others in helps:
        see = [f"{name} 1" for name in names if name != help.name]
        see += ["hpb-front.toml 5"] if help.name == "hpb-front" else []
        write(given.out / "man" / f"{help.name}.1", mdoc.command_page(help, others, see, date, version))
        write(given.out / "bash" / help.name, completion.bash(help, others))
        write(given.out / "zsh" / f"_{help.name}", completion.zsh(help, others))
        write(given.out / "fish" / f"{help.name}.fish", completion.fish(help, others))
    write(given.out / "man" / "hpb-front.toml.5", configuration_page(date, version))
    return 0


if __name__ == "__main__":
    sys.exit(main())
