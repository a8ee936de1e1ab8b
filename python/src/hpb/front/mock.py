"""Makes a mock of an auction in one step: a configuration with the same names, tokens, certificate and clock, and a new file
(docs/ROUNDS.md)."""
import datetime
import json
import os
import pathlib
import re
import subprocess
from typing import Any

from hpb.file import Head, read_head, read_image
from hpb.front.config import CREDENTIALS, Config, read_toml
from hpb.front.faults import Stops, Wrong
from hpb.front.log import JOURNAL, STANDARD_ERROR
from hpb.front.plan import read_plan, read_zone, time_of
from hpb.front.times import text_of_time
from hpb.refusals import Refused
from hpb.rules.mock import as_mock
from hpb.rules.writing import definition_line

Table = dict[str, Any]
# The names of files that the mock has for itself begin so.
PREFIX = "mock-"
FORMAT_SECONDS = 60
HEAD = "# The mock of {}, made by --make-mock: the same names, tokens and clock, on a file of its own.\n"


def make_mock(config: Config, path: str, first: str | None, own: Table | None = None) -> Config:
    """Makes the mock's configuration at `path`, and its auction's file beside it. `first` is when its first round opens; the others follow
    as in the auction's plan. `own` are fields that take the place of others. A Wrong or a Stops says why there is no mock: then nothing was
    made.
    """
    if config.mock:
        raise Wrong(f"{config.path} is the configuration of a mock already")
    try:
        head = read_head(read_image(config.file, is_quiet=False))
        line = definition_line(as_mock(head.definition))
    except Refused as fault:
        raise Wrong(f"file: {config.file}: {fault.brief}") from None
    text = HEAD.format(os.path.basename(config.path)) + text_of(fields_for(config, read_toml(config.path), path, first) | (own or {}))
    try:
        with open(path, "x", encoding="utf-8") as file:
            file.write(text)
    except OSError as fault:
        raise Wrong(f"{path}: {fault.strerror}") from None
    try:
        mock = Config(path)
        for made in (mock.file, mock.record):
            if os.path.lexists(made):
                raise Wrong(f"{made} is there already, perhaps of an earlier mock: move it to another folder")
        format_file(mock, head, line)
    except BaseException:
        os.unlink(path)
        raise
    return mock


def fields_for(config: Config, given: Table, path: str, first: str | None) -> Table:
    """The fields of the mock's configuration. In another folder it names the files that it shares with the auction by their whole paths."""
    folder = pathlib.Path(path).resolve().parent
    fields = {"mock": True, **given, "file": mock_name(given["file"]), "record": mock_name(given["record"])}
    # The mock's own front starts its server.
    fields.pop("port", None)
    if "control" in given:
        fields["control"] = mock_name(given["control"])
    if folder != config.folder:
        fields |= {field: whole_path(config, given[field]) for field in ("tokens", "certificate", "key") if field in given}
        if "/" in config.program:
            fields["program"] = config.program
        if "seals" in given:
            fields["seals"] = {name: whole_path(config, value) if name in ("key", "authority") else value for name, value in given["seals"].items()}
    if given.get("log", {}).get("to", STANDARD_ERROR) not in (STANDARD_ERROR, JOURNAL):
        fields["log"] = {**given["log"], "to": mock_name(given["log"]["to"])}
    if first is not None:
        fields["rounds"] = moved(given.get("rounds", {}), first)
    return fields


def whole_path(config: Config, word: str) -> str:
    """A file of the auction's configuration, by its whole path. What a service manager hands in keeps its name."""
    return word if word.startswith(CREDENTIALS) else str(config.folder / word)


def mock_name(name: str) -> str:
    """The name of a file of the mock, in the folder of its configuration."""
    return PREFIX + os.path.basename(name)


def moved(rounds: Table, first: str) -> Table:
    """The plan of the rounds, with its first opening at another time, and all others as far behind it as before."""
    plan, zone = read_plan(rounds), read_zone(rounds.get("zone", "UTC"))
    begin = plan.windows[0][0] if plan.windows else plan.first
    if begin is None:
        raise Wrong("rounds: the plan has neither windows nor a first opening, so it can't be moved by --first")
    later = time_of(first, zone, "--first") - begin
    if plan.windows:
        return {**rounds, "windows": [[text_of_time(one + later) for one in window] for window in plan.windows]}
    return {**rounds, "first": text_of_time(begin + later)}


def format_file(mock: Config, head: Head, line: str) -> None:
    """Makes the mock's file by `hpb format`, with as many frames as the auction's file has."""
    words = [mock.program, "format", "--file", mock.file, "--journal", str(head.frames), "--layout", str(int(head.layout))]
    try:
        ran = subprocess.run(words, input=line.encode(), capture_output=True, timeout=FORMAT_SECONDS)
    except (OSError, subprocess.SubprocessError) as fault:
        raise Stops(f"{mock.program} makes no file for the mock: {fault}") from None
    if ran.returncode:
        raise Stops(f"{mock.file} can't be made: {(ran.stderr or ran.stdout).decode(errors='replace').strip()}")


# TOML.


def text_of(fields: Table, table: str = "") -> str:
    """Fields as TOML: first those that are no tables, then each table under its name."""
    lines = [f"[{table}]\n"] if table else []
    lines += [f"{key(name)} = {value_of(value)}\n" for name, value in fields.items() if not isinstance(value, dict)]
    for name, value in fields.items():
        if isinstance(value, dict):
            lines.append("\n" + text_of(value, f"{table}.{key(name)}" if table else key(name)))
    return "".join(lines)


def key(name: str) -> str:
    return name if re.fullmatch(r"[A-Za-z0-9_-]+", name) else value_of(name)


def value_of(value: Any) -> str:
    if isinstance(value, list):
        return f"[{', '.join(map(value_of, value))}]"
    if isinstance(value, datetime.datetime | datetime.date | datetime.time):
        return value.isoformat()
    return json.dumps(value, ensure_ascii=False).replace("\x7f", "\\u007f")
