"""Keeps the front's words out of its own files: a standard stream may lead into one of them (docs/FRONT.md).

This is looked at before anything is said, even if the arguments and the configuration are wrong.
"""
import contextlib
import os
import pathlib
import stat
import tomllib
from collections.abc import Iterator, Sequence

from hpb.front.files import Identity, Kept, identities, of_change, of_log, of_record
from hpb.own_files import read_regular
from hpb.streams import STANDARD_ERROR, STANDARD_OUTPUT

STREAMS = {STANDARD_OUTPUT: "standard output", STANDARD_ERROR: "standard error"}
CONFIG = "--config"
CHANGED_FIELDS, OTHER_FIELDS = ("file", "tokens"), ("certificate", "key", "program")
# No log has more files.
MOST_LOGS = 1_000


def streams_lead_astray(words: Sequence[str]) -> bool:
    """Whether standard output or standard error leads into a file of the front with these arguments. The other stream says so, if it can be
    used."""
    leads = {number: found for number in STREAMS if (found := regular(number))}
    if not leads:
        return False
    named = [known for config in configs_in(words) for known in files_of(config)]
    into = {number: (field, name) for field, name in named for number, found in leads.items() if found in identities(name)}
    for number, (field, name) in into.items():
        said = f"front: {STREAMS[number]} leads to {name}, which is the {field} or stands beside it: lead it elsewhere\n"
        for other in STREAMS.keys() - into.keys():
            with contextlib.suppress(OSError):
                os.write(other, said.encode(errors="backslashreplace"))
    return bool(into)


def regular(stream: int) -> Identity | None:
    status = os.fstat(stream)
    return (status.st_dev, status.st_ino) if stat.S_ISREG(status.st_mode) else None


def configs_in(words: Sequence[str]) -> Iterator[str]:
    """Each configuration that the arguments name, by an abbreviated option as well. If there are several, and the arguments are right, the
    last one counts."""
    for place, word in enumerate(words):
        name, is_joined, value = word.partition("=")
        if len(name) > 2 and CONFIG.startswith(name):
            yield from [value] if is_joined else words[place + 1 : place + 2]


def files_of(config: str) -> Iterator[tuple[str, str]]:
    """Each file that a configuration names, and the names of the files made beside it, as far as the configuration can be read."""
    try:
        path = pathlib.Path(os.path.realpath(config))
    except OSError:  # The folder in which it was started is gone.
        return
    yield "configuration", str(path)
    for kept in kept_in(path):
        for name in (kept.path, *kept.made()):
            yield kept.field, name


def kept_in(path: pathlib.Path) -> Iterator[Kept]:
    try:
        given = tomllib.loads(read_regular(str(path)).decode())
    except (OSError, ValueError, RecursionError):
        return
    texts = {field: str(path.parent / value) for field, value in given.items() if isinstance(value, str)}
    yield from (of_change(field, texts[field]) for field in CHANGED_FIELDS if field in texts)
    yield from (Kept(field, texts[field]) for field in OTHER_FIELDS if field in texts)
    if "record" in texts:
        yield of_record(texts["record"])
        yield of_log(f"{texts['record']}.log", MOST_LOGS)
    log = given.get("log")
    if isinstance(log, dict) and isinstance(log.get("to"), str):
        yield of_log(str(path.parent / log["to"]), MOST_LOGS)
