"""Serves an auction by HTTP: `/v1` for programs, and pages to bid and to run a round on. It asks a front, as any client does.

    tools/web --config web.toml
    tools/web --config web.toml --enrol ann

Once it can be reached, it writes `WEB` and its address. Each request is that of the name whose token came with it, and has no other
rights. The interface is described by `/v1/openapi.json`, and the configuration in python/README.md. `--enrol` gives a name a secret for
codes of its app. Standard error has a line of JSON for each time that a name signs in or out, and for each token that nobody knows.

The status is 0 after a signal to stop, 1 if the site can't be served, and 2 if the arguments or the configuration are wrong. Needs
Python 3.11 and aiohttp.
"""
import asyncio
import pathlib
import signal
import sys
from typing import TYPE_CHECKING

from hpb.commands import parser
from hpb.commands.shell import from_shell, say
from hpb.refusals import HpbError, says

if TYPE_CHECKING:
    from hpb.web.config import Config
    from hpb.web.notes import Notes

_FAILED, _WRONG = 1, 2


@from_shell
def main() -> int:
    """Reads the arguments, and returns the status."""
    words = parser(__doc__)
    words.add_argument("--config", required=True, type=pathlib.Path, help="the site's configuration")
    words.add_argument("--enrol", metavar="NAME", help="gives this name a secret for codes, writes the address for its app, and ends")
    given = words.parse_args()
    try:
        from hpb.web.config import Wrong, read_config
        from hpb.web.notes import noted
    except ModuleNotFoundError as fault:
        say(f"{fault.name} isn't installed: the site needs aiohttp")
        return _FAILED
    try:
        config = read_config(given.config)
    except Wrong as fault:
        say(says(fault))
        return _WRONG
    try:
        if given.enrol is not None:
            return _enrol(config, given.enrol)
        with noted() as notes:
            asyncio.run(_run(config, notes))
    except HpbError as fault:
        say(says(fault))
        return _FAILED
    return 0


def _enrol(config: "Config", name: str) -> int:
    """A secret for a name, in the file of codes."""
    from hpb.web.factors import enrol

    if config.codes is None:
        say("codes: missing in the configuration")
        return _WRONG
    print(enrol(config.codes, name, config.title))
    return 0


async def _run(config: "Config", notes: "Notes") -> None:
    """Serves until a signal to stop."""
    from hpb.web.server import serve

    until, loop = asyncio.Event(), asyncio.get_running_loop()
    for number in (signal.SIGTERM, signal.SIGINT, signal.SIGHUP):
        loop.add_signal_handler(number, until.set)
    await serve(config, notes, lambda address: print(f"WEB {address}", flush=True), until)


if __name__ == "__main__":
    sys.exit(main())
