"""The tables `[rounds]` and `[closing]` of a configuration (docs/ROUNDS.md)."""
import datetime
import zoneinfo
from collections.abc import Mapping
from typing import Any

from hpb.front.core.clock import WARNINGS, Closing, Plan
from hpb.front.faults import Wrong
from hpb.front.rights import OBSERVER, Role
from hpb.front.times import UTC, NoTime, Zone, in_zone, read_time

Table = dict[str, Any]
FIELDS = {"zone", "windows", "first", "length_seconds", "gap_seconds", "may_end", "warn_seconds", "unsynchronised"}
CLOSING_FIELDS = {"plain", "second"}
# A day, in seconds: nothing is longer.
MOST_SECONDS = 86_400
MOST_WINDOWS = 1_000


def read_plan(given: Table) -> Plan:
    """The plan of the table `[rounds]`. A Wrong says what can't be."""
    for field in given:
        if field not in FIELDS:
            raise Wrong(f"rounds.{field}: there is no such field")
    zone = read_zone(given.get("zone", "UTC"))
    warnings = tuple(sorted({seconds_of(one, "rounds.warn_seconds") for one in list_of(given, "warn_seconds", WARNINGS)}, reverse=True))
    windows = read_windows(list_of(given, "windows", []), zone)
    truths = {field: truth(given, field) for field in ("may_end", "unsynchronised")}
    first, length, gap = None, 0, 0
    if "first" in given:
        if windows:
            raise Wrong("rounds: give windows, or first with length_seconds and gap_seconds")
        first = time_of(given["first"], zone, "rounds.first")
        length = seconds_of(given.get("length_seconds"), "rounds.length_seconds")
        gap = seconds_of(given.get("gap_seconds", 0), "rounds.gap_seconds", 0)
    elif "length_seconds" in given or "gap_seconds" in given:
        raise Wrong("rounds.first has to be there with length_seconds: when the first round opens")
    return Plan(zone, windows, first, length, gap, truths["may_end"], warnings, truths["unsynchronised"])


def read_zone(name: object) -> Zone:
    if name == "UTC":
        return UTC
    try:
        return zoneinfo.ZoneInfo(str(name))
    except (zoneinfo.ZoneInfoNotFoundError, ValueError, OSError):
        raise Wrong(f"rounds.zone: {name!r} is no zone that this machine knows, as Europe/Berlin is") from None


def read_windows(given: list[Any], zone: Zone) -> tuple[tuple[float, float], ...]:
    """The windows, each of which begins at the end of the one before, or later."""
    windows = list[tuple[float, float]]()
    if len(given) > MOST_WINDOWS:
        raise Wrong(f"rounds.windows: {len(given)} are more than {MOST_WINDOWS:,}")
    for place, pair in enumerate(given):
        where = f"rounds.windows[{place}]"
        if not isinstance(pair, list) or len(pair) != 2:
            raise Wrong(f"{where} has to be a list of two times: when a round opens, and when it ends")
        opens, until = (time_of(one, zone, where) for one in pair)
        if until <= opens or (windows and opens < windows[-1][1]):
            raise Wrong(f"{where} ends before it opens, or opens before the end of the one before")
        windows.append((opens, until))
    return tuple(windows)


def time_of(given: object, zone: Zone, where: str) -> float:
    """A time of TOML, or a text of one. Without an offset it is of the zone."""
    try:
        if isinstance(given, datetime.datetime):
            if given.microsecond:
                raise NoTime("it has parts of a second")
            return given.timestamp() if given.tzinfo else in_zone(given, zone)
        if isinstance(given, str):
            return read_time(given, zone)
    except NoTime as fault:
        raise Wrong(f"{where}: {fault}") from None
    raise Wrong(f"{where}: {given!r} is no time as 2026-12-02T09:30:00 is")


def list_of(given: Table, field: str, default: object) -> list[Any]:
    value = given.get(field, list(default) if isinstance(default, tuple) else default)
    if not isinstance(value, list):
        raise Wrong(f"rounds.{field} has to be a list")
    return value


def seconds_of(value: object, where: str, least: int = 1) -> int:
    if not isinstance(value, int) or isinstance(value, bool) or not least <= value <= MOST_SECONDS:
        raise Wrong(f"{where}: {value!r} is no number from {least} to {MOST_SECONDS:,}")
    return value


def truth(given: Table, field: str, table: str = "rounds") -> bool:
    value = given.get(field, False)
    if not isinstance(value, bool):
        raise Wrong(f"{table}.{field} has to be true or false")
    return value


def read_closing(given: Table, roles: Mapping[str, Role], plan: Plan | None) -> tuple[Closing, dict[str, Role]]:
    """The rule of the table `[closing]`, and the roles with the names that may agree to a close that ends the auction."""
    for field in given:
        if field not in CLOSING_FIELDS:
            raise Wrong(f"closing.{field}: there is no such field")
    second = given.get("second", [])
    if not isinstance(second, list) or not all(isinstance(name, str) and name in roles and roles[name].kind == OBSERVER for name in second):
        raise Wrong("closing.second has to be a list of names that are observers")
    closing = Closing(truth(given, "plain", "closing"), bool(second))
    if second and (closing.is_plain or (plan and plan.may_end)):
        raise Wrong("closing.second: a close that ends the auction needs a second name, and plain or rounds.may_end let it do without")
    return closing, {name: role._replace(agrees=True) if name in second else role for name, role in roles.items()}
