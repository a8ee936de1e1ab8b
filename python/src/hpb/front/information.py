"""The table `[information]` of a configuration: what names may know while the auction runs, and after it is unveiled (docs/FRONT.md)."""
from collections.abc import Mapping
from typing import Any

from hpb.front.core.information import Identities, Information, Rule
from hpb.front.faults import Wrong
from hpb.front.rights import OBSERVER, Role

Table = dict[str, Any]
FIELDS = {"running", "unveiled", "observers"}
RULE_FIELDS = {"identities", "count", "revenue"}
EXACT, CLOSES = "exact", "closes"


def read_information(given: Table, roles: Mapping[str, Role]) -> tuple[Information, dict[str, Role]]:
    """The rules of the table, and the roles with the lines that they add. A Wrong says what can't be."""
    for field in given:
        if field not in FIELDS:
            raise Wrong(f"information.{field}: there is no such field")
    running, unveiled = (read_rule(given.get(phase, {}), f"information.{phase}") for phase in ("running", "unveiled"))
    if not unveiled.shows_all_of(running):
        raise Wrong("information.unveiled hides what information.running shows, and nobody forgets it")
    observers = given.get("observers", [])
    if not isinstance(observers, list) or not all(isinstance(name, str) and is_observer(roles, name) for name in observers):
        raise Wrong("information.observers has to be a list of names that are observers")
    information = Information(running, unveiled, tuple(observers))
    return information, with_rules(information, roles)


def is_observer(roles: Mapping[str, Role], name: str) -> bool:
    return name in roles and roles[name].kind == OBSERVER


def with_rules(information: Information, roles: Mapping[str, Role]) -> dict[str, Role]:
    """The roles of an auction with these rules."""
    return {name: role._replace(has_rules=True, sees_all=name in information.observers) for name, role in roles.items()}


def read_rule(given: object, where: str) -> Rule:
    """The rule of one phase. What isn't named is shown."""
    if not isinstance(given, dict):
        raise Wrong(f"{where} has to be a table")
    for field in given:
        if field not in RULE_FIELDS:
            raise Wrong(f"{where}.{field}: there is no such field")
    identities, count, revenue = given.get("identities", Identities.ALL), given.get("count", EXACT), given.get("revenue", True)
    if identities not in list(Identities):
        raise Wrong(f"{where}.identities has to be {', '.join(repr(str(one)) for one in Identities)}")
    if count not in (EXACT, CLOSES):
        raise Wrong(f"{where}.count has to be {EXACT!r} or {CLOSES!r}")
    if not isinstance(revenue, bool):
        raise Wrong(f"{where}.revenue has to be true or false")
    return Rule(Identities(identities), count == EXACT, revenue)


def table_of(information: Information) -> Table:
    """The table that these rules are read from."""
    rules = {"running": information.running, "unveiled": information.unveiled}
    tables = {
        phase: {"identities": str(rule.identities), "count": EXACT if rule.is_count_exact else CLOSES, "revenue": rule.has_revenue}
        for phase, rule in rules.items()
    }
    return {**tables, "observers": list(information.observers)}
