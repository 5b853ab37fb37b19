"""The values of a document: those that are in their ranges, and the bus that they are."""
from __future__ import annotations

import re

from .answers import refuse
from .bus import Bus
from .forms import Document
from .names import LETTERS, Node, Pair, Pattern
from .plan import PLAN_RANGES, Plan


def within(value: int, least: int, most: int) -> int:
    """The value, if it is in the range; else refused by rule 5."""
    if not least <= value <= most:
        refuse(5)
    return value


def node_in(bus: Bus, text: str) -> Node:
    """The node of a name; refused by rule 5 if the bus has none of it."""
    if not re.fullmatch(r"[BR](0|[1-9][0-9]?)", text, re.ASCII):
        refuse(5)
    kind, number = LETTERS.index(text[0]), int(text[1:])
    within(number, 0, bus.size(kind) - 1)
    return kind, number


def pattern_in(bus: Bus, text: str) -> Pattern:
    """The node of a name, or all nodes of a kind for B or R."""
    return (LETTERS.index(text), None) if text in ("B", "R") else node_in(bus, text)


def pair_in(pair: list[int], least: int, most: int) -> Pair:
    """The pair, if its first is not above its last and both are in the range; else refused by
    rule 5."""
    within(pair[0], least, most)
    within(pair[1], pair[0], most)
    return tuple(pair)


def list_in(document: Document, key: str, count: int, default: int, least: int = 0,
            most: int = (1 << 32) - 1) -> list[int]:
    """The numbers at a key, one for each of the count, or the default `count` times; refused by
    rule 5 where one is out of the range."""
    values = document.get(key, [default] * count)
    if len(values) != count:
        refuse(5)
    return [within(value, least, most) for value in values]


def plan_in(table: Document) -> Plan:
    """The timing plan that a table says, with the defaults for what it leaves out."""
    plan = Plan(**table)
    for key, (least, most) in PLAN_RANGES.items():
        within(getattr(plan, key), least, most)
    within(plan.r, 0, plan.u - 1)
    within(plan.dmin, 1, plan.dmax)
    return plan


def bus_in(document: Document) -> Bus:
    """The bus that a document says."""
    version = within(document.get("version", 1), 1, 2)
    return Bus(
        within(document["biu"], 1, 16),
        within(document["rmu"], 1, 16),
        within(document["slots"], 1, 64),
        plan_in(document.get("plan", {})),
        version,
        within(document.get("bus", 0), 0, 255 if version == 2 else 0),
        within(document.get("probation", 0), 0, 4096),
    )


def apps_in(document: Document, count: int) -> list[str]:
    """The application behind each BIU."""
    apps = document.get("apps", ["table"] * count)
    if len(apps) != count or any(app not in ("table", "counter", "follow") for app in apps):
        refuse(5)
    return apps
