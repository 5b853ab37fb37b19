"""Refusals of a scenario for values out of their range: numbers, names, pairs, lengths, entries
that are there twice."""
from __future__ import annotations

import re
from typing import Any, Callable, Iterator

from robus.forms import FIELDS, SAYINGS, Broken, tables_of, title
from robus.keys import RANGES
from robus.locate import Place
from robus.model import BIU, RMU, TAIL, model

WORD = (1 << 32) - 1
LETTERS = "BR"


class Values:
    """A document's values, asked for by place: nothing if a value is missing or of another
    form."""

    def __init__(self, document: model.Document) -> None:
        self.document = document
        self.tables = {place: (name, table) for place, name, table in tables_of(document)}
        self.biu, self.rmu, self.slots, self.frames = (
            self.ranged(key) for key in ("biu", "rmu", "slots", "frames"))
        sizes = self.biu, self.rmu, self.slots
        self.sync = None if None in sizes else 2 * self.biu + self.rmu + self.slots
        self.plan = self.whole_plan()

    def get(self, place: Place, key: str, default: Any = None) -> Any:
        """The value at a key of the table at this place, or the default if it is missing or of
        another form."""
        name, table = self.tables.get(place, ("root", {}))
        return table[key] if key in table and FIELDS[name][key][1](table[key]) else default

    def ranged(self, key: str) -> int | None:
        """The number at a key of the root, if it is in its range."""
        value = self.get((), key)
        return value if value is not None and RANGES[key][0] <= value <= RANGES[key][1] else None

    def size(self, kind: int) -> int | None:
        """How many nodes of a kind there are, if that is known."""
        return self.rmu if kind else self.biu

    def whole_plan(self) -> model.Plan | None:
        """The plan, if each number of it is in its range."""
        table = self.document.get("plan", {})
        keys = FIELDS["plan"]
        if not isinstance(table, dict) or any(key not in keys or not keys[key][1](value)
                                              for key, value in table.items()):
            return None
        plan = model.Plan(**table)
        in_range = all(low <= getattr(plan, key) <= high
                       for key, (low, high) in model.PLAN_RANGES.items())
        return plan if in_range and plan.r < plan.u and plan.dmin <= plan.dmax else None

    def entries(self, name: str) -> list[Place]:
        """The places of all entries of a name, as of all [[say]]."""
        return [place for place, (it, _) in self.tables.items() if it == name]

    def node(self, text: str | None) -> model.Node | None:
        """The node of a name, as (kind, number), if the bus has one."""
        if text is None or not re.fullmatch(r"[BR](0|[1-9][0-9]?)", text, re.ASCII):
            return None
        kind, number = LETTERS.index(text[0]), int(text[1:])
        return (kind, number) if self.size(kind) is None or number < self.size(kind) else None

    def end(self, text: str | None) -> model.Pattern | None:
        """A node, or (kind, None) for all of a kind."""
        return (LETTERS.index(text), None) if text in ("B", "R") else self.node(text)

    def pair(self, place: Place, key: str, low: int, high: int | None,
             default: list[int] | None = None) -> model.Pair | None:
        """A pair, if it is one and in range."""
        value = self.get(place, key, default)
        if value is None or high is None or not low <= value[0] <= value[1] <= high:
            return None
        return tuple(value)


def number(values: Values, place: Place, key: str, low: int, high: int | None,
           why: str = "") -> Iterator[Broken]:
    """A number that is out of its range; nothing if the range is not known."""
    value = values.get(place, key)
    if value is not None and high is not None and not low <= value <= high:
        yield 5, place + (key,), f"{key} is to be {low}{f' to {high}' if low < high else ''}{why}"


def pair(values: Values, place: Place, key: str, low: int, high: int | None,
         why: str = "") -> Iterator[Broken]:
    """A pair that is out of its range or falls; nothing if the range is not known."""
    value = values.get(place, key)
    if value is None or high is None:
        return
    if not (low <= value[0] <= high and low <= value[1] <= high):
        yield 5, place + (key,), f"{key} is to lie within {low} to {high}{why}"
    elif value[0] > value[1]:
        yield 5, place + (key,), f"{key} is to have its lower end first"


def node_name(values: Values, place: Place, key: str,
              find: Callable[[str], model.Pattern | None]) -> Iterator[Broken]:
    """A name of which `find` finds no node."""
    text = values.get(place, key)
    if text is None or find(text) is not None:
        return
    if re.fullmatch(r"[br][0-9]*", text):
        why = f"names have capital letters: {text.upper()}"
    elif text[:1] in ("B", "R") and text[1:].isdigit() and (text[1:] == "0" or text[1:2] != "0"):
        kind = LETTERS.index(text[0])
        size = values.size(kind)
        why = (f"the bus has {text[0]}0 to {text[0]}{size - 1}" if size else
               "there are at most 16 of a kind")
    else:
        has_all = find == values.end
        why = 'names are as "B0" and "R2"' + (', or "B" and "R" for all' if has_all else "")
    yield 5, place + (key,), f"{key} names no node: {why}"


def of_root(values: Values) -> Iterator[Broken]:
    """What is wrong with the values of the root."""
    for key in ("biu", "rmu", "slots", "frames", "delay", "version", "probation"):
        yield from number(values, (), key, *RANGES[key])
    version = values.get((), "version", 1)
    high, why = (255, "") if version == 2 else (
        0, " in version 1; the number of a bus wants version = 2")
    yield from number(values, (), "bus", 0, high, why)
    for key, high in (("requests", 64), ("words", WORD)):
        found = values.get((), key)
        for index, value in enumerate(found or []):
            if not 0 <= value <= high:
                yield 5, (key, index), f"each of {key} is to be 0 to {high}"
    for index, app in enumerate(values.get((), "apps") or []):
        if app not in ("table", "counter", "follow"):
            yield 5, ("apps", index), 'an application is "table", "counter" or "follow"'
    for key in ("requests", "words", "apps"):
        found = values.get((), key)
        if found is not None and values.biu is not None and len(found) != values.biu:
            yield 5, (key,), (
                f"{key} is to have one for each of the {values.biu} BIUs, and has {len(found)}")


def of_plan(values: Values) -> Iterator[Broken]:
    """What is wrong with the numbers of the plan."""
    place = ("plan",)
    for key in FIELDS["plan"]:
        yield from number(values, place, key, *RANGES[key])
    plan = {key: values.get(place, key, getattr(model.Plan(), key))
            for key in ("u", "r", "dmin", "dmax")}
    if RANGES["r"][0] <= plan["r"] <= RANGES["r"][1] and plan["r"] >= plan["u"]:
        yield 5, place + ("r",), f'r is to be below u, which is {plan["u"]}'
    if plan["dmin"] > plan["dmax"]:
        key = "dmin" if values.get(place, "dmin") is not None else "dmax"
        yield 5, place + (key,), (
            f'dmin is to be at most dmax, and they are {plan["dmin"]} and {plan["dmax"]}')


def twice(values: Values, name: str) -> Iterator[Broken]:
    """Entries of a node that has one of this name already."""
    first: dict[model.Pattern | None, Place] = {}
    for place in values.entries(name):
        node = values.node(values.get(place, "node"))
        if node in first and node is not None:
            yield 5, place + ("node",), (
                f'{values.get(place, "node")} has an entry already: {title(first[node])}')
        first.setdefault(node, place)


def of_clocks(values: Values) -> Iterator[Broken]:
    """What is wrong with the [[clock]] entries."""
    for place in values.entries("clock"):
        yield from node_name(values, place, "node", values.node)
        yield from number(values, place, "start", 0, 10**12)
        for index, (first, length) in enumerate(values.get(place, "ticks") or []):
            for spot, what, value, low, high in ((0, "a first tick", first, 0, model.MAX_TICKS),
                                                 (1, "a length", length, 1, 2_000_000)):
                if not low <= value <= high:
                    yield 5, place + ("ticks", index, spot), f"{what} is to be {low} to {high}"
    yield from twice(values, "clock")


def two_kinds(values: Values, place: Place) -> Iterator[Broken]:
    """An entry whose two ends are of one kind."""
    source, target = values.end(values.get(place, "from")), values.end(values.get(place, "to"))
    if source and target and source[0] == target[0]:
        yield 5, place + ("to",), (
            "to is to be of the other kind: links are between a BIU and an RMU")


def of_links(values: Values) -> Iterator[Broken]:
    """What is wrong with the [[link]] entries."""
    last = None if values.frames is None else values.frames - 1
    for place in values.entries("link"):
        for key in ("from", "to"):
            yield from node_name(values, place, key, values.end)
        yield from two_kinds(values, place)
        yield from number(values, place, "delay", *RANGES["delay"])
        yield from pair(values, place, "frames", 0, last)
        yield from pair(values, place, "slots", 0, values.sync)
        yield from pair(values, place, "stages", 1, 3)


def of_faults(values: Values) -> Iterator[Broken]:
    """What is wrong with the [[fault]] entries."""
    last = None if values.frames is None else values.frames - 1
    for place in values.entries("fault"):
        yield from node_name(values, place, "node", values.node)
        yield from number(values, place, "frame", 0, last)
        yield from number(values, place, "slot", 0, values.sync)
    yield from twice(values, "fault")


def of_saying(values: Values, place: Place) -> Iterator[Broken]:
    """What is wrong with what a [[say]] entry says."""
    table = values.tables[place][1]
    said = [key for key in SAYINGS if key in table]
    if len(said) > 1:
        yield 5, place + (said[1],), (
            'one of word, fault, sync and raw is wanted, and there are '
            f'{" and ".join(said)}')
    for key in ("fault", "sync"):
        if values.get(place, key) is False:
            yield 5, place + (key,), f"{key} is to be true, or to be left out"
    yield from number(values, place, "word", 0, WORD)
    raw = values.get(place, "raw")
    if raw is not None and not re.fullmatch(r"([0-9a-fA-F]{2}){1,32}", raw, re.ASCII):
        yield 5, place + ("raw",), (
            f"raw is to be 2 to 64 hexadecimal digits, two for each byte, and is {len(raw)} "
            "characters")


def of_says(values: Values) -> Iterator[Broken]:
    """What is wrong with the [[say]] entries."""
    last = None if values.frames is None else values.frames - 1
    for place in values.entries("say"):
        yield from node_name(values, place, "from", values.node)
        yield from node_name(values, place, "to", values.end)
        yield from two_kinds(values, place)
        yield from pair(values, place, "frames", 0, last)
        yield from pair(values, place, "slots", 0, values.sync)
        yield from pair(values, place, "stages", 1, TAIL)
        yield from of_saying(values, place)
        yield from of_ticks(values, place)


def of_ticks(values: Values, place: Place) -> Iterator[Broken]:
    """The offset and how early, which go by the windows of the ranges."""
    slots = values.pair(place, "slots", 0, values.sync)
    stages = values.pair(place, "stages", 1, TAIL)
    if values.plan is None or slots is None or stages is None:
        return
    in_sync_slot = slots == (values.sync, values.sync)
    if stages[1] == TAIL and not in_sync_slot:
        yield 5, place + ("stages",), (
            f"stage 4, the tail, is in the sync slot alone: slots is to be [{values.sync}, "
            f"{values.sync}]")
        return
    bus = model.Bus(values.biu, values.rmu, values.slots, values.plan)
    least = min(bus.length_of(slot, stage) for slot in set(slots)
                for stage in range(stages[0], stages[1] + 1))
    if "offset" in values.tables[place][1]:
        why = f": the shortest window of the ranges has {least} ticks"
        yield from number(values, place, "offset", 0, least - 1, why)
    most = values.plan.u - values.plan.r - 1 if in_sync_slot else 0
    why = "" if in_sync_slot else ": a message comes early in the sync slot alone"
    yield from number(values, place, "early", 0, most, why)


def findings(values: Values) -> Iterator[Broken]:
    """All values that are out of their range: code 5, the place, why."""
    for rule in (of_root, of_plan, of_clocks, of_links, of_faults, of_says):
        yield from rule(values)


__all__ = ["BIU", "RMU", "Values", "findings"]
