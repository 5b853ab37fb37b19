"""Refusals of a scenario for its keys and forms: a key that is missing, one that there is not, a
value of another form."""
from __future__ import annotations

import difflib
from typing import Iterable, Iterator

from robus.keys import TABLES, may_stand
from robus.locate import Place
from robus.model import model

FIELDS: dict[str, model.Fields] = {
    "root": model.ROOT_FIELDS, "plan": model.PLAN_FIELDS, **model.ENTRY_FIELDS}
SAYINGS = model.SAYINGS
Broken = tuple[int, Place, str]  # the code of the rule that is broken, the place, and why


def tables_of(document: model.Document) -> Iterator[tuple[Place, str, model.Document]]:
    """Each table of a document that has keys of its own: its place, its name, the table."""
    yield (), "root", document
    if isinstance(document.get("plan"), dict):
        yield ("plan",), "plan", document["plan"]
    for name in model.ENTRY_FIELDS:
        entries = document.get(name)
        for number, entry in enumerate(entries if isinstance(entries, list) else []):
            if isinstance(entry, dict):
                yield (name, number), name, entry


def title(place: Place) -> str:
    """A table's name for a reader: `say 3` is the third [[say]]."""
    if not place:
        return "the document"
    return "plan" if place == ("plan",) else f"{place[0]} {place[1] + 1}"


def near(key: str, keys: Iterable[str]) -> str | None:
    """The key that a misspelt one is nearest to, if any is near."""
    found = difflib.get_close_matches(key.lower(), list(keys), 1, 0.6)
    return found[0] if found else None


def elsewhere(key: str, table: str) -> str:
    """In which other tables there is a key of this name, in words."""
    spelt = {"root": "at the root", "plan": "in plan"}
    there = [name for name, keys in TABLES.items() if name != table and key in keys]
    return ", ".join(spelt.get(name, f"in [[{name}]]") for name in there)


def missing(place: Place, name: str, table: model.Document) -> Iterator[Broken]:
    """The keys that a table must have and has not."""
    for key, (is_required, _) in FIELDS[name].items():
        if is_required and key not in table:
            typo = next((it for it in table
                         if it not in FIELDS[name] and near(it, FIELDS[name]) == key), None)
            why = f"{title(place)} has no {key}: {may_stand(name, key)}"
            hint = f"; is it what is spelt {typo} here?" if typo else ""
            yield 2, place + ((typo,) if typo else ()), why + hint
    if name == "say" and not any(key in table for key in SAYINGS):
        yield 2, place, (
            f"{title(place)} says nothing: one of word, fault, sync and raw is wanted")


def unknown(place: Place, name: str, table: model.Document) -> Iterator[Broken]:
    """The keys of a table that there are not."""
    for key in table:
        if key not in FIELDS[name]:
            left = [it for it in FIELDS[name] if it not in table] or FIELDS[name]
            like, other = near(key, left), elsewhere(key, name)
            hint = (f"did you mean {like}?" if like else f"it is a key {other}" if other else
                    f"there are {', '.join(FIELDS[name])}")
            yield 3, place + (key,), f"{title(place)} has no key {key}: {hint}"


def of_another_form(place: Place, name: str, table: model.Document) -> Iterator[Broken]:
    """The keys of a table whose values have another form."""
    for key, value in table.items():
        if key in FIELDS[name] and not FIELDS[name][key][1](value):
            yield 4, place + (key,), f"{key} is to be {may_stand(name, key)}"


def findings(document: model.Document) -> Iterator[Broken]:
    """All that is wrong with keys and forms: the rule's code, the place, why."""
    for table in tables_of(document):
        for rule in (missing, unknown, of_another_form):
            yield from rule(*table)
