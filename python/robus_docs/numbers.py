"""The numbers that texts of definitions stand for, as far as sums, products, fields of records and
equations lead to them. It is for small numbers of scenarios, such as the sync slot of a bus."""
from __future__ import annotations

import re
from dataclasses import dataclass, field
from pathlib import Path
from typing import Mapping, Optional

from robus_docs.atlas import definition_of
from robus_docs.source import Place, meaning_of, module
from robus_docs.texts import bare, parts_at, words_at

MOST_STEPS = 40  # definitions that are opened, one in another


@dataclass(frozen=True)
class Term:
    """A text, the file in which its words have their meaning, and the values of its variables."""
    text: str
    file: Path
    values: Mapping[str, Term] = field(default_factory=dict)

    def part(self, text: str) -> Term:
        """A part of it."""
        return Term(text, self.file, self.values)


def equations_of(place: Place) -> list[tuple[list[str], str]]:
    """The equations of a definition: the words to the left after its name, and what is right."""
    it, found = definition_of(place), []
    for line in it.lines[1:]:
        said = line.partition(" -- ")[0]
        if re.match(rf"{re.escape(it.name)}\b", said):
            left, _, right = said.partition("=")
            found.append((left.split()[1:], right.strip()))
        elif found:
            found[-1] = (found[-1][0], f"{found[-1][1]} {said.strip()}".strip())
    return found


def number(term: Term, steps: int = MOST_STEPS) -> Optional[int]:
    """The number of a term. None means that it is not found so."""
    text = bare(term.text)
    for sign in "+*":
        parts = parts_at(text, sign)
        if len(parts) > 1:
            values = [number(term.part(it), steps - 1) for it in parts]
            known = [it for it in values if it is not None]
            if len(known) < len(values):
                return None
            total = known[0]
            for it in known[1:]:
                total = total + it if sign == "+" else total * it
            return total
    if text.isdigit():
        return int(text)
    opened = step(term.part(text)) if steps else None
    return number(opened, steps - 1) if opened else None


def step(term: Term) -> Optional[Term]:
    """What a term stands for: the value of a variable, a field, or the right of an equation."""
    if not term.text:
        return None
    head, *others = words_at(term.text)
    found = re.fullmatch(r"(\(.*\)|\w+)((?:\.\w+)+)", term.text)
    if found and not others:
        names = found.group(2)[1:].split(".")
        owner: Optional[Term] = term.part(found.group(1))
        for name in names:
            owner = field_of(owner, name) if owner else None
        return owner
    if head in term.values:
        return term.values[head] if not others else None
    meant = meaning_of(module(term.file), head)
    if not isinstance(meant, tuple) or meant[0].suffix != ".antt":
        return None
    for left, right in equations_of(meant):
        given = [term.part(it) for it in others]
        if len(left) == len(given) and all(is_variable(name) or plain(it) == name
                                           for name, it in zip(left, given)):
            return Term(right, meant[0], dict(zip(left, given)))
    return None


def is_variable(word: str) -> bool:
    """Whether a word to the left of an equation is a variable, and no value that it asks for."""
    return word[0].islower() and word not in ("zero", "true", "false")


def plain(term: Term) -> str:
    """The text of a term, or of the value of the variable that it is."""
    while term.text in term.values:
        term = term.values[term.text]
    return bare(term.text)


def field_of(term: Term, name: str, steps: int = MOST_STEPS) -> Optional[Term]:
    """A field of the record that a term stands for."""
    text = bare(term.text)
    found = re.fullmatch(r"record\b(.*?)\{(.*)\}", text)
    if found:
        fields = dict(it.split(" = ", 1) for it in parts_at(found.group(2), ";") if " = " in it)
        if name in fields:
            return term.part(fields[name])
        base = found.group(1).strip()
        return field_of(term.part(base), name, steps - 1) if base and steps else None
    opened = step(term.part(text)) if steps else None
    return field_of(opened, name, steps - 1) if opened else None
