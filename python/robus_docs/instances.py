"""The premises of laws, and the computed cases that meet them.

A premise is what stands to the left of an arrow in the statement of a law, also in a predicate that
the statement ends with. A case states facts, each a clause. A case meets a premise if it states it
with values for the variables of the law, and cases meet the premises of a law together if the
values are the same in all of them."""
from __future__ import annotations

import functools
import re
from dataclasses import dataclass, field
from pathlib import Path
from typing import Iterator, Optional

from robus_docs.atlas import Atlas, crate_of, definition_of
from robus_docs.library import NO_LIBRARY
from robus_docs.numbers import Term, number
from robus_docs.source import Function, Place, meaning_of, module
from robus_docs.texts import bare, parts_at, words_at

RELATIONS = ("≡", "<", "≤")
MOST_STEPS = 4  # how many predicates at the ends of statements are opened, one in another
Values = dict[str, str]


@dataclass(frozen=True)
class Premise:
    """A premise of a law, as it stands in a file."""
    text: str
    file: Path
    variables: frozenset[str]
    predicate: Optional[Place]  # of the repository, if it is one applied to something
    within: Optional[Place]  # the predicate at the end of the statement whose premise it is


@dataclass(frozen=True)
class Fact:
    """What a case states."""
    case: Function
    text: str
    file: Path  # in which the words of the text have their meaning


@dataclass(frozen=True)
class Order:
    """A premise that compares two numbers, with the numbers of an instance."""
    left: int
    sign: str
    right: int

    @property
    def holds(self) -> bool:
        """Whether it is so."""
        return self.left < self.right + (self.sign == "≤")


@dataclass
class Instance:
    """Values for the variables of a law, and the facts that state its premises with them."""
    values: Values = field(default_factory=dict)
    facts: dict[Premise, Fact] = field(default_factory=dict)
    orders: dict[Premise, Order] = field(default_factory=dict)

    @property
    def cases(self) -> list[Function]:
        """The cases, each once."""
        return list({(it.case.file, it.case.name): it.case for it in self.facts.values()}.values())

    def meets(self, premise: Premise) -> bool:
        """Whether a fact states a premise, or its numbers do."""
        return premise in self.facts or (premise in self.orders and self.orders[premise].holds)

    def ordered(self, premise: Premise) -> Optional[Order]:
        """The numbers that a premise compares with these values. None means that it compares none,
        or that they are not known."""
        sign, *both = sides(premise.text)
        if sign not in ("<", "≤"):
            return None
        left, right = (number(self.term(it, premise)) for it in both)
        return None if left is None or right is None else Order(left, sign, right)

    def term(self, text: str, premise: Premise) -> Term:
        """A part of a premise with these values; a variable without one is nothing."""
        known = {it: Term("", premise.file) for it in premise.variables}
        for name, value in self.values.items():
            files = [it.file for it in self.facts.values() if value in it.text]
            known[name] = Term(value, files[0] if files else premise.file)
        return Term(text, premise.file, known)


def is_binder(part: str) -> bool:
    """Whether a part of a statement only names variables."""
    return all(re.match(r"[({][\w' ]+ : ", it) for it in words_at(part))


def statement_of(place: Place) -> tuple[list[str], str]:
    """The parameters of a definition that has one equation, and what it stands for."""
    it = definition_of(place)
    text = " ".join(line.partition(" -- ")[0] for line in it.lines)
    heads = [line for line in it.lines[1:] if re.match(rf"{re.escape(it.name)}\b", line)]
    if it.kind not in ("abbrev", "unfoldable") or len(heads) != 1:
        return [], ""
    said = text[text.index(heads[0].rstrip()):]
    left, _, right = said.partition("=")
    return left.split()[1:], right.strip()


def with_values(text: str, values: Values) -> str:
    """A text with values for its variables."""
    return re.sub(r"(?<![\w.'])[a-zA-Z_][\w']*", lambda it: values.get(it.group(0), it.group(0)),
                  text)


def premises_of(place: Place) -> tuple[Premise, ...]:
    """The premises of a law, in order."""
    _, text = statement_of(place)
    found: list[Premise] = []
    variables: set[str] = set()
    within: Optional[Place] = None
    for _ in range(MOST_STEPS):
        *before, end = parts_at(text, "→") or [""]
        for names in re.findall(r"[({]([\w' ]+) : ", " ".join(filter(is_binder, before))):
            variables.update(names.split())
        found += [Premise(it, place[0], frozenset(variables), predicate_in(it, place[0]), within)
                  for it in before if not is_binder(it)]
        head, *values = words_at(end) or [""]
        meant = meaning_of(module(place[0]), head)
        if not isinstance(meant, tuple) or meant[0].suffix != ".antt" or not head[0].isupper():
            break
        parameters, said = statement_of(meant)
        if not said or len(parameters) != len(values):
            break
        within = place = meant
        text = with_values(said, dict(zip(parameters, values)))
    return tuple(found)


def predicate_in(text: str, file: Path) -> Optional[Place]:
    """The predicate of the repository that a premise applies, also to each of a list."""
    words = words_at(text)
    head = words[1] if words[0] == "All" and len(words) > 1 else words[0]
    if set(words) & set(RELATIONS) or not head[0].isupper():
        return None
    meant = meaning_of(module(file), head)
    return meant if isinstance(meant, tuple) else None


def matched(said: str, stated: str, values: Values, variables: frozenset[str],
            loosely: bool = False) -> Optional[Values]:
    """The values with which a premise, or a part of it, is what a case states, or a part of that.
    What a premise computes may stand there as a number, and loosely in any words."""
    said, stated = bare(said), bare(stated)
    if said in variables:
        known = values.get(said, stated)
        return {**values, said: stated} if known == stated else None
    if with_values(said, values) == stated:
        return values
    mine, yours = words_at(said), words_at(stated)
    if len(mine) == 1:
        return field_matched(said, stated, values, variables, loosely)
    if len(mine) == len(yours) and mine[0] == yours[0]:
        known: Optional[Values] = values
        for one, other in zip(mine, yours):
            if known is not None:
                known = matched(one, other, known, variables, loosely)
        if known is not None:
            return known
    is_computed = mine[0][0].islower() and (loosely or stated.isdigit())
    return values if is_computed else None


def field_matched(said: str, stated: str, values: Values, variables: frozenset[str],
                  loosely: bool) -> Optional[Values]:
    """The values with which a field of something is what a case states."""
    found = re.fullmatch(r"(\(.*\)|\w+)((?:\.\w+)+)", said)
    if found and stated.endswith(found.group(2)):
        owner = stated.removesuffix(found.group(2))
        return matched(found.group(1), owner, values, variables, loosely)
    return values if found and stated.isdigit() else None


def opened(text: str, file: Path) -> str:
    """A text with the names of the tests in it, but for scenarios, as what they stand for."""
    def stands_for(found: re.Match[str]) -> str:
        meant = meaning_of(module(file), found.group(0))
        if not isinstance(meant, tuple) or not is_of_tests(meant[0]):
            return found.group(0)
        names, said = statement_of(meant)
        is_short = said and not names and not said.startswith("record")
        return f"({said})" if is_short else found.group(0)
    return re.sub(r"(?<![\w.'])[a-z]\w*", stands_for, text)


def is_of_tests(file: Path) -> bool:
    """Whether a file has definitions of computed cases alone."""
    return file.suffix == ".antt" and crate_of(file) in NO_LIBRARY


@functools.lru_cache(maxsize=None)
def sides(text: str) -> list[str]:
    """The relation of a text with what is before and behind it, or the text alone."""
    for sign in RELATIONS:
        parts = parts_at(text, sign)
        if len(parts) == 2:
            return [sign, *parts]
    return [text]


@functools.lru_cache(maxsize=None)
def key_in(text: str) -> tuple[str, str]:
    """The relation of a text and its first word: what a premise and a fact must have alike."""
    found = sides(text)
    head = words_at(bare(found[-2] if len(found) > 1 else text))[0]
    return (found[0] if len(found) > 1 else "", re.sub(r"^\(.*\)", "()", head))


def stated_by(premise: Premise, text: str, values: Values, loosely: bool) -> Optional[Values]:
    """The values with which a fact is a premise."""
    known: Optional[Values] = values
    for one, other in zip(sides(premise.text)[-2:], sides(text)[-2:]):
        if known is not None:
            known = matched(one, other, known, premise.variables, loosely)
    return known


class Instances:
    """The computed cases with what they state."""

    def __init__(self, atlas: Atlas) -> None:
        self.facts: dict[tuple[str, str], list[tuple[Fact, str]]] = {}
        for fact in (fact for it in atlas.computed for fact in facts_of(it)):
            for text in dict.fromkeys((fact.text, opened(fact.text, fact.file))):
                self.facts.setdefault(key_in(text), []).append((fact, text))

    def stating(self, premise: Premise, instance: Instance,
                loosely: bool = False) -> dict[Fact, Values]:
        """The facts that are a premise with the values of an instance, each with the values then
        known; loosely only facts of its own cases."""
        found: dict[Fact, Values] = {}
        parts = sides(premise.text)
        if parts[0] in RELATIONS and parts[1] in premise.variables:
            return found  # any fact would be about it
        if loosely and all(len(words_at(bare(it))) > 1 for it in words_at(premise.text)[1:]):
            return found  # no word of it would be sure
        for fact, text in self.facts.get(key_in(premise.text), []):
            if fact not in found and (not loosely or fact.case in instance.cases):
                values = stated_by(premise, text, instance.values, loosely)
                if values is not None:
                    found[fact] = values
        return found

    def of_law(self, premises: tuple[Premise, ...]) -> list[Instance]:
        """The instances that meet the most premises, the same ones, with the fewest cases and the
        most facts, one for the same cases."""
        found = [self.filled(it, premises) for it in self.extended(Instance(), premises)]
        order = [rank(it) for it in found]
        best: dict[tuple[str, ...], Instance] = {}
        for it, size in zip(found, order):
            if size == min(order) and it.facts:
                best.setdefault(tuple(case.name for case in it.cases), it)
        alike = [[premise for premise in premises if it.meets(premise)] for it in best.values()]
        return [it for it, met in zip(best.values(), alike) if met == alike[0]]

    def extended(self, instance: Instance, premises: tuple[Premise, ...]) -> Iterator[Instance]:
        """The instances that state these premises as well, as far as facts do."""
        if not premises:
            yield instance
            return
        found = self.stating(premises[0], instance)
        for fact, values in found.items():
            more = Instance(values, {**instance.facts, premises[0]: fact})
            yield from self.extended(more, premises[1:])
        if not found:
            yield from self.extended(instance, premises[1:])

    def filled(self, instance: Instance, premises: tuple[Premise, ...]) -> Instance:
        """An instance with the predicates that its cases state in other words, and its numbers."""
        for it in premises:
            if it.predicate and it not in instance.facts:
                for fact, values in self.stating(it, instance, True).items():
                    instance = Instance(values, {**instance.facts, it: fact})
                    break
        orders = {it: instance.ordered(it) for it in premises if it not in instance.facts}
        instance.orders = {it: order for it, order in orders.items() if order}
        return instance


def rank(instance: Instance) -> tuple[int, ...]:
    """How good an instance is, the best the least: none of its numbers is wrong, the most premises
    of the law and then of its conclusion are met, by few cases, and each by another fact."""
    met = [it for it in (*instance.facts, *instance.orders) if instance.meets(it)]
    return (sum(1 for it in instance.orders.values() if not it.holds),
            -sum(1 for it in met if not it.within), -len(met), len(instance.cases),
            -len(set(instance.facts.values())))


def facts_of(case: Function) -> Iterator[Fact]:
    """What the clauses of a case state, and the fields of a record of the tests that is one."""
    for clause in case.clauses:
        text = re.sub(r"\s+", " ", re.sub(r"//.*", "", clause.text)).strip()
        yield Fact(case, text, case.file)
        head, *values = words_at(text)
        meant = meaning_of(module(case.file), head)
        if isinstance(meant, tuple) and is_of_tests(meant[0]):
            yield from (Fact(case, it, meant[0]) for it in fields_of(meant, values))
        elif head == "All" and len(values) == 2:
            yield Fact(case, f"{values[0]} each_of_{values[1]}", case.file)


def fields_of(place: Place, values: list[str]) -> Iterator[str]:
    """What the fields of a record say with these values for its parameters."""
    it = definition_of(place)
    if it.kind == "record":
        names = " ".join(re.findall(r"\(([\w' ]+) : ", it.lines[0].partition(" : Type")[0])).split()
        for line in it.lines[1:]:
            if found := re.match(r"  pub \w+ : (.*)", line.partition(" -- ")[0]):
                yield with_values(found.group(1).strip(), dict(zip(names, values)))
