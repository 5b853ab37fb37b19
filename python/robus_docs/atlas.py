"""All that the pages show: definitions, types, calls, laws and mutants, where each has its place on
a page, and how they hang together."""
from __future__ import annotations

import functools
import re
from dataclasses import dataclass
from pathlib import Path
from typing import Iterator, Optional

from robus_docs.library import NO_LIBRARY, Call, Library, libraries
from robus_docs.source import (CRATES, TOP, Definition, Function, Place, crates, definitions_of,
                               meanings, module, named_by, sources_of, text_of)

COMPUTED = ("rb_test_rules", "rb_test_bridge_rules")
OF_RULES = ("rb_rules", "rb_base", "rb_rules_bridge")
CITED = ("PROMISES", "RULES", "MUTANTS")  # their sentences are shown beside what they name


@dataclass(frozen=True)
class Mutant:
    """A change of a body that the contracts refuse."""
    crate: str
    name: str
    file: str
    changes: tuple[tuple[str, str], ...]  # what is in the body, and what is there instead
    is_in_gate: bool


def crate_of(file: Path) -> str:
    """The crate of a file."""
    return file.relative_to(CRATES).parts[0]


def definition_of(place: Place) -> Definition:
    """The definition or type at a place."""
    return module(place[0]).blocks[place[1]]


def key_of(place: Place) -> str:
    """A name for a place that no other has."""
    return f"{crate_of(place[0])}.{place[0].stem}.{place[1]}"


def url_of(place: Place) -> str:
    """The page and anchor of a definition or type."""
    file, name = place
    if file.suffix == ".rt":
        return f"crates/{crate_of(file)}.html#{file.stem}.{name}"
    return f"definitions/{crate_of(file)}/{file.stem}.html#{name}"


def call_anchor(name: str) -> str:
    """The anchor of a call on the page of its crate."""
    return "call." + name.replace("::", ".")


def is_law(crate: str) -> bool:
    """Whether the calls of a crate are laws."""
    return crate.startswith("rb_laws_")


def call_url(crate: str, name: str) -> str:
    """The page and anchor of a call; that of a law is a page of its own."""
    if is_law(crate):
        return f"laws/{crate}/{name.replace('::', '.')}.html"
    return f"crates/{crate}.html#{call_anchor(name)}"


@functools.lru_cache(maxsize=None)
def mutants_of(crate: str) -> tuple[Mutant, ...]:
    """The mutants of a crate: those of each gate, then the others."""
    found = []
    folders = (CRATES / crate / "must-fail", TOP / "tests/wrong_bodies" / crate)
    for folder in folders:
        for path in sorted(folder.glob("*.edit")):
            file, *changes = re.split(r"(?m)^(?:file|old|new): ?", text_of(path).rstrip())[1:]
            pairs = zip(changes[::2], changes[1::2])
            found.append(Mutant(crate, path.stem, file.strip(),
                                tuple((old.rstrip("\n"), new.rstrip("\n")) for old, new in pairs),
                                folder == folders[0]))
    return tuple(found)


def mutant_url(crate: str, name: str) -> str:
    """The page and anchor of a mutant."""
    return f"crates/{crate}.html#mutant.{name}"


def sentences_of(document: str) -> Iterator[tuple[str, str]]:
    """The sentences and rows of a document that name code, each with the anchor of its heading."""
    anchor = ""
    for block in re.split(r"\n\s*\n", text_of(TOP / f"docs/{document}.md")):
        if found := re.match(r"#+ (.*)", block):
            anchor = anchor_of(found.group(1))
            continue
        for item in re.split(r"\n(?=- |\|)", block):
            if item.startswith("|"):
                item = " · ".join(it.strip() for it in item.strip("|").split("|"))
            said = re.sub(r"\s+", " ", item.removeprefix("- "))
            for sentence in re.split(r"(?<=\.) (?=[A-Z`])", said):
                if "`" in sentence:
                    yield anchor, sentence.strip()


def anchor_of(heading: str) -> str:
    """The anchor of a heading."""
    kept = re.sub(r"[^\w\s-]", "", heading.replace("`", "").lower())
    return re.sub(r"\s+", "-", kept.strip())


def is_instance(law: Function) -> bool:
    """Whether a law is a computed instance: it states more than the name of a definition."""
    return not all(re.fullmatch(r"\w+", it.text) for it in law.clauses)


class Atlas:
    """Definitions and calls with those that name them."""

    def __init__(self) -> None:
        self.libraries = {crate: Library(crate) for crate in libraries()}
        self.places = [(file, name) for crate in crates()
                       for file in (*definitions_of(crate), *sources_of(crate))
                       for name in module(file).blocks]
        self.users: dict[Place, list[Place]] = {}
        for place in self.places:
            for other in named_by(place)[0]:
                self.users.setdefault(other, []).append(place)
        self.callers: dict[Place, list[tuple[str, str]]] = {}
        for crate, name, call in self.calls():
            for place in self.in_contract(call):
                self.callers.setdefault(place, []).append((crate, name))

    def calls(self) -> Iterator[tuple[str, str, Call]]:
        """Each public call with its crate and its name."""
        for crate, library in self.libraries.items():
            for name, calls in library.calls.items():
                yield from ((crate, name, call) for call in calls)
            for file in sources_of(crate):
                for it in module(file).functions:
                    if it.is_exported and it.full_name not in library.calls:
                        yield crate, it.full_name, Call(it)

    def in_contract(self, call: Call) -> list[Place]:
        """What the contract of a call names itself."""
        here = module(call.file)
        said = re.sub(r"//.*", "", call.code)
        return [it for it in meanings(here, re.findall(r"\w+", said))[0] if it[0].suffix == ".antt"]

    @functools.cached_property
    def behind(self) -> dict[Place, int]:
        """For each place the set of all that it names, directly or through others, as bits."""
        number = {place: at for at, place in enumerate(self.places)}
        kept = {place: 1 << at for place, at in number.items()}
        changed = True
        while changed:
            changed = False
            for place in reversed(self.places):
                wider = kept[place]
                for other in named_by(place)[0]:
                    wider |= kept.get(other, 0)
                changed, kept[place] = changed or wider != kept[place], wider
        return kept

    def count_behind(self, place: Place, among: Optional[int] = None) -> int:
        """How many other definitions and types a place names, directly or through others."""
        bits = self.behind[place] if among is None else self.behind[place] & among
        return bits.bit_count() - 1

    @functools.cached_property
    def cases(self) -> dict[Place, list[Function]]:
        """The cases that compute each definition: those that name it, or name a definition of the
        tests that does."""
        found: dict[Place, list[Function]] = {}
        for it in self.computed:
            for place in self.computed_by(it):
                found.setdefault(place, []).append(it)
        return found

    @functools.cached_property
    def computed(self) -> list[Function]:
        """The computed cases: those of the crates of cases, and the laws that are instances."""
        found = [it for crate in COMPUTED for file in sources_of(crate)
                 for it in module(file).functions]
        return found + [call.function for crate, _, call in self.calls()
                        if is_law(crate) and is_instance(call.function)]

    def computed_by(self, case: Function) -> list[Place]:
        """The definitions that a computed case names, through definitions of the tests or not."""
        todo = self.in_contract(Call(case))
        seen = dict.fromkeys(todo)
        while todo:
            place = todo.pop()
            if crate_of(place[0]) in NO_LIBRARY:
                fresh = [it for it in named_by(place)[0] if it not in seen]
                todo += fresh
                seen.update(dict.fromkeys(fresh))
        return [it for it in seen if crate_of(it[0]) not in NO_LIBRARY]

    @functools.cached_property
    def by_name(self) -> dict[str, list[Place]]:
        """The places of each name but of short ones and tests, those of the rules before others."""
        found: dict[str, list[Place]] = {}
        for place in sorted(self.places, key=lambda it: crate_of(it[0]) not in OF_RULES):
            if len(place[1]) > 2 and crate_of(place[0]) not in NO_LIBRARY:
                found.setdefault(place[1], []).append(place)
        return found

    def named(self, name: str) -> Optional[Place]:
        """What a document means by this name: a definition of the rules, or the only one."""
        places = self.by_name.get(name, [])
        if places and (len(places) == 1 or crate_of(places[0][0]) in OF_RULES):
            return places[0]
        return None

    @functools.cached_property
    def sentences(self) -> dict[str, list[tuple[str, str]]]:
        """By the address of a definition or call, the sentences that name it: each with the address
        of its section."""
        found: dict[str, list[tuple[str, str]]] = {}
        for document in CITED:
            for anchor, sentence in sentences_of(document):
                for url in {self.url_named(it) for it in re.findall(r"`([^`]+)`", sentence)}:
                    if url:
                        said = (f"docs/{document}.html#{anchor}", sentence)
                        found.setdefault(url, []).append(said)
        return found

    def url_named(self, name: str) -> Optional[str]:
        """The address of what a document names in code font."""
        if found := re.fullmatch(r"(\w+)/(\w+)", name):
            if any(it.name == found.group(2) for it in mutants_of(found.group(1))):
                return mutant_url(*found.groups())
        crate, _, call = name.partition("::")
        library = self.libraries.get(crate)
        if library and call in library.calls:
            return call_url(crate, call)
        if library and call in library.types:
            return self.type_url(crate, call)
        if crate in crates() and not call:
            return f"crates/{crate}.html"
        if call:
            owners = [it for it, library in self.libraries.items() if name in library.calls]
            return call_url(owners[0], name) if owners else self.exported(crate, call)
        place = self.named(name)
        return url_of(place) if place else self.law_url(name) or self.module_url(name)

    def url_within(self, crate: str, name: str) -> Optional[str]:
        """The address of what a comment of a crate names: something of the crate itself, or a call
        or crate by its whole name."""
        for file in (*sources_of(crate), *definitions_of(crate)):
            if name in module(file).blocks:
                return url_of((file, name))
        if crate in self.libraries and name in self.libraries[crate].calls:
            return call_url(crate, name)
        return self.url_named(name) if "::" in name or name in crates() else None

    def type_url(self, crate: str, name: str) -> str:
        """The address of a public type; that of a trait is its heading among the calls."""
        for file in sources_of(crate):
            if name in module(file).blocks:
                return url_of((file, name))
        return f"crates/{crate}.html#owner.{name}"

    def exported(self, crate: str, call: str) -> Optional[str]:
        """The address of a call for C."""
        for file in sources_of(crate) if crate in crates() else ():
            if any(it.is_exported and it.name == call for it in module(file).functions):
                return call_url(crate, call)
        return None

    def law_url(self, name: str) -> Optional[str]:
        """The address of a law that is named without its crate."""
        found = [crate for crate, library in self.libraries.items()
                 if is_law(crate) and name in library.calls]
        return call_url(found[0], name) if len(found) == 1 else None

    def module_url(self, name: str) -> Optional[str]:
        """The address of a file of definitions: `rb_log/specs/Header`, or `Rounds` of the rules."""
        found = re.fullmatch(r"(?:crates/)?(\w+)/specs/(\w+)(?:\.antt)?", name)
        crate, stem = found.groups() if found else ("rb_rules", name)
        file = CRATES / crate / f"specs/{stem}.antt"
        if re.fullmatch(r"[A-Z]\w*", stem) and file.exists() and module(file).blocks:
            return f"definitions/{crate}/{stem}.html"
        return None
