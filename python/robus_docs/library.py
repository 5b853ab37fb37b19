"""The public types and calls of a crate."""
from __future__ import annotations

import re
import textwrap
from pathlib import Path
from typing import Iterable, Iterator, Optional

from robus_docs.source import (CRATES, Definition, Function, Place, crates, meaning_of, module,
                               sources_of)

NO_LIBRARY = {"rb_test_rules", "rb_test_bridge_rules", "rb_bench", "rb_test_parts"}


def libraries() -> list[str]:
    """The names of all libraries, in order. Crates of computed cases, measurements and tests are
    no libraries."""
    return [it for it in sorted(crates())
            if (CRATES / it / "src/lib.rt").exists() and it not in NO_LIBRARY]


class Call:
    """A public call, and the definitions in its contract."""

    def __init__(self, function: Function) -> None:
        self.function, self.file = function, function.file
        self.owner, self.name = function.owner, function.full_name
        self.docstring, self.code = function.docstring, function.code

    def definitions(self, among: Optional[Iterable[str]] = None) -> Iterator[Place]:
        """The definitions that the contract names, or those of these words."""
        here = module(self.file)
        words = re.findall(r"[\w«»◌]+", self.code) if among is None else among
        for word in sorted(set(words) & set(here.imports)):
            meant = meaning_of(here, word)
            if isinstance(meant, tuple) and meant[0].suffix == ".antt":
                yield meant

    def records(self) -> Iterator[Definition]:
        """Each record that is a clause without a name."""
        nameless = [re.match(r"\w*", it.text) for it in self.function.clauses if not it.name]
        for file, name in self.definitions(it.group(0) for it in nameless if it):
            if module(file).blocks[name].kind == "record":
                yield module(file).blocks[name]

    def contract(self) -> set[str]:
        """The names of all clauses and conditions, and of the fields of its records."""
        fields = {name for record in self.records() for name in record.fields}
        return fields | {it.name for it in self.function.clauses if it.name}


class Library:
    """The public types and calls of a crate."""

    types: dict[str, str]  # the docstring of each
    seen: dict[str, list[str]]  # by type what clauses see of it
    calls: dict[str, list[Call]]  # by name

    def __init__(self, crate: str) -> None:
        self.crate, self.types, self.seen, self.calls = crate, {}, {}, {}
        self.about = module(CRATES / crate / "src/lib.rt").about
        modules, names = module(CRATES / crate / "src/lib.rt").exports
        for path in sources_of(crate):
            if path.name != "tests.rt" and "tests" not in path.parts:
                self.read(path, names, path.stem in modules)

    def read(self, path: Path, names: set[str], is_public: bool) -> None:
        """Adds the contents of a file: of a public module all that is public in it, of another one
        the names that the crate exports."""
        here = module(path)
        given = names | set(here.public_names if is_public else ())
        self.types.update({name: said for name, said in here.public_types.items() if name in given})
        for name, lines in here.seen:
            if name in given:
                self.seen.setdefault(name, []).extend(lines)
        for it in here.functions:
            if (it.owner or it.name) in given and not it.is_test:
                if it.is_public or (it.is_of_trait and it.clauses):
                    self.calls.setdefault(it.full_name, []).append(Call(it))

    def all_calls(self) -> list[Call]:
        """Every call, in the order of the files."""
        return [call for calls in self.calls.values() for call in calls]

    def owners(self) -> list[str]:
        """The types that are public or have public calls, in order."""
        return sorted({it.owner for it in self.all_calls() if it.owner} | set(self.types))

    def contract(self, name: str) -> set[str]:
        """The names of all clauses and conditions of a call."""
        return {it for call in self.calls[name] for it in call.contract()}

    def records(self) -> list[str]:
        """The texts of all records that are a whole contract."""
        return sorted({"\n".join(it.lines).rstrip()
                       for call in self.all_calls() for it in call.records()})

    def named(self) -> list[str]:
        """A line for each definition that the contracts name, with its comment."""
        places = {it for call in self.all_calls() for it in call.definitions()}
        lines = []
        for file, name in sorted(places, key=lambda it: (it[1].lower(), it[0])):
            where = file.relative_to(CRATES).with_suffix("")
            said = module(file).blocks[name].comment
            lines.append(f"- `{name}` ({where}): {said}".removesuffix(": "))
        return lines

    def listing(self) -> str:
        """The whole list, as text."""
        parts = [f"# {self.crate}", self.about]
        for owner in [None, *self.owners()]:
            if owner:
                seen = textwrap.indent("\n".join(self.seen.get(owner, [])), "    ")
                parts += [f"## {owner}", self.types.get(owner, ""), seen]
            for call in (it for it in self.all_calls() if it.owner == owner):
                parts += [f"{'###' if owner else '##'} {call.name}", call.docstring,
                          textwrap.indent(call.code, "    ")]
        if named := self.named():
            parts += ["## Definitions", "\n".join(named)]
        if records := self.records():
            parts += ["## Records that are a whole contract",
                      *(textwrap.indent(text, "    ") for text in records)]
        return "\n\n".join(part for part in parts if part) + "\n"
