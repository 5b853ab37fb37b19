"""The shape of the code in numbers, read from its text."""
from __future__ import annotations

import functools
import re
from pathlib import Path
from typing import Iterator

from robus_docs.source import CRATES, Function, crates, module, proofs_of, sources_of, text_of

LONG, LONGER = 400, 800  # characters of a contract
MANY_ARGUMENTS, LONG_BODY, WIDE = 7, 40, 100
TOKEN = re.compile(r"[\w'\-₀-₉ᶠ]+|\S")
Place = tuple[int, str]  # how much, and where


def where(file: Path, line: int, name: str) -> str:
    """A place in a file."""
    return f"{file.relative_to(CRATES)}:{line} {name}"


def functions() -> Iterator[Function]:
    """All functions of all crates, tests and methods of traits among them."""
    for crate in crates():
        for file in sources_of(crate):
            yield from module(file).functions


def proofs() -> Iterator[Path]:
    """The files of proofs."""
    for crate in crates():
        yield from proofs_of(crate)


@functools.lru_cache(maxsize=None)
def depth_of(crate: str) -> int:
    """The length of the longest chain of crates of the repository that ends with this one."""
    below = [depth_of(it) for it in crates()[crate] if it in crates()]
    return 1 + max(below, default=0)


def statements_in(file: Path) -> Iterator[tuple[str, int, str]]:
    """The lemmas of a file: each statement with its bound names numbered, its line and its name."""
    for it in module(file).lemmas.values():
        if not it.kind and "goal." not in it.statement:
            yield numbered(it.statement), it.line, it.name


def numbered(said: str) -> str:
    """A statement with its bound names as numbers, so that two which differ in them are one."""
    bound = set(re.findall(r"[\w'\-]+", " ".join(re.findall(r"[({]([^(){}:]+):", said))))
    numbers: dict[str, int] = {}
    return " ".join(f"b{numbers.setdefault(it, len(numbers))}" if it in bound else it
                    for it in TOKEN.findall(said))


def copies() -> list[Place]:
    """The lemmas whose statement another file proves as well, but for the first of each."""
    seen: dict[str, str] = {}
    found = []
    for file in proofs():
        if "Answers" not in file.parts and file.name != "Answers.antt":
            for said, line, name in statements_in(file):
                if said in seen:
                    found.append((1, f"{where(file, line, name)}, as {seen[said]}"))
                else:
                    seen[said] = where(file, line, name)
    return found


def wide_lines() -> list[Place]:
    """The lines of sources that are too long."""
    return [(len(line), where(file, at, "")) for crate in crates() for file in sources_of(crate)
            for at, line in enumerate(module(file).lines, 1) if len(line) > WIDE]


def measures() -> dict[str, list[Place]]:
    """For each rule the places that count against it, the worst first. That of the chain is one
    place, whose length counts."""
    all_functions = list(functions())

    def over(least: int, size: str) -> list[Place]:
        found = [(getattr(it, size), where(it.file, it.line, it.full_name))
                 for it in all_functions if getattr(it, size) > least]
        return sorted(found, reverse=True)

    return {
        "contracts over 400 characters": over(LONG, "contract_size"),
        "contracts over 800 characters": over(LONGER, "contract_size"),
        "functions with 7 or more arguments": over(MANY_ARGUMENTS - 1, "arguments"),
        "bodies over 40 lines": over(LONG_BODY, "body_lines"),
        "lines of source over 100 columns": sorted(wide_lines(), reverse=True),
        "statements proved again": copies(),
    }


def chain() -> list[str]:
    """The longest chain of crates, the highest first."""
    crate = max(crates(), key=depth_of)
    found = [crate]
    while below := [it for it in crates()[crate] if it in crates()]:
        crate = max(below, key=depth_of)
        found.append(crate)
    return found


def sizes() -> str:
    """How much code there is, in one line."""
    def lines(part: str, ending: str) -> int:
        return sum(text_of(it).count("\n") for crate in crates()
                   for it in (CRATES / crate / part).rglob(f"*.{ending}"))
    mutants = sum(1 for _ in CRATES.glob("*/must-fail/*.edit"))
    return (f"{len(crates())} crates, lines of source {lines('src', 'rt')}, specs "
            f"{lines('specs', 'antt')}, proofs {lines('proofs', 'antt')}; mutants {mutants}")
