"""Which proofs rest on a law: those of the calls and of the other laws that use the lemma which
proves the law, directly or through other lemmas."""
from __future__ import annotations

import functools
import re
from dataclasses import dataclass
from pathlib import Path
from typing import Iterator, Optional

from robus_docs.atlas import Atlas, is_law
from robus_docs.source import CRATES, crates, module, proofs_of, sources_of

Place = tuple[Path, str]  # a file of proofs, and the name of a lemma in it
Owner = tuple[str, str]  # a crate, and the name of a law or of a function in it
ANSWERS = "Answers"  # the file in which the proof of a function ends


@dataclass(frozen=True)
class Citing:
    """Who rests on a law."""
    lemmas: tuple[Place, ...]  # those that prove the law
    laws: tuple[Owner, ...]
    calls: tuple[Owner, ...]


class Proofs:
    """The lemmas of the repository with those that use them."""

    def __init__(self, atlas: Atlas) -> None:
        self.atlas = atlas
        self.users: dict[Place, list[Place]] = {}
        for crate in crates():
            for file in proofs_of(crate):
                for name in module(file).lemmas:
                    for other in self.uses(file, name):
                        self.users.setdefault(other, []).append((file, name))
        names = {(crate, name) for crate, name, _ in atlas.calls()}
        self.laws = {it for it in names if is_law(it[0])}
        self.calls = names - self.laws

    @staticmethod
    def uses(file: Path, name: str) -> Iterator[Place]:
        """The lemmas of the repository that a lemma names, itself aside."""
        here = module(file)
        for word in here.lemmas[name].words - {name}:
            if word in here.imports:
                parts, other = here.imports[word]
                there = proof_file(tuple(parts))
                if there and other in module(there).lemmas:
                    yield there, other
            elif word in here.lemmas:
                yield file, word

    def named_in(self, law: Owner) -> list[Place]:
        """The lemmas that the last file of a law's proof names."""
        file = CRATES / law[0] / f"proofs/{law[1]}/{ANSWERS}.antt"
        own = module(file).lemmas if file.exists() else {}
        found = dict.fromkeys(place for name in own for place in self.uses(file, name))
        return [it for it in found if it[0] != file]

    @functools.cached_property
    def proved_by(self) -> dict[Owner, list[Place]]:
        """The lemmas that prove each law: those that its last file names, but for the lemma that
        proves another law by itself."""
        named = {law: self.named_in(law) for law in self.laws}
        single = {places[0]: law for law, places in named.items() if len(places) == 1}
        return {law: [it for it in places if single.get(it, law) == law] or places
                for law, places in named.items()}

    def citing(self, law: Owner) -> Citing:
        """The laws and calls whose proofs rest on a law."""
        lemmas = self.proved_by[law]
        todo, seen = list(lemmas), set(lemmas)
        laws: set[Owner] = set()
        functions: set[Owner] = set()
        while todo:
            for place in self.users.get(todo.pop(), []):
                if place in seen:
                    continue
                seen.add(place)
                todo.append(place)
                owner = owner_of(place[0])
                if owner:
                    (laws if owner in self.laws else functions).add(owner)
        calls = {call for it in functions for call in self.calls_with(it)}
        return Citing(tuple(lemmas), tuple(sorted(laws - {law})), tuple(sorted(calls)))

    def calls_with(self, owner: Owner) -> Iterator[Owner]:
        """The public calls of a crate that are this function, or call it within the crate."""
        todo, seen = [owner], {owner}
        while todo:
            here = todo.pop()
            if here in self.calls:
                yield here
                continue
            for it in callers_of(*here):
                if (here[0], it) not in seen:
                    seen.add((here[0], it))
                    todo.append((here[0], it))


@functools.lru_cache(maxsize=None)
def proof_file(parts: tuple[str, ...]) -> Optional[Path]:
    """The file of a module of proofs of the repository."""
    if len(parts) < 3 or parts[1] != "proofs" or not (CRATES / parts[0]).is_dir():
        return None
    file = CRATES / parts[0] / "proofs" / ("/".join(parts[2:]) + ".antt")
    return file if file.exists() else None


def owner_of(file: Path) -> Optional[Owner]:
    """The function whose proof ends in a file: its crate, and its name after that of its type."""
    if file.stem != ANSWERS:
        return None
    crate, _, *rest = file.relative_to(CRATES).parent.parts
    of_type = [it for it in rest[-2:-1] if it[0].isupper()]
    return crate, "::".join([*of_type, rest[-1]])


@functools.lru_cache(maxsize=None)
def callers_of(crate: str, name: str) -> tuple[str, ...]:
    """The functions of a crate whose bodies call this one."""
    owner, _, own = name.rpartition("::")
    before = rf"(?:\.|\b{owner}::|\bSelf::)" if owner else r"(?<![.\w])"
    call = re.compile(rf"{before}{own}\(")
    return tuple(it.full_name for file in sources_of(crate) for it in module(file).functions
                 if not it.is_test and it.full_name != name and call.search(it.body))
