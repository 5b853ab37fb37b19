"""What the documents name of the code, and whether it is there."""
from __future__ import annotations

import re
from pathlib import Path
from typing import Iterator

from robus_docs.library import Library, libraries
from robus_docs.source import CRATES, TOP, crates, module, text_of

PAGES = ["PROMISES", "PROOF", "RULES", "ARCHITECTURE", "DECISIONS", "CONTRIBUTING", "SCENARIOS",
         "COSIMULATION", "FORMATS", "robus", "robus_bridge", "robus_picture"]
CITING = ["README.md", *(it for it in (f"docs/{page}.md" for page in PAGES) if (TOP / it).exists())]
OTHER = ("docs/", "examples/", "python/", "tools/", "rattle-kit-")  # no name of code begins so
CALL = re.compile(r"`(rb_\w+)::([\w:]+)`((?:,\s+(?:and\s+)?`\w+`)*)")
Fault = tuple[int, str]  # the place in a document, and what is wrong there


def call_faults(text: str, known: dict[str, Library]) -> Iterator[Fault]:
    """The calls and clauses that a document names and that are not there. A type is named as a
    call is."""
    for found in CALL.finditer(text):
        crate, name = found.group(1), found.group(2)
        if crate not in known:
            yield found.start(), f"there is no library `{crate}`"
        elif name in known[crate].calls:
            contract = known[crate].contract(name)
            for clause in re.findall(r"`(\w+)`", found.group(3)):
                if clause not in contract:
                    said = f"`{crate}::{name}` has no clause and no condition `{clause}`"
                    yield found.start(), said
        elif name not in known[crate].types:
            yield found.start(), f"`{crate}` has no public call `{name}`"
    for found in re.finditer(r"`([A-Z]\w*::\w+)`", text):
        if not any(found.group(1) in library.calls for library in known.values()):
            yield found.start(), f"no library has a public call `{found.group(1)}`"


def files_named(among: list[str], name: str) -> list[Path]:
    """The files of proofs and definitions of these crates that have this name."""
    return [path for crate in among for folder in ("proofs", "specs")
            for path in (CRATES / crate / folder).rglob(f"{name}.antt")]


def path_faults(text: str) -> Iterator[Fault]:
    """The paths below a crate that a document names and that lead nowhere."""
    for found in re.finditer(r"`(rb_\w+/[\w./-]+)`", text):
        path = CRATES / found.group(1)
        if not any(path.with_name(path.name + it).exists() for it in ("", ".antt", ".rt")):
            yield found.start(), f"there is no file `{found.group(1)}`"


def cell_faults(cell: str, among: list[str], known: dict[str, Library]) -> Iterator[str]:
    """What is wrong in a cell of a column headed `stands in`."""
    here, files = among, []
    for name in re.findall(r"`([^`]+)`", cell):
        path = re.fullmatch(r"(rb_\w+)/(?:proofs|specs)/(\w+)", name)
        if re.fullmatch(r"rb_\w+", name):
            here = [name]
        elif path or re.fullmatch(r"[A-Z]\w*", name):
            files = files_named([path.group(1)] if path else here, path.group(2) if path else name)
            if not files:
                yield f"there is no file `{name}` in {', '.join(here)}"
        elif not any(name in module(it).lemmas for it in files):
            if not any(name in library.calls for library in known.values()):
                yield f"`{name}` is no law, and no lemma of the file that stands before it"


def lemma_faults(text: str, known: dict[str, Library]) -> Iterator[Fault]:
    """The files and lemmas in the columns headed `stands in` that are not there."""
    among, column, place = [], None, 0
    for line in text.split("\n"):
        cells = [it.strip() for it in line.strip("|").split("|")] if line.startswith("|") else []
        if line.startswith("## "):
            among = re.findall(r"`(rb_\w+)`", line)
        if not cells:
            column = None
            for folder, name in re.findall(r"`(proofs|specs)/(\w+)`", line):
                if not any(path.parts[-2] == folder for path in files_named(among, name)):
                    yield place, f"there is no file `{folder}/{name}` in {', '.join(among)}"
        elif "stands in" in cells:
            column = cells.index("stands in")
        elif column is not None and column < len(cells):
            yield from ((place, said) for said in cell_faults(cells[column], among, known))
        place += len(line) + 1


def words_of_code() -> set[str]:
    """The words of the sources, definitions, proofs, mutants and lists of runs, the names of all
    files and folders beside them, and the words of the Python package."""
    words = {"crates"} | set(re.findall(r"[\w-]+", text_of(TOP / "crates.txt")))
    for path in (TOP / "python/robus").glob("*.py"):
        words.update(re.findall(r"\w+", text_of(path)))
    for crate in CRATES.iterdir():
        words.add(crate.name)
        for runs in crate.glob("data/runs.txt"):
            words.update(re.findall(r"[\w-]+", re.sub(r"(?m)^#.*$", "", text_of(runs))))
        for part in crate.iterdir():
            words.update((part.name, part.stem))
            is_code = part.name in ("src", "specs", "proofs", "must-fail")
            for path in part.rglob("*") if is_code else ():
                words.update((path.name, path.stem))
                if path.is_file():
                    words.update(re.findall(r"[\w-]+", path.read_text(encoding="utf-8")))
    return words


def name_faults(text: str, words: set[str]) -> Iterator[Fault]:
    """Names in code font that are nowhere in the code: of paths and calls each part by itself. What
    has other signs is no name."""
    prose = re.sub(r"(?m)^    .*$", lambda line: " " * len(line.group(0)), text)
    for found in re.finditer(r"`([A-Za-z][\w./:-]*)`", prose):
        name = found.group(1)
        is_other = name.startswith(OTHER) or (TOP / name).exists()
        parts = re.split(r"[/:.]+", name)
        if not is_other and any(len(part) > 4 and part not in words for part in parts):
            yield found.start(), f"`{name}` stands nowhere in the code"


def drawn_layers(text: str) -> dict[str, Fault]:
    """The crates of the drawing of layers, each with its place and the number of its layer."""
    layers, level = {}, 0
    for found in re.finditer(r"(?m)^    (├|│ [^│]*│ ([^│]*)│)", text):
        level += found.group(1) == "├"
        layers.update({it: (found.start(), level) for it in (found.group(2) or "").split()})
    return layers


def layer_faults(text: str) -> Iterator[Fault]:
    """Where the table and the drawing in docs/ARCHITECTURE.md are not those of crates.txt."""
    uses = crates()
    rows = re.findall(r"(?m)^\| `(\w+)` \|", text.partition("## Layers")[0])
    if rows != sorted(uses):
        differing = ", ".join(sorted(set(rows) ^ set(uses)) or ["another order"])
        yield 0, f"the table of crates is not `ls crates`: {differing}"
    layers = drawn_layers(text)
    for crate in uses:
        if crate in layers:
            place, level = layers[crate]
            higher = [it for it in uses[crate] if it in layers and layers[it][1] < level]
            if higher:
                yield place, f"{crate} uses {', '.join(higher)}, which the drawing has above it"
        elif not crate.startswith("rb_test_") and crate != "rb_bench":
            yield 0, f"the drawing lacks {crate}"
    for crate in set(layers) - set(uses):
        yield layers[crate][0], f"there is no crate {crate}"


def faults_of(name: str, known: dict[str, Library], words: set[str]) -> Iterator[str]:
    """What is wrong in a document, each with its line."""
    text = text_of(TOP / name)
    found = [*call_faults(text, known), *name_faults(text, words), *path_faults(text)]
    found += lemma_faults(text, known) if name == "docs/PROOF.md" else []
    found += layer_faults(text) if name == "docs/ARCHITECTURE.md" else []
    for place, fault in sorted(found):
        line = text.count("\n", 0, place) + 1
        yield f"{name}, line {line}: {fault}"


def check() -> int:
    """Prints the faults of all documents, and returns the status."""
    known = {crate: Library(crate) for crate in libraries()}
    words = words_of_code()
    faults = [it for name in CITING for it in faults_of(name, known, words)]
    promises = text_of(TOP / "docs/PROMISES.md")
    faults += [f"docs/PROMISES.md names nothing of `{crate}`" for crate in known
               if not re.search(rf"`{crate}\b", promises)]
    for fault in faults:
        print(f"promises: {fault}")
    calls = sum(len(library.calls) for library in known.values())
    print(f"promises: {calls} public calls of {len(known)} libraries, "
          f"{len(faults)} faults in the documents")
    return 1 if faults else 0
