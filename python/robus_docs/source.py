"""Reads a Rattle source (.rt) or a file of definitions (.antt) as text: its imports, definitions,
types and functions, each with its comment. It is the only reader of these files in the repository.
"""
from __future__ import annotations

import functools
import re
import textwrap
from dataclasses import dataclass
from pathlib import Path
from typing import Iterable, Iterator, Optional, Union

TOP = Path(__file__).resolve().parents[2]
CRATES = TOP / "crates"
WORD = r"[\w«»◌]+"
HEAD = re.compile(rf"((?:abbrev |unfoldable |pub |record |data )*)({WORD}|◌\S+◌)(?=[\s:]|$)")
NO_HEAD = ("use ", "--", " ", "pub mod", "pub use", "infix")
FUNCTION = re.compile(
    r'(?m)^[ \t]*(pub(?:\(\w+\))? )?(?:const |unsafe |extern *"[^"]*" *)*fn (\w+)')
LEMMA = re.compile(
    r"((?:pub |abbrev |unfoldable |record |data )*)([^\s:(]+)(?: [({].*[)}])? :(?: (.*)|$)")
PROOF_WORD = re.compile(r"(\.?)([^\s.:;,(){}\[\]λ∀@]+)")
CLAUSE = re.compile(r"\s*(ensures|requires)\b\*?\s*(\w+)?\s*\{")
NO_CODE = re.compile(r"""//[^\n]*|r(#+)".*?"\1|"(?:\\.|[^"\\])*"|'(?:\\[^']+|[^'\\\n])'""", re.S)
Import = tuple[list[str], Optional[str]]  # a module's name in parts, and the name in it if one is
Place = tuple[Path, str]  # a file, and the name of a definition or type in it


@dataclass(frozen=True)
class Definition:
    """A definition of a file of specs/, or a type of a source with its model."""
    name: str
    kind: str  # abbrev, unfoldable, record, data, struct, enum, or nothing
    line: int  # of its head, from 1
    lines: tuple[str, ...]
    comment: str  # in one line

    @property
    def fields(self) -> dict[str, str]:
        """The fields of a record, each with the comment behind it."""
        found = (re.match(r"  pub (\w+) :(?:.*?-- (.*))?", line) for line in self.lines)
        return {it.group(1): it.group(2) or "" for it in found if it}


@dataclass(frozen=True)
class Lemma:
    """A lemma or definition of a file of proofs."""
    name: str
    kind: str  # abbrev, unfoldable, record, data, or nothing
    line: int  # of its head, from 1
    statement: str  # in one line
    lines: tuple[str, ...]  # with its proof, and with what is below that up to the next

    @functools.cached_property
    def words(self) -> frozenset[str]:
        """The words of the statement and the proof, without those that it binds itself."""
        return free_words(self.lines)


@dataclass(frozen=True)
class Clause:
    """A clause or condition of a contract."""
    kind: str  # ensures or requires
    name: Optional[str]
    text: str  # what is between its braces
    code: str  # as it is in the file


@dataclass(frozen=True)
class Function:
    """A function of a source with its contract."""
    file: Path
    owner: Optional[str]  # the type or trait that it belongs to
    name: str
    line: int  # of its head, from 1
    is_public: bool  # it is `pub`, without a restriction
    is_exported: bool  # it is for C
    is_of_trait: bool  # it belongs to a trait or to an impl of one
    is_test: bool
    docstring: str
    head: str  # up to the contract
    code: str  # the head with the contract, as in the file
    clauses: tuple[Clause, ...]
    arguments: int
    body: str  # what is between its braces, without comments and literals

    @property
    def body_lines(self) -> int:
        """The lines between the first of the body and the last."""
        return max(0, self.body.count("\n") - 1)

    @property
    def full_name(self) -> str:
        """The name with the owner's before it."""
        return f"{self.owner}::{self.name}" if self.owner else self.name

    @property
    def contract_size(self) -> int:
        """The characters of the contract, without indents."""
        return sum(len(line.strip()) for it in self.clauses for line in it.code.split("\n"))


@functools.lru_cache(maxsize=None)
def text_of(path: Path) -> str:
    """The text of a file, which is read once."""
    return path.read_text(encoding="utf-8")


def blanked(text: str) -> str:
    """A source with its comments and the insides of its literals as spaces, so that places stay."""
    def spaces(found: re.Match[str]) -> str:
        said = found.group(0)
        blank = re.sub(r"[^\n]", " ", said)
        return blank if said.startswith("//") or len(said) < 2 else said[0] + blank[1:-1] + said[-1]
    return NO_CODE.sub(spaces, text)


def block_end(text: str, start: int) -> int:
    """The place after the brace that closes the one at `start`."""
    depth = 0
    for found in re.compile("[{}]").finditer(text, start):
        depth += 1 if found.group(0) == "{" else -1
        if depth == 0:
            return found.end()
    return len(text)


def head_end(text: str, start: int) -> int:
    """The place after the parameters and the result of a function's head."""
    depth = 0
    for found in re.compile(r"[(\[]|[)\]]|[{;]|\n\s*(?:ensures|requires)\b").finditer(text, start):
        sign = found.group(0)
        if sign in "([":
            depth += 1
        elif sign in ")]":
            depth -= 1
        elif depth == 0:
            return found.start()
    return len(text)


def clauses_of(text: str, bare: str, place: int) -> tuple[tuple[Clause, ...], int]:
    """The clauses of the contract that begins at `place`, and the place after it."""
    clauses = []
    while found := CLAUSE.match(bare, place):
        place = block_end(bare, found.end() - 1)
        clauses.append(Clause(found.group(1), found.group(2), text[found.end():place - 1].strip(),
                              text[found.start(1):place]))
    return tuple(clauses), place


def count_arguments(head: str) -> int:
    """The number of parameters in a function's head, without what is after them."""
    depth = 0
    parameters: Optional[list[str]] = None
    for sign in head[head.index("fn "):].replace("->", ""):
        if sign in ")]>":
            depth -= 1
        if parameters is None:
            parameters = [""] if sign == "(" and depth == 0 else None
        elif depth == 0:
            break
        elif sign == "," and depth == 1:
            parameters.append("")
        else:
            parameters[-1] += sign
        if sign in "([<":
            depth += 1
    return sum(1 for it in parameters or () if it.strip())


def docstring_before(text: str, place: int) -> str:
    """The docstring above the line at `place`, attributes between them aside."""
    lines = text[:text.rfind("\n", 0, place) + 1].split("\n")[:-1]
    while lines and re.match(r"\s*#\[.*\]\s*$", lines[-1]):
        lines.pop()
    said = []
    while lines and re.match(r"\s*///", lines[-1]):
        said.append(re.sub(r"^\s*/// ?", "", lines.pop()))
    return "\n".join(reversed(said))


def leaves_of(tree: str) -> Iterator[str]:
    """The single imports of what a `use` line names: `a.{b, c.{d as e}}` is `a.b` and
    `a.c.d as e`."""
    head, brace, rest = tree.partition("{")
    if not brace:
        yield tree.strip()
        return
    depth, item = 0, ""
    for character in rest[:rest.rindex("}")] + ",":
        depth += (character == "{") - (character == "}")
        if character == "," and not depth:
            yield from (head.strip() + leaf for leaf in leaves_of(item) if leaf)
            item = ""
        else:
            item += character


def imports_of(text: str) -> dict[str, Import]:
    """For each name that a file imports from definitions, the module and its name there."""
    found: dict[str, Import] = {}
    for use in re.finditer(r"(?m)^\s*(?:ghost )?use Rattle\.(.+?);?\s*$", text):
        for leaf in leaves_of(use.group(1)):
            path, _, other = (it.strip() for it in leaf.partition(" as "))
            module, _, name = path.rpartition(".")
            if "{" in use.group(1):
                found[other or name] = (module.split("."), name)
            elif other:
                found[other] = (path.split("."), None)
    return found


def free_words(lines: Iterable[str]) -> frozenset[str]:
    """The words of lines of a proof, but for comments, for fields behind a dot or before `=`, and
    for names that the lines bind."""
    text = "\n".join(line.partition("-- ")[0] for line in lines)
    bound: set[str] = set()
    for pattern in (r"[({]((?:[^\s(){}:]+ )+): ", r"λ ([^.()]+)\.", r"\blet (\S+) :",
                    r"(?m)^[^\s:]+ ([^:=\n]+) =(?: |$)"):
        for names in re.findall(pattern, text):
            bound.update(re.findall(r"[^\s(){}]+", names))
    text = re.sub(r"(?m)(^\s+(?:pub )?|[{;] )[^\s(){};]+ (?=[=:] )", r"\1", text)
    return frozenset(word for dot, word in PROOF_WORD.findall(text) if not dot) - bound


class Module:
    """A file: its imports, its definitions or types, and its functions."""

    def __init__(self, file: Path, text: str) -> None:
        self.file, self.text = file, text
        self.lines = text.split("\n")
        self.imports = imports_of(text)
        self.is_source = file.suffix == ".rt"
        self.blocks = self.types() if self.is_source else self.definitions()

    @functools.cached_property
    def bare(self) -> str:
        """The text without comments and literals."""
        return blanked(self.text)

    @functools.cached_property
    def about(self) -> str:
        """The comment that the file begins with."""
        mark = "//!" if self.is_source else "--"
        lines = []
        for line in self.lines:
            if not line.startswith(mark):
                break
            lines.append(line[len(mark):].removeprefix(" "))
        return "\n".join(lines).strip()

    def comment_above(self, place: int) -> str:
        """The comment right above a line of definitions, in one line."""
        start = place
        while start > 0 and self.lines[start - 1].startswith("-- "):
            start -= 1
        return " ".join(line[3:].strip() for line in self.lines[start:place])

    def heads(self) -> list[tuple[int, str, str]]:
        """The lines from 0 at which definitions begin, with kind and name."""
        found = []
        for place, line in enumerate(self.lines):
            head = None if not line.strip() or line.startswith(NO_HEAD) else HEAD.match(line)
            if head and (head.group(1) or re.match(rf"{WORD} :", line)):
                found.append((place, head.group(1).replace("pub ", "").strip(), head.group(2)))
        return found

    def definitions(self) -> dict[str, Definition]:
        """Each definition of a file of specs/."""
        found, heads = {}, self.heads()
        for number, (place, kind, name) in enumerate(heads):
            end = heads[number + 1][0] if number + 1 < len(heads) else len(self.lines)
            while end > place and not (self.lines[end - 1].strip()
                                       and not self.lines[end - 1].startswith(("--", "infix"))):
                end -= 1
            found[name] = Definition(name, kind, place + 1, tuple(self.lines[place:end]),
                                     self.comment_above(place))
        return found

    @functools.cached_property
    def lemmas(self) -> dict[str, Lemma]:
        """Each lemma and definition of a file of proofs."""
        heads = [(at, found) for at, line in enumerate(self.lines)
                 if not line.startswith(NO_HEAD) and (found := LEMMA.match(line))]
        ends = [at for at, _ in heads[1:]] + [len(self.lines)]
        found = {}
        for (start, head), end in zip(heads, ends):
            last = start + 1
            while last < end and self.lines[last].startswith(" "):
                last += 1
            said = " ".join([head.group(3) or "",
                             *(it.strip() for it in self.lines[start + 1:last])]).strip()
            found[head.group(2)] = Lemma(head.group(2), head.group(1).replace("pub ", "").strip(),
                                         start + 1, said, tuple(self.lines[start:end]))
        return found

    def types(self) -> dict[str, Definition]:
        """Each public type of a source, with its model behind it."""
        found = {}
        for place, line in enumerate(self.lines):
            if head := re.match(r"pub (struct|enum) (\w+)", line):
                end = place
                while not (self.lines[end].startswith("}") or self.lines[end].endswith(";")
                           or end + 1 == len(self.lines)):
                    end += 1
                said = docstring_before(self.text, self.place_of(place))
                found[head.group(2)] = Definition(head.group(2), head.group(1), place + 1,
                                                  tuple(self.lines[place:end + 1]), said)
        for model in re.finditer(r"(?m)^impl(?:<[^>]*>)? Model for (\w+)", self.text):
            name, start = model.group(1), self.line_at(model.start()) - 1
            end = next(at for at in range(start, len(self.lines)) if self.lines[at].startswith("}"))
            kept = found.get(name, Definition(name, "", start + 1, (), ""))
            found[name] = Definition(name, kept.kind, kept.line,
                                     kept.lines + tuple(self.lines[start:end + 1]), kept.comment)
        return found

    def place_of(self, line: int) -> int:
        """The place in the text at which a line from 0 begins."""
        return sum(len(it) + 1 for it in self.lines[:line])

    def line_at(self, place: int) -> int:
        """The line of a place in the text, from 1."""
        return self.text.count("\n", 0, place) + 1

    @functools.cached_property
    def owners(self) -> list[tuple[int, int, str, bool]]:
        """The impl blocks and traits of a source: the first place and the last of each, its type,
        and whether its functions are public by themselves."""
        found = []
        for block in re.finditer(r"(?m)^(impl|(?:pub )?trait)\b([^{;]*)\{", self.bare):
            head = re.sub(r"^\s*<[^>]*(?:<[^>]*>[^>]*)*>", "", block.group(2)).strip()
            name = re.match(r"\w+", head.split(" for ")[-1].strip())
            if name:
                is_of_trait = block.group(1) != "impl" or " for " in head
                found.append((block.start(), block_end(self.bare, block.end() - 1), name.group(0),
                              is_of_trait))
        return found

    @functools.cached_property
    def public_types(self) -> dict[str, str]:
        """Each public type and trait of a source with its docstring."""
        return {it.group(1): docstring_before(self.text, it.start())
                for it in re.finditer(r"(?m)^pub (?:struct|enum|trait) (\w+)", self.bare)}

    @functools.cached_property
    def public_names(self) -> list[str]:
        """The public types, traits and functions of a source."""
        return re.findall(r"(?m)^pub (?:struct|enum|trait|fn) (\w+)", self.bare)

    @functools.cached_property
    def exports(self) -> tuple[set[str], set[str]]:
        """The modules of a crate that are public as a whole, and the names that it exports from the
        others, if this is its first source."""
        names = set(self.public_names)
        pattern = r"(?m)^pub use (?:crate::)?[\w:]*?(?:::)?(?:\{([^}]*)\}|(\w+));"
        for found in re.finditer(pattern, self.bare):
            names.update(re.findall(r"\w+", found.group(1) or found.group(2)))
        return {"lib"} | set(re.findall(r"(?m)^pub mod (\w+)", self.bare)), names

    @functools.cached_property
    def seen(self) -> list[tuple[str, list[str]]]:
        """By type what clauses see of it: the ghost items of a trait with their docstrings, and of
        an impl the value that a model gives."""
        found = []
        for begin, end, name, _ in self.owners:
            is_trait = self.bare.startswith("pub trait", begin)
            kept = r"ghost (?!use\b)(\w+)[^\n]*;" if is_trait else r"ghost (Value) = [^\n]*;"
            lines = []
            for it in re.finditer(rf"(?m)^    {kept}", self.bare[begin:end]):
                said = docstring_before(self.text, begin + it.start()) if is_trait else ""
                lines += [*(f"/// {line}" for line in said.split("\n") if line),
                          it.group(0).strip()]
            found.append((name, lines))
        return found

    @functools.cached_property
    def functions(self) -> list[Function]:
        """All functions of a source, those of traits and tests included."""
        return [self.function(found) for found in FUNCTION.finditer(self.bare)]

    def function(self, found: re.Match[str]) -> Function:
        """The function whose head begins so."""
        begin, contract = found.start(), head_end(self.bare, found.end())
        owner = next((it for it in self.owners if it[0] < begin < it[1]), None)
        clauses, end = clauses_of(self.text, self.bare, contract)
        start = re.compile(r"\s*\{").match(self.bare, end)
        body = ""
        if start:
            body = self.bare[start.end():block_end(self.bare, start.end() - 1) - 1]
        is_test = "#[test]" in self.text[max(0, begin - 40):begin]
        return Function(self.file, owner[2] if owner else None, found.group(2), self.line_at(begin),
                        found.group(1) == "pub ", "extern" in found.group(0),
                        bool(owner and owner[3]), is_test, docstring_before(self.text, begin),
                        textwrap.dedent(self.text[begin:contract].rstrip()),
                        textwrap.dedent(self.text[begin:end].rstrip()), clauses,
                        count_arguments(self.bare[begin:contract]), body)

    def rust_uses(self) -> Iterator[tuple[str, str]]:
        """The names that a source uses, each with its crate."""
        pattern = r"(?m)^(?:pub )?use (\w+)(?:::([\w:]+))?::(?:\{([^}]*)\}|(\w+));"
        own = self.file.relative_to(CRATES).parts[0] if CRATES in self.file.parents else ""
        for use in re.finditer(pattern, self.text):
            for name in re.findall(r"\w+", use.group(3) or use.group(4)):
                yield name, own if use.group(1) == "crate" else use.group(1)


@functools.lru_cache(maxsize=None)
def module(file: Path) -> Module:
    """A file as a module, which is read once."""
    return Module(file, text_of(file))


@functools.lru_cache(maxsize=None)
def sources_of(crate: str) -> tuple[Path, ...]:
    """The sources of a crate, in order."""
    return tuple(sorted((CRATES / crate / "src").rglob("*.rt")))


@functools.lru_cache(maxsize=None)
def definitions_of(crate: str) -> tuple[Path, ...]:
    """The files of definitions of a crate, in order."""
    return tuple(sorted((CRATES / crate / "specs").rglob("*.antt")))


@functools.lru_cache(maxsize=None)
def proofs_of(crate: str) -> tuple[Path, ...]:
    """The files of proofs of a crate, in order."""
    return tuple(sorted((CRATES / crate / "proofs").rglob("*.antt")))


@functools.lru_cache(maxsize=None)
def crates() -> dict[str, list[str]]:
    """The crates of crates.txt, each with those that it uses."""
    found = {}
    for line in text_of(TOP / "crates.txt").split("\n"):
        name, colon, others = line.partition("#")[0].partition(":")
        if colon:
            found[name.split()[0]] = others.split()
    return found


@functools.lru_cache(maxsize=None)
def file_of(parts: tuple[str, ...]) -> Optional[tuple[Path, Optional[str]]]:
    """The file of a module of definitions or of declared types, and the type in it. None means that
    the module is the kit's."""
    crate = parts[0]
    if not (CRATES / crate).is_dir() or len(parts) < 3 or parts[1] != "specs":
        return None
    if parts[2] == "declared":
        rest = [it for it in parts[3:] if it not in ("TheVariants", "TheInside")]
        return CRATES / crate / "src" / ("/".join(rest[:-1] or ["lib"]) + ".rt"), rest[-1]
    for length in range(len(parts), 2, -1):
        file = CRATES / crate / "specs" / ("/".join(parts[2:length]) + ".antt")
        if file.exists():
            return file, parts[length] if length < len(parts) else None
    return None


def meaning_of(here: Module, word: str) -> Union[Place, str, None]:
    """What a word means in a file: a definition or type of the repository, or a name of the kit."""
    if word not in here.imports:
        return (here.file, word) if word in here.blocks else None
    parts, name = here.imports[word]
    found = file_of(tuple(parts))
    if found is None:
        return ".".join(parts) + (f".{name}" if name else "")
    file, kind = found
    name = kind or name
    return (file, name) if name is not None and name in module(file).blocks else None


@functools.lru_cache(maxsize=None)
def types_by_name(crate: str) -> dict[str, list[Path]]:
    """The sources of a crate that have each of its public types."""
    found: dict[str, list[Path]] = {}
    for file in sources_of(crate) if (CRATES / crate).is_dir() else ():
        for name in module(file).blocks:
            found.setdefault(name, []).append(file)
    return found


def rust_types(words: Iterable[str], here: Module) -> Iterator[Place]:
    """The types of the repository among the words of a source, by what it uses."""
    wanted = set(words)
    for name, crate in here.rust_uses():
        if name in wanted:
            yield from ((file, name) for file in types_by_name(crate).get(name, []))


def words_in(lines: Iterable[str]) -> set[str]:
    """The words of lines, comments aside."""
    return set(re.findall(r"\w+", "\n".join(re.sub(r"(--|//).*", "", line) for line in lines)))


@functools.lru_cache(maxsize=None)
def named_by(place: Place) -> tuple[tuple[Place, ...], tuple[str, ...]]:
    """What a definition or type names itself: of the repository in the order of its text, and of
    the kit."""
    here = module(place[0])
    lines = here.blocks[place[1]].lines
    said = "\n".join(re.sub(r"(--|//).*", "", line) for line in lines)
    places, kit = meanings(here, re.findall(r"\w+", said) + operators_in(said, here))
    if here.is_source:
        places += rust_types(set(re.findall(r"\w+", said)), here)
    return tuple(it for it in dict.fromkeys(places) if it != place), tuple(kit)


def operators_in(said: str, here: Module) -> list[str]:
    """The operators of the repository that a text of a file uses."""
    signs = {f"◌{it}◌" for it in re.findall(r"[^\w\s(){}\[\],;.]+", said)}
    return sorted(it for it in signs & (here.imports.keys() | here.blocks.keys())
                  if isinstance(meaning_of(here, it), tuple))


def meanings(here: Module, words: Iterable[str]) -> tuple[list[Place], list[str]]:
    """What words of a file mean: of the repository, and of the kit, each once and in order."""
    places: dict[Place, None] = {}
    kit: dict[str, None] = {}
    for word in words:
        meant = meaning_of(here, word)
        if isinstance(meant, str):
            kit[meant] = None
        elif meant:
            places[meant] = None
    return list(places), list(kit)


def reach(here: Module, words: Iterable[str]) -> tuple[list[Place], set[str]]:
    """The definitions and types that words of a file name, directly or through others, and the
    names of the kit among them."""
    todo, names = meanings(here, words)
    kit, seen = set(names), dict.fromkeys(todo)
    while todo:
        places, names = named_by(todo.pop())
        kit.update(names)
        todo += [it for it in places if it not in seen]
        seen.update(dict.fromkeys(places))
    return list(seen), kit
