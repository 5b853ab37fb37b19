"""The lines that the programs write, each kind as a dataclass, and the one parser of them.

docs/robus.md and docs/robus_bridge.md say when which line is written. Times are in reference units,
ticks are those of the node's clock, frames and slots count from 0, stages from 1. Nodes are named
as `B0` or `R12`; a word is None if the line has `none`."""
from __future__ import annotations

import csv
import re
from dataclasses import dataclass, fields
from typing import Any, Callable, Dict, Iterable, Iterator, List, Optional, TextIO, Tuple, Union


@dataclass(frozen=True)
class Epoch:
    """The node begins the frame with this tick of its clock, at this time. A log has no times."""

    frame: int
    node: str
    tick: int
    time: Optional[int] = None


@dataclass(frozen=True)
class Conviction:
    """Whom the node holds convicted as the frame begins, as masks: bit i is node i of the kind."""

    frame: int
    node: str
    biu_mask: int
    rmu_mask: int

    @property
    def convicted(self) -> List[str]:
        """The names of the convicted nodes, BIUs before RMUs."""
        return names_in(self.biu_mask, "B") + names_in(self.rmu_mask, "R")


@dataclass(frozen=True)
class Port:
    """The state of a BIU's application as the frame begins, and how many of its last 64 deliveries
    were none."""

    frame: int
    node: str
    state: int
    losses: int


@dataclass(frozen=True)
class Delivery:
    """The receiver delivers this word of the sender, who owns the slot; None without a majority."""

    frame: int
    slot: int
    receiver: str
    sender: str
    word: Optional[int]


@dataclass(frozen=True)
class Letter:
    """With this slot's word the receiver has a whole letter of the sender; two digits a byte."""

    frame: int
    slot: int
    receiver: str
    sender: str
    hex: str


@dataclass(frozen=True)
class GroupValue:
    """What the receiver found for the group in the frame; None if there was nothing."""

    frame: int
    receiver: str
    word: Optional[int]


@dataclass(frozen=True)
class Crossing:
    """What a BIU of the `left` or the `right` bus finds for the words that crossed to it."""

    frame: int
    bus: str
    receiver: str
    word: Optional[int]


@dataclass(frozen=True)
class Word:
    """The next word that spells a letter."""

    word: int


@dataclass(frozen=True)
class Inequality:
    """Both sides of an inequality of the timing plan, in reference units; left is to be at least
    right."""

    inequality: int
    left: int
    right: int


@dataclass(frozen=True)
class Number:
    """One of the four numbers of `stress`: frames, deliveries, convicted, spread."""

    name: str
    number: int


@dataclass(frozen=True)
class Ended:
    """The run came to its end, after `frames` frames."""

    frames: int


@dataclass(frozen=True)
class Breach:
    """Here more is faulty than the bus can bear. `bus` is left or right for a bridge."""

    bus: Optional[str]
    frame: int
    slot: int
    stage: int
    cause: str


@dataclass(frozen=True)
class Refusal:
    """Why the input is refused; the number is an inequality, a place in a log, or a code."""

    code: int
    name: str
    number: Optional[int] = None


Row = Union[Epoch, Conviction, Port, Delivery, Letter, GroupValue, Crossing, Word, Inequality,
            Number, Ended, Breach, Refusal]

# Each kind's dataclass and the form of its lines. <NAME> is a field, one in brackets may be missing
LINES: Dict[str, Tuple[type, str]] = {
    "begins": (Epoch, "e <frame> <node> <tick>[ <time>]"),
    "convicted": (Conviction, "c <frame> <node> <biu_mask> <rmu_mask>"),
    "ports": (Port, "p <frame> <node> <state> <losses>"),
    "deliveries": (Delivery, "d <frame> <slot> <receiver> <sender> <word>"),
    "letters": (Letter, "m <frame> <slot> <receiver> <sender> <hex>"),
    "groups": (GroupValue, "g <frame> <receiver> <word>"),
    "crossings": (Crossing, "x <frame> <bus> <receiver> <word>"),
    "words": (Word, "w <number>"),
    "inequalities": (Inequality, "C<inequality> <left> <right>"),
    "numbers": (Number, "<total> <number>"),
    "end": (Ended, "end <frames>"),
    "breach": (Breach, "breach[ <bus>] <frame> <slot> <stage> <cause>"),
    "refused": (Refusal, "refused <code> <name>[ <number>]"),
}
NODE = r"[BR](?:\d|1[0-5])"
FIELDS = {"node": NODE, "receiver": NODE, "sender": NODE, "word": r"\d+|none", "bus": "left|right",
          "hex": "(?:[0-9a-f]{2})+", "cause": "[A-Za-z]+", "name": "[A-Za-z]+",
          "inequality": "[1-7]", "total": "frames|deliveries|convicted|spread"}
# What makes a value of the text of a field, which is None if it is missing
Maker = Callable[[Optional[str]], Any]
TEXTS = set("node receiver sender bus hex cause name total".split())


class NoRow(ValueError):
    """A line that is none of the kinds."""


def names_in(mask: int, kind: str) -> List[str]:
    """The names of the nodes of a kind, `B` or `R`, whose bits a mask has."""
    return [f"{kind}{number}" for number in range(mask.bit_length()) if mask >> number & 1]


def number_or_none(text: Optional[str]) -> Optional[int]:
    """A number; None for `none` and for a field that is missing."""
    return None if text is None or text == "none" else int(text)


def compiled(form: str) -> Tuple[re.Pattern[str], List[Maker]]:
    """The pattern of a form, and what makes a value of the text of each field."""
    names = re.findall(r"<(\w+)>", form)
    pattern = form.replace("[", "(?:").replace("]", ")?")
    number = r"\d+"
    pattern = re.sub(r"<(\w+)>", lambda it: f"({FIELDS.get(it[1], number)})", pattern)
    makers = [(lambda text: text) if name in TEXTS else number_or_none for name in names]
    return re.compile(pattern, re.ASCII), makers


PARSERS = {kind: (row, *compiled(form)) for kind, (row, form) in LINES.items()}
KIND_OF = {row: kind for kind, (row, _) in LINES.items()}


def row_of(line: str) -> Row:
    """A line, without its line feed, as its row."""
    for row, pattern, makers in PARSERS.values():
        found = pattern.fullmatch(line)
        if found:
            return row(*[make(text) for make, text in zip(makers, found.groups())])
    raise NoRow(f"no line that robus writes: {line[:60]}")


def rows_of(lines: Iterable[str]) -> Iterator[Row]:
    """Each line as its row; NoRow with the line's number if one is none."""
    for number, line in enumerate(lines, 1):
        try:
            yield row_of(line.rstrip("\n"))
        except NoRow as fault:
            raise NoRow(f"line {number} is {fault}") from None


def pieces_of(row: type, form: str) -> List[Tuple[str, str, str, bool]]:
    """The fields of a row in the order of its form: the text before each, which is there in any
    case, the text that goes with its value, its name, and whether it may be missing."""
    found = re.findall(r"([^<\[\]]*)(\[?)([^<\[\]]*)<\w+>\]?", form)
    return [(before if bracket else before + text, text if bracket else "", it.name, bool(bracket))
            for (before, bracket, text), it in zip(found, fields(row))]


PIECES = {row: pieces_of(row, form) for row, form in LINES.values()}


def line_of(row: Row) -> str:
    """A row as its line, without a line feed."""
    line = ""
    for before, text, name, is_optional in PIECES[type(row)]:
        value = getattr(row, name)
        line += before
        if value is not None or not is_optional:
            line += text + ("none" if value is None else str(value))
    return line


def columns(kind: str) -> List[str]:
    """The names of a kind's columns: the fields of its rows, and of convictions the names too."""
    names = [it.name for it in fields(LINES[kind][0])]
    return names + (["convicted"] if kind == "convicted" else [])


def dict_of(row: Row) -> Dict[str, Any]:
    """A row as a dict: its kind, and its columns by name."""
    kind = KIND_OF[type(row)]
    return {"kind": kind, **{name: getattr(row, name) for name in columns(kind)}}


def cell(value: Any) -> Any:
    """A value as CSV has it: nothing is empty, and names have a space between them."""
    if value is None:
        return ""
    return " ".join(value) if isinstance(value, (list, tuple)) else value


def write_csv(kind: str, rows: Iterable[Row], file: TextIO) -> None:
    """Writes the rows of one kind as CSV, with a first line that names the columns."""
    names = columns(kind)
    out = csv.writer(file, lineterminator="\n")
    out.writerow(names)
    for row in rows:
        if KIND_OF[type(row)] == kind:
            out.writerow([cell(getattr(row, name)) for name in names])
