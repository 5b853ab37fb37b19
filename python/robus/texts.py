"""Nodes, places, words and messages of a run in words."""
from __future__ import annotations

from typing import Iterable

from robus.layout import purpose
from robus.model import model, name_of
from robus.units import Unit, behind

TAGS = {model.WORD_TAG: "word", model.FAULT_TAG: "fault", model.SYNC_TAG: "call"}


def names(nodes: Iterable[model.Node]) -> str:
    """Nodes by name, three and more in a row as `R0..R2`."""
    parts, row = [], []
    for node in [*sorted(nodes), None]:
        if row and (node is None or (row[-1][0], row[-1][1] + 1) != node):
            ends = f"{name_of(row[0])}..{name_of(row[-1])}"
            parts += [ends] if len(row) > 2 else [name_of(it) for it in row]
            row = []
        row.append(node)
    return " ".join(parts) or "none"


def grouped(pairs: Iterable[tuple[model.Node, str]]) -> str:
    """Nodes with a text each: those of one text together."""
    groups: dict[str, list[model.Node]] = {}
    for node, text in pairs:
        groups.setdefault(text, []).append(node)
    parts = [f"{names(nodes)} {text}" if text else names(nodes) for text, nodes in groups.items()]
    return ", ".join(parts) or "-"


def place_text(bus: model.Bus, frame: int, slot: int, stage: int) -> str:
    """A stage, or the tail as stage 4, in words."""
    what = "tail" if stage == 4 else f"stage {stage}"
    return f"frame {frame}, slot {slot} ({purpose(bus, slot)}), {what}"


def value_text(value: model.Word) -> str:
    """A word, or that there is none, in words."""
    return "fault" if value is model.FAULT else str(value)


def message_text(bus: model.Bus, text: bytes) -> str:
    """Bytes as a reader says them: the word, fault or call; or the bytes themselves."""
    found = model.read_message(bus, text)
    if found is None:
        return f"bytes {text.hex()}"
    tag, _, _, _, value = found
    return str(value) if tag == model.WORD_TAG else TAGS[tag]


def heard_text(bus: model.Bus, came: list[tuple[int, bytes]], unit: Unit | None = None) -> str:
    """What came from a source in a window, each message with its tick from the window's first one
    on, and the time of that tick by a clock without drift if a unit is given."""
    parts = [f"{message_text(bus, text)} at tick {tick}{behind(unit, tick * bus.plan.u)}"
             for tick, text in came]
    return " and ".join(parts) or "-"
