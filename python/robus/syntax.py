"""Where a document is no TOML: the line, the column, and what the reader said."""
from __future__ import annotations

import re
import tomllib
from typing import Any, Iterator

from robus.locate import Place
from robus.model import model


def older(text: str) -> list[tuple[str, str]]:
    """The parts of a document, each with what stands for it in the form in which it is read."""
    return model.older_parts(text)


def place_of(parts: list[tuple[str, str]], at: int) -> int:
    """The place in the document of a place in the form in which it was read."""
    here = there = 0
    for before, after in parts:
        if there + len(after) > at:
            return here + min(at - there, len(before))
        here, there = here + len(before), there + len(after)
    return here


def line_and_column(text: str, at: int) -> tuple[int, int]:
    """The line and the column of a character, both from 1."""
    before = text[:at]
    return before.count("\n") + 1, at - (before.rfind("\n") + 1) + 1


def values_in(document: Any) -> Iterator[tuple[Place, int]]:
    """Each integer of a document with its place."""
    left: list[tuple[Place, Any]] = [((), document)]
    while left:
        place, value = left.pop()
        if type(value) is int:
            yield place, value
        elif isinstance(value, (list, dict)):
            items = value.items() if isinstance(value, dict) else enumerate(value)
            left += [(place + (key,), item) for key, item in reversed(list(items))]


def fault_of(data: bytes) -> tuple[int, int, str] | None:
    """Line, column and reason of the first fault in the syntax; nothing if there is none."""
    try:
        text = data.decode("utf-8")
    except UnicodeDecodeError as fault:
        return data[: fault.start].count(b"\n") + 1, 1, f"the text is to be UTF-8: {fault.reason}"
    deep = model.too_deep_at(text)
    if deep is not None:
        return *line_and_column(text, deep), (
            f"a value or a key is nested more than {model.MOST_LEVELS} levels deep")
    parts = older(text)
    try:
        tomllib.loads("".join(part for _, part in parts))
    except tomllib.TOMLDecodeError as fault:
        said = str(fault)
        found = re.search(r" \(at line (\d+), column (\d+)\)$", said)
        reason = re.sub(r" \(at .*\)$", "", said)
        newer = "".join(part for _, part in parts)
        if not found:
            return max(1, len(text.splitlines())), 1, reason + ", at the end of the document"
        lines = newer.split("\n")
        at = sum(len(line) + 1 for line in lines[: int(found[1]) - 1]) + int(found[2]) - 1
        return *line_and_column(text, place_of(parts, at)), reason
    except (ValueError, RecursionError) as fault:
        return 1, 1, str(fault) or "it is nested too deeply"
    return None
