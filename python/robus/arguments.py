"""Checks of the arguments of the package's calls, where they enter. Each gives the argument back
as the call wants it, and raises BadArgument with the argument's name and its range."""
from __future__ import annotations

import operator
import os
import re
from typing import Any, Optional, Sequence, Tuple

from robus.errors import BadArgument

MOST_WORD = (1 << 32) - 1
NODE = re.compile(r"([BR])(\d|1[0-5])", re.ASCII)


def shown(value: Any) -> str:
    """A value for a message, at most 60 characters of it."""
    text = repr(value)
    return text if len(text) <= 60 else text[:57] + "..."


def integer(name: str, value: Any, low: int, high: int) -> int:
    """A whole number of any type from low to high."""
    try:
        found = operator.index(value)
    except TypeError:
        found = None
    if found is None or isinstance(value, bool) or not low <= found <= high:
        raise BadArgument(f"{name}: {shown(value)} is no integer from {low} to {high}")
    return found


def number_in(name: str, text: str, least: int, most: Optional[int] = None) -> int:
    """A number within a range; BadArgument with its name if it is none."""
    is_number = text.isascii() and text.isdigit() and len(text) < 19
    if not is_number or not least <= int(text) <= (int(text) if most is None else most):
        upper = "on" if most is None else f"to {most}"
        raise BadArgument(f"{name}: {text} is no number from {least} {upper}")
    return int(text)


def one_of(name: str, value: Any, choices: Sequence[str]) -> str:
    """One of some words."""
    if not isinstance(value, str) or value not in choices:
        raise BadArgument(f'{name}: {shown(value)} is none of {", ".join(choices)}')
    return value


def node(name: str, value: Any, kinds: str = "BR") -> Tuple[str, int]:
    """The kind, `B` or `R`, and the number of the node that has a name such as B0."""
    found = NODE.fullmatch(value) if isinstance(value, str) else None
    if not found or found[1] not in kinds:
        what = {"B": "BIU", "R": "RMU"}.get(kinds, "node")
        ranges = " or ".join(f"{kind}0 to {kind}15" for kind in kinds)
        raise BadArgument(f"{name}: {shown(value)} names no {what}; names are {ranges}")
    return found[1], int(found[2])


def some_bytes(name: str, value: Any, low: int = 0, high: Optional[int] = None) -> bytes:
    """Bytes, or what holds bytes as a bytearray does, of a length from low to high."""
    if not isinstance(value, (bytes, bytearray, memoryview)):
        raise BadArgument(f"{name}: {shown(value)} is not bytes")
    found = bytes(value)
    if len(found) < low or high is not None and len(found) > high:
        raise BadArgument(f"{name}: it has {len(found)} bytes, and may have {low} to {high}")
    return found


def path(name: str, value: Any) -> str:
    """The path of a file."""
    if not isinstance(value, (str, os.PathLike)) or not os.fspath(value) or "\0" in str(value):
        raise BadArgument(f"{name}: {shown(value)} is no path of a file")
    return os.fspath(value)
