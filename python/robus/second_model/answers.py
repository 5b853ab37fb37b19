"""What is answered: lines, and why an input is refused."""
from __future__ import annotations

from typing import Iterable, NoReturn



class Refused(Exception):
    """The input is refused; the text is the line that says why."""


SCENARIO_RULES = {
    1: "NotToml",
    2: "MissingKey",
    3: "UnknownKey",
    4: "WrongType",
    5: "OutOfRange",
    6: "PlanFails",
    7: "ClockBounds",
    8: "DelayBounds",
    9: "StartApart",
    10: "SayOfGood",
    11: "TooMany",
    12: "NoSuchNode",
}


def refuse(code: int, number: int | None = None) -> NoReturn:
    """Raises Refused for the rule with this code; the number is that of an inequality."""
    behind = "" if number is None else f" {number}"
    raise Refused(f"refused {code} {SCENARIO_RULES[code]}{behind}")


def text_of(lines: Iterable[str]) -> bytes:
    """The lines as bytes, each with a line feed."""
    return "".join(line + "\n" for line in lines).encode()
