"""Quantities of a data sheet: times, rates and drifts, and the time that a reference unit is."""
from __future__ import annotations

import argparse
import math
import re
from dataclasses import dataclass
from fractions import Fraction
from typing import Dict, Optional, Tuple

from robus.errors import BadArgument

SECONDS = {"s": 0, "ms": -3, "us": -6, "\u00b5s": -6, "\u03bcs": -6, "ns": -9, "ps": -12, "fs": -15}
HERTZ = {"Hz": 0, "kHz": 3, "MHz": 6, "GHz": 9}
SHARES = {"%": -2, "ppm": -6, "ppb": -9}
QUANTITY = re.compile(r"(\d+(?:\.\d+)?)([^\d.].*)", re.ASCII)
DIGITS = 6


class NoQuantity(argparse.ArgumentTypeError, BadArgument):
    """A text that is no quantity of the kind that is wanted."""


def quantity(text: str, powers: Dict[str, int], example: str) -> Fraction:
    """A number with one of these units, each a power of ten."""
    found = QUANTITY.fullmatch(text.strip())
    unit = found[2].strip() if found else ""
    if unit not in powers:
        names = " ".join(it for it in powers if it.isascii())
        raise NoQuantity(f"{text!r} is no number with a unit ({names}), like {example}")
    return Fraction(found[1]) * Fraction(10) ** powers[unit]


def duration(text: str) -> Fraction:
    """A time above 0, in seconds."""
    found = quantity(text, SECONDS, "2.5us")
    if found == 0:
        raise NoQuantity(f"{text!r} is no time above 0")
    return found


def tick_of_rate(text: str) -> Fraction:
    """The seconds of a tick of a clock with a rate."""
    found = quantity(text, HERTZ, "1MHz")
    if found == 0:
        raise NoQuantity(f"{text!r} is no rate above 0")
    return 1 / found


def drift(text: str) -> Fraction:
    """By which share of its length a tick may be longer or shorter."""
    found = quantity(text, SHARES, "50ppm")
    if found >= 1:
        raise NoQuantity(f"{text!r} is no drift below 100%")
    return found


def delays(text: str) -> Tuple[Fraction, Fraction]:
    """The least and the greatest of a range of times, in seconds; one time is both."""
    first, _, last = text.partition("..")
    least, most = duration(first), duration(last or first)
    if least > most:
        raise NoQuantity(f"{text!r} is to have its least time first")
    return least, most


def time_text(seconds: Fraction) -> str:
    """A time with the unit that leaves it between 1 and 1000, to six digits."""
    if seconds == 0:
        return "0 s"
    names = [(name, power) for name, power in SECONDS.items() if name.isascii()]
    name, power = next((it for it in names if abs(seconds) >= Fraction(10) ** it[1]), names[-1])
    return f"{float(seconds / Fraction(10) ** power):.{DIGITS}g} {name}"


@dataclass(frozen=True)
class Unit:
    """The time that a reference unit of a scenario is, in seconds."""

    seconds: Fraction

    @classmethod
    def of(cls, text: str) -> Unit:
        """The unit of a time like 1ps."""
        return cls(duration(text))

    def time(self, units: int) -> str:
        """The time of a number of reference units."""
        return time_text(units * self.seconds)

    def __str__(self) -> str:
        return time_text(self.seconds)


def behind(unit: Optional[Unit], units: int) -> str:
    """The time of a number of reference units in brackets; nothing if no unit is given."""
    return "" if unit is None else f" ({unit.time(units)})"


# The greatest numbers of a timing plan: units of a tick, and of a delay
MOST_OF_TICK, MOST_OF_DELAY = 10**6, 10**9


@dataclass(frozen=True)
class DataSheet:
    """What data sheets say of clocks and links: a tick, its drift, the least and greatest delay."""

    tick: Fraction
    drift: Fraction
    delays: Tuple[Fraction, Fraction]

    def unit(self) -> Unit:
        """The finest power of ten of a second by which the numbers are within a plan's ranges."""
        power = SECONDS["fs"]
        while (round(self.tick / Fraction(10) ** power) > MOST_OF_TICK
               or math.ceil(self.delays[1] / Fraction(10) ** power) > MOST_OF_DELAY):
            power += 1
        return Unit(Fraction(10) ** power)

    def numbers(self) -> Dict[str, int]:
        """u, r, dmin and dmax in that unit: rounded so that r, dmin and dmax cover what the sheets
        say; NoQuantity if a plan has no such numbers."""
        one = self.unit().seconds
        u = round(self.tick / one)
        r = math.ceil(self.tick * self.drift / one + abs(self.tick / one - u))
        dmin, dmax = math.floor(self.delays[0] / one), math.ceil(self.delays[1] / one)
        if u < 2 or r >= u or dmin < 1:
            raise NoQuantity(f"--tick and --delay: a tick of {time_text(self.tick)} and a delay of "
                             f"{time_text(self.delays[0])} are too far apart for one unit")
        return {"u": u, "r": r, "dmin": dmin, "dmax": dmax}
