"""The timing plan of a bus: its numbers and their ranges."""
from __future__ import annotations

from dataclasses import dataclass


@dataclass(frozen=True)
class Plan:
    """A timing plan: delays, and how long ticks, windows and frames are."""

    u: int = 10000  # reference units of a tick
    r: int = 1  # by how many units a tick may be longer or shorter
    dmin: int = 5000  # the least and the greatest delay, in reference units
    dmax: int = 15000
    l: int = 15  # ticks of a window below the sync slot, and of stage 1 of the sync slot
    h: int = 6  # the tick of a window at which its message is sent
    v: int = 18  # ticks of stage 2 of the sync slot
    z: int = 20  # ticks of stage 3 of the sync slot
    c: int = 1  # by how many ticks a BIU's next frame begins later
    p: int = 60200  # the bound on the skew of the nodes' first ticks of a frame, in reference units


PLAN_RANGES = {
    "u": (2, 1_000_000),
    "r": (0, 1_000_000),
    "dmin": (1, 1_000_000_000),
    "dmax": (1, 1_000_000_000),
    "l": (1, 1000),
    "h": (1, 1000),
    "v": (1, 1000),
    "z": (1, 1000),
    "c": (0, 1000),
    "p": (0, 1_000_000_000),
}
