"""Votes: the majority, the middle, the owners of the data slots, and convictions."""
from __future__ import annotations

from .bus import Bus
from .names import FAULT, Word


def majority_of(values: list[Word]) -> Word:
    """The value that more than half of the list is; FAULT if there is none."""
    return next((value for value in values if 2 * values.count(value) > len(values)), FAULT)


def middle_of(stamps: list[int]) -> int:
    """Of n stamps the one at place (n - 1) / 2, rounded down, in ascending order."""
    return sorted(stamps)[(len(stamps) - 1) // 2]


def owners_of(bus: Bus, requested: list[int], trusted: set[int]) -> list[int | None]:
    """The owner of each data slot; nobody is None."""
    left = [requested[number] if number in trusted else 0 for number in range(bus.biu)]
    owners = []
    while len(owners) < bus.slots and any(left):
        for number in range(bus.biu):
            if left[number] and len(owners) < bus.slots:
                owners.append(number)
                left[number] -= 1
    return owners + [None] * (bus.slots - len(owners))


def convicted_by(vectors: list[int], trusted: set[int]) -> set[int]:
    """The trusted nodes that more of the vectors name than spare."""
    named = {node: sum(vector >> node & 1 for vector in vectors) for node in trusted}
    return {node for node in trusted if 2 * named[node] > len(vectors)}
