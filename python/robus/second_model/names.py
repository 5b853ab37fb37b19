"""Nodes, their names, and the types of what is said and heard."""
from __future__ import annotations

from typing import Callable, Iterable

BIU, RMU = 0, 1
LETTERS = "BR"
MAX_TICKS = 1 << 31
SCENARIO_LIMIT = 4_194_304
LOG_LIMIT = 67_108_864
MOST_SAYS, MOST_LINKS, MOST_PAIRS = 1024, 4096, 4096
WORD_TAG, FAULT_TAG, SYNC_TAG = 1, 2, 3
FAULT = None  # the value that stands for "no word"
Node = tuple[int, int]  # its kind, BIU or RMU, and its number
Pattern = tuple[int, int | None]  # a node, or all nodes of a kind
Pair = tuple[int, int]  # the first and the last of a range
Word = int | None  # a word, or FAULT
Message = tuple[int, int, int, int, int]  # tag, frame modulo 65536, slot, stage, value
# The lengths of a clock's ticks in reference units, each with the first tick that has it
Segments = list[list[int]]
Trusted = list[set[int]]  # by kind the numbers of the nodes that a node trusts
# By source its value, or in the sync slot stamp and FAULT
Taken = dict[int, Word] | dict[int, tuple[int, Word]]
# What a node is handed to say, by the role and the number of the slot
Ask = Callable[[str, int], int]
# What a receiver took of a source: (time, nothing) in the sync slot, else (nothing, value)
Sight = tuple[int | None, Word]
Row = dict[int, Sight]  # by source what a receiver took in a stage
# "frame" and its number, or "stage", frame, slot and stage
Milestone = tuple[str, int] | tuple[str, int, int, int]
Event = tuple[str, int, int | bytes]  # ("ticks", how many, word) or ("came", source, bytes)
HandIn = tuple[int, int, int]  # a frame, a BIU, and the word that it is handed as the frame begins
Answer = tuple[int, bytes]  # the status, and what is written


def other(kind: int) -> int:
    """The kind of the nodes at the far end of a kind's links."""
    return 1 - kind


def name_of(node: Node) -> str:
    """A node's name, as B0."""
    return f"{LETTERS[node[0]]}{node[1]}"


def mask_of(numbers: Iterable[int]) -> int:
    """The mask that has the bits with these numbers, each of which is given once."""
    return sum(1 << number for number in numbers)
