"""The entries of a document: clocks, links, faults, and what faulty nodes say."""
from __future__ import annotations

import re

from .answers import refuse
from .bus import Bus, TAIL
from .forms import Document, SAYINGS
from .names import FAULT_TAG, MAX_TICKS, Node, SYNC_TAG, Segments, WORD_TAG
from .ranges import node_in, pair_in, pattern_in, within
from .scenario import LinkRule, Say


def clocks_in(bus: Bus, entries: list[Document]) -> dict[Node, tuple[int, Segments]]:
    """The start and the segments of each node's clock."""
    clocks = {}
    for entry in entries:
        node = node_in(bus, entry["node"])
        if node in clocks:
            refuse(5)
        ticks = entry.get("ticks", [[0, bus.plan.u]])
        for first, length in ticks:
            within(first, 0, MAX_TICKS)
            within(length, 1, 2_000_000)
        clocks[node] = within(entry.get("start", 0), 0, 10**12), ticks
    return {node: clocks.get(node, (0, [[0, bus.plan.u]])) for node in bus.nodes()}


def links_in(bus: Bus, frames: int, entries: list[Document]) -> list[LinkRule]:
    """The delay rules of the [[link]] entries, in their order."""
    rules = []
    for entry in entries:
        source, target = pattern_in(bus, entry["from"]), pattern_in(bus, entry["to"])
        if source[0] == target[0]:
            refuse(5)
        rules.append(
            LinkRule(
                source,
                target,
                within(entry["delay"], 1, 1_000_000_000),
                pair_in(entry.get("frames", [0, frames - 1]), 0, frames - 1),
                pair_in(entry.get("slots", [0, bus.sync]), 0, bus.sync),
                pair_in(entry.get("stages", [1, 3]), 1, 3),
            )
        )
    return rules


def onsets_in(bus: Bus, frames: int, entries: list[Document]) -> dict[Node, tuple[int, int]]:
    """The frame and the slot from which on each node with a [[fault]] entry is not good."""
    onsets = {}
    for entry in entries:
        node = node_in(bus, entry["node"])
        if node in onsets:
            refuse(5)
        onsets[node] = within(entry["frame"], 0, frames - 1), within(entry["slot"], 0, bus.sync)
    return onsets


def say_in(bus: Bus, frames: int, entry: Document) -> Say:
    """What one [[say]] entry says."""
    source, target = node_in(bus, entry["from"]), pattern_in(bus, entry["to"])
    slots, stages = pair_in(entry["slots"], 0, bus.sync), pair_in(entry["stages"], 1, TAIL)
    in_sync_slot = slots == (bus.sync, bus.sync)
    if source[0] == target[0] or (stages[1] == TAIL and not in_sync_slot):
        refuse(5)
    is_false = False in (entry.get("fault"), entry.get("sync"))
    if sum(key in entry for key in SAYINGS) != 1 or is_false:
        refuse(5)
    all_stages = range(stages[0], stages[1] + 1)
    lengths = [bus.length_of(slot, stage) for slot in set(slots) for stage in all_stages]
    raw = entry.get("raw", "")
    if "raw" in entry and not re.fullmatch(r"([0-9a-fA-F]{2}){1,32}", raw, re.ASCII):
        refuse(5)
    tag = 0 if raw else WORD_TAG if "word" in entry else FAULT_TAG if "fault" in entry else SYNC_TAG
    return Say(
        source,
        target,
        pair_in(entry["frames"], 0, frames - 1),
        slots,
        stages,
        within(entry["offset"], 0, min(lengths) - 1) if "offset" in entry else bus.plan.h,
        within(entry.get("early", 0), 0, bus.plan.u - bus.plan.r - 1 if in_sync_slot else 0),
        tag,
        within(entry.get("word", 0), 0, (1 << 32) - 1),
        bytes.fromhex(raw),
    )
