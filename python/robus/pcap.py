"""The messages of a run as a file of pcapng, for Wireshark and tshark with share/wireshark. Each
receiver is an interface; docs/TRACES.md has the header before the bytes of a message."""
from __future__ import annotations

import struct
from collections.abc import Iterator

from robus.model import Stage, name_of
from robus.trace_messages import Message, Run, is_faulty
from robus.units import Unit

USER0 = 147  # the link type that Wireshark leaves to its users
HEADER_VERSION = 1
SECTION, INTERFACE, PACKET = 0x0A0D0D0A, 1, 6
MAGIC = 0x1A2B3C4D
# The numbers of the options of pcapng
COMMENT, INTERFACE_NAME, RESOLUTION, APPLICATION = 1, 2, 9, 4
NANOSECONDS = bytes([9])


def option(code: int, value: bytes) -> bytes:
    """An option of a block, filled up to a multiple of four bytes."""
    return struct.pack("<HH", code, len(value)) + value + bytes(-len(value) % 4)


def options(*pairs: tuple[int, bytes]) -> bytes:
    """Options with the end behind them; nothing if there are none."""
    return b"".join(option(*it) for it in pairs) + bytes(4) if pairs else b""


def block(kind: int, body: bytes) -> bytes:
    """A block, which has its length at both ends."""
    length = len(body) + 12
    return struct.pack("<II", kind, length) + body + struct.pack("<I", length)


def header(run: Run, it: Message, place: Stage) -> bytes:
    """What is before the bytes of a message."""
    bus, (frame, slot, stage) = run.bus, place
    nodes = (*it.source, *it.target)
    sizes = bus.version, bus.number, bus.biu, bus.rmu, bus.slots
    faulty = is_faulty(run.scenario, it.source, place)
    return struct.pack(">12BHII", HEADER_VERSION, *nodes, *sizes, faulty, stage, slot, frame,
                       it.tick)


def conviction_comments(run: Run) -> list[tuple[int, str]]:
    """Each first conviction of a node with the frame from which on it holds, in that order."""
    found: dict[str, tuple[int, list[str]]] = {}
    for it in run.report.convictions:
        for name in it.convicted:
            frame, holders = found.setdefault(name, (it.frame, []))
            if frame == it.frame:
                holders.append(it.node)
    return sorted((frame, f"{name} is convicted from frame {frame} on, at {' '.join(holders)}")
                  for name, (frame, holders) in found.items())


def comments(run: Run, frames: range, places: list[Stage]) -> dict[int, list[str]]:
    """By the number of a packet what is said of it: a conviction at the first message from its
    frame on, and a breach at the last message of the run."""
    said: dict[int, list[str]] = {}
    last = len(places) - 1
    for frame, text in conviction_comments(run):
        if frame <= frames.stop:
            number = next((i for i, place in enumerate(places) if place[0] >= frame), last)
            said.setdefault(number, []).append(text)
    if run.report.breach and run.report.breach.frame in frames:
        said.setdefault(last, []).append(run.report.ending())
    return said


def nanoseconds(run: Run, units: int, unit: Unit | None) -> int:
    """A time in nanoseconds, rounded down; a reference unit is one if nothing else is said."""
    return units if unit is None else units * unit.seconds * 10**9 // 1


def packet(run: Run, it: Message, place: Stage, unit: Unit | None, said: list[str]) -> bytes:
    """The block of a message, with comments."""
    data = header(run, it, place) + it.data
    time = nanoseconds(run, it.time, unit)
    body = struct.pack("<IIIII", run.bus.nodes().index(it.target), time >> 32, time & 0xFFFFFFFF,
                       len(data), len(data))
    return block(PACKET, body + data + bytes(-len(data) % 4)
                 + options(*[(COMMENT, text.encode()) for text in said]))


def blocks(run: Run, frames: range, unit: Unit | None = None) -> Iterator[bytes]:
    """The blocks of a capture of the messages in these frames."""
    who = f"tools/trace; run by {run.engine}"
    yield block(SECTION, struct.pack("<IHHq", MAGIC, 1, 0, -1) + options(
        (COMMENT, run.report.ending().encode()), (APPLICATION, who.encode())))
    for node in run.bus.nodes():
        about = (INTERFACE_NAME, name_of(node).encode()), (RESOLUTION, NANOSECONDS)
        yield block(INTERFACE, struct.pack("<HHI", USER0, 0, 0) + options(*about))
    found = [(it, run.window_of(it.target, it.tick)) for it in run.messages]
    found = [(it, place) for it, place in found if place[0] in frames]
    said = comments(run, frames, [place for _, place in found])
    for number, (it, place) in enumerate(found):
        yield packet(run, it, place, unit, said.get(number, []))


def capture(run: Run, frames: range, unit: Unit | None = None) -> bytes:
    """The file of the messages in these frames. Without a unit a reference unit is a nanosecond."""
    return b"".join(blocks(run, frames, unit))

