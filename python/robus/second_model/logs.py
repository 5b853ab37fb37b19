"""Logs, and what one node makes of its log."""
from __future__ import annotations

from dataclasses import fields
from typing import NoReturn

from .answers import Refused
from .bus import Bus
from .core import Core
from .inequalities import first_failing
from .names import BIU, Event, FAULT, MAX_TICKS, Node, RMU, mask_of, name_of, other
from .plan import PLAN_RANGES, Plan


def log_header(bus: Bus, node: Node) -> bytes:
    """The header of a node's log."""
    text = bytes([bus.biu, bus.rmu]) + bus.slots.to_bytes(2)
    text += b"".join(getattr(bus.plan, item.name).to_bytes(4) for item in fields(Plan))
    text += bytes(node)
    if bus.version == 1 and bus.probation == 0:
        return b"RBL1" + text
    return b"RBL2" + text + bytes([bus.version, bus.number]) + bus.probation.to_bytes(2)


class LogReader:
    """Reads a log from start to end; `place` is the number of the byte that is read
    next."""

    def __init__(self, text: bytes) -> None:
        self.text, self.place = text, 0

    def take(self, length: int) -> bytes:
        """The next bytes, as many as are asked for; refused if the log has fewer."""
        if self.place + length > len(self.text):
            raise Refused(f"refused 3 Truncated {len(self.text)}")
        self.place += length
        return self.text[self.place - length : self.place]

    def number(self, length: int, least: int, most: int) -> int:
        """The number in the next bytes; refused at its place if it is out of the range."""
        place = self.place
        value = int.from_bytes(self.take(length))
        if not least <= value <= most:
            bad_field(place)
        return value

    def header(self) -> tuple[Bus, Node]:
        """The bus and the node of the header."""
        form = self.take(4)
        if form not in (b"RBL1", b"RBL2"):
            raise Refused("refused 1 BadMagic")
        biu, rmu, slots = self.number(1, 1, 16), self.number(1, 1, 16), self.number(2, 1, 64)
        plan = self.plan()
        if first_failing(Bus(biu, rmu, slots, plan)):
            bad_field(8)
        kind = self.number(1, 0, 1)
        node = kind, self.number(1, 0, (rmu if kind else biu) - 1)
        version, number, probation = 1, 0, 0
        if form == b"RBL2":
            version = self.number(1, 1, 2)
            number = self.number(1, 0, 255 if version == 2 else 0)
            probation = self.number(2, 0, 4096)
        return Bus(biu, rmu, slots, plan, version, number, probation), node

    def plan(self) -> Plan:
        """The timing plan of the header, each of its numbers in its range."""
        values = {}
        for key, (least, most) in PLAN_RANGES.items():
            if key == "r":
                most = values["u"] - 1
            if key == "dmax":
                least = values["dmin"]
            values[key] = self.number(4, least, most)
        return Plan(**values)

    def records(self, sources: int) -> list[Event]:
        """The events of a log: (ticks, word), or (source, bytes) with a source below `sources`."""
        ticks, events = 0, []
        while True:
            place = self.place
            match self.number(1, 1, 4):
                case 1:
                    events.append(("ticks", 1, self.number(4, 0, (1 << 32) - 1)))
                    ticks += 1
                case 2:
                    count = self.number(4, 1, (1 << 32) - 1)
                    events.append(("ticks", count, 0))
                    ticks += count
                case 3:
                    source = self.number(1, 0, sources - 1)
                    events.append(("came", source, self.take(self.number(1, 1, 32))))
                case 4:
                    break
            if ticks > MAX_TICKS:
                bad_field(place)
        if self.place < len(self.text):
            raise Refused(f"refused 4 AfterEnd {self.place}")
        return events


def bad_field(place: int) -> NoReturn:
    """Raises Refused for the field at a place of a log."""
    raise Refused(f"refused 2 BadField {place}")


def replay(text: bytes) -> list[str]:
    """The lines that a node's log gives without the rest of the bus."""
    reader = LogReader(text)
    bus, node = reader.header()
    events = reader.records(bus.size(other(node[0])))
    core, lines = Core(bus, node), []

    def tell_frame() -> None:
        """Adds the lines of the frame that the node begins."""
        lines.append(f"e {core.frame} {name_of(node)} {core.epoch}")
        masks = [mask_of(core.convicted(kind)) for kind in (BIU, RMU)]
        lines.append(f"c {core.frame} {name_of(node)} {masks[0]} {masks[1]}")

    for kind, first, second in events:
        if kind == "came":
            core.arrive(first, second)
            continue
        if core.ticks == 0:
            tell_frame()
        end = core.ticks + first
        while (tick := core.next_busy()) < end:
            core.ticks, frame = tick, core.frame
            shown = core.tick(lambda role, slot: second)
            if shown.turned:
                tell_frame()
            if shown.delivered:
                slot, owner, value = shown.delivered
                word = "none" if value is FAULT else value
                lines.append(f"d {frame} {slot} {name_of(node)} B{owner} {word}")
        core.ticks = end
    lines.append(f"end {core.frame}")
    return lines
