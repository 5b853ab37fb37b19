"""A bus of librobus.so, by ctypes: the four calls robus_bus_* of robus.h."""
from __future__ import annotations

import ctypes
from ctypes import POINTER, Structure, byref, c_bool, c_uint8, c_uint16, c_uint32, c_uint64
from functools import lru_cache
from typing import Optional

from robus.errors import BusError, Refused
from robus.records import Frame, Record, Slot
from robus.rows import Breach, Conviction, Delivery, Ended, Epoch, Port, Refusal
from robus.scenario import Scenario

FRAME, SLOT, END = 1, 2, 3
REFUSED = 3
# The names of the rules that a scenario breaks, by their codes
RULES = ("", "NotToml", "MissingKey", "UnknownKey", "WrongType", "OutOfRange", "PlanFails",
         "ClockBounds", "DelayBounds", "StartApart", "SayOfGood", "TooMany")
CAUSES = "", "FewGoodBiu", "FewGoodRmu", "TwoSided"
BIUS = tuple([f"B{number}" for number in range(16)])
NAMES = BIUS, tuple([f"R{number}" for number in range(16)])


class CHandle(Structure):
    """`robus_bus` of robus.h."""

    _fields_ = [("there", c_bool), ("run", ctypes.c_void_p)]


class COpening(Structure):
    """`robus_opening`."""

    _fields_ = [("status", c_uint8), ("code", c_uint8), ("number", c_uint64)]


class CNode(Structure):
    """`robus_bus_node`."""

    _fields_ = [("kind", c_uint8), ("index", c_uint8), ("convicted_bius", c_uint16),
                ("convicted_rmus", c_uint16), ("tick", c_uint64), ("time", c_uint64)]


class CPort(Structure):
    """`robus_bus_port`."""

    _fields_ = [("biu", c_uint8), ("losses", c_uint8), ("state", c_uint64)]


class CDelivery(Structure):
    """`robus_bus_delivery`."""

    _fields_ = [("receiver", c_uint8), ("sender", c_uint8), ("none", c_bool), ("word", c_uint32)]


class CRecord(Structure):
    """`robus_record`."""

    _fields_ = [("what", c_uint8), ("cause", c_uint8), ("stage", c_uint8), ("node_count", c_uint8),
                ("port_count", c_uint8), ("delivery_count", c_uint8), ("slot", c_uint16),
                ("frame", c_uint32), ("nodes", CNode * 32), ("ports", CPort * 16),
                ("deliveries", CDelivery * 16)]


@lru_cache(maxsize=None)
def calls_of(path: str) -> Optional[ctypes.CDLL]:
    """A library with the calls of a bus; None if it has none."""
    library = ctypes.CDLL(path)
    if getattr(library, "robus_bus_open", None) is None:
        return None
    handle = POINTER(CHandle)
    for name, result, rest in (("open", COpening, [ctypes.c_char_p, ctypes.c_size_t]),
                               ("next", c_uint8, [POINTER(CRecord)]),
                               ("hand", c_uint8, [c_uint8, c_uint32]), ("free", c_bool, [])):
        call = getattr(library, "robus_bus_" + name)
        call.restype, call.argtypes = result, [handle, *rest]
    return library


class LibraryRun:
    """A run of a scenario by the library."""

    def __init__(self, path: str, scenario: Scenario):
        self._calls, self._handle, self._record = calls_of(path), CHandle(), CRecord()
        self._at, self._into = byref(self._handle), byref(self._record)
        text = scenario.text
        opening = self._calls.robus_bus_open(self._at, text, len(text))
        if opening.status == REFUSED:
            refusal = Refusal(opening.code, RULES[opening.code], opening.number or None)
            raise Refused(refusal, text, scenario.file)
        if opening.status:
            raise BusError(opening.status)
        self._frame = 0

    def next(self) -> Record:
        """The next record; the last one comes again."""
        status = self._calls.robus_bus_next(self._at, self._into)
        if status:
            raise BusError(status)
        it = self._record
        if it.what == SLOT:
            return slot_of(it)
        if it.what == FRAME:
            self._frame = it.frame
            return frame_of(it)
        if it.what == END:
            return Ended(self._frame)
        return Breach(None, it.frame, it.slot, it.stage, CAUSES[it.cause])

    def hand(self, biu: int, word: int) -> int:
        """Hands a word to a BIU; the status of robus.h."""
        return self._calls.robus_bus_hand(self._at, biu, word)

    def close(self) -> None:
        """Gives the bus's memory back."""
        self._calls.robus_bus_free(self._at)


def slot_of(it: CRecord) -> Slot:
    """The record of a slot."""
    count, frame, slot = it.delivery_count, it.frame, it.slot
    if not count:
        return Slot(frame, slot, ())
    return Slot(frame, slot, tuple([
        Delivery(frame, slot, BIUS[d.receiver], BIUS[d.sender], None if d.none else d.word)
        for d in it.deliveries[:count]]))


def frame_of(it: CRecord) -> Frame:
    """The record of a frame."""
    frame = it.frame
    nodes = [(NAMES[node.kind][node.index], node) for node in it.nodes[:it.node_count]]
    return Frame(
        frame, tuple([Epoch(frame, name, node.tick, node.time) for name, node in nodes]),
        tuple([Conviction(frame, name, node.convicted_bius, node.convicted_rmus)
               for name, node in nodes]),
        tuple([Port(frame, BIUS[port.biu], port.state, port.losses)
               for port in it.ports[:it.port_count]]))
