"""One node of a bus as a core that a program of yours drives: the ticks of its clock and what comes
on its links go in, what it says and delivers comes out. It is the node core of robus.h by ctypes,
and is there if librobus.so is (docs/LIBRARY.md)."""
from __future__ import annotations

import ctypes
from dataclasses import asdict, dataclass
from functools import lru_cache
from typing import Any, Dict, Optional, Tuple, Union

from robus import arguments
from robus.engines import Library, Which, choose
from robus.errors import NoEngine, NoNode, Refused
from robus.rows import Delivery, Refusal, names_in
from robus.scenario import Scenario, Source, scenario_of

NO_TICK = 1 << 31


@dataclass(frozen=True)
class Epoch:
    """A frame that a node begins: its number, its first tick by the node's own clock, and whom the
    node holds convicted, by their names."""

    frame: int
    tick: int
    convicted: Tuple[str, ...]


@dataclass(frozen=True)
class Act:
    """What a node gives at a tick: the bytes that it sends to all nodes of the other kind, 11 or
    12, or None; whether a window ended with the tick; the frame of which this is the first tick, or
    None; and what it delivers of that window, or None."""

    message: Optional[bytes]
    closes: bool
    epoch: Optional[Epoch]
    delivery: Optional[Delivery]


class CHandle(ctypes.Structure):
    """`robus_node` of robus.h."""

    _fields_ = [("there", ctypes.c_bool), ("core", ctypes.c_void_p)]


class CSeat(ctypes.Structure):
    """`robus_seat`."""

    _fields_ = ([(name, ctypes.c_uint8) for name in ("kind", "index", "biu", "rmu")]
                + [("slots", ctypes.c_uint16), ("version", ctypes.c_uint8), ("bus", ctypes.c_uint8),
                   ("probation", ctypes.c_uint16)]
                + [(name, ctypes.c_uint32)
                   for name in ("u", "r", "dmin", "dmax", "l", "h", "v", "z", "c", "p")])


class CEpoch(ctypes.Structure):
    """`robus_epoch`."""

    _fields_ = [("begins", ctypes.c_bool), ("frame", ctypes.c_uint32), ("tick", ctypes.c_uint64),
                ("biu", ctypes.c_uint16), ("rmu", ctypes.c_uint16)]


class CDelivery(ctypes.Structure):
    """`robus_delivery`."""

    _fields_ = [("delivers", ctypes.c_bool), ("none", ctypes.c_bool), ("sender", ctypes.c_uint8),
                ("slot", ctypes.c_uint16), ("frame", ctypes.c_uint32), ("word", ctypes.c_uint32)]


class CAct(ctypes.Structure):
    """`robus_act`."""

    _fields_ = [("message", ctypes.c_uint8 * 12), ("length", ctypes.c_uint8),
                ("closes", ctypes.c_bool),
                ("epoch", CEpoch), ("delivery", CDelivery)]


class CWant(ctypes.Structure):
    """`robus_want`."""

    _fields_ = [("what", ctypes.c_uint8), ("slot", ctypes.c_uint16)]


@lru_cache(maxsize=None)
def calls_of(path: str) -> Optional[ctypes.CDLL]:
    """The calls of a library, with their types; None if it has no node cores."""
    library, handle = ctypes.CDLL(path), ctypes.POINTER(CHandle)
    if not hasattr(library, "robus_node_new"):
        return None
    for name, result, rest in (
            ("new", ctypes.c_uint32, [ctypes.POINTER(CSeat)]),
            ("arrive", ctypes.c_bool, [ctypes.c_uint8, ctypes.c_char_p, ctypes.c_size_t]),
            ("wants", CWant, []), ("tick", ctypes.c_bool, [ctypes.c_uint32, ctypes.POINTER(CAct)]),
            ("next_tick", ctypes.c_uint64, []), ("pass", ctypes.c_uint64, [ctypes.c_uint64]),
            ("free", ctypes.c_bool, [])):
        call = getattr(library, "robus_node_" + name)
        call.restype, call.argtypes = result, [handle, *rest]
    return library


def refuse_wrong_keys(scenario: Scenario, document: Dict[str, Any]) -> None:
    """Raises Refused, as a run does, if a key of the root or of the plan is missing, unknown or has
    a value of another form. A node does not need `frames`."""
    from robus import forms

    for table in forms.tables_of({"frames": 1, **document}):
        if table[1] in ("root", "plan"):
            for rule in (forms.missing, forms.unknown, forms.of_another_form):
                for code, _, _ in rule(*table):
                    raise Refused(Refusal(code, forms.model.SCENARIO_RULES[code]), scenario.text,
                                  scenario.file)


def seat_of(source: Source, name: str) -> CSeat:
    """A node of a scenario's bus: its sizes, its plan and its version. Nothing else is read."""
    from robus.model import model

    kind, index = arguments.node("name", name)
    scenario = scenario_of(source)
    document = scenario.to_dict()
    refuse_wrong_keys(scenario, document)
    plan = dict(asdict(model.Plan()), **document.get("plan", {}))
    keys = dict({"version": 1, "bus": 0, "probation": 0}, **document)
    sizes = {key: keys[key] for key in ("biu", "rmu", "slots")}
    rest = dict(plan, **{key: keys[key] for key in ("version", "bus", "probation")})
    seat = CSeat(kind="BR".index(kind), index=index, **sizes, **rest)
    for numbers, number in ((sizes, 11), (rest, 13)):
        if any(getattr(seat, key) != value for key, value in numbers.items()):
            raise NoNode(name, number)
    return seat


class Node:
    """One node of a scenario's bus, as B0 or R1, before its first tick.

        node = robus.Node("examples/one_silent_rmu.toml", "B0")
        node.pass_(node.next_tick() - node.had)
        act = node.tick()

    Ticks are counted from 0 by the node's own clock; the caller decides how long each takes. For
    each message that arrives before a tick, call `arrive` before `tick`. Ticks at which nothing
    happens may be left to `pass_`. Of the scenario only sizes, plan, version, bus and probation are
    read. The node stays in the thread that made it. Refused is raised if a key of the root or of
    the plan is missing, unknown or of another form, NoNode if the plan is not feasible or the bus
    has no such node, and NoEngine if librobus.so is not there."""

    def __init__(self, scenario: Source, name: str, *, engine: Which = None):
        self.name, self.had = name, 0
        self._handle, seat = CHandle(), seat_of(scenario, name)
        found = choose(["run"], engine)
        self._calls = calls_of(found.path) if isinstance(found, Library) else None
        if self._calls is None:
            raise NoEngine("engine: a node core wants librobus.so, which make library builds")
        number = self._calls.robus_node_new(self._handle, seat)
        if number:
            raise NoNode(name, number)

    def arrive(self, source: Union[str, int], data: bytes) -> None:
        """Bytes come from a node of the other kind, by its name or its number, 0 to 255: a message
        or any others. They count as arrived before the next tick. A number that no node has changes
        nothing."""
        if isinstance(source, str):
            number = arguments.node("source", source, "R" if self.name[0] == "B" else "B")[1]
        else:
            number = arguments.integer("source", source, 0, 255)
        text = arguments.some_bytes("data", data)
        self._calls.robus_node_arrive(self._handle, number, text, len(text))

    def wants(self) -> Union[None, str, int]:
        """What the node wants to be handed for its next tick: None, "request" for the number of
        data slots that it asks for, or the number of the data slot in which it says a word."""
        found = self._calls.robus_node_wants(self._handle)
        return (None, "request", found.slot)[found.what]

    def tick(self, word: int = 0) -> Act:
        """A tick, with the request or the word, 0 to 4294967295, that the node wants for it. A node
        that has had 2^31 ticks gives nothing."""
        word = arguments.integer("word", word, 0, arguments.MOST_WORD)
        act = CAct()
        self._calls.robus_node_tick(self._handle, word, act)
        self.had += self.had < NO_TICK
        epoch, delivery = act.epoch, act.delivery
        convicted = tuple(names_in(epoch.biu, "B") + names_in(epoch.rmu, "R"))
        return Act(
            bytes(act.message[:act.length]) if act.length else None, act.closes,
            Epoch(epoch.frame, epoch.tick, convicted) if epoch.begins else None,
            Delivery(delivery.frame, delivery.slot, self.name, f"B{delivery.sender}",
                     None if delivery.none else delivery.word) if delivery.delivers else None)

    def next_tick(self) -> Optional[int]:
        """The number of the first tick from the next on at which something happens: a frame begins,
        the node speaks, or a window ends. None if the node comes to its last tick before that.
        It does not depend on what arrives."""
        tick = self._calls.robus_node_next_tick(self._handle)
        return tick if tick < NO_TICK else None

    def pass_(self, ticks: int) -> int:
        """Passes up to `ticks` ticks, 0 to 2^64 - 1, at which nothing happens, and none from
        `next_tick` on. The result is their number."""
        ticks = arguments.integer("ticks", ticks, 0, (1 << 64) - 1)
        passed = self._calls.robus_node_pass(self._handle, ticks)
        self.had += passed
        return passed

    def close(self) -> None:
        """Gives the node's memory back. After it the node gives nothing."""
        self._calls.robus_node_free(self._handle)

    def __enter__(self) -> Node:
        return self

    def __exit__(self, *_: object) -> None:
        self.close()

    def __del__(self) -> None:
        if getattr(self, "_calls", None) is not None:
            self.close()
