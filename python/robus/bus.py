"""A bus whose BIUs say what your own software gives them, record by record.

    with robus.Bus("examples/c/loop.toml") as bus:
        for record in bus:
            if isinstance(record, robus.Frame):
                bus.hand("B0", 7)

It is the bus of robus.h (librobus.so), or the second model's if no library is there.
docs/COSIMULATION.md is its page."""
from __future__ import annotations

from typing import List, Optional, Tuple, Union

from robus import arguments
from robus.bus_library import LibraryRun
from robus.engines import BUS, Engine, Library, Which, choose
from robus.errors import BusError
from robus.records import Frame, Record, Slot
from robus.rows import Breach, Delivery, Ended
from robus.scenario import Source, scenario_of

NO_BUS = 10


class Bus:
    """A bus that runs a scenario, before its first record.

    The bus is an iterator over its records: for each frame a `Frame` and then a `Slot` for each of
    its slots, and at last `Ended` or `Breach`. `next_slot` and `next_frame` pass over records.
    After the record of a frame each good BIU with a table may be handed a word, which it offers in
    all its slots from this frame on until it is handed another one. So what is delivered in a frame
    can be answered in the next one.

    `engine` is what runs the bus. `delivered` are the deliveries of the last frame that is over.
    The bus stays in the thread that made it. Refused is raised if the scenario is refused, and
    NoEngine if the engine that is asked for has no bus."""

    def __init__(self, scenario: Source, *, engine: Which = None):
        given = scenario_of(scenario)
        self.engine: Engine = choose(["open"], engine, BUS)
        self.delivered: Tuple[Delivery, ...] = ()
        self._pending: List[Delivery] = []
        self._last: Optional[Record] = None
        if isinstance(self.engine, Library):
            self._run = LibraryRun(self.engine.path, given)
        else:
            from robus.bus_model import ModelRun

            self._run = ModelRun(given)

    @property
    def is_over(self) -> bool:
        """Whether the last record was given."""
        return isinstance(self._last, (Ended, Breach))

    def next(self) -> Record:
        """The next record. After the last one, Ended or Breach, it returns that one again."""
        if self._run is None:
            raise BusError(NO_BUS)
        if self.is_over:
            return self._last
        record = self._last = self._run.next()
        if isinstance(record, Slot):
            self._pending += record.deliveries
        else:
            self.delivered, self._pending = tuple(self._pending), []
        return record

    def next_slot(self) -> Union[Slot, Ended, Breach]:
        """Goes on to the next slot in which something is delivered, or to the last record. If it
        passes over the start of a frame, no word can be handed in until the next one begins."""
        while True:
            record = self.next()
            if not isinstance(record, Frame) and (not isinstance(record, Slot)
                                                  or record.deliveries):
                return record

    def next_frame(self) -> Union[Frame, Ended, Breach]:
        """Goes on to the start of the next frame, or to the last record. `delivered` then has the
        deliveries of the frame before."""
        while True:
            record = self.next()
            if not isinstance(record, Slot):
                return record

    def hand(self, node: str, word: int) -> None:
        """Hands a word, 0 to 4294967295, to a BIU, as `B0`. BusError is raised, and nothing
        changes, if the last record is not that of a frame, if there is no such good BIU, or if its
        application is not a table."""
        number = arguments.node("node", node, "B")[1]
        word = arguments.integer("word", word, 0, arguments.MOST_WORD)
        status = NO_BUS if self._run is None else self._run.hand(number, word)
        if status:
            raise BusError(status, node)

    def close(self) -> None:
        """Gives the bus's memory back. After it there is no bus."""
        run, self._run = self._run, None
        if run is not None:
            run.close()

    def __iter__(self) -> Bus:
        return self

    def __next__(self) -> Record:
        if self.is_over and self._run is not None:
            raise StopIteration
        return self.next()

    def __enter__(self) -> Bus:
        return self

    def __exit__(self, *_: object) -> None:
        self.close()

    def __del__(self) -> None:
        if getattr(self, "_run", None) is not None:
            self.close()
