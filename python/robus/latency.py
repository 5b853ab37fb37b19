"""How long words take from the offer at their sender to the delivery at each receiver."""
from __future__ import annotations

from typing import Iterable, Iterator

from robus.model import model, name_of
from robus.rows import Delivery, Epoch, Row


def latencies(scenario: model.Scenario, rows: Iterable[Row]) -> Iterator[int]:
    """For each word of a good sender that a report delivers, the units of time from the tick at
    which the sender is handed it to the tick at which the receiver delivers it.

    A word is handed over at tick h of the sender's window of stage 1, and delivered with the last
    tick of the receiver's window of stage 2. The clocks of both nodes say when these are."""
    bus, plan = scenario.bus, scenario.bus.plan
    nodes = {name_of(it): it for it in bus.nodes()}
    clocks = {name: model.Timeline(*scenario.clocks[it]) for name, it in nodes.items()}
    begins: dict[tuple[int, str], int] = {}
    for row in rows:
        if isinstance(row, Epoch):
            begins[row.frame, row.node] = row.tick
        elif isinstance(row, Delivery) and is_of_good_sender(scenario, row):
            first = 3 * row.slot * plan.l
            offered = begins[row.frame, row.sender] + first + plan.h
            delivered = begins[row.frame, row.receiver] + first + 2 * plan.l - 1
            yield clocks[row.receiver].time_of(delivered) - clocks[row.sender].time_of(offered)


def is_of_good_sender(scenario: model.Scenario, row: Delivery) -> bool:
    """Whether a delivery is a word, and of a sender that is good in its slot."""
    sender = model.node_in(scenario.bus, row.sender)
    return row.word is not None and scenario.is_good(sender, row.frame, row.slot)
