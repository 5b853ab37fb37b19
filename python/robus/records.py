"""The records of a run, one after another: a frame begins, a slot is delivered, and at last the run
ends or the fault premise is broken (`Ended`, `Breach`)."""
from __future__ import annotations

from dataclasses import dataclass
from typing import Iterable, List, Optional, Tuple, Union

from robus.rows import Breach, Conviction, Delivery, Ended, Epoch, Port, Row, line_of
from robus.summary import convicted_in


@dataclass(frozen=True)
class Frame:
    """A frame begins: for each good node when, and whom it holds convicted, and for each good BIU
    the state of its application. The last record of this kind has the number of frames that the
    scenario has; no slots follow it."""

    frame: int
    epochs: Tuple[Epoch, ...]
    convictions: Tuple[Conviction, ...]
    ports: Tuple[Port, ...]

    @property
    def good(self) -> Tuple[str, ...]:
        """The good BIUs. Each may be handed a word now if its application is a table."""
        return tuple([it.node for it in self.ports])

    @property
    def time(self) -> Optional[int]:
        """When the first good node begins the frame, in reference units."""
        return min((it.time for it in self.epochs), default=None)

    @property
    def convicted(self) -> Tuple[str, ...]:
        """The nodes that good nodes hold convicted."""
        return convicted_in(self.convictions)


@dataclass(frozen=True)
class Slot:
    """A slot is over: what each good BIU delivers. There are no deliveries if it is no data slot,
    or if no BIU owns it."""

    frame: int
    slot: int
    deliveries: Tuple[Delivery, ...]

    @property
    def sender(self) -> Optional[str]:
        """The BIU that owns the slot; None without deliveries."""
        return self.deliveries[0].sender if self.deliveries else None

    @property
    def word(self) -> Optional[int]:
        """The word that all good BIUs deliver; None if they deliver none."""
        return self.deliveries[0].word if self.deliveries else None


Record = Union[Frame, Slot, Ended, Breach]


def rows_in(record: Record) -> Iterable[Row]:
    """The rows of a report that a record has, in their order."""
    if isinstance(record, Frame):
        return (*record.epochs, *record.convictions, *record.ports)
    return record.deliveries if isinstance(record, Slot) else (record,)


def lines_of(record: Record) -> List[str]:
    """The lines of a report that a record has."""
    return [line_of(row) for row in rows_in(record)]
