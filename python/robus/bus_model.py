"""A bus of the second model, which is not proved. It wants Python 3.11."""
from __future__ import annotations

from robus.errors import Failed, Refused
from robus.calls import refusal_in
from robus.model import TooLong, model, read
from robus.records import Frame, Record, Slot
from robus.rows import Conviction, Epoch, Port, row_of
from robus.scenario import Scenario


class ModelRun:
    """A run of a scenario by the second model."""

    def __init__(self, scenario: Scenario):
        try:
            self._run = model.Stepped(read(scenario.text))
        except model.Refused as refusal:
            raise Refused(refusal_in(str(refusal)), scenario.text, scenario.file) from None
        except TooLong:
            raise Failed(("bus",), 4) from None

    def next(self) -> Record:
        """The next record; the last one comes again."""
        it = self._run.next()
        rows = [row_of(line) for line in it.lines]
        if it.what == "slot":
            return Slot(it.frame, it.slot, tuple(rows))
        if it.what == "frame":
            kinds = [tuple([row for row in rows if isinstance(row, kind)])
                     for kind in (Epoch, Conviction, Port)]
            return Frame(it.frame, *kinds)
        return rows[0]

    def hand(self, biu: int, word: int) -> int:
        """Hands a word to a BIU; the status of robus.h."""
        status = self._run.why_not(biu)
        if not status:
            self._run.hand(biu, word)
        return status

    def close(self) -> None:
        """Nothing is to be given back."""
