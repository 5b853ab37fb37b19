"""What stands behind a BIU."""
from __future__ import annotations

from .names import FAULT, Word


class Port:
    """What stands behind a BIU: its application with a state, and which of the last 64 deliveries
    were no word."""

    none: list[bool]

    def __init__(self, app: str, state: int) -> None:
        self.app, self.state, self.none = app, state, []

    def offered(self, slot: int) -> int:
        """The word that the application offers in a data slot of its BIU."""
        return (self.state + (slot if self.app == "follow" else 0)) % (1 << 32)

    def deliver(self, value: Word) -> None:
        """Hands a delivery to the application, which changes its state."""
        self.none = (self.none + [value is FAULT])[-64:]
        if self.app == "counter":
            self.state = (self.state + 1) % (1 << 64)
        elif self.app == "follow":
            self.state = (31 * self.state + (value or 0)) % (1 << 64)

    def losses(self) -> int:
        """How many of the last 64 deliveries were no word."""
        return sum(self.none)
