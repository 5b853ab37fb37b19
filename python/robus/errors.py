"""What is raised if a program gives no result."""
from __future__ import annotations

import sys
from functools import cached_property
from typing import TYPE_CHECKING, Optional, Tuple

from robus.rows import Refusal

if TYPE_CHECKING:
    from robus.lint import Finding

MEANINGS = {1: "the run ended with a breach of the fault premise",
            2: "the program has no such words, or a number in them is out of its range",
            4: "the input is longer than it may be", 5: "standard input could not be read",
            6: "standard output could not be written", 7: "no memory was left",
            8: "the arguments could not be read"}


class RobusError(Exception):
    """The base of all exceptions that this package raises on its own."""


class BadArgument(RobusError, ValueError):
    """An argument has a value that it may not have. The message names the argument and its
    range."""


class NoEngine(RobusError):
    """The engine that was asked for is not there, or none that is there has these words."""


class Failed(RobusError):
    """A program gave no result: it ended with a status that has none, or what it wrote lacks its
    last line. docs/robus.md has the meanings of the statuses."""

    def __init__(self, words: Tuple[str, ...], status: int, why: str = ""):
        self.words, self.status = words, status
        meaning = why or MEANINGS.get(status, "which docs/robus.md does not name")
        super().__init__(f'robus {" ".join(words)}: status {status}, {meaning}')


NO_BUS = {7: "no memory was left", 10: "the bus is closed",
          14: "a word is handed in after the record of a frame, and the last record is another",
          15: "the bus has no such BIU, or the BIU is not good as the frame begins",
          16: "the application of the BIU is not a table"}


class BusError(RobusError, ValueError):
    """A call of a bus was not done, and nothing changed. `status` is that of robus.h."""

    def __init__(self, status: int, node: str = ""):
        self.status = status
        super().__init__((node and f"{node}: ") + NO_BUS.get(status, f"status {status}"))


NO_NODE = {7: "no memory was left", 11: "the numbers of BIUs, RMUs or data slots are out of range",
           12: "the bus has no such node",
           13: "a number of the plan or the version is out of range"}


class NoNode(RobusError):
    """There is no such node core. `number` is that of robus.h; `inequality`, 1 to 7, is the first
    one of the plan that fails, or None."""

    def __init__(self, name: str, number: int):
        self.number = number
        self.inequality = number - 20 if number > 20 else None
        why = NO_NODE.get(number) or f"inequality {number - 20} of the plan fails"
        super().__init__(f"{name}: {why}")


class Refused(RobusError):
    """The input is refused. Code, name and number are those of the line `refused CODE NAME NUMBER`.

    Of a scenario `findings` are all that tools/lint finds, and `file`, `line` (from 1) and `key`
    (as Scenario.with_ takes it) tell the place of the first that breaks this rule; they are None
    if no place shows it, for a log, for a bridge, and below Python 3.11. The linter is no part
    of the proved programs."""

    def __init__(self, refusal: Refusal, data: Optional[bytes] = None, file: Optional[str] = None):
        super().__init__(refusal, data, file)
        self.code, self.name, self.number = refusal.code, refusal.name, refusal.number
        self.data, self.file = data, file

    @cached_property
    def findings(self) -> Tuple[Finding, ...]:
        """What tools/lint finds in the scenario, in the order of its lines."""
        if self.data is None or sys.version_info < (3, 11):
            return ()
        from robus.lint import lint

        return tuple(lint(self.data)[1])

    @property
    def finding(self) -> Optional[Finding]:
        """The first finding for the rule that is broken, or None."""
        return next((it for it in self.findings if it.code == self.code), None)

    @property
    def line(self) -> Optional[int]:
        """The line of the scenario's text, from 1."""
        return self.finding.line if self.finding else None

    @property
    def key(self) -> Optional[str]:
        """The place in the scenario, as fault[0].slot."""
        return self.finding.path if self.finding else None

    def __str__(self) -> str:
        number = "" if self.number is None else f" {self.number}"
        refused = f"refused {self.code} {self.name}{number}"
        if self.finding is None:
            return refused
        return f'{refused}: {self.file or "scenario"}:{self.line}: {self.finding.why}'
