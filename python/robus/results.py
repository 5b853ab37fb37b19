"""What the calls of the package give: the output of a program, and the rows of its lines by kind.

The rows have names, numbers and units as robus.rows says."""
from __future__ import annotations

import os
from dataclasses import dataclass, field
from functools import cached_property
from pathlib import Path
from typing import Any, ClassVar, Dict, List, Optional, Tuple, Union

from robus import arguments
from robus.engines import Engine, choose
from robus.errors import BadArgument, NoEngine
from robus.rows import (KIND_OF, LINES, Breach, Conviction, Crossing, Delivery, Epoch, GroupValue,
                        Inequality, Letter, Port, Row, columns, dict_of, rows_of, write_csv)
from robus.summary import Summary, convicted_in, spread_of, summary_of


@dataclass(frozen=True)
class Result:
    """The output of a call: `output` as the program wrote it, `status` 0, or 1 if the run ended
    with a breach of the fault premise, and the engine that ran it."""

    engine: Engine
    status: int
    output: bytes = field(repr=False)
    main_kind: ClassVar[str] = "deliveries"

    @cached_property
    def text(self) -> str:
        """The output as text."""
        return self.output.decode("ascii")

    @cached_property
    def rows(self) -> List[Row]:
        """Each line of the output, in order."""
        return list(rows_of(self.text.splitlines()))

    @cached_property
    def by_kind(self) -> Dict[str, List[Any]]:
        """The rows of each kind, by its name in docs/DATA.md."""
        found: Dict[str, List[Any]] = {kind: [] for kind in LINES}
        for row in self.rows:
            found[KIND_OF[type(row)]].append(row)
        return found

    @property
    def breach(self) -> Optional[Breach]:
        """Where the fault premise was broken, and how; None if the run came to its end."""
        return next(iter(self.by_kind["breach"]), None)

    @property
    def frames(self) -> Optional[int]:
        """After how many frames the run came to its end; None if it has a breach."""
        return next((it.frames for it in self.by_kind["end"]), None)

    def to_dicts(self) -> List[Dict[str, Any]]:
        """Each row as a dict with its kind, as tools/table --json writes it."""
        return [dict_of(row) for row in self.rows]

    def to_csv(self, path: Union[str, os.PathLike], kind: Optional[str] = None) -> None:
        """Writes the rows of one kind as CSV, as tools/table does; without a kind the main one."""
        kind = self.kind_in(kind)
        with open(arguments.path("path", path), "w", encoding="ascii", newline="") as file:
            write_csv(kind, self.rows, file)

    def to_pandas(self, kind: Optional[str] = None) -> Any:
        """The rows of one kind as a pandas.DataFrame; ImportError if pandas is not there."""
        kind = self.kind_in(kind)
        import pandas

        names = columns(kind)
        found = [[getattr(row, name) for name in names] for row in self.by_kind[kind]]
        return pandas.DataFrame(found, columns=names)

    def kind_in(self, kind: Optional[str]) -> str:
        """A kind of rows; without one the main kind."""
        return self.main_kind if kind is None else arguments.one_of("kind", kind, list(LINES))

    def ending(self) -> str:
        """How the run ended, in words."""
        if self.breach is None:
            return f'ended after {self.frames} frame{"" if self.frames == 1 else "s"}'
        it = self.breach
        return f"breach {it.cause} at frame {it.frame}, slot {it.slot}, stage {it.stage}"

    def __repr__(self) -> str:
        count = len(self.by_kind[self.main_kind])
        return f"{type(self).__name__}({self.ending()}, {count} {self.main_kind}, by {self.engine})"


@dataclass(frozen=True, repr=False)
class Report(Result):
    """A run: what its good nodes showed of it."""

    @property
    def epochs(self) -> List[Epoch]:
        """When each good node began each frame."""
        return self.by_kind["begins"]

    @property
    def convictions(self) -> List[Conviction]:
        """Whom each good node held convicted as each frame began."""
        return self.by_kind["convicted"]

    @property
    def ports(self) -> List[Port]:
        """The state of the application at each good BIU as each frame began."""
        return self.by_kind["ports"]

    @property
    def deliveries(self) -> List[Delivery]:
        """What each good BIU delivered in each slot that had an owner."""
        return self.by_kind["deliveries"]

    @property
    def convicted(self) -> Tuple[str, ...]:
        """The names of all nodes that some good node held convicted."""
        return convicted_in(self.convictions)

    @property
    def spread(self) -> Optional[int]:
        """The greatest difference between the times at which good nodes began one frame, in
        reference units; None if no good node began one, and for a log, which has no times."""
        return spread_of(self.epochs)

    @property
    def summary(self) -> Summary:
        """The run in a line, as a sweep and a campaign keep it."""
        return summary_of(self.status, self.rows)

    def picture(self, first: Optional[int] = None, last: Optional[int] = None) -> str:
        """The run, or the frames from first to last of it, as an SVG that robus_picture draws.
        NoEngine is raised if that program is not there."""
        words = [] if first is None and last is None else self.frame_words(first, last)
        engine = self.engine if self.engine.has(words, "robus_picture") else None
        engine = engine or choose(words, program="robus_picture")
        return engine.call(words, self.output, "robus_picture").output.decode("utf-8")

    def frame_words(self, first: Optional[int], last: Optional[int]) -> List[str]:
        """The words for the frames from first to last, or for first alone."""
        if first is None:
            raise BadArgument("first: it is missing, and last is there")
        end = self.frames if self.breach is None else self.breach.frame
        first = arguments.integer("first", first, 0, end)
        last = first if last is None else arguments.integer("last", last, first, end)
        return [str(first), str(last)]

    def _repr_svg_(self) -> Optional[str]:
        """How a notebook shows the run: as a picture, if robus_picture is there."""
        try:
            return self.picture()
        except NoEngine:
            return None


@dataclass(frozen=True, repr=False)
class Replay(Result):
    """What one node, or a passive listener, makes of a log: rows as of a run, without times."""

    @property
    def epochs(self) -> List[Epoch]:
        """With which tick the node began each frame; `time` is None."""
        return self.by_kind["begins"]

    @property
    def convictions(self) -> List[Conviction]:
        """Whom the node held convicted as each frame began."""
        return self.by_kind["convicted"]

    @property
    def deliveries(self) -> List[Delivery]:
        """What the node delivered."""
        return self.by_kind["deliveries"]


@dataclass(frozen=True, repr=False)
class Letters(Result):
    """The letters that the BIUs of a run receive whole."""

    main_kind: ClassVar[str] = "letters"

    @property
    def letters(self) -> List[Letter]:
        """Each letter, where its last word is delivered."""
        return self.by_kind["letters"]


@dataclass(frozen=True, repr=False)
class Groups(Result):
    """What good BIUs find for a group of replicas in each frame."""

    main_kind: ClassVar[str] = "groups"

    @property
    def values(self) -> List[GroupValue]:
        """What each good BIU found in each frame."""
        return self.by_kind["groups"]


@dataclass(frozen=True, repr=False)
class BridgeReport(Result):
    """The words that cross between two buses; `breach.bus` says on which of them a breach was."""

    main_kind: ClassVar[str] = "crossings"

    @property
    def crossings(self) -> List[Crossing]:
        """What each good BIU of either bus found, from frame 1 on."""
        return self.by_kind["crossings"]


@dataclass(frozen=True, repr=False)
class Check(Result):
    """Both sides of the seven inequalities of a timing plan, in reference units."""

    main_kind: ClassVar[str] = "inequalities"

    @property
    def inequalities(self) -> List[Inequality]:
        """C1 to C7."""
        return self.by_kind["inequalities"]

    def ending(self) -> str:
        """What is known of the plan, in words."""
        return "the plan is feasible"


@dataclass(frozen=True, repr=False)
class Stress(Result):
    """Four numbers of the generated scenario's run."""

    main_kind: ClassVar[str] = "numbers"

    @cached_property
    def numbers(self) -> Dict[str, int]:
        """frames, deliveries, convicted (how many nodes), and spread, in reference units."""
        return {it.name: it.number for it in self.by_kind["numbers"]}

    def ending(self) -> str:
        """The numbers, in words."""
        return ", ".join(f"{name} {number}" for name, number in self.numbers.items())


@dataclass(frozen=True)
class Log:
    """All that one node of a run was given: ticks, words and messages, as docs/FORMATS.md has it.
    With status 1 the run ended with a breach, and the log goes up to there."""

    engine: Engine
    status: int
    data: bytes = field(repr=False)

    def write(self, path: Union[str, os.PathLike]) -> None:
        """Writes the log into a file."""
        Path(arguments.path("path", path)).write_bytes(self.data)
