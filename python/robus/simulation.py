"""Runs of a bus whose BIUs say what controllers, a table of words, or letters give them."""
from __future__ import annotations

import os
import sys
from dataclasses import dataclass, field
from typing import (Any, Callable, Dict, Iterable, List, Mapping, Optional, Protocol, Tuple, Union)

from robus import arguments
from robus.arguments import shown
from robus.bus import Bus
from robus.engines import Which
from robus.errors import BadArgument, BusError
from robus.handins import (HandIn, LetterSource, WordSource, Writer, words_of, write_table,
                           writers_of)
from robus.records import Frame, Slot, lines_of
from robus.results import Report
from robus.rows import Breach
from robus.runner import say
from robus.scenario import Scenario, Source
from robus.tool import ENGINE_HELP, Parser, input_of
from robus.words import meaning

Heard = Dict[str, Optional[int]]
# Gives the word for a frame, or None, from what its BIU delivered in the frame before, by sender
Function = Callable[[int, Heard], Optional[int]]


class Controller(Protocol):
    """The software of a BIU. One of the two methods may be missing."""

    def deliver(self, slot: int, sender: str, word: Optional[int]) -> None:
        """The BIU delivers a word of the sender in a slot; None without a majority."""

    def offer(self, frame: int) -> Optional[int]:
        """The word, 0 to 4294967295, that the BIU offers from this frame on; None keeps the last
        one."""


class FunctionController:
    """A controller that is a function of what its BIU delivered in the frame before."""

    def __init__(self, function: Function):
        self.function, self.heard = function, {}

    def deliver(self, slot: int, sender: str, word: Optional[int]) -> None:
        """Keeps the word, which is the sender's last one in this frame so far."""
        self.heard[sender] = word

    def offer(self, frame: int) -> Optional[int]:
        """Asks the function, and forgets what was heard."""
        heard, self.heard = self.heard, {}
        return self.function(frame, heard)


@dataclass(frozen=True, repr=False)
class Simulation(Report):
    """A run, and `words`: all that was handed in."""

    words: Tuple[HandIn, ...] = field(default=())

    def write_words(self, path: Union[str, os.PathLike]) -> None:
        """Writes what was handed in as the CSV that `simulate` and tools/explain take."""
        with open(arguments.path("path", path), "w", encoding="ascii", newline="") as file:
            write_table(self.words, file)


def controller_of(node: str, given: Any) -> Any:
    """What is given for a BIU, as an object with deliver or offer."""
    arguments.node("controllers", node, "B")
    if hasattr(given, "offer") or hasattr(given, "deliver"):
        return given
    if not callable(given):
        raise BadArgument(f"controllers: {shown(given)}, for {node}, is no function and has no "
                          "deliver and no offer")
    return FunctionController(given)


class Loop:
    """A bus and the software at its BIUs: `run` takes all records."""

    def __init__(self, bus: Bus, controllers: Dict[str, Any], words: Dict[int, List[HandIn]]):
        self.bus, self.words = bus, words
        self.deliver = {node: it.deliver for node, it in controllers.items()
                        if hasattr(it, "deliver")}
        self.offer = {node: it.offer for node, it in controllers.items() if hasattr(it, "offer")}
        self.nodes = set(controllers)
        self.good: Tuple[str, ...] = ()  # the BIUs that were good as the last frame began
        self.handed: List[HandIn] = []
        self.lines: List[str] = []

    def run(self) -> int:
        """Takes all records; the status of the run."""
        for record in self.bus:
            self.lines += lines_of(record)
            if isinstance(record, Slot):
                for it in record.deliveries:
                    if it.receiver in self.deliver:
                        self.deliver[it.receiver](record.slot, it.sender, it.word)
            elif isinstance(record, Frame):
                self.begin(record)
        return 1 if isinstance(record, Breach) else 0

    def begin(self, record: Frame) -> None:
        """Hands in the words of a frame: those of the table, and what controllers offer."""
        frame, good = record.frame, record.good
        self.good = good
        if frame == 0:
            for node in sorted(self.nodes.difference(good)):
                raise BadArgument(f"controllers: {node} is no BIU that is good as the run begins")
        for it in self.words.pop(frame, ()):
            self.hand(it)
        for node, offer in self.offer.items():
            word = offer(frame) if node in good else None
            if word is not None:
                self.hand(HandIn(frame, node, word))

    def hand(self, it: HandIn) -> None:
        """Hands a word in."""
        place = f"{it.node} in frame {it.frame}"
        try:
            self.bus.hand(it.node, it.word)
        except BusError as fault:
            raise BusError(fault.status, place) from None
        except BadArgument as fault:
            raise BadArgument(f"{place}: {fault}") from None
        self.handed.append(it)


def refuse_what_is_left(loop: Loop, writers: Dict[str, Writer]) -> None:
    """Raises BadArgument if words or letters are left as the run comes to its end. A letter may be
    cut off if its BIU fails."""
    if loop.words:
        raise BadArgument(f"words: the run has no frame {min(loop.words)}")
    for node, writer in writers.items():
        was_cut_off = node not in loop.good and writer.is_at_last_letter
        if writer.unsent and not was_cut_off:
            raise BadArgument(f"letters: the run ends before {writer.unsent[-1]} is sent")


def simulate(scenario: Source, controllers: Optional[Mapping[str, Any]] = None, *,
             words: WordSource = (), letters: Iterable[LetterSource] = (),
             engine: Which = None) -> Simulation:
    """Runs a scenario with software at its BIUs.

        robus.simulate("bus.toml", {"B0": lambda frame, heard: 7})
        robus.simulate("bus.toml", words="words.csv", letters=["3:B0:6869"])

    A controller is a Controller, or a function of a frame and of the words that its BIU delivered
    in the frame before, by sender. It is asked as each frame begins, as long as its BIU is good,
    and once more as the run ends. `words` are a CSV with the columns frame, node and word, or a
    list of these three. A letter has the frame in which its BIU begins to send it. A BIU has one
    of a controller, words and letters."""
    table, writers = words_of(words), writers_of(letters)
    if not isinstance(controllers, (Mapping, type(None))):
        raise BadArgument(f'controllers: {shown(controllers)} is no dict, as {{"B0": function}}')
    found = {node: controller_of(node, it) for node, it in (controllers or {}).items()}
    scripted = {it.node for rows in table.values() for it in rows}
    twice = sorted(scripted & {*found, *writers} | set(found) & set(writers))
    if twice:
        raise BadArgument(f"{twice[0]} has more than one of a controller, words and letters")
    with Bus(scenario, engine=engine) as bus:
        loop = Loop(bus, {**found, **writers}, table)
        status = loop.run()
    if status == 0:
        refuse_what_is_left(loop, writers)
    output = "".join([line + "\n" for line in loop.lines]).encode()
    return Simulation(bus.engine, status, output, tuple(loop.handed))


def hands_of(scenario: Source, words: WordSource = (),
             letters: Iterable[LetterSource] = ()) -> List[Tuple[int, int, int]]:
    """What is handed in at which frame to which BIU, as the second model takes it. It runs the
    scenario there, since a letter waits for the slots of its BIU."""
    if words == () and letters in ((), []):
        return []
    found = simulate(scenario, words=words, letters=letters, engine="model").words
    return [(it.frame, int(it.node[1:]), it.word) for it in found]


HELP = """Runs a scenario whose BIUs say given words, and writes the report that `robus run` writes
of a run, with the same status. FILE is a CSV whose first line is frame,node,word: as that frame
begins, the BIU is handed the word, which it offers until it is handed another. FRAME:NODE:HEX is a
letter that a BIU begins to send in a frame, a word in each frame. A BIU that is handed words needs
the application "table" and has to be good.

    tools/simulate bus.toml --words words.csv
    tools/simulate bus.toml --letter 3:B0:6869

docs/COSIMULATION.md says what is promised. tools/explain takes the same options."""


def add_options(parser: Parser) -> None:
    """The options of words and letters."""
    parser.add_argument("--words", metavar="FILE", default=(), help="a CSV of frame,node,word")
    parser.add_argument("--letter", metavar="FRAME:NODE:HEX", action="append", default=[],
                        help="a letter; may be given again")


def main(words: List[str]) -> int:
    """tools/simulate with these words; its status."""
    parser = Parser("tools/simulate", HELP)
    parser.add_argument("scenario", metavar="SCENARIO", help="a file, or - for standard input")
    add_options(parser)
    parser.add_argument("--engine", help=ENGINE_HELP)
    asked = parser.parse_args(words)
    file = None if asked.scenario == "-" else asked.scenario
    scenario = Scenario(input_of(asked.scenario), file or "standard input")
    found = simulate(scenario, words=asked.words, letters=asked.letter, engine=asked.engine)
    say("tools/simulate", f"run by {found.engine}")
    sys.stdout.buffer.write(found.output)
    sys.stdout.buffer.flush()
    say("tools/simulate", f"status {found.status}: {meaning('run', found.status, file)}")
    return found.status
