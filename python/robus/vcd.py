"""A run as a value change dump (IEEE 1364) for GTKWave and other viewers of waveforms, with a save
file of GTKWave. A vector is z if nothing is said or heard, and x for anything but a word."""
from __future__ import annotations

import math
from collections.abc import Iterator
from dataclasses import dataclass
from fractions import Fraction

from robus.errors import BadArgument
from robus.model import BIU, RMU, model, name_of
from robus.trace_messages import Run, check
from robus.units import Unit

NANOSECOND = Fraction(1, 10**9)
SCALES = ("s", "ms", "us", "ns", "ps", "fs")
NOTHING, NO_WORD = "z", "x"
Value = int | str
# The zoom of GTKWave is -log2 of the time of 200 pixels; its time axis has about 780 of them
PIXELS, PIXELS_OF_ZOOM = 780, 200
DECIMAL, BINARY, COMMENT = 0x24, 0x28, 0x200  # how GTKWave shows a line
RED = 1


@dataclass(frozen=True)
class Signal:
    """A signal of a scope, which is a node or the bus."""

    scope: str
    name: str
    width: int

    @property
    def path(self) -> str:
        """As GTKWave names it."""
        bits = f"[{self.width - 1}:0]" if self.width > 1 else ""
        return f"robus.{self.scope}.{self.name}{bits}"


def signals_of(bus: model.Bus) -> dict[tuple[str, str], Signal]:
    """All signals, by scope and name."""
    found = [Signal("bus", "breach", 1), Signal("bus", "spread", 64)]
    for node in bus.nodes():
        far = model.other(node[0])
        widths = {"good": 1, "frame": 16, "slot": 8, "stage": 3, "says_tag": 2, "says": 32,
                  "delivers": 32, "accuses": bus.size(far), "convicted_biu": bus.biu,
                  "convicted_rmu": bus.rmu, "skew": 64}
        widths.update((f"heard_{name_of((far, i))}", 32) for i in range(bus.size(far)))
        found += [Signal(name_of(node), name, width) for name, width in widths.items()]
    return {(it.scope, it.name): it for it in found}


class Traced(model.World):
    """A run of the second model that keeps when which signal changed: time, scope, name, value."""

    def __init__(self, scenario: model.Scenario) -> None:
        self.changes: list[tuple[int, str, str, Value]] = []
        self.begun: dict[int, dict[str, int]] = {}  # by frame and node when it began it
        self.now = 0
        super().__init__(scenario)

    def change(self, time: int, node: model.Node, **values: Value) -> None:
        """Keeps that signals of a node have these values from a time on."""
        self.changes += [(time, name_of(node), name, value) for name, value in values.items()]

    def tell_frame(self, site: model.Site) -> None:
        """Keeps that a node begins a frame, and whom it holds convicted."""
        super().tell_frame(site)
        core, time = site.core, site.clock.time_of(site.core.epoch)
        bius, rmus = (model.mask_of(core.convicted(kind)) for kind in (BIU, RMU))
        self.begun.setdefault(core.frame, {})[name_of(site.node)] = time
        self.change(time, site.node, good=1, frame=core.frame, convicted_biu=bius,
                    convicted_rmu=rmus, accuses=core.vector())

    def clear(self, time: int, node: model.Node) -> None:
        """Keeps that a node says and hears nothing from a time on."""
        far = model.other(node[0])
        heard = {f"heard_{name_of((far, i))}": NOTHING for i in range(self.bus.size(far))}
        self.change(time, node, says=NOTHING, says_tag=0, **heard)

    def open_window(self, site: model.Site) -> None:
        """Keeps that a window opens, in which nothing is said or heard yet."""
        time, window = site.clock.time_of(site.core.first), site.core.window
        self.clear(time, site.node)
        self.change(time, site.node, slot=window.slot, stage=window.stage)
        if window.stage == 1:
            self.change(time, site.node, delivers=NOTHING)
        super().open_window(site)

    def send(self, node: model.Node, time: int, frame: int, slot: int, stage: int,
             text: bytes) -> None:
        """Keeps that a node says something."""
        tag, said = said_in(self.bus, text)
        self.change(time, node, says=said, says_tag=tag)
        super().send(node, time, frame, slot, stage, text)

    def proceed(self, site: model.Site, time: int, tick: int) -> None:
        """Keeps what a node delivers and whom it accuses as a window closes, and from when on it
        is faulty."""
        core, frame, window = site.core, site.core.frame, site.core.window
        is_last = tick == core.last
        super().proceed(site, time, tick)
        self.now = time
        if is_last:
            self.change(time, site.node, accuses=core.vector())
            delivered = self.slot_deliveries.get((frame, window.slot, site.node[1]))
            if delivered and site.node[0] == BIU and window.stage == 2:
                word = delivered[1]
                self.change(time, site.node, delivers=NO_WORD if word is model.FAULT else word)
        if not site.is_running() and core.frame < self.scenario.frames:
            end = site.clock.time_of(core.ticks)
            self.clear(end, site.node)
            self.change(end, site.node, good=0, frame=NOTHING, slot=NOTHING, stage=NOTHING,
                        delivers=NOTHING)


def said_in(bus: model.Bus, text: bytes) -> tuple[int, Value]:
    """The tag of a message, and its word; 0 if the bytes spell none."""
    found = model.read_message(bus, text)
    if found is None:
        return 0, NO_WORD
    return found[0], found[4] if found[0] == model.WORD_TAG else NO_WORD


def changes_of(run: Run, world: Traced) -> list[tuple[int, str, str, Value]]:
    """All changes in the order of time: those of the second model, what the messages of the logs
    say, how far apart nodes begin, and the breach."""
    changes = list(world.changes)
    for it in run.messages:
        _, said = said_in(run.bus, it.data)
        changes.append((it.time, name_of(it.target), f"heard_{name_of(it.source)}", said))
    for times in world.begun.values():
        low, high = min(times.values()), max(times.values())
        changes += [(time, name, "skew", time - low) for name, time in times.items()]
        changes.append((high, "bus", "spread", high - low))
    if run.report.breach:
        changes.append((world.now, "bus", "breach", 1))
    return sorted(changes, key=lambda it: it[0])


def time_scale(unit: Unit | None) -> tuple[str, int]:
    """The time scale of the file, and how many of it a reference unit is."""
    seconds = unit.seconds if unit else NANOSECOND
    for power in range(0, -16, -1):
        count = seconds / Fraction(10) ** power
        if count.denominator == 1:
            return f"{10 ** (power % 3)} {SCALES[-(power // 3)]}", int(count)
    raise BadArgument(f"--unit: {unit} is no whole number of femtoseconds")


def symbol(number: int) -> str:
    """The short name of a signal: printable characters."""
    text = chr(33 + number % 94)
    return text if number < 94 else text + symbol(number // 94 - 1)


def value_of(signal: Signal, value: Value, short: str) -> str:
    """A line that gives a signal a value."""
    text = format(value, "b") if isinstance(value, int) else value
    return f"{text}{short}" if signal.width == 1 else f"b{text} {short}"


@dataclass(frozen=True)
class Waves:
    """The changes of a run between two times."""

    run: Run
    signals: dict[tuple[str, str], Signal]
    changes: list[tuple[int, str, str, Value]]
    first: int
    last: int

    @classmethod
    def of(cls, run: Run, frames: range) -> Waves:
        """The changes of a run in these frames; Failed if the second model has another report."""
        world = Traced(run.scenario)
        world.run()
        check(run, world)
        first = min(world.begun.get(frames.start, {"": 0}).values(), default=0)
        is_cut = frames.stop < run.scenario.frames and frames.stop in world.begun
        last = min(world.begun[frames.stop].values()) if is_cut else world.now
        return cls(run, signals_of(run.bus), changes_of(run, world), first, last)

    def head(self, scale: str) -> Iterator[str]:
        """The declarations."""
        yield f"$comment tools/trace; run by {self.run.engine} $end"
        yield f"$timescale {scale} $end"
        yield "$scope module robus $end"
        scope = None
        for number, it in enumerate(self.signals.values()):
            if it.scope != scope:
                yield from ["$upscope $end"] * bool(scope)
                yield f"$scope module {it.scope} $end"
                scope = it.scope
            bits = f" [{it.width - 1}:0]" if it.width > 1 else ""
            yield f"$var wire {it.width} {symbol(number)} {it.name}{bits} $end"
        yield from ["$upscope $end"] * 2
        yield "$enddefinitions $end"

    def lines(self, unit: Unit | None = None) -> Iterator[str]:
        """The lines of the file."""
        scale, factor = time_scale(unit)
        yield from self.head(scale)
        short = {key: symbol(number) for number, key in enumerate(self.signals)}
        state: dict[tuple[str, str], Value] = dict.fromkeys(self.signals, NOTHING)
        state.update({key: 0 for key in self.signals if key[1] in ("good", "breach")})
        inside = [it for it in self.changes if self.first < it[0] <= self.last]
        state.update({(scope, name): value for time, scope, name, value in self.changes
                      if time <= self.first})
        yield from (f"#{self.first * factor}", "$dumpvars")
        yield from (value_of(self.signals[key], value, short[key]) for key, value in state.items())
        yield "$end"
        now = self.first
        for time, scope, name, value in inside:
            if state[scope, name] == value:
                continue
            if time != now:
                now = time
                yield f"#{time * factor}"
            state[scope, name] = value
            yield value_of(self.signals[scope, name], value, short[scope, name])
        if self.last > now:
            yield f"#{self.last * factor}"

    def save_file(self, dump: str, unit: Unit | None = None) -> Iterator[str]:
        """The lines of a save file of GTKWave: first what each receiver heard from the nodes that
        turn faulty, then all of each node."""
        factor, bus = time_scale(unit)[1], self.run.bus
        zoom = -math.log2(max(1, (self.last - self.first) * factor) * PIXELS_OF_ZOOM / PIXELS)
        marker = self.last * factor if self.run.report.breach else -1
        yield f'[dumpfile] "{dump}"'
        yield f"[timestart] {self.first * factor}"
        yield "[size] 1400 900"
        yield f"*{zoom:.6f} {marker}" + " -1" * 26
        yield "[signals_width] 240"
        onsets = self.run.scenario.onsets
        guide = name_of(next((it for it in bus.nodes() if it not in onsets), bus.nodes()[0]))
        keys = [(guide, name) for name in ("frame", "slot", "stage")]
        yield from self.shown("the bus", [*keys, ("bus", "breach"), ("bus", "spread")])
        for node in onsets:
            far = [(model.other(node[0]), i) for i in range(bus.size(model.other(node[0])))]
            heard = [(name_of(it), f"heard_{name_of(node)}") for it in far]
            yield from self.shown(f"from {name_of(node)}, which turns faulty", heard, RED)
        for node in bus.nodes():
            own = [key for key in self.signals if key[0] == name_of(node)
                   and not key[1].startswith("heard_")]
            yield from self.shown(name_of(node), own)

    def shown(self, title: str, keys: list[tuple[str, str]], color: int = 0) -> Iterator[str]:
        """Signals under a title, each with its scope before its name."""
        yield from (f"@{COMMENT:x}", f"-{title}")
        for scope, name in keys:
            is_mask = name in ("accuses", "convicted_biu", "convicted_rmu", "breach", "good")
            yield f"@{BINARY if is_mask else DECIMAL:x}"
            yield from [f"[color] {color}"] * bool(color)
            yield f"+{{{scope} {name}}} {self.signals[scope, name].path}"
