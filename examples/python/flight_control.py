#!/usr/bin/env python3
"""flight_control.py [PLOT]: holds the pitch of an airframe by software at the BIUs of a bus.

Three replicas of one controller are at B0, B1 and B2. B3 measures the pitch and moves the elevator
to the middle of the angles that it delivers. From frame 200 on B2 tells each RMU another angle, and
from frame 500 on B1 is silent. The same software also flies over a wire, without the vote of the
bus: B3 hears what each replica tells R0. The tracks of both go into PLOT, an SVG, or a PNG if
matplotlib is there.

A frame is a control period. What B3 measures as frame k begins reaches the replicas in frame k,
their angles reach B3 in frame k + 1, and the elevator moves as frame k + 2 begins."""
from __future__ import annotations

import sys
from dataclasses import dataclass, field
from pathlib import Path
from statistics import median

try:
    import robus
except ImportError:  # the package of this repository
    sys.path.insert(0, str(Path(__file__).resolve().parents[2] / "python"))
    import robus

SCENARIO = Path(__file__).with_suffix(".toml")
REPLICAS = "B0", "B1", "B2"
PERIOD = 7.37e-3  # seconds: 737 ticks of 10000 units, of which each is a nanosecond
FRAMES, LIES_FROM, SILENT_FROM, GUST = 800, 200, 500, 300
LIE = 0.35  # rad: what B2 tells R0


@dataclass
class Airframe:
    """An airframe that tips over if nobody holds it."""

    pitch: float = 0.1  # rad
    rate: float = 0.0  # rad/s
    elevator: float = 0.0  # rad

    def fly(self, seconds: float) -> None:
        """Time passes, in ten steps."""
        for _ in range(10):
            acceleration = 6 * self.pitch - self.rate - 12 * self.elevator  # rad/s^2
            self.rate += acceleration * seconds / 10
            self.pitch += self.rate * seconds / 10


@dataclass
class Replica:
    """The software of B0, B1 and B2: an elevator angle that leans against the pitch."""

    pitch: float = 0.0
    before: float | None = None

    def deliver(self, slot: int, sender: str, word: int | None) -> None:
        """Keeps the pitch that B3 says."""
        if sender == "B3" and word is not None:
            self.pitch = robus.word_float(word)

    def offer(self, frame: int) -> int:
        """The angle for this frame."""
        rate = 0.0 if self.before is None else (self.pitch - self.before) / PERIOD
        self.before = self.pitch if frame else None
        return robus.float_word(1.5 * self.pitch + 0.4 * rate)


@dataclass
class Actuator:
    """The software of B3: the airframe's sensor and its elevator."""

    airframe: Airframe = field(default_factory=Airframe)
    angles: dict[str, float] = field(default_factory=dict)
    track: list[float] = field(default_factory=list)  # the pitch as each frame begins

    def deliver(self, slot: int, sender: str, word: int | None) -> None:
        """Keeps the angle that a replica says in this frame."""
        if sender in REPLICAS and word is not None:
            self.angles[sender] = robus.word_float(word)

    def offer(self, frame: int) -> int:
        """The airframe has flown up to here, the elevator moves, and the pitch is measured."""
        self.airframe.fly(PERIOD if frame else 0)
        if self.angles:
            self.airframe.elevator = median(self.angles.values())
        self.angles = {}
        self.airframe.rate += 0.5 if frame == GUST else 0
        self.track.append(self.airframe.pitch)
        return robus.float_word(self.airframe.pitch)


def over_the_bus() -> tuple[robus.Simulation, list[float]]:
    """The run of the scenario, and the pitch as each frame begins."""
    actuator = Actuator()
    software = {"B3": actuator, **{name: Replica() for name in REPLICAS}}
    return robus.simulate(SCENARIO, software), actuator.track


def over_a_wire(is_faulty: bool) -> list[float]:
    """The pitch of a loop without a bus, in which B3 hears what R0 is told. Its delays are those of
    the bus."""
    actuator, replicas = Actuator(), {name: Replica() for name in REPLICAS}
    for frame in range(FRAMES + 1):
        said = {name: replica.offer(frame) for name, replica in replicas.items()}
        pitch = actuator.offer(frame)
        if is_faulty and frame >= LIES_FROM:
            said["B2"] = robus.float_word(LIE)
        if is_faulty and frame >= SILENT_FROM:
            del said["B1"]
        for replica in replicas.values():
            replica.deliver(0, "B3", pitch)
        for name, word in said.items():
            actuator.deliver(0, name, word)
    return actuator.track


LEFT, TOP, WIDTH, HEIGHT = 70, 50, 780, 300  # of the plot's frame, in pixels
LOWEST, HIGHEST = -0.7, 0.2  # rad
TRACKS = ("over the bus", "#1f6f3d"), ("without its vote", "#b3261e")
LABELS = (FRAMES, 0.03), (620, -0.46)  # where the tracks have their names
EVENTS = (LIES_FROM, "B2 lies"), (GUST, "a gust"), (SILENT_FROM, "B1 is silent")


def at(frame: float, pitch: float) -> str:
    """The place of a pitch in the plot."""
    across = LEFT + WIDTH * frame / FRAMES
    down = TOP + HEIGHT * (HIGHEST - pitch) / (HIGHEST - LOWEST)
    return f"{across:.1f} {down:.1f}"


def text(place: str, what: str, anchor: str = "start", color: str = "#333") -> str:
    """A text of the plot."""
    x, y = place.split()
    return f'<text x="{x}" y="{y}" text-anchor="{anchor}" fill="{color}">{what}</text>'


def svg_of(tracks: list[list[float]]) -> str:
    """The tracks as an SVG document."""
    parts = ['<svg xmlns="http://www.w3.org/2000/svg" viewBox="0 0 900 420" '
             'font-family="sans-serif" font-size="13">',
             '<rect width="900" height="420" fill="white"/>',
             f'<text x="{LEFT}" y="24" font-size="16" fill="#111">Pitch of an airframe '
             'held by three replicas of a controller, in rad</text>']
    for tenth in range(-6, 3, 2):
        parts.append(f'<path d="M{at(0, tenth / 10)} L{at(FRAMES, tenth / 10)}" stroke="#ddd"/>')
        parts.append(text(at(-8, tenth / 10 - 0.012), f"{tenth / 10:.1f}", "end"))
    for frame in range(0, FRAMES + 1, 200):
        seconds = f"{frame * PERIOD:.1f} s"
        parts.append(text(at(frame, LOWEST - 0.06), f"frame {frame}", "middle"))
        parts.append(text(at(frame, LOWEST - 0.11), seconds, "middle"))
    for frame, what in EVENTS:
        parts.append(f'<path d="M{at(frame, LOWEST)} L{at(frame, HIGHEST)}" stroke="#999" '
                     'stroke-dasharray="4 3"/>')
        parts.append(text(at(frame + 5, HIGHEST - 0.04), what))
    for track, (name, color), label in reversed(list(zip(tracks, TRACKS, LABELS))):
        line = " L".join(at(frame, pitch) for frame, pitch in enumerate(track))
        parts.append(f'<path d="M{line}" fill="none" stroke="{color}" stroke-width="2"/>')
        parts.append(text(at(*label), name, "end", color))
    return "\n".join([*parts, "</svg>\n"])


def draw(path: Path, tracks: list[list[float]]) -> None:
    """Writes the plot: an SVG, or by matplotlib a PNG."""
    if path.suffix != ".png":
        path.write_text(svg_of(tracks), encoding="utf-8")
        return
    from matplotlib import pyplot

    for track, (name, color) in zip(tracks, TRACKS):
        pyplot.plot([frame * PERIOD for frame in range(len(track))], track, color, label=name)
    pyplot.xlabel("s")
    pyplot.ylabel("pitch, rad")
    pyplot.legend()
    pyplot.savefig(path)


def main() -> None:
    """Flies over the bus and over a wire, prints how it went, and draws it."""
    run, held = over_the_bus()
    tracks = [held, over_a_wire(is_faulty=True)]
    print(f"{run.ending()}; convicted: {', '.join(run.convicted)}")
    heard = [it for it in run.deliveries if it.receiver == "B3" and it.sender == "B2"]
    print(f"B3 delivers no word of B2 in {sum(it.word is None for it in heard)} frames")
    for track, (name, _) in zip(tracks, TRACKS):
        print(f"{name}: at most {max(track[GUST:]):.4f} rad after the gust, "
              f"{track[-1]:.4f} rad at the end")
    print("the pitch over the bus is that of a loop without a fault:", held == over_a_wire(False))
    if sys.argv[1:]:
        draw(Path(sys.argv[1]), tracks)


if __name__ == "__main__":
    main()
