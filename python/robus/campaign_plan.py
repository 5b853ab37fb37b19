"""What a campaign is: its plan, which its first run keeps in plan.json, and its scenarios."""
from __future__ import annotations

import hashlib
import json
import shlex
import subprocess
from dataclasses import asdict, dataclass, field, fields
from functools import lru_cache
from importlib.machinery import SourceFileLoader
from importlib.util import module_from_spec, spec_from_loader
from pathlib import Path
from types import ModuleType
from typing import TYPE_CHECKING, Any, Dict, List, Optional

from robus.engines import TOP
from robus.errors import BadArgument, RobusError

if TYPE_CHECKING:
    from robus.generator import Generator

MAKER = TOP / "tools/scenario"
UNPROVED = {"model": "tools/model, which is not proved", "quick": "an unproved build"}


class NoScenario(RobusError):
    """The scenario of an item can't be had, or its run gave nothing."""


@dataclass(frozen=True)
class BusFaults:
    """A bus of one's own, and from what its faults are drawn, as the arguments say it."""

    text: str
    faults: str
    kinds: str
    onset: str

    def generator(self) -> Generator:
        """What makes its scenarios; BadArgument if the arguments do not fit the bus."""
        from robus.generator import Generator

        return Generator.of(self.text, self.faults, self.kinds, self.onset)


@dataclass(frozen=True)
class Plan:
    """The scenarios of a campaign: files, those of a generator, or those of a bus with faults."""

    seed: int
    engine: str = "program"
    files: List[str] = field(default_factory=list)
    generator: Optional[str] = None
    bus: Optional[BusFaults] = None
    unit: Optional[str] = None  # the time of a reference unit, as 1ps

    @property
    def unproved(self) -> Optional[str]:
        """What runs the scenarios, if nothing is proved about it; else None."""
        return UNPROVED.get(self.engine)

    @property
    def scenarios(self) -> List[Any]:
        """All that fixes the scenarios."""
        return [self.seed, self.files, self.generator, self.bus]

    def text(self) -> str:
        """The plan as plan.json has it."""
        return json.dumps(asdict(self), indent=1) + "\n"

    def item(self, folder: Path, number: int) -> str:
        """A scenario as a worker is given it (robus.campaign_rows)."""
        seed = self.seed + number - 1
        if self.files:
            return f"{number} file {folder.resolve() / self.files[number - 1]}"
        if self.bus:
            return f"{number} bus {seed} {folder.resolve() / 'plan.json'}"
        command = self.generator or ""
        if command == shlex.quote(str(MAKER)):
            return f"{number} seed {seed}"
        command = command.replace("{}", str(seed)) if "{}" in command else f"{command} {seed}"
        return f"{number} command {seed} {command}"


def plan_in(path: Path) -> Plan:
    """The plan that a file keeps; BadArgument if the file is damaged."""
    try:
        found = json.loads(path.read_text(encoding="utf-8"))
        bus = BusFaults(**found["bus"]) if found.get("bus") else None
        older = {"model": "model"}.get(found.get("program", ""), "program")
        names = {it.name for it in fields(Plan)}
        values = {"engine": older, **{key: it for key, it in found.items() if key in names}}
        return Plan(**{**values, "bus": bus})
    except (ValueError, TypeError, KeyError, AttributeError):
        raise BadArgument(f"FOLDER: {path} is damaged: it is no plan of a campaign") from None


def plan_of(folder: Path) -> Plan:
    """The plan of a campaign that was begun; BadArgument if there is none in the folder."""
    if not folder.is_dir():
        raise BadArgument(f"FOLDER: {folder} is no folder")
    path = folder / "plan.json"
    if not path.exists():
        raise BadArgument(f"FOLDER: {folder} holds no campaign: it has no plan.json")
    return plan_in(path)


def default_generator() -> str:
    """The command that prints the scenario of a seed if none is named."""
    return shlex.quote(str(MAKER)) if MAKER.exists() else "robus gen {} 8"


def shuffled(names: List[str], seed: int) -> List[str]:
    """Names in an order that a seed fixes."""
    return sorted(names, key=lambda it: hashlib.sha256(f"{seed} {it}".encode()).hexdigest())


def new_plan(folder: Path, seed: int, engine: str, generator: Optional[str],
             bus: Optional[BusFaults], unit: Optional[str]) -> Plan:
    """The plan that the arguments ask for; BadArgument if they ask for two kinds of scenarios."""
    files = shuffled([it.name for it in folder.glob("*.toml")], seed)
    if any("\n" in it for it in [*files, generator or ""]):
        raise BadArgument("a file's name or the generator has a line feed")
    if files and (generator or bus):
        option = "--bus" if bus else "--generator"
        raise BadArgument(f"FOLDER: {folder} has scenarios of its own; {option} asks for others")
    if generator and bus:
        raise BadArgument("--bus and --generator exclude each other")
    if not files and not bus:
        generator = generator or default_generator()
    return Plan(seed, engine, files, generator, bus, unit)


@lru_cache(maxsize=None)
def maker() -> ModuleType:
    """tools/scenario, as a module."""
    loader = SourceFileLoader("robus_scenario_maker", str(MAKER))
    module = module_from_spec(spec_from_loader(loader.name, loader))
    loader.exec_module(module)
    return module


@lru_cache(maxsize=None)
def generator_in(path: str) -> Generator:
    """The generator of the plan in a file, which is one of a bus."""
    return plan_in(Path(path)).bus.generator()


def text_of(kind: str, source: str) -> bytes:
    """The scenario of an item."""
    if kind == "file":
        return Path(source).read_bytes()
    if kind == "seed":
        return maker().text_of(int(source))
    seed, _, rest = source.partition(" ")
    if kind == "bus":
        return generator_in(rest).text_of(int(seed))
    done = subprocess.run(["bash", "-c", rest], stdout=subprocess.PIPE)
    if done.returncode != 0:
        raise NoScenario(f"the command {rest} ended with {done.returncode}")
    return done.stdout


def columns_of(kind: str, source: str, text: bytes, rows: List[Any]) -> Dict[str, Any]:
    """What a row of a bus with faults has beside a summary: the faults, how many words of good
    senders were lost, and the least and the greatest latency. Empty for other items."""
    if kind != "bus":
        return {}
    from robus.latency import latencies
    from robus.model import model, read
    from robus.rows import Delivery

    seed, _, path = source.partition(" ")
    scenario = read(text)
    lost = [it for it in rows if isinstance(it, Delivery) and it.word is None
            and scenario.is_good(model.node_in(scenario.bus, it.sender), it.frame, it.slot)]
    found = list(latencies(scenario, rows))
    return {"faults": [str(it) for it in generator_in(path).faults_of(int(seed))],
            "latency_least": min(found, default=None), "latency_greatest": max(found, default=None),
            "lost_of_good": len(lost)}
