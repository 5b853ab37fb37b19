"""The words of tools/campaign, taken apart."""
from __future__ import annotations

from dataclasses import dataclass, field
from typing import Dict, List, Optional

from robus.arguments import number_in
from robus.errors import BadArgument
from robus.units import NoQuantity, Unit

# The options of this tool with a value, and what that is
VALUES = {"--generator": "a command", "--engine": "a name or a path", "--jobs": "a number above 0",
          "--bus": "a file", "--faults": "a number or a range a..b", "--unit": "a time, as 1ps",
          "--kinds": "kinds of faults", "--onset": "any, FRAMES or FRAMES/SLOTS"}
BUS_DEFAULTS = {"--faults": "0..1", "--kinds": "silent,symmetric,asymmetric,babbling",
                "--onset": "any"}


@dataclass
class Asked:
    """The words: FOLDER and those behind it, the options of this tool, and those of parallel."""

    words: List[str] = field(default_factory=list)
    values: Dict[str, str] = field(default_factory=dict)
    options: List[str] = field(default_factory=list)

    def get(self, option: str) -> Optional[str]:
        """The value of an option of this tool."""
        return self.values.get(option)


def asked_in(words: List[str]) -> Asked:
    """The words, taken apart. FOLDER, COUNT and SEED are the first that are no options of this
    tool; all that is unknown behind them is for parallel."""
    asked, rest = Asked(), iter(words)
    for it in rest:
        if it == "--model":
            asked.values["--engine"] = "model"
        elif it in VALUES:
            value = next(rest, None)
            if not value or value.startswith("--"):
                raise BadArgument(f"{it} wants {VALUES[it]}")
            asked.values[it] = value
        elif it.startswith("-") or asked.options or len(asked.words) == 3:
            asked.options.append(it)
        else:
            asked.words.append(it)
    return asked


def unit_in(text: Optional[str]) -> Optional[Unit]:
    """The unit of --unit; BadArgument if it is none."""
    try:
        return Unit.of(text) if text else None
    except NoQuantity as fault:
        raise BadArgument(f"--unit: {fault}") from None


def jobs_in(asked: Asked) -> Optional[int]:
    """How many workers are asked for."""
    jobs = asked.get("--jobs")
    return None if jobs is None else number_in("--jobs", jobs, 1)
