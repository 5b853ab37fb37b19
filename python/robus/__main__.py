"""python3 -m robus WORD ..: one of the tools of this package. Each has --help.

    lint      says where and why a scenario is refused, and what in it can have no effect
    plan      the seven inequalities of a timing plan, and the least plan for a bus
    layout    the frame of a scenario, slot by slot
    faults    writes the say entries of a node that is good but for given lies
    explain   says who broke a run, why a node was convicted, and what was said in a slot
    trace     writes what was on the links of a run for Wireshark and GTKWave
    view      writes a run as a page for a browser
    simulate  runs a scenario whose BIUs say given words
    sweep     runs a scenario with other values at its keys, a row of CSV for each
    campaign  runs many scenarios, a row of each
    adversary runs random buses against adversaries that do anything
    table     a report as CSV or as JSON lines
    draw      draws the run of a scenario
    model     the second model of the bus
    quick     builds a program of the repository without any proof, and runs it
    robus     runs the program robus with any words

    run, check, letters, record, group, replay, listen, gen, stress, spell, bridge, picture
              the programs' own words, by the engine that docs/LIBRARY.md says

The tools are not proved. A program that they run is proved if make build built it, and a library if
make library did."""
import importlib
import os
import sys
import threading
from typing import Dict, List, Tuple

from robus.tool import MISUSED, guarded, open_output
from robus.words import FORMS

# The tools: the module of each, its function, and the name under which it speaks
NAMES = ("lint", "plan", "layout", "faults", "trace", "view", "sweep", "campaign", "table",
         "adversary", "model", "quick")
TOOLS: Dict[str, Tuple[str, str, str]] = {name: (name, "main", "tools/" + name) for name in NAMES}
TOOLS.update(explain=("explanation", "main", "tools/explain"),
             simulate=("simulation", "main", "tools/simulate"),
             campaign_rows=("campaign_rows", "main", "tools/campaign_row"),
             robus=("runner", "robus", "tools/robus"), draw=("runner", "draw", "tools/picture"))
TOOLS.update((word, ("runner", "main", "robus " + word)) for word in FORMS)
TOOLS.update((word, ("runner", "main", "tools/" + word)) for word in ("run", "bridge"))


def work(tool: str, words: List[str]) -> int:
    """The tool with these words, whatever it raises; its status."""
    module, function, _ = TOOLS[tool]
    found = getattr(importlib.import_module("robus." + module), function)
    return found([tool, *words] if tool in FORMS else words)


def run(tool: str, words: List[str]) -> int:
    """The tool with these words; its status."""
    return guarded(TOOLS[tool][2], lambda: work(tool, words))


def main() -> int:
    """What the command line asks for; its status."""
    words = sys.argv[1:]
    open_output()
    if words[:1] in (["--help"], ["-h"]):
        return guarded("robus", lambda: print(__doc__))
    if not words or words[0] not in TOOLS:
        why = f"there is no word {words[0]}" if words else "a word is wanted"
        print(f"robus: {why}; python3 -m robus --help lists them", file=sys.stderr)
        return MISUSED
    status = run(words[0], words[1:])
    if threading.active_count() > 1:
        # Runs that are under way in other threads are not waited for
        os._exit(status)
    return status


if __name__ == "__main__":
    sys.dont_write_bytecode = True
    sys.exit(main())
