"""ROBUS from Python: runs of a fault-tolerant broadcast bus, with typed results.

    import robus
    report = robus.run("examples/one_silent_rmu.toml")
    print(report.convicted, report.spread)

docs/LIBRARY.md is its page. The bus is run by the proved programs if they are there; this
package around them is not proved."""
from robus.bus import Bus
from robus.calls import (bridge, check, explain, gen, group, letters, listen, record, replay, run,
                         spell, stress)
from robus.engines import Answer, Engine, choose
from robus.errors import BadArgument, BusError, Failed, NoEngine, NoNode, Refused, RobusError
from robus.floats import float_word, word_float
from robus.handins import HandIn
from robus.node import Act, Epoch, Node
from robus.records import Frame, Slot
from robus.results import (BridgeReport, Check, Groups, Letters, Log, Replay, Report, Result,
                           Stress)
from robus.rows import Breach, Ended
from robus.scenario import Scenario
from robus.simulation import Controller, Simulation, simulate
from robus.summary import Summary
from robus.sweep import SweepRow, sweep

__version__ = "1.0"
__all__ = ["Act", "Answer", "BadArgument", "Breach", "BridgeReport", "Bus", "BusError", "Check",
           "Controller", "Ended", "Engine", "Epoch", "Failed", "Frame", "Groups", "HandIn",
           "Letters", "Log", "NoEngine", "NoNode", "Node", "Refused", "Replay", "Report",
           "Result", "RobusError", "Scenario", "Simulation", "Slot", "Stress", "Summary",
           "SweepRow", "bridge", "check", "choose", "explain", "float_word", "gen", "group",
           "letters", "listen", "record", "replay", "run", "simulate", "spell", "stress", "sweep",
           "word_float"]
