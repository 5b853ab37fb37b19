"""Wrong calls of every function of the package. Each raises one of the package's own exceptions,
whose message begins with the name of the argument. test_wrong_words.py has the tools."""
import unittest
from unittest import mock

import robus
from helpers import EXAMPLES
from robus.node import seat_of

LATE = str(EXAMPLES / "late_onset.toml")
# Values that are no integer of any range, no text, no scenario and no path
NUMBERS = (-1, 1 << 64, "a", 1.5, None, True)
TEXTS = (5, None, b"B0", ["B0"])
SOURCES = (3, None, 1.5, ["biu"], object(), {"biu": None}, {"biu": object()}, "a\0b", "")
# By argument the values that it may not have
SCENARIO = {"scenario": SOURCES}
ENGINE = {"engine": (3, 1.5, [], "nosuch", "", "/", "/etc/passwd")}
NODES = (*TEXTS, "B16", "X0", "", "b0", "B01")
LOGS = {"log": (5, None, {}, ["x"], "", "a\0b")}
SEEDS, FRAMES = {"seed": NUMBERS}, {"frames": (*NUMBERS, 0, 4097)}
PATHS = {"path": (*TEXTS, "", "a..b", ".a", "[0]", "fault[x]", "a" + ".a" * 99)}
FILES = {"path": (5, None, ["x"], "", "a\0b")}
VALUES = {"values": (
    5, None, {}, [1], "ab", {"frames": "35"}, {"frames": []}, {"frames": 5}, {3: [1]}, {"": [1]},
    {"frames,": [1]}, {"frames..a": [1]}, {"fault[7].slot": [1]}, {"biu.a": [1]})}


class Package(unittest.TestCase):
    count = 0

    @classmethod
    def setUpClass(cls):
        cls.scenario, cls.report = robus.Scenario.read(LATE), robus.run(LATE, engine="model")
        cls.log = robus.record(LATE, "B0", engine="model")

    def refuses(self, arguments, call):
        """Whether a call with each of the values raises an exception with the argument's name."""
        for name, values in arguments.items():
            for value in values:
                type(self).count += 1
                with self.subTest(name, value=value):
                    with self.assertRaises((robus.BadArgument, robus.NoEngine)) as caught:
                        call(value)
                    said = str(caught.exception)
                    self.assertTrue(said.startswith(f"{name}: "), said)
                    self.assertNotRegex(said, r"\n|\[Errno|invalid literal|NoneType")

    def test_software(self):
        self.refuses({"controllers": (5, ["B0"], {"B0": 5}, {5: max}, {"R0": max}, {"B9": max})},
                     lambda it: robus.simulate(self.scenario, it, engine="model"))
        self.refuses({"words": (5, None, b"x", [5], [(0, "B0")], "", "a\0b")},
                     lambda it: robus.simulate(self.scenario, words=it, engine="model"))
        self.refuses({"letters": ("0:B0:68", None, 5, [5], ["x"], [(0, "B0", "x")], ["0:B0:"])},
                     lambda it: robus.simulate(self.scenario, letters=it, engine="model"))
        self.refuses({"number": ("1", None, 1e39, [])}, robus.float_word)
        self.refuses({"word": (*NUMBERS, 1 << 32)}, robus.word_float)
        with robus.Bus(self.scenario, engine="model") as bus:
            self.refuses({"node": (*TEXTS, "R0")}, lambda it: bus.hand(it, 1))
            self.refuses({"word": (*NUMBERS, 1 << 32)}, lambda it: bus.hand("B0", it))

    def test_scenarios(self):
        for call in (robus.run, robus.check, robus.letters, robus.explain, robus.Bus,
                     robus.simulate):
            self.refuses(SCENARIO, call)
        self.refuses({"document": SOURCES}, robus.bridge)
        self.refuses(SCENARIO, lambda it: robus.record(it, "B0"))
        self.refuses(SCENARIO, lambda it: robus.group(it, "mid", ["B0"]))
        self.refuses(SCENARIO, lambda it: robus.sweep(it, {"frames": [1]}))
        self.refuses(SCENARIO, lambda it: robus.Node(it, "B0"))

    def test_words(self):
        self.refuses(ENGINE, lambda it: robus.run(LATE, engine=it))
        self.refuses(ENGINE, lambda it: robus.choose(["run"], it))
        self.refuses({"node": NODES}, lambda it: robus.record(LATE, it))
        self.refuses({"name": NODES}, lambda it: robus.Node(LATE, it))
        self.refuses({"how": (*TEXTS, "avg", "MOST", "")}, lambda it: robus.group(LATE, it, ["B0"]))
        self.refuses({"members": ("B0", b"B0", [], ["R0"], ["B16"], [3], None, 5, ["B0", None])},
                     lambda it: robus.group(LATE, "mid", it))
        self.refuses(LOGS, robus.replay)
        self.refuses(LOGS, robus.listen)
        self.refuses({"skip": (*NUMBERS, 1 << 31)}, lambda it: robus.listen(self.log, it))
        for call in (robus.gen, robus.stress):
            self.refuses(SEEDS, lambda it: call(it, 5))
            self.refuses(FRAMES, lambda it: call(7, it))
        self.refuses({"letter": (b"", "hi", b"x" * 256, None, 5)}, robus.spell)
        explain = lambda it: robus.explain(LATE, *it)
        self.refuses({"frame": ((-1, 0), ("a", 0), (None, 0), (5000, 0), (3, 0))}, explain)
        self.refuses({"slot": ((0, -1), (0, "a"), (0, None), (0, 14))}, explain)

    def test_sweeps(self):
        self.refuses(VALUES, lambda it: robus.sweep(LATE, it))
        self.refuses({"workers": (*NUMBERS, 0, 2000)},
                     lambda it: robus.sweep(LATE, {"frames": [1]}, workers=it))

    def test_results(self):
        self.refuses({"first": (-1, "a", 4, 1.5, True)}, lambda it: self.report.picture(it))
        self.refuses({"last": (-1, "a", 4, 1, True)}, lambda it: self.report.picture(2, it))
        self.refuses({"first": (None,)}, lambda it: self.report.picture(it, 2))
        self.refuses({"kind": (5, "nosuch", "")}, lambda it: self.report.to_csv("x", it))
        self.refuses({"kind": (5, "nosuch", "")}, lambda it: self.report.to_pandas(it))
        for call in (self.report.to_csv, self.log.write, self.scenario.write, robus.Scenario.read):
            self.refuses(FILES, call)

    def test_changes(self):
        self.refuses(PATHS, self.scenario.get)
        self.refuses(PATHS, self.scenario.without)
        self.refuses(PATHS, lambda it: self.scenario.with_(it, 1))
        self.refuses({"path": ("biu.a", "fault[2].slot", "biu[0]", "fault.slot")},
                     lambda it: self.scenario.with_(it, 1))
        self.refuses({"value": (None, object(), b"x", {1j: None}, [None])},
                     lambda it: self.scenario.with_("words", it))
        self.refuses({"value": ("biu",)}, self.scenario.with_)
        self.refuses({"text": (5, None, [1], "\ud800")}, robus.Scenario.from_toml)
        self.refuses({"document": (5, None, "x", {"a": None})}, robus.Scenario.from_dict)

    def test_node_cores(self):
        with mock.patch.object(robus.Node, "__init__", return_value=None):
            node = robus.Node()
        node.name, node.had, node._calls, node._handle = "B0", 0, mock.Mock(), None
        self.refuses({"ticks": NUMBERS}, node.pass_)
        self.refuses({"word": NUMBERS}, node.tick)
        self.refuses({"source": ("R", "B1", "R16", "", None, -1, 256, 1.5)},
                     lambda it: node.arrive(it, b""))
        self.refuses({"data": ("x", None, 5, [1])}, lambda it: node.arrive("R0", it))
        for wrong, code in (({}, 2), ({"biu": 1}, 2), ({"plan": {"dmaxx": 9}}, 3),
                            ({"plan": {"h": "6"}}, 4), ({"plan": 5}, 4)):
            full = {} if code == 2 else {"biu": 1, "rmu": 1, "slots": 1}
            with self.assertRaises(robus.Refused) as caught:
                seat_of({**full, **wrong}, "B0")
            self.assertEqual(caught.exception.code, code)
            type(self).count += 1

    @classmethod
    def tearDownClass(cls):
        assert cls.count >= 300, cls.count


if __name__ == "__main__":
    unittest.main()
