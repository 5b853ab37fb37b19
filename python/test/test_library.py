"""The package's calls: the worked examples of docs/robus.md, all of examples/, random scenarios
against tools/model, and errors."""
import json
import multiprocessing
import random
import re
import tempfile
import unittest
from pathlib import Path

import robus
from helpers import EXAMPLES, TOP, is_fast, output_of, script
from robus import engines, rows
from robus.model import model

SILENT = EXAMPLES / "one_silent_rmu.toml"
maker = script("compare_models")


def needs(program: str):
    """For a test of words that tools/model lacks."""
    return unittest.skipUnless(is_fast(program), f"no library or program of {program} is there")


def line_of(row) -> str:
    """The line of a report that a row of its main kinds is."""
    first = {"begins": "e", "convicted": "c", "ports": "p", "deliveries": "d"}
    kind = rows.KIND_OF[type(row)]
    names = [name for name in rows.columns(kind) if name != "convicted"]
    values = ["none" if name == "word" and getattr(row, name) is None else getattr(row, name) for name in names]
    return " ".join(str(it) for it in [first.get(kind, kind), *values] if it is not None)


def run_of(seed: int) -> tuple:
    """A random scenario and its report; and what each other engine that is there writes."""
    data = maker.toml_text(maker.random_scenario(random.Random(seed)))
    report = robus.run(data)
    others = [it for it in (find() for find in engines.ENGINES.values()) if it not in (None, report.engine)]
    return data, report, {it.name: robus.run(data, engine=it).text for it in others}


class WorkedExamples(unittest.TestCase):
    """What docs/robus.md prints under Examples."""

    def test_check(self):
        found = robus.check(SILENT).inequalities
        page = re.findall(r"^    C(\d) (\d+) (\d+)$", (TOP / "docs/robus.md").read_text(), re.M)
        self.assertEqual([(it.inequality, it.left, it.right) for it in found], [tuple(map(int, it)) for it in page])
        self.assertEqual(len(found), 7)

    def test_record_and_replay(self):
        log = robus.record(SILENT, "R0")
        found = robus.replay(log)
        self.assertEqual(log.data[:4], b"RBL1")
        self.assertEqual([(it.frame, it.node, it.tick, it.time) for it in found.epochs], [(0, "R0", 0, None), (1, "R0", 917, None)])
        self.assertEqual([it.convicted for it in found.convictions], [[], ["R2"]])
        self.assertEqual((found.frames, found.deliveries), (1, []))
        with tempfile.TemporaryDirectory() as folder:
            log.write(Path(folder, "r0.log"))
            self.assertEqual(robus.replay(Path(folder, "r0.log")).output, found.output)

    def test_gen(self):
        scenario = robus.gen(7, 3)
        self.assertEqual(len(scenario.to_toml().splitlines()), 414)
        self.assertEqual([scenario.get(key) for key in ("biu", "rmu", "slots", "frames")], [8, 5, 16, 3])

    def test_stress(self):
        stress, report = robus.stress(7, 3), robus.run(robus.gen(7, 3))
        self.assertEqual(stress.numbers["deliveries"], len(report.deliveries))
        self.assertEqual(stress.numbers["spread"], report.spread)

    @needs("robus")
    def test_the_other_words(self):
        self.assertEqual(robus.stress(7, 200).numbers, {"frames": 200, "deliveries": 22621, "convicted": 2, "spread": 60200})
        self.assertEqual(robus.spell(bytes.fromhex("6869")), [16777218, 40397056])
        found = robus.letters(EXAMPLES / "letter.toml")
        self.assertEqual([line_of(it).replace("letters", "m") for it in found.letters], [f"m 0 5 B{it} B0 6869" for it in range(3)])
        self.assertEqual([it.word for it in robus.group(SILENT, "mid", ["B0", "B1", "B2"]).values], [20] * 4)

    @needs("robus")
    def test_a_listener_follows(self):
        scenario = robus.Scenario.read(SILENT).with_("frames", 4)
        heard, held = robus.listen(robus.record(scenario, "B0"), 7), robus.run(scenario)
        told = {(it.frame, it.slot, it.sender, it.word) for it in held.deliveries}
        self.assertTrue(heard.deliveries)
        for it in heard.deliveries:
            self.assertIn((it.frame, it.slot, it.sender, it.word), told)


class Examples(unittest.TestCase):
    def test_the_lines_of_their_page(self):
        for row in (EXAMPLES / "README.md").read_text().splitlines():
            if not row.startswith("| `") or row.startswith("| `bridges/"):
                continue
            name, lines = (it.strip(" ") for it in row.split("|")[1:3])
            report = robus.run(EXAMPLES / name.strip("`"))
            for line in re.findall("`([^`]+)`", lines):
                self.assertIn(line, report.text.splitlines(), name)
                self.assertIn(line, [line_of(it) for it in report.rows], name)

    def test_each_line_is_a_row(self):
        for path in EXAMPLES.glob("*.toml"):
            report = robus.run(path)
            self.assertEqual([line_of(row) for row in report.rows], report.text.splitlines(), path)
            self.assertEqual((report.breach is None, report.status), (report.frames is not None, int(report.breach is not None)))

    def test_a_breach_is_no_error(self):
        found = robus.run(EXAMPLES / "two_sided.toml")
        self.assertEqual(found.breach, rows.Breach(None, 0, 6, 2, "TwoSided"))
        self.assertIn(f"breach TwoSided at frame 0, slot 6, stage 2, 7 deliveries, by {found.engine}", repr(found))
        self.assertEqual((found.status, found.frames), (1, None))
        log = robus.record(EXAMPLES / "two_sided.toml", "B0")
        self.assertEqual(log.status, 1)

    @needs("robus_bridge")
    def test_bridges(self):
        found = robus.bridge(EXAMPLES / "bridges/carried_words.toml")
        self.assertEqual({it.word for it in found.crossings if it.bus == "left"}, {60})
        self.assertEqual({it.word for it in found.crossings if it.bus == "right"}, {10})
        with self.assertRaises(robus.Refused) as caught:
            robus.bridge(b"left = 1\n")
        self.assertEqual((caught.exception.code, caught.exception.name), (22, "BridgeForm"))

    @needs("robus_picture")
    def test_pictures(self):
        kept = [path for path in EXAMPLES.glob("*.toml") if (TOP / "docs/pictures" / (path.stem + ".svg")).exists()]
        self.assertGreaterEqual(len(kept), 5)
        for path in kept:
            drawn = robus.run(path)._repr_svg_()
            self.assertEqual(drawn, (TOP / "docs/pictures" / (path.stem + ".svg")).read_text(encoding="utf-8"))


class Promises(unittest.TestCase):
    """Reports of random scenarios: the library, the program and tools/model give the same, and they
    have what README.md promises."""

    def test_random_scenarios(self):
        with multiprocessing.Pool() as pool:
            for data, report, texts in pool.imap(run_of, range(200 if is_fast("robus") else 24)):
                for name, text in texts.items():
                    self.assertEqual(report.text, text, name)
                self.keeps_the_promise(report, model.read_scenario(data))

    def keeps_the_promise(self, report, scenario):
        said: dict = {}
        for it in report.deliveries:
            said.setdefault((it.frame, it.slot), set()).add((it.sender, it.word))
        self.assertTrue(all(len(it) == 1 for it in said.values()), "all good BIUs deliver one value in a slot")
        held: dict = {}
        for it in report.convictions:
            held.setdefault(it.frame, set()).add((it.biu_mask, it.rmu_mask))
        self.assertTrue(all(len(it) == 1 for it in held.values()), "good nodes hold the same nodes convicted")
        for it in report.convictions:
            good = [name for name in map(model.name_of, scenario.bus.nodes()) if self.is_good(scenario, name, it.frame)]
            self.assertFalse(set(it.convicted) & set(good), "no good node is ever convicted")
        if report.spread is not None:
            self.assertLessEqual(report.spread, scenario.bus.plan.p)

    def is_good(self, scenario, name, frame):
        return scenario.is_good(("BR".index(name[0]), int(name[1:])), frame, 0)


class Tables(unittest.TestCase):
    """docs/DATA.md, from a report."""

    def setUp(self):
        self.report = robus.run(EXAMPLES / "late_onset.toml")

    def test_dicts_are_those_of_the_tool(self):
        with tempfile.TemporaryDirectory() as folder:
            path = Path(folder, "report")
            path.write_bytes(self.report.output)
            _, text = output_of("table", ["--json", path])
            self.assertEqual(self.report.to_dicts(), [json.loads(line) for line in text.splitlines()])
            for kind in ("deliveries", "convicted"):
                self.report.to_csv(Path(folder, "csv"), kind)
                self.assertEqual(Path(folder, "csv").read_text(), output_of("table", [kind, path])[1])
            self.report.to_csv(Path(folder, "csv"))
            self.assertEqual(Path(folder, "csv").read_text().splitlines()[0], "frame,slot,receiver,sender,word")

    def test_the_answers_of_the_page(self):
        nones = [it.sender for it in self.report.deliveries if it.word is None]
        self.assertEqual((nones, len([it for it in self.report.deliveries if it.sender == "B2"])), (["B2"] * 2, 5))
        self.assertEqual(self.report.spread, 0)

    def test_pandas(self):
        try:
            import pandas
        except ImportError:
            with self.assertRaises(ImportError):
                self.report.to_pandas()
            return
        found = self.report.to_pandas()
        self.assertIsInstance(found, pandas.DataFrame)
        self.assertEqual(found.groupby("sender").word.agg(lambda it: int(it.isna().sum()))["B2"], 2)


class Errors(unittest.TestCase):
    def test_where_a_scenario_is_refused(self):
        text = SILENT.read_text().replace("slots = 8", "slots = 8\ncolour = 1")
        with tempfile.TemporaryDirectory() as folder:
            path = Path(folder, "it.toml")
            path.write_text(text)
            with self.assertRaises(robus.Refused) as caught:
                robus.run(path)
        it = caught.exception
        self.assertEqual((it.code, it.name, it.number), (3, "UnknownKey", None))
        self.assertEqual((it.file, it.line, it.key), (str(path), text.splitlines().index("colour = 1") + 1, "colour"))
        self.assertIn(f"refused 3 UnknownKey: {path}:{it.line}: the document has no key colour", str(it))

    def test_the_place_is_a_path_of_the_scenario(self):
        scenario = robus.Scenario.read(EXAMPLES / "late_onset.toml").with_("fault[0].slot", 14)
        with self.assertRaises(robus.Refused) as caught:
            robus.run(scenario)
        self.assertEqual(caught.exception.key, "fault[0].slot")
        self.assertEqual(robus.run(scenario.with_(caught.exception.key, 5)).frames, 3)

    def test_each_rule_of_the_page(self):
        for key, value, code, name, number in (("plan", {"h": 5}, 6, "PlanFails", 1), ("delay", 15001, 8, "DelayBounds", None),
                                               ("biu", 17, 5, "OutOfRange", None), ("biu", "4", 4, "WrongType", None)):
            with self.assertRaises(robus.Refused) as caught:
                robus.check(robus.Scenario.read(SILENT).with_(key, value))
            it = caught.exception
            self.assertEqual((it.code, it.name, it.number), (code, name, number))
        with self.assertRaises(robus.Refused) as caught:
            robus.run(b"biu = \n")
        self.assertEqual((caught.exception.code, caught.exception.name, caught.exception.line), (1, "NotToml", 1))

    def test_refused_without_a_place(self):
        with self.assertRaises(robus.Refused) as caught:
            robus.record(SILENT, "B4")
        self.assertEqual((caught.exception.code, caught.exception.name, caught.exception.line), (12, "NoSuchNode", None))
        with self.assertRaises(robus.Refused) as caught:
            robus.replay(b"RBL1\x01")
        self.assertEqual(str(caught.exception), "refused 3 Truncated 5")

    def test_other_statuses(self):
        with self.assertRaises(robus.Failed) as caught:
            robus.run(b"#" * 4_194_305)
        self.assertEqual(caught.exception.status, 4)
        for call in (lambda: robus.record(SILENT, "B16"), lambda: robus.gen(7, 4097)):
            with self.assertRaises(robus.BadArgument):
                call()
        with self.assertRaises(OSError):
            robus.run("nosuch.toml")
        with self.assertRaises(ValueError):
            robus.group(SILENT, "most", ["R0"])

    def test_explain(self):
        path = EXAMPLES / "two_sided.toml"
        _, text = output_of("explain", [path])
        self.assertEqual(robus.explain(path), text.split("\n\n", 1)[1].rstrip("\n"))
        self.assertIn("TwoSided", robus.explain(robus.Scenario.read(path)))
        self.assertEqual(robus.explain(path, 0, 5), output_of("explain", [path, 0, 5])[1].split("\n\n", 1)[1].rstrip("\n"))
        with self.assertRaises(ValueError):
            robus.explain(path, 0, 99)
        with self.assertRaises(robus.Refused):
            robus.explain(b"biu = 1\n")


if __name__ == "__main__":
    unittest.main()
