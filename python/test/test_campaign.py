"""Campaigns: the rows that docs/CAMPAIGNS.md shows, what a stopped one does, how GNU parallel is
called, and faults that are drawn."""
import contextlib
import io
import json
import os
import re
import shutil
import signal
import stat
import subprocess
import tempfile
import time
import unittest
from math import sqrt
from pathlib import Path
from unittest import mock

from helpers import EXAMPLES, TOP, ending_of, run_model
from robus.__main__ import run
from robus.campaign_words import asked_in
from robus.campaign_faults import summary_of_faults, wilson
from robus.campaign_summary import histogram_of
from robus.errors import BadArgument
from robus.generator import Generator
from robus.latency import latencies
from robus.model import model, read
from robus.rows import rows_of

# In place of GNU parallel: its version, or the command of its last words for groups of lines
PARALLEL = """#!/usr/bin/env python3
import subprocess, sys
words = sys.argv[1:]
if words == ["--version"]:
    print("GNU parallel 20231122")
    sys.exit()
size = int(words[words.index("--max-args") + 1])
assert words[0] == "--line-buffer" and words[words.index("--retries") + 1] == "3"
items = sys.stdin.read().splitlines()
for first in range(0, len(items), size):
    subprocess.run([*words[-2:], *items[first:first + size]], check=True)
"""


class Campaigns(unittest.TestCase):
    def setUp(self):
        room = tempfile.TemporaryDirectory()
        self.addCleanup(room.cleanup)
        self.folder = Path(room.name, "sweep")
        self.folder.mkdir()

    def campaign(self, *words, path: str = "") -> tuple[int, str, str]:
        """The ending of tools/campaign with these words, in this process; workers are others."""
        if "--model" in words and "--jobs" not in words:
            words = (*words[:2], "--jobs", "1", *words[2:])  # one worker starts faster than four
        handlers = {it: signal.getsignal(it) for it in (signal.SIGINT, signal.SIGTERM)}
        with mock.patch.dict(os.environ, PATH=path + os.environ["PATH"]):
            found = ending_of("campaign", [self.folder, *words])
        for number, handler in handlers.items():
            signal.signal(number, handler)
        return found

    def test_the_tool_finds_its_package(self):
        self.take("late_onset.toml")
        env = {key: it for key, it in os.environ.items() if key != "PYTHONPATH"}
        done = subprocess.run([str(TOP / "tools/campaign"), str(self.folder), "1", "1", "--model"],
                              capture_output=True, text=True, env=env)
        self.assertEqual((done.returncode, len(self.rows())), (0, 2), done.stderr)

    def rows(self) -> list[str]:
        return (self.folder / "rows.csv").read_text().splitlines()

    def take(self, *names: str):
        for name in names:
            shutil.copy(EXAMPLES / name, self.folder)

    def test_an_interrupted_one_keeps_its_rows(self):
        words = [str(TOP / "tools/campaign"), str(self.folder), "400", "1", "--model", "--jobs", "1"]
        with subprocess.Popen(words, stderr=subprocess.PIPE, text=True) as tool:
            rows = self.folder / "rows.csv"
            while tool.poll() is None and not (rows.exists() and rows.read_text().count("\n") > 2):
                time.sleep(0.05)
            tool.send_signal(signal.SIGINT)
            said = tool.stderr.read().splitlines()
        self.assertEqual((tool.returncode, len(said)), (130, 2), said)
        left = 400 - (len(self.rows()) - 1)
        self.assertLess(left, 400)
        self.assertEqual(said[1], f"tools/campaign: interrupted; {left} of 400 scenarios have no row "
                         "yet: the same line again goes on")

    def test_options_may_stand_first(self):
        asked = asked_in(["--model", "--jobs", "2", "FOLDER", "9", "1", "--generator", "COMMAND",
                          "--retries", "3"])
        self.assertEqual(asked.words, ["FOLDER", "9", "1"])
        self.assertEqual(asked.values,
                         {"--engine": "model", "--jobs": "2", "--generator": "COMMAND"})
        self.assertEqual(asked.options, ["--retries", "3"])

    def test_the_rows_of_the_page(self):
        self.take("late_onset.toml", "two_sided.toml")
        (self.folder / "broken.toml").write_text("biu = 1\n")
        status, out, said = self.campaign(9, 1, "--model")
        by = "tools/campaign: run by tools/model, a second model of the bus, which is not proved\n"
        self.assertEqual((status, said), (0, by))
        rows = {line.split(",", 1)[1] for line in self.rows()}
        self.assertEqual(rows, {"scenario,status,frame,slot,stage,cause,convicted,spread,deliveries,none",
                                "late_onset.toml,0,,,,,B2,0,30,2", "two_sided.toml,1,0,6,2,TwoSided,,0,7,0",
                                "broken.toml,3,,,,2 MissingKey,,,0,0"})
        lines = [line.split() for line in out.splitlines()]
        for wanted in (["all", "3"], ["deliveries", "37"], ["of", "which", "none", "2"]):
            self.assertIn(wanted, lines)
        self.assertIn("run by tools/model, which is not proved\n", out)
        self.assertTrue((self.folder / "spread.svg").read_text().startswith("<svg"))
        self.assertEqual(self.campaign("summary")[1], out)

    def test_a_torn_row_is_run_again_and_no_other(self):
        self.take("late_onset.toml", "two_sided.toml", "one_silent_rmu.toml")
        self.campaign(2, 1, "--model")
        head, first, second = self.rows()
        kept = first.replace(",0,", ",00,", 1)  # a whole row, known again by its spelling
        (self.folder / "rows.csv").write_text("\n".join([head, kept, second[:-5]]))
        self.assertEqual(self.campaign(3, 1, "--model")[0], 0)
        self.assertEqual(self.rows()[:3], [head, kept, second])
        self.assertEqual(len(self.rows()), 4)

    def test_the_scenario_behind_a_row(self):
        self.assertEqual(self.campaign(2, 40, "--model")[0], 0)
        wanted = subprocess.run([str(TOP / "tools/scenario"), "41"], capture_output=True, text=True).stdout
        self.assertEqual(self.campaign("scenario", 2)[1], wanted)
        self.assertEqual([row.split(",")[1] for row in self.rows()[1:]], ["40", "41"])

    def test_a_generator(self):
        command = f"cat '{EXAMPLES / 'two_sided.toml'}' #"
        self.assertEqual(self.campaign(2, 7, "--model", "--generator", command)[0], 0)
        self.assertEqual(self.rows()[1:], ["1,7,1,0,6,2,TwoSided,,0,7,0", "2,8,1,0,6,2,TwoSided,,0,7,0"])
        self.assertIn("is another campaign", self.campaign(2, 8, "--model")[2])

    def test_a_scenario_that_cannot_be_had_has_no_row(self):
        status, _, said = self.campaign(2, 1, "--model", "--generator", "exit 3 #")
        self.assertEqual((status, self.rows()), (70, self.rows()[:1]))
        self.assertIn("2 of 2 scenarios have no row yet: the same line again goes on", said)

    def test_it_goes_on_with_what_it_began_with(self):
        self.take("late_onset.toml")
        plan = {"seed": 1, "files": ["late_onset.toml"], "generator": None, "program": "proved"}
        (self.folder / "plan.json").write_text(json.dumps(plan))
        self.assertIn("was begun with the engine program", self.campaign(1, 1, "--model")[2])

    def test_options_of_parallel(self):
        self.take("late_onset.toml", "two_sided.toml", "one_silent_rmu.toml")
        path = self.folder.parent / "parallel"
        path.write_text("#!/bin/sh\necho another program of this name\n")
        path.chmod(path.stat().st_mode | stat.S_IXUSR)
        status, _, said = self.campaign(3, 1, "--model", "--retries", 3, path=str(path.parent) + os.pathsep)
        self.assertEqual((status, said.startswith("tools/campaign: --retries is for GNU parallel")), (70, True))
        path.write_text(PARALLEL)
        status, _, said = self.campaign(3, 1, "--model", "--retries", 3, path=str(path.parent) + os.pathsep)
        self.assertEqual((status, len(self.rows())), (0, 4), said)


    def test_mistakes_are_one_line_that_names_the_argument(self):
        self.take("late_onset.toml")
        file = self.folder / "late_onset.toml"
        for words, named in (
                (["scenario", 1], "FOLDER"), (["scenario"], "NUMBER"), (["summary"], "FOLDER"),
                (["x", 1], "COUNT"), ([0, 1], "COUNT"), ([3, "y"], "SEED"), ([3], "SEED"),
                ([3, 1, "--jobs", "none"], "--jobs"), ([3, 1, "--unit", "7"], "--unit"),
                ([3, 1, "--bus"], "--bus"), ([3, 1, "--bus", "none"], "--bus"),
                ([3, 1, "--bus", file], "FOLDER"), ([3, 1, "--kinds", "silent"], "--kinds")):
            self.assert_one_line([*words, "--model"], named)
        self.assertEqual(self.campaign(1, 1, "--model")[0], 0)
        self.assert_one_line(["scenario", 99], "NUMBER: 99 is no number from 1 to 1")
        (self.folder / "plan.json").write_text('{"seed": 1, "files"')
        for words in (["scenario", 1], ["summary"], [1, 1, "--model"]):
            self.assert_one_line(words, "plan.json is damaged")
        none = self.folder / "none"
        for folder, words in ((file, ["summary"]), (file, [1, 1, "--model"]), (none, ["summary"]),
                              (none, ["scenario", 1])):
            self.folder = folder
            self.assert_one_line(words, f"FOLDER: {folder} is no folder")

    def assert_one_line(self, words: list, named: str):
        """One line behind the one that names the engine, and the status of wrong words."""
        out, said = io.StringIO(), io.StringIO()
        with contextlib.redirect_stdout(out), contextlib.redirect_stderr(said):
            status = run("campaign", [str(word) for word in (self.folder, *words)])
        lines = [line for line in said.getvalue().splitlines() if ": run by " not in line]
        self.assertEqual((status, out.getvalue(), len(lines)), (2, "", 1), (words, lines))
        self.assertIn(named, lines[0], words)


BUS = """biu = 4
rmu = 4
slots = 6
frames = 5
requests = [2, 1, 1, 1]
words = [10, 20, 30, 40]
"""
KINDS = "silent,symmetric,asymmetric,babbling"


class Faults(unittest.TestCase):
    """Campaigns of one bus with faults."""

    def test_what_is_drawn(self):
        generator = Generator.of(BUS, "1..2", "silent,asymmetric", "1..2/3..9")
        found = [generator.faults_of(seed) for seed in range(200)]
        self.assertEqual({len(it) for it in found}, {1, 2})
        faults = [fault for it in found for fault in it]
        self.assertEqual({it.node for it in faults},
                         {f"{kind}{number}" for kind in "BR" for number in range(4)})
        self.assertEqual({it.kind for it in faults}, {"silent", "asymmetric"})
        self.assertEqual({(it.frame, it.slot) for it in faults},
                         {(frame, slot) for frame in (1, 2) for slot in range(3, 10)})
        # Two faulty nodes are never the same one, and one that is faulty in the bus is not drawn
        self.assertTrue(all(len({it.node for it in some}) == len(some) for some in found))
        faulty = BUS + '[[fault]]\nnode = "R1"\nframe = 0\nslot = 0\n'
        generator = Generator.of(faulty, "7", KINDS, "any")
        self.assertNotIn("R1", {it.node for it in generator.faults_of(3)})

    def test_kinds_are_heard_as_their_names_say(self):
        short = BUS.replace("frames = 5", "frames = 1")
        for kind, name in (("silent", "benign"), ("symmetric", "symmetric"),
                           ("asymmetric", "asymmetric")):
            for seed in range(8):
                generator = Generator.of(short, "1", kind, "0/0")
                run = FirstFrame(read(generator.text_of(seed))).run()
                node = model.node_in(run.bus, generator.faults_of(seed)[0].node)
                self.assertEqual(run.class_of(node), name, (kind, seed))

    def test_what_a_babbler_says_is_heard_everywhere(self):
        scenario = read(Generator.of(BUS, "1", "babbling", "2/7").text_of(1))
        said = [(it.frames, it.slots, it.stages) for it in scenario.says]
        # From slot 7 of frame 2 on, up to the sync slot, 2 * 4 + 4 + 6 = 18; then whole frames
        self.assertEqual(said, [((2, 2), (7, 18), (1, 3)), ((3, 4), (0, 18), (1, 3))])

    def test_latency_by_hand(self):
        # 2 l - 1 - h ticks of 10000 units by one clock; B0 begins 1000 units after all others
        data = BUS + '[[clock]]\nnode = "B0"\nstart = 1000\n'
        scenario = read(data.encode())
        rows = rows_of(run_model("run", data=data.encode()).splitlines())
        found = [it for it, row in zip(latencies(scenario, rows), range(8))]
        # The first two slots are those of B0 and B1, each with its four receivers
        self.assertEqual(found, [230000, 229000, 229000, 229000,
                                 231000, 230000, 230000, 230000])

    def test_the_interval_is_that_of_wilson(self):
        # 0 of 10: from 0 to z^2 / (10 + z^2); 5 of 10: (1 -+ z / sqrt(10 + z^2)) / 2
        square = 3.841458820694
        half = sqrt(square / (10 + square)) / 2
        for found, low, high in ((0, 0, square / (10 + square)), (5, 0.5 - half, 0.5 + half)):
            self.assertAlmostEqual(wilson(found, 10)[0], low)
            self.assertAlmostEqual(wilson(found, 10)[1], high)

    def test_the_summary_counts(self):
        def row(faults: str, status: int, convicted: str, none: int) -> dict:
            return {"faults": faults, "status": str(status), "convicted": convicted,
                    "deliveries": "20", "none": str(none), "lost_of_good": "0",
                    "latency_least": "5", "latency_greatest": "9"}

        text = summary_of_faults({1: row("", 0, "", 0), 2: row("B1:silent:0/0", 0, "B1", 2),
                                  3: row("R1:silent:3/5", 1, "", 0),
                                  4: row("B1:silent:0/0 R2:babbling:1/1", 0, "R2", 4)})
        lines = [re.split(r"  +", line.strip()) for line in text.splitlines()]
        self.assertIn(["none", "1", "0 (0.0..79.3 %)", "-", "0 (0.0..79.3 %)"], lines)
        half = "1 (9.5..90.5 %)"
        self.assertIn(["1 silent", "2", half, half, half], lines)
        self.assertIn(["1 babbling, 1 silent", "1 of 2", "20", "4", "0", "5", "9", "9"], lines)

    def test_a_campaign_of_a_bus(self):
        with tempfile.TemporaryDirectory() as room:
            folder, bus = Path(room, "own"), Path(room, "bus.toml")
            bus.write_text(BUS)
            words = [TOP / "tools/campaign", folder, "3", "1", "--model", "--jobs", "1",
                     "--bus", bus, "--unit", "1ns", "--faults", "1"]
            done = subprocess.run(words, capture_output=True, text=True)
            self.assertEqual(done.returncode, 0, done.stderr)
            rows = (folder / "rows.csv").read_text().splitlines()
            self.assertEqual(len(rows), 4)
            self.assertTrue(rows[0].endswith(",faults,latency_least,latency_greatest,lost_of_good"))
            self.assertIn("1 of any kind", done.stdout)
            # The scenario behind a row does not need the file of the bus any more
            bus.unlink()
            done = subprocess.run([*words[:2], "scenario", "3"], capture_output=True, text=True)
            self.assertEqual(done.stdout.encode(), Generator.of(BUS, "1", KINDS, "any").text_of(3))
            # Other faults are another campaign
            bus.write_text(BUS)
            done = subprocess.run([*words[:-1], "2"], capture_output=True, text=True)
            self.assertIn("is another campaign", done.stderr)

    def test_arguments_that_do_not_fit_the_bus(self):
        for words in (("9", KINDS, "any"), ("2..1", KINDS, "any"), ("1", "loud", "any"),
                      ("1", "", "any"), ("1", KINDS, "5"), ("1", KINDS, "0/19"),
                      ("1", KINDS, "soon")):
            self.assertRaises(BadArgument, Generator.of, BUS, *words)
        self.assertRaises(BadArgument, Generator.of, "biu = 1", "1", KINDS, "any")
        large = ("biu = 16\nrmu = 16\nslots = 64\nframes = 9\n"
                 "plan = { l = 17, h = 7, v = 20, z = 22, p = 60121 }\n")
        self.assertRaises(BadArgument, Generator.of, large, "16", "asymmetric", "any")


class FirstFrame(model.World):
    """A run that keeps how nodes were heard in frame 0."""

    first = None

    def settle_frame(self, frame, starts):
        if frame == 1:
            self.first = self.judge
        super().settle_frame(frame, starts)

    def class_of(self, node: model.Node) -> str:
        judge = self.first or self.judge
        if node[1] in judge.unlike[node[0]]:
            return "asymmetric"
        return "symmetric" if node[1] in judge.heard[node[0]] else "benign"


class Pictures(unittest.TestCase):
    def test_even_ranges(self):
        drawn = histogram_of([0, 100, 200, 299])
        self.assertIn("<title>0 to 9: 1</title>", drawn)
        self.assertIn("<title>290 to 299: 1</title>", drawn)
        self.assertNotIn("logarithmic", drawn)
        # All alike: a bar in the middle
        drawn = histogram_of([5000] * 3)
        self.assertEqual(drawn.count('class="bar"'), 1)
        self.assertIn('<rect class="bar" x="327.0"', drawn)

    def test_ranges_of_a_logarithmic_axis(self):
        drawn = histogram_of([0, 0, 7, 299])
        for title in ("0 to 4: 2", "5 to 9: 1", "200 to 499: 1"):
            self.assertIn(f"<title>{title}</title>", drawn)
        self.assertIn("on a logarithmic axis", drawn)


if __name__ == "__main__":
    unittest.main()
