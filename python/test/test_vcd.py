"""The value change dumps of tools/trace, read by a reader of this test, and by vcd2fst where that
is there."""
import re
import shutil
import subprocess
import tempfile
import unittest
from bisect import bisect_right
from pathlib import Path

from helpers import EXAMPLES, ending_of, run_model

TWO_SIDED, LATE = EXAMPLES / "two_sided.toml", EXAMPLES / "late_onset.toml"
TICK = 10000


class Dump:
    """A value change dump: by scope and name the times of a signal and its values."""

    def __init__(self, text: str):
        head, body = text.split("$enddefinitions $end\n")
        self.scale = re.search(r"\$timescale (.*) \$end", head)[1]
        self.times: list[int] = []
        self.signals: dict[str, list[tuple[int, str]]] = {}
        names, scopes = {}, []
        for line in head.splitlines():
            words = line.split()
            if words[0] == "$scope":
                scopes.append(words[2])
            elif words[0] == "$upscope":
                scopes.pop()
            elif words[0] == "$var":
                names[words[3]] = ".".join([*scopes[1:], words[4]])
        assert not scopes
        self.signals = {name: [] for name in names.values()}
        for line in body.splitlines():
            if line.startswith("#"):
                self.times.append(int(line[1:]))
            elif not line.startswith("$"):
                value, short = line[1:].split() if line[0] == "b" else (line[0], line[1:])
                value = str(int(value, 2)) if value[0] in "01" else value
                self.signals[names[short]].append((self.times[-1], value))

    def at(self, name: str, time: int) -> str:
        """The value of a signal at a time."""
        values = self.signals[name]
        return values[bisect_right(values, time, key=lambda it: it[0]) - 1][1]


def traced(path: Path, *words: str) -> tuple[str, str]:
    """The dump of a scenario, and its save file."""
    with tempfile.TemporaryDirectory() as folder:
        dump = Path(folder, "run.vcd")
        status, _, said = ending_of("trace", [path, "--vcd", dump, *words])
        assert status in (0, 1), said
        return dump.read_text(), dump.with_suffix(".gtkw").read_text()


class Waves(unittest.TestCase):
    def test_the_liar(self):
        dump = Dump(traced(TWO_SIDED)[0])
        # Slot 5, 15 ticks a window: what B1 says comes at tick 6 and stands to the window's end
        first = 5 * 45
        for node, word in (("R0", "1"), ("R1", "2"), ("R2", "2")):
            heard = f"{node}.heard_B1"
            self.assertEqual(dump.at(heard, (first + 6) * TICK - 1), "z", node)
            self.assertEqual(dump.at(heard, (first + 6) * TICK), word, node)
            self.assertEqual(dump.at(heard, (first + 15) * TICK - 1), word, node)
            self.assertEqual(dump.at(heard, (first + 15) * TICK), "z", node)
        self.assertEqual([dump.at("B1.good", (first + it) * TICK) for it in (-1, 0)], ["1", "0"])
        # The breach is in stage 2 of slot 6, whose last tick is 30 ticks behind the slot's first
        self.assertEqual(dump.signals["bus.breach"], [(0, "0"), ((6 * 45 + 29) * TICK, "1")])
        self.assertEqual((dump.at("B0.slot", 10**7), dump.at("B0.stage", 10**7)), ("6", "2"))
        # B2 has heard 6 from R2 where it said 30: it accuses R2, whose bit is the third
        self.assertEqual(dump.at("B2.accuses", 10**7), "4")

    def test_all_lines_of_the_report_are_in_it(self):
        for name in ("late_onset", "one_silent_rmu", "greatest_drift"):
            path = EXAMPLES / f"{name}.toml"
            dump, told = Dump(traced(path)[0]), []
            rows = [it.split() for it in run_model("run", data=path.read_bytes()).splitlines()]
            begins = {tuple(row[1:3]): int(row[4]) for row in rows if row[0] == "e"}
            for (frame, node), time in begins.items():
                low = min(it for (at, _), it in begins.items() if at == frame)
                self.assertEqual(dump.at(f"{node}.frame", time), frame)
                self.assertEqual(dump.at(f"{node}.skew", time), str(time - low))
            for row in rows:
                if row[0] == "c":
                    time = begins[row[1], row[2]]
                    masks = [dump.at(f"{row[2]}.convicted_{it}", time) for it in ("biu", "rmu")]
                    self.assertEqual(masks, row[3:])
            for node in {node for _, node in begins if node[0] == "B"}:
                told += [(dump.at(f"{node}.frame", time), dump.at(f"{node}.slot", time), node, word)
                         for time, word in dump.signals[f"{node}.delivers"] if word != "z"]
            words = [(row[1], row[2], row[3], row[5].replace("none", "x"))
                     for row in rows if row[0] == "d"]
            self.assertEqual(sorted(told), sorted(words), name)

    def test_times(self):
        self.assertEqual(Dump(traced(TWO_SIDED)[0]).scale, "1 ns")
        dump = Dump(traced(TWO_SIDED, "--unit", "2.5us")[0])
        self.assertEqual((dump.scale, dump.times[1]), ("100 ns", 6 * TICK * 25))
        self.assertEqual(dump.times, sorted(set(dump.times)))
        status, _, said = ending_of("trace", [TWO_SIDED, "--vcd", "/dev/null", "--unit", "0.5fs"])
        self.assertEqual(status, 2)
        self.assertIn("--unit: 0.5 fs is no whole number of femtoseconds", said)

    def test_frames(self):
        rows = [it.split() for it in run_model("run", data=LATE.read_bytes()).splitlines()]
        begins = [int(row[4]) for row in rows if row[0] == "e" and row[1] == "1"]
        dump = Dump(traced(LATE, "--frames", "1:1")[0])
        self.assertEqual((dump.times[0], dump.at("B0.frame", max(begins))), (min(begins), "1"))

    def test_the_save_file_names_signals_that_are_there(self):
        text, save = traced(TWO_SIDED)
        names = set(Dump(text).signals)
        found = re.findall(r"^\+\{[^}]*\} robus\.(\S+?)(?:\[\d+:0\])?$", save, re.MULTILINE)
        self.assertLessEqual(set(found), names)
        self.assertIn("-from B1, which turns faulty\n@24\n[color] 1\n+{R0 heard_B1}", save)

    @unittest.skipUnless(shutil.which("vcd2fst"), "vcd2fst is not there")
    def test_gtkwave_reads_it(self):
        with tempfile.TemporaryDirectory() as folder:
            path, found = Path(folder, "run.vcd"), Path(folder, "run.fst")
            path.write_text(traced(TWO_SIDED)[0])
            done = subprocess.run(["vcd2fst", path, found], capture_output=True, text=True)
            self.assertEqual(done.returncode, 0, done.stderr)
            back = subprocess.run(["fst2vcd", found], capture_output=True, text=True).stdout
        self.assertIn("#2990000\n", back)


if __name__ == "__main__":
    unittest.main()
