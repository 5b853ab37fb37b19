"""The page of tools/view: what it shows of a run, and how it answers in Chromium where it is
there."""
import io
import json
import re
import shutil
import subprocess
import tempfile
import unittest
from dataclasses import dataclass
from pathlib import Path
from unittest import mock

from helpers import EXAMPLES, ending_of, output_of
from robus.engines import Answer, Engine, Model
from robus.errors import Failed
from robus.model import model, read
from robus.scenario import Scenario
from robus.trace_messages import Run
from robus.view_run import Viewed, view_of
from test_trace import logged

TWO_SIDED = EXAMPLES / "two_sided.toml"
BROWSER = shutil.which("chromium") or shutil.which("chromium-browser")
# Is put behind the page's script: does what a user does, and leaves what is seen in the title
DRIVER = """<script>
const seen = [];
const see = (name) => seen.push([name, location.hash, find("place").textContent,
  find("tables").textContent, find("hits").textContent]);
const press = (key) => document.dispatchEvent(new KeyboardEvent("keydown", { key, bubbles: true }));
function click(slot, node) {
  const time = span(slot).reduce((low, high) => (low + high) / 2);
  const box = canvas.getBoundingClientRect();
  const place = { clientX: box.left + xOf(time), clientY: box.top + laneOf(node), pointerId: 1,
    bubbles: true };
  canvas.setPointerCapture = () => {};
  canvas.dispatchEvent(new PointerEvent("pointerdown", place));
  canvas.dispatchEvent(new PointerEvent("pointerup", place));
}
addEventListener("error", (event) => seen.push(["error", event.message]));
%s
draw();
document.title = JSON.stringify(seen);
</script></body>"""


@dataclass(frozen=True)
class Other(Engine):
    """The second model under another name, in whose logs the bytes `before` are `after`."""

    path: str = "other"
    before: bytes = b""
    after: bytes = b""

    def raw(self, words, data=b"", program="robus"):
        """What the second model answers, changed if it is a log."""
        status, output = model.program.answer(list(words), io.BytesIO(data))
        if words[0] == "record" and self.before:
            output = output.replace(self.before, self.after)
        return Answer(status, output)


def page(path: Path, *words: str) -> str:
    """The page of a scenario."""
    status, text = output_of("view", [path, *words])
    assert status in (0, 1), status
    return text


def data_of(text: str) -> dict:
    """The data in a page."""
    found = re.search(r'<script type="application/json" id="data">(.*?)</script>', text, re.DOTALL)
    return json.loads(found[1])


def driven(text: str, script: str, link: str = "") -> list[list[str]]:
    """What a script sees of a page in Chromium; AssertionError if its console has an error."""
    errors = 'addEventListener("error", (it) => { window.failed = it.message; });'
    text = text.replace("<script>", f"<script>{errors}", 1)
    script += '\nif (window.failed) seen.push(["error", window.failed]);'
    with tempfile.TemporaryDirectory() as folder:
        path = Path(folder, "run.html")
        path.write_text(text.replace("</body>", DRIVER % script))
        words = [BROWSER, "--headless=new", "--no-sandbox", "--disable-gpu", "--dump-dom",
                 "--window-size=1200,900", "--virtual-time-budget=500", "--enable-logging=stderr",
                 f"--user-data-dir={folder}/profile", f"file://{path}{link}"]
        done = subprocess.run(words, capture_output=True, text=True, timeout=60)
    assert "CONSOLE" not in done.stderr, done.stderr
    title = re.search(r"<title>(.*?)</title>", done.stdout)[1]
    return json.loads(title.replace("&lt;", "<").replace("&gt;", ">").replace("&amp;", "&"))


class Data(unittest.TestCase):
    def test_all_messages_of_the_logs_are_on_the_page(self):
        for name in ("two_sided", "late_onset", "late_message"):
            path = EXAMPLES / f"{name}.toml"
            frames = data_of(page(path))["frames"]
            count = sum(len(it[-1]) for frame in frames for it in frame["sent"])
            self.assertEqual(count, len(logged(path)), name)

    def test_when_messages_were_sent_and_came(self):
        # B2's word is sent at tick 6 of slot 6, 45 ticks a slot, and takes 10000 units
        frames = data_of(page(TWO_SIDED))["frames"]
        sent = [it for it in frames[0]["sent"] if it[2:4] == [6, 1]]
        self.assertEqual(sent, [[2, 2760000, 6, 1, 0, sent[0][5], 0, [[4, 10000], [5, 10000]]]])
        # R2 lies to B0 and B2, and when it sends is not known
        sent = [it[:5] + it[6:] for it in frames[0]["sent"] if it[2:4] == [6, 2] and it[6]]
        time = (6 * 45 + 15 + 6) * 10000
        self.assertEqual(sent, [[6, None, 6, 2, 0, 1, [[to, time]]] for to in (0, 2)])

    def test_tables_are_those_of_explain(self):
        data = data_of(page(EXAMPLES / "late_onset.toml"))
        _, text = output_of("explain", [EXAMPLES / "late_onset.toml", 1, 5])
        lines = [re.split(" {2,}", it.strip()) for it in text.splitlines() if it.startswith("  ")]
        for stage in (1, 2):
            for row in data["frames"][1]["tables"][f"5.{stage}"]:
                self.assertIn([data["strings"][it] for it in row], lines)

    def test_viewing_changes_no_run(self):
        for path in EXAMPLES.glob("[!l]*.toml"):
            scenario = read(path.read_bytes())
            world = Viewed(scenario, range(scenario.frames), None).run()
            self.assertEqual(world.lines, model.World(scenario).run().lines)

    def test_frames_and_refusals(self):
        data = data_of(page(EXAMPLES / "late_onset.toml", "--frames", "1:2"))
        self.assertEqual([it["number"] for it in data["frames"]], [1, 2])
        self.assertEqual(data["frames"][1]["convicted"], ["B2"])
        self.assertEqual(ending_of("view", ["-"], b"biu = 1\n")[:2], (3, ""))
        self.assertEqual(ending_of("view", [TWO_SIDED, "--frames", "2:1"])[:2], (2, ""))

    @mock.patch("robus.view.MOST_WINDOWS", 500)
    def test_a_long_run_wants_its_frames(self):
        # Three frames of 14 slots with three windows each and a tail, at six nodes
        status, out, said = ending_of("view", [EXAMPLES / "late_onset.toml"])
        self.assertEqual((status, out), (2, ""))
        self.assertIn("a page of all 3 frames would be too large; --frames FIRST:LAST", said)
        self.assertIn("Frame", page(EXAMPLES / "late_onset.toml", "--frames", "0:2"))

    def test_another_report_than_the_second_model_s_is_refused(self):
        with tempfile.TemporaryDirectory() as folder:
            path = Path(folder, "robus")
            path.write_text("#!/bin/sh\ncat > /dev/null\necho end 1\n")
            path.chmod(0o755)
            status, out, said = ending_of("view", [TWO_SIDED, "--engine", path])
        self.assertEqual((status, out), (70, ""))
        self.assertIn("its report is not that of the second model", said)

    def test_a_log_that_the_second_model_has_not_is_refused(self):
        scenario = Scenario(TWO_SIDED.read_bytes(), "two_sided.toml")
        # What B0 says in its data slot: 10 in slot 4, and in the other logs 11
        word, other = (bytes.fromhex(it) for it in ("01000000 04010000000a0e",
                                                    "01000000 04010000000b0f"))
        run, same = (Run.of(engine, scenario) for engine in (Other(), Model()))
        self.assertEqual(run.messages, same.messages)
        view_of(run, range(1), None)
        with self.assertRaisesRegex(Failed, "a message that the second model has not"):
            view_of(Run.of(Other("other", word, other), scenario), range(1), None)

    def test_it_fetches_nothing(self):
        self.assertNotRegex(page(TWO_SIDED), r"https?:|\bfetch\(|XMLHttpRequest|@import|url\(")


@unittest.skipUnless(BROWSER, "chromium is not there")
class Browser(unittest.TestCase):
    def test_the_ways_of_a_user(self):
        seen = driven(page(TWO_SIDED), """
          see("opened"); press("ArrowLeft"); see("left");
          click(4, 0); see("clicked");
          find("query").value = "accuses R2"; find("search").requestSubmit(); see("found");
          find("query").value = "B1"; find("search").requestSubmit(); press("n"); see("next");
          press("0"); press("+"); press("s"); press("PageDown"); see("no other frame");
          location.hash = "#frame=9&slot=1"; goToLink(); see("no such frame");""")
        places = [(it[0], it[1]) for it in seen]
        self.assertEqual(places[:4], [("opened", "#frame=0&slot=6"), ("left", "#frame=0&slot=5"),
                                      ("clicked", "#frame=0&slot=4"), ("found", "#frame=0&slot=6")])
        self.assertIn("Breach of the fault premise: TwoSided", seen[0][3])
        self.assertIn("R2 (faulty)5 to B0, 6 to B2", seen[0][3])
        self.assertIn("B1 (faulty)1 to R0, 2 to R1 R2", seen[1][3])
        self.assertEqual(seen[3][4], "1 of 1 slots")
        self.assertEqual([it[0] for it in seen[4:]], ["next", "no other frame", "no such frame"])
        self.assertEqual(seen[-1][4], "this page has no place that the link names")

    def test_a_link_names_the_place(self):
        seen = driven(page(EXAMPLES / "late_onset.toml"), 'see("opened")', "#frame=1&slot=5")
        self.assertEqual(seen[0][:3], ["opened", "#frame=1&slot=5", "Frame 1, slot 5: data 2"])


if __name__ == "__main__":
    unittest.main()
