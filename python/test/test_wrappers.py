"""What the tools in tools/ say and how they end. No failure is taken for a verdict, files are read
once, and a closed pipe, a full disk and Ctrl-C are reported as what they are."""
import io
import os
import pathlib
import re
import signal
import subprocess
import sys
import tempfile
import unittest
from concurrent.futures import ThreadPoolExecutor
from unittest import mock

from helpers import EXAMPLES, TOP, ending_of, script_ending
from robus import quick
from robus.__main__ import TOOLS
from robus.model import model

LATE = EXAMPLES / "late_onset.toml"
# A tool that is a word of the package
WRAPPER = re.compile(r"#!/bin/sh\n#[^\n]*\nword=(\w+) && [^\n]*start\.sh[^\n]*\n")
# Stands for `rt`: what it writes and its status are in files beside it
RT = """#!/bin/sh
here=$(dirname "$0")
[ "$1" = version ] && exit 0
[ "$*" = "try -- check" ] && [ -e "$here/builds" ] && { echo run=ended >&2; exit 0; }
cat > "$here/input"
cat "$here/out"
cat "$here/said" >&2
exit "$(cat "$here/status")"
"""
# Tools that write to standard output, each in a way of its own, with words for which they do
WRITERS = (("run", LATE), ("model", "gen", 7, 1), ("lint", LATE), ("plan", LATE),
           ("sweep", LATE, "frames=1"), ("scenario", 7))


def environment(*folders: str, **more: str) -> dict[str, str]:
    """The environment of a tool: these folders first in PATH, and the Python of this test."""
    path = os.pathsep.join([*folders, os.path.dirname(sys.executable), os.environ["PATH"]])
    return dict(os.environ, PATH=path, ROBUS_ENGINE="model", **more)


def call(*words, path: str | None = None, data: bytes = b"", **more) -> tuple[int, str, str]:
    """The status of a command, and what it writes on standard output and on standard error."""
    env = environment(*([path] if path else []), **more)
    done = subprocess.run(list(map(str, words)), input=data, capture_output=True, cwd=TOP, env=env)
    return done.returncode, done.stdout.decode(), done.stderr.decode()


def calls(*lines: tuple) -> list[tuple[tuple, tuple[int, str, str]]]:
    """Several commands, some of them at a time, each with its ending."""
    with ThreadPoolExecutor(4) as pool:
        return list(zip(lines, pool.map(lambda words: call(*words), lines)))


def program_in(folder: str, name: str, text: str) -> pathlib.Path:
    """A program of this text in the folder."""
    path = pathlib.Path(folder, name)
    path.write_text(text)
    path.chmod(0o755)
    return path


class Words(unittest.TestCase):
    def test_bare_tools_say_in_one_line_what_they_want(self):
        tools = ("robus", "picture", "quick", "lint")
        for (tool,), (status, out, said) in calls(*[("tools/" + it,) for it in tools]):
            self.assertEqual((status, out, len(said.splitlines())), (2, "", 1), tool)
            self.assertTrue(said.startswith(tool + ": "), said)

    def test_help(self):
        files = [it for it in (TOP / "tools").iterdir() if it.is_file() and os.access(it, os.X_OK)]
        for name in sorted(it.name for it in files if it.name not in ("robus", "proved")):
            wrapper = WRAPPER.fullmatch((TOP / "tools" / name).read_text())
            status, out, said = (ending_of(wrapper[1], ["--help"]) if wrapper
                                 else script_ending(name, ["--help"]))
            self.assertEqual((status, said), (0, ""), name)
            self.assertIn(f"tools/{name}", out)
            if wrapper:
                self.assertIn(TOOLS[wrapper[1]][2], out)
        for (tool, _), (status, out, said) in calls(("tools/proved", "--help"), ("tools/lint", "-h")):
            self.assertEqual((status, said), (0, ""), tool)
            self.assertIn(tool, out)
        status, out, said = call("make", "-s", "help")
        self.assertEqual((status, said), (0, ""))
        self.assertIn("make run SCENARIO=", out)

    def test_no_file(self):
        bridge = EXAMPLES / "bridges/carried_words.toml"
        for tool, name in (("run", "run"), ("draw", "picture"), ("bridge", "bridge")):
            for path, why in (("no.toml", "No such file or directory"), ("/", "Is a directory")):
                line = f"tools/{name}: {path}: {why}\n"
                self.assertEqual(ending_of(tool, [path]), (2, "", line))
        self.assertIn("is a bridge of two buses: make bridge", ending_of("run", [bridge])[2])
        self.assertIn("is a scenario of one bus: make run", ending_of("bridge", [LATE])[2])

    def test_a_file_behind_the_words_is_read(self):
        given = LATE.read_bytes()
        with mock.patch.dict(os.environ, ROBUS_ENGINE="model"):
            for words in (["run"], ["check"], ["record", "B0"]):
                due = model.answer(words, io.BytesIO(given))
                for tool in ("robus", "model"):
                    for file, data in ((LATE, b""), ("-", given)):
                        status, out, _ = ending_of(tool, [*words, file], data)
                        self.assertEqual((status, out), (due[0], due[1].decode(errors="replace")))

    def test_words_of_the_package(self):
        env = dict(PYTHONPATH=str(TOP / "python"))
        self.assertEqual(call("python3", "-m", "robus", **env)[0], 2)
        self.assertEqual(call("python3", "-m", "robus", "--help", **env)[0], 0)
        line = "robus: there is no word nix; python3 -m robus --help lists them\n"
        self.assertEqual(call("python3", "-m", "robus", "nix", **env), (2, "", line))


class Verdicts(unittest.TestCase):
    """Status 0 and 1 come of an answer of the program, and of nothing else."""

    def test_what_the_program_answers(self):
        status, out, said = call("tools/run", EXAMPLES / "too_few_good.toml")
        self.assertEqual((status, out.splitlines()[-1]), (1, "breach 0 0 2 FewGoodRmu"))
        self.assertIn("tools/run: status 1: the run ended with a breach", said)
        make = call("make", "-s", "run", "SCENARIO=examples/too_few_good.toml")
        self.assertEqual(make[:2], (0, out))
        refused = call("tools/run", "-", data=b"biu = 1\n")
        self.assertEqual(refused[:2], (3, "refused 2 MissingKey\n"))
        self.assertEqual(call("make", "-s", "run", "SCENARIO=Makefile")[0], 2)

    def test_a_python_that_is_too_old_or_does_not_run(self):
        for text, found in (("exit 1", "missing"), ("echo 3.9", "3.9"), ("echo; exit 1", "missing")):
            with tempfile.TemporaryDirectory() as folder:
                program_in(folder, "python3", f"#!/bin/sh\n{text}\n")
                for tool in ("run", "lint"):
                    said = f"tools/{tool}: needs Python 3.11 or newer; python3 is {found}\n"
                    self.assertEqual(call("tools/" + tool, LATE, path=folder), (70, "", said))
                self.assertEqual(call("make", "-s", "run", f"SCENARIO={LATE}", path=folder)[0], 2)

    def test_engines_that_give_no_report(self):
        engines = ("/bin/true", "/bin/false", "/bin/cat", "/bin", "README.md")
        lines = [("tools/run", LATE, "--engine", engine) for engine in engines]
        lines.append(("tools/sweep", LATE, "frames=1", "--engine", "/bin/true"))
        for words, (status, _, said) in calls(*lines):
            self.assertEqual(status, 70, (words, said))
            self.assertTrue(said.splitlines()[-1].startswith(words[0] + ": "), said)
            self.assertNotIn("Traceback", said)

    def test_a_run_that_is_killed(self):
        with tempfile.TemporaryDirectory() as folder:
            engine = program_in(folder, "robus", "#!/bin/sh\necho e 0 B0 0 0\nkill -9 $$\n")
            status, _, said = call("tools/run", LATE, "--engine", engine)
            self.assertEqual((status, "killed by signal 9" in said), (70, True), said)


class Input(unittest.TestCase):
    """A file is read once, so that pipes do."""

    def test_pipes(self):
        whole = call("tools/run", LATE)[1]
        self.assertTrue(whole.endswith("end 3\n"))
        for words in (["run", "/dev/stdin"], ["robus", "run"]):
            found = call("tools/" + words[0], *words[1:], data=LATE.read_bytes())
            self.assertEqual(found[:2], (0, whole), words)
        with tempfile.TemporaryDirectory() as folder:
            pipe = pathlib.Path(folder, "pipe")
            os.mkfifo(pipe)
            with subprocess.Popen(["cp", str(LATE), str(pipe)]):
                self.assertEqual(call("tools/run", pipe)[:2], (0, whole))

    def test_a_folder_as_standard_input(self):
        folder = os.open(EXAMPLES, os.O_RDONLY)
        try:
            done = subprocess.run([str(TOP / "tools/robus"), "run"], stdin=folder,
                                  capture_output=True, env=environment())
        finally:
            os.close(folder)
        self.assertEqual((done.returncode, done.stdout), (5, b""))
        self.assertEqual(done.stderr, b"tools/robus: standard input is a folder\n")


class Endings(unittest.TestCase):
    def started(self, words, **how) -> subprocess.Popen:
        """A tool of tools/ that is under way."""
        command = [str(TOP / "tools" / words[0]), *map(str, words[1:])]
        return subprocess.Popen(command, stderr=subprocess.PIPE, env=environment(), text=True,
                                **how)

    def endings(self, out: int) -> list[tuple[str, int, list[str]]]:
        """The name, the status and the lines of each tool that writes to this descriptor. The line
        that says what ran it is left out."""
        found = []
        for words, tool in [(words, self.started(words, stdout=out)) for words in WRITERS]:
            with tool:
                lines = [it for it in tool.stderr.read().splitlines() if ": run by " not in it]
            found.append((words[0], tool.returncode, lines))
        return found

    def test_a_closed_pipe_is_silent(self):
        reader, writer = os.pipe()
        os.close(reader)
        found = self.endings(writer)
        os.close(writer)
        self.assertEqual(found, [(name, 6 if name == "run" else 0, []) for name, *_ in WRITERS])

    def test_a_full_disk_is_one_line(self):
        with open("/dev/full", "w") as full:
            found = self.endings(full.fileno())
        line = "tools/%s: standard output could not be written: No space left on device"
        self.assertEqual(found, [(name, 6, [line % name]) for name, *_ in WRITERS])

    def test_an_interrupted_sweep_keeps_its_rows(self):
        words = ("sweep", EXAMPLES / "late_onset.toml", "frames=3,4000")
        with self.started(words, stdout=subprocess.PIPE) as tool:
            rows = [tool.stdout.readline(), tool.stdout.readline()]
            tool.send_signal(signal.SIGINT)
            said = tool.stderr.read()
        self.assertTrue(rows[1].startswith("3,0,"), rows)
        self.assertEqual(said.splitlines()[-1], "tools/sweep: interrupted")
        self.assertEqual(tool.returncode, 130)


class Quick(unittest.TestCase):
    """An unproved build that keeps nothing: each call goes through `rt try`."""

    def quick(self, out: bytes, said: str, status: int, builds: bool = True):
        """What tools/quick gives if `rt` writes this; `builds` says that a build succeeds."""
        with tempfile.TemporaryDirectory() as folder:
            program_in(folder, "rt", RT)
            pathlib.Path(folder, "out").write_bytes(out)
            pathlib.Path(folder, "said").write_text(said)
            pathlib.Path(folder, "status").write_text(str(status))
            if builds:
                pathlib.Path(folder, "builds").touch()
            found = call("tools/quick", "robus", "run", path=folder, data=b"biu = 1\n")
            if builds:
                self.assertEqual(pathlib.Path(folder, "input").read_bytes(), b"biu = 1\n")
            return found

    def test_what_the_program_wrote_and_its_status(self):
        ended = "checked: ended status=3\nrun=ended status=3 proved=no\n"
        status, out, said = self.quick(b"refused 2 MissingKey\n", ended, 3)
        self.assertEqual((status, out), (3, "refused 2 MissingKey\n"))
        self.assertNotIn("run=ended", said)

    def test_a_build_that_fails(self):
        failed = "error: no such function\nrun=none\n"
        status, out, said = self.quick(b"half a report", failed, 1, builds=False)
        self.assertEqual((status, out), (70, ""))
        self.assertIn("error: no such function", said)

    def test_a_report_that_is_too_long_for_it(self):
        limit = "the program wrote more than 1048576 bytes, the limit\nrun=none\n"
        status, out, said = self.quick(b"half a report", limit, 6)
        self.assertEqual((status, out), (70, ""))
        self.assertIn("more than 1048576 bytes, which is the limit of a quick build; "
                      "the program of 'make build' has none\n", said)
        self.assertNotIn("run=none", said)

    def test_where_a_build_is_kept(self):
        """In .quick of the repository, or in the user's cache folder if that may not be written."""
        with tempfile.TemporaryDirectory() as folder:
            top, cache = pathlib.Path(folder, "top"), pathlib.Path(folder, "cache")
            top.mkdir()
            environ = mock.patch.dict(os.environ, XDG_CACHE_HOME=str(cache))
            with mock.patch.object(quick, "TOP", top), environ:
                self.assertEqual(quick.folder_for_builds(), top / ".quick")
                (top / ".quick").rmdir()
                (top / ".quick").write_text("no folder")
                self.assertEqual(quick.folder_for_builds(), cache / "robus")
                (cache / "robus").rmdir()
                (cache / "robus").write_text("no folder")
                with self.assertRaises(quick.NoEngine):
                    quick.folder_for_builds()


if __name__ == "__main__":
    unittest.main()
