"""Quick builds: a program of the repository compiled without any proof, and kept.

`rt try` compiles a crate and runs it once, which takes up to two minutes, and it keeps nothing. So
the first call here has it compile the crate and run it on a small input, copies the compiled
program while that run lasts, and keeps the copy under the sum of all sources and of the kit's name.
Later calls run the copy, without any of the limits of `rt try`. Builds are kept in .quick of the
repository, or in the user's cache folder if the repository may not be written."""
from __future__ import annotations

import hashlib
import os
import shutil
import signal
import subprocess
import sys
import tempfile
import time
from contextlib import suppress
from functools import lru_cache
from pathlib import Path
from typing import Iterator, List, Optional, Tuple

from robus.errors import BadArgument, NoEngine

TOP = Path(__file__).resolve().parents[2]
SECONDS, BYTES = 60, 1 << 20

# What each program is run on when it is built: words, and input
SMALL = b"biu = 1\nrmu = 1\nslots = 1\nframes = 1\n"
TRIALS = {
    "robus": (["check"], SMALL),
    "robus_bridge": (["run"], b"left = 1\n"),
    "robus_picture": ([], b"end 0\n"),
}
NO_KIT = ("there is no command rt, which comes with the Rattle kit; "
          "tools/model runs scenarios with python3 alone")


def is_there() -> bool:
    """Whether programs can be built here: the sources and the kit are there."""
    return (TOP / "crates.txt").exists() and shutil.which("rt") is not None


def sources() -> List[Path]:
    """All files that a build reads, in order."""
    found = [TOP / "crates.txt"]
    for folder, inner, names in os.walk(TOP / "crates"):
        inner[:] = [name for name in inner if name not in ("out", "must-fail")]
        found += [Path(folder, name) for name in names if name.endswith((".rt", ".antt"))]
    return sorted(found)


def sum_of_sources() -> str:
    """A sum over the kit's name and the names and bytes of all sources."""
    version = subprocess.run(["rt", "version"], stdout=subprocess.PIPE, stderr=subprocess.DEVNULL)
    total = hashlib.sha256(version.stdout)
    for path in sources():
        content = path.read_bytes()
        total.update(b"%s\0%d\0" % (os.fsencode(path.relative_to(TOP)), len(content)))
        total.update(content)
    return total.hexdigest()


@lru_cache(maxsize=None)
def first_sum() -> str:
    """The sum as it is when it is first asked for."""
    return sum_of_sources()


def folders() -> Iterator[Path]:
    """The folders in which builds are kept, the first that may be written before the others."""
    yield TOP / ".quick"
    cache = os.environ.get("XDG_CACHE_HOME") or os.path.expanduser("~/.cache")
    yield Path(cache, "robus")


def may_write(folder: Path) -> bool:
    """Whether files can be made in a folder, which is made if it is not there."""
    try:
        folder.mkdir(parents=True, exist_ok=True)
        with tempfile.TemporaryFile(dir=folder):
            return True
    except OSError:
        return False


def folder_for_builds() -> Path:
    """The first folder in which a build can be kept; NoEngine if there is none."""
    for folder in folders():
        if may_write(folder):
            return folder
    places = " nor in ".join(map(str, folders()))
    raise NoEngine(f"a build can be kept neither in {places}: set XDG_CACHE_HOME to a folder "
                   "that may be written")


def kept(name: str) -> Optional[Path]:
    """The build of a program from the sources as they are; None if none is kept."""
    if not is_there():
        return None
    found = (folder / f"{name}-{first_sum()}" for folder in folders())
    return next((path for path in found if path.exists()), None)


def beside(robus: Path, name: str) -> Path:
    """Where another program of the same sources is kept."""
    return robus.with_name(name + robus.name[len("robus"):])


def catch(folder: Path, child: subprocess.Popen[bytes]) -> Optional[Path]:
    """A second name for the program that `rt try` makes below the folder, held while it runs; None
    if it makes none there."""
    held = folder / "held"
    while child.poll() is None:
        for found in folder.glob("*/*/program"):
            try:
                os.link(found, held)
                child.wait()
                return held
            except OSError:
                pass
        time.sleep(0.005)
    return None


def keep(program: Path, name: str, folder: Path) -> Path:
    """Copies a program into the folder, whole or not at all. Of the repository's own folder it
    removes the builds of other sources."""
    path = folder / f"{name}-{first_sum()}"
    for old in folder.glob(name + "-*") if folder.parent == TOP else ():
        if not old.name.startswith(path.name):
            old.unlink(missing_ok=True)
    new = path.with_name(f"{path.name}.{os.getpid()}")
    shutil.copy(program, new)
    os.replace(new, path)
    return path


def stop(child: subprocess.Popen[bytes]) -> None:
    """Interrupts `rt` and all that it started, and waits a little for its end: without a limit it
    could wait for ever, as an interrupted `poll` may keep the lock of the child's status."""
    for number in (signal.SIGINT, signal.SIGKILL):
        with suppress(ProcessLookupError):
            os.killpg(child.pid, number)
        with suppress(subprocess.TimeoutExpired):
            child.wait(5)
            return


def trial(name: str, words: List[str], data: bytes, room: Path, *options: str
          ) -> Tuple[int, str, Optional[Path]]:
    """A run of a program by `rt try`, which writes into the file `out` of the room: its status,
    what `rt` said, and the program while it is held in the room."""
    (room / "input").write_bytes(data)
    with open(room / "input", "rb") as stdin, open(room / "out", "wb") as out, \
            open(room / "said", "wb") as said:
        child = subprocess.Popen(["rt", "try", *options, "--", *words], cwd=TOP / "crates" / name,
                                 stdin=stdin, stdout=out, stderr=said, start_new_session=True,
                                 env=dict(os.environ, TMPDIR=str(room)))
        try:
            held = catch(room, child)
            child.wait()
        except BaseException:
            stop(child)
            raise
    return child.returncode, (room / "said").read_text(errors="replace"), held


def build(name: str, folder: Path) -> Optional[Path]:
    """Compiles a program and keeps it in the folder; None if `rt try` shows no program that does
    what its own run did. NoEngine if it cannot be compiled."""
    words, data = TRIALS[name]
    before = first_sum()
    with tempfile.TemporaryDirectory(prefix="robus-quick-") as place:
        room = Path(place)
        status, said, held = trial(name, words, data, room)
        if "run=ended" not in said:
            sys.stderr.write(said)
            raise NoEngine(f"the quick build of {name} failed")
        if held is None or sum_of_sources() != before:
            return None
        again = subprocess.run([str(held), *words], input=data, stdout=subprocess.PIPE, env={})
        if (again.returncode, again.stdout) != (status, (room / "out").read_bytes()):
            return None
        return keep(held, name, folder)


def program_of(name: str) -> Optional[Path]:
    """The kept build of a program, which is built if there is none; None if none can be kept."""
    if not is_there():
        raise NoEngine(NO_KIT)
    found = kept(name)
    if found is None:
        folder = folder_for_builds()
        print(f"building {name} takes up to two minutes; it is kept in {folder}", file=sys.stderr)
        found = build(name, folder)
    return found


def run_once(name: str, words: List[str], data: bytes) -> Tuple[int, bytes]:
    """A run by `rt try`: its status, and all that the program wrote."""
    with tempfile.TemporaryDirectory(prefix="robus-quick-") as place:
        begin = time.monotonic()
        status, said, _ = trial(name, words, data, Path(place), "--seconds", str(SECONDS))
        if "run=ended" in said:
            return status, Path(place, "out").read_bytes()
    limit = "which is the limit of a quick build; the program of 'make build' has none"
    if f"{BYTES} bytes" in said:
        raise NoEngine(f"this run writes more than {BYTES} bytes, {limit}")
    if time.monotonic() - begin >= SECONDS:
        raise NoEngine(f"this run takes more than {SECONDS} seconds, {limit}")
    sys.stderr.write(said)
    raise NoEngine(f"the quick build of {name} did not run")


HELP = """tools/quick PROGRAM WORDS..: runs PROGRAM (robus, robus_bridge or robus_picture) with
these words as an unproved build. tools/quick --keep PROGRAM: builds PROGRAM if it is not kept, and
prints its path. It ends with the program's status, and with 70 if the build or the run gives no
answer.
"""


def main(words: List[str]) -> int:
    """tools/quick with these words; its status."""
    from robus import runner

    if words[:1] in (["--help"], ["-h"]):
        print(HELP + "\n" + __doc__)
        return 0
    keeps, words = words[:1] == ["--keep"], words[words[:1] == ["--keep"]:]
    if not words or words[0] not in TRIALS:
        why = f"{words[0]} is none" if words else "it is missing"
        raise BadArgument(f"PROGRAM: {why}; there are {', '.join(TRIALS)}")
    if keeps and len(words) > 1:
        raise BadArgument(f"{words[1]} is one word too many: --keep takes PROGRAM alone")
    if keeps:
        print(program_of(words[0]) or "")
        return 0
    return runner.run(runner.call_of("tools/quick", words[0], words[1:]), "quick")
