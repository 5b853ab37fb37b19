"""What `check` and `measure` share: the peers that can be run here and the programs beside them."""
from __future__ import annotations

import os
import shutil
import subprocess
import sys
from pathlib import Path

HERE = Path(__file__).resolve().parent
TOP = HERE.parents[1]
ROBUS = str(TOP / "crates/robus/out/robus")
MODEL = str(TOP / "tools/model")
COMPILER = os.environ.get("CXX", "c++")
os.environ["SYSTEMC_DISABLE_COPYRIGHT_MESSAGE"] = "1"
# Of each peer in C++ its source, a header and the library of its package, and the package
COMPILED = {"SystemC": ("systemc", "systemc", "systemc", "libsystemc-dev"),
            "ns-3": ("ns3", "ns3/core-module.h", "ns3-core", "libns3-dev")}
Words = list[str]  # the words of a command, which are given SEED FRAMES, and `run` for the report


def works(*words: str) -> bool:
    """Whether a command ends with status 0."""
    return shutil.which(words[0]) is not None and not subprocess.run(
        words, capture_output=True, stdin=subprocess.DEVNULL).returncode


def with_simpy() -> Words | None:
    """The peer in SimPy; None if neither this Python nor that of Debian has SimPy."""
    for python in (sys.executable, "/usr/bin/python3"):
        if works(python, "-c", "import simpy, sys; sys.exit(sys.version_info < (3, 11))"):
            return [python, str(HERE / "simpy_peer.py")]
    return None


def compiled(source: str, header: str, library: str) -> Words | None:
    """A peer in C++, which is compiled; None if its package or the compiler is not there."""
    if not works(COMPILER, "-E", "-x", "c++", "-include", header, os.devnull):
        return None
    program = HERE / "out" / source
    program.parent.mkdir(exist_ok=True)
    subprocess.run([COMPILER, "-std=c++17", "-O2", f"{HERE / source}.cpp", "-o", str(program),
                    f"-l{library}"], check=True)
    return [str(program)]


def peers() -> dict[str, Words]:
    """The peers that can be run here. Of each other one it prints which package is missing."""
    found = {name: compiled(*parts[:3]) for name, parts in COMPILED.items()}
    found["SimPy"] = with_simpy()
    packages = {name: f"{parts[3]} and {COMPILER}" for name, parts in COMPILED.items()}
    for name in found:
        if not found[name]:
            print(f"{name} is left out: it needs {packages.get(name, 'python3-simpy3')}")
    return {name: words for name, words in found.items() if words}


def robus() -> str | None:
    """The proved program, if it is built and no source is newer."""
    return ROBUS if works(str(TOP / "tools/proved"), ROBUS) else None
