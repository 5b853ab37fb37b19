"""What the tests share."""
import contextlib
import io
import os
import pathlib
import runpy
import sys
from importlib.machinery import SourceFileLoader
from importlib.util import module_from_spec, spec_from_loader
from typing import Optional
from unittest import mock

from robus import engines
from robus.__main__ import run
from robus.model import model
from robus.words import PROGRAMS

TOP = pathlib.Path(__file__).resolve().parents[2]
EXAMPLES = TOP / "examples"


class Input:
    """Standard input with these bytes."""

    def __init__(self, data: bytes):
        self.buffer = io.BytesIO(data)

    def isatty(self) -> bool:
        return False


def ending_of(tool: str, words: list, data: bytes = b"") -> tuple[int, str, str]:
    """The status of a tool, and what it writes on standard output and on standard error."""
    out = io.TextIOWrapper(io.BytesIO(), "utf-8", write_through=True)
    said, kept = io.StringIO(), sys.stdin
    sys.stdin = Input(data)
    try:
        with contextlib.redirect_stdout(out), contextlib.redirect_stderr(said):
            status = run(tool, [str(word) for word in words])
    except SystemExit as end:
        status = end.code if isinstance(end.code, int) else 2
        said.write(end.code if isinstance(end.code, str) else "")
    finally:
        sys.stdin = kept
    return status, out.buffer.getvalue().decode(errors="replace"), said.getvalue()


def script_ending(name: str, words: list) -> tuple[int, str, str]:
    """The status of a script of tools/ with these words, and what it writes on standard output and
    on standard error. It runs in this process."""
    out, said = io.TextIOWrapper(io.BytesIO(), "utf-8", write_through=True), io.StringIO()
    file, words = str(TOP / "tools" / name), [str(word) for word in words]
    with (mock.patch.object(sys, "argv", [file, *words]), mock.patch.object(sys, "path", sys.path[:]),
          mock.patch("robus.tool.open_output"), contextlib.redirect_stdout(out),
          contextlib.redirect_stderr(said)):
        try:
            runpy.run_path(file, run_name="__main__")
            status = 0
        except SystemExit as end:
            status = end.code if isinstance(end.code, int) else 1 if end.code else 0
            said.write(end.code if isinstance(end.code, str) else "")
    return status, out.buffer.getvalue().decode(), said.getvalue()


def output_of(tool: str, words: list, data: bytes = b"") -> tuple[int, str]:
    """The status of a tool, and what it writes on standard output."""
    return ending_of(tool, words, data)[:2]


def script(name: str):
    """A script of tools/ as a module."""
    loader = SourceFileLoader("script_" + name, str(TOP / "tools" / name))
    module = module_from_spec(spec_from_loader(loader.name, loader))
    sys.modules[loader.name] = module
    loader.exec_module(module)
    return module


def run_model(*words: str, data: bytes) -> str:
    """What tools/model writes."""
    return model.answer(list(words), io.BytesIO(data))[1].decode()


def program_for(word: str) -> Optional[str]:
    """The path of the program, the library or the unproved build that runs a word of the package
    here, or None. A picture of a scenario wants the programs of `run` and of `picture`."""
    program = PROGRAMS.get("picture" if word == "draw" else word, "robus")
    for find in (engines.library, engines.program, engines.quick):
        found = find()
        if found is not None and found.has([word], program):
            return found.path
    return None


def is_fast(program: str) -> bool:
    """Whether a library or a proved program runs the bus here."""
    words = ["letters"] if program == "robus" else ["run"]
    try:
        return engines.choose(words, program=program).name in ("library", "program")
    except engines.NoEngine:
        return False


if not is_fast("robus"):
    # tools/model runs in this process, which is quicker than an unproved build
    os.environ.setdefault("ROBUS_ENGINE", "model")
