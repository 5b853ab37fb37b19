"""What runs the words of the programs: a library, the programs as they were proved or as unproved
builds, or the second model.

All of them take words and input as bytes and give a status and output as bytes, and the rest of the
package asks no more of them. Without a choice the first that is there is taken, in the order of
ENGINES. A choice is an argument `engine`, or the variable ROBUS_ENGINE of the environment: a name,
or the path of a library (`..so`) or of a program `robus`."""
from __future__ import annotations

import ctypes
import ctypes.util
import io
import os
import shutil
import subprocess
import sys
import threading
from contextlib import suppress
from dataclasses import dataclass
from functools import lru_cache
from pathlib import Path
from typing import IO, Callable, List, Optional, Sequence, Union

from robus import quick as quick_builds
from robus.answers import fault_in
from robus.arguments import shown
from robus.errors import BadArgument, Failed, NoEngine

PACKAGE = Path(__file__).resolve().parent
# The top of the repository, where the package lies in one; and the prefix, if it is installed
TOP = PACKAGE.parents[1]
PREFIX = PACKAGE.parents[3] if PACKAGE.parent.name == "dist-packages" else None
FIRST_LENGTH = 1 << 20
# The bus of robus.Bus, where the names of programs stand
BUS = "bus"
TOO_SMALL = 9
# What takes the output of a program, a piece at a time
Sink = Callable[[bytes], object]


@dataclass(frozen=True)
class Answer:
    """The status with which a call ended, and what it wrote."""

    status: int
    output: bytes


@dataclass(frozen=True)
class Engine:
    """One way to run the programs' words. `path` is the file that runs them."""

    path: str
    name = "engine"

    def has(self, words: Sequence[str], program: str = "robus") -> bool:
        """Whether this engine can run these words of the program."""
        raise NotImplementedError

    def raw(self, words: Sequence[str], data: bytes = b"", program: str = "robus") -> Answer:
        """The status of the words on the input, and what was written, whatever these are."""
        raise NotImplementedError

    def call(self, words: Sequence[str], data: bytes = b"", program: str = "robus") -> Answer:
        """Runs the words on the input; the same bytes give the same answer. Failed is raised if
        what comes back is no answer of the program, as a report without its last line."""
        found = self.raw(words, data, program)
        why = fault_in(words, program, found.status, found.output)
        if why:
            raise Failed(tuple(words), found.status, f"{why} ({self})")
        return found

    def stream(self, words: Sequence[str], data: Optional[bytes], sink: Sink,
               program: str = "robus") -> int:
        """Runs the words and hands what is written to the sink, as it comes if the engine can;
        the status. Without `data` the input is standard input."""
        found = self.raw(words, sys.stdin.buffer.read() if data is None else data, program)
        sink(found.output)
        return found.status

    def __str__(self) -> str:
        return f"{self.name} {self.path}"


class CAnswer(ctypes.Structure):
    """`robus_answer` of robus.h."""

    _fields_ = [("status", ctypes.c_int32), ("length", ctypes.c_uint64)]


@lru_cache(maxsize=None)
def function_of(path: str, program: str) -> Optional[Callable[..., CAnswer]]:
    """`robus_call` of a library, or `robus_bridge_call` or `robus_picture_call`: it takes words
    with a NUL between them, input, and a buffer for the output. None if the library has none."""
    call = getattr(ctypes.CDLL(path), program + "_call", None)
    if call is None:
        return None
    call.argtypes = [ctypes.c_char_p, ctypes.c_size_t] * 2 + [ctypes.c_void_p, ctypes.c_size_t]
    call.restype = CAnswer
    return call


@dataclass(frozen=True)
class Library(Engine):
    """The shared library, by ctypes. It is used only if one is found."""

    name = "library"

    def has(self, words: Sequence[str], program: str = "robus") -> bool:
        """Whether the library has the call of this program, or a bus."""
        if program == BUS:
            return getattr(ctypes.CDLL(self.path), "robus_bus_open", None) is not None
        return function_of(self.path, program) is not None

    def raw(self, words: Sequence[str], data: bytes = b"", program: str = "robus") -> Answer:
        """If the buffer is too small, the answer says how many bytes are wanted."""
        call, length = function_of(self.path, program), FIRST_LENGTH
        text = "\0".join(words).encode()
        while True:
            buffer = ctypes.create_string_buffer(length)
            found = call(text, len(text), data, len(data), buffer, length)
            if found.status != TOO_SMALL:
                return Answer(found.status, ctypes.string_at(buffer, found.length))
            length = found.length


def feed(pipe: IO[bytes], data: bytes) -> None:
    """Writes the input of a program, which need not read all of it."""
    with suppress(BrokenPipeError), pipe:
        pipe.write(data)


@dataclass(frozen=True)
class Program(Engine):
    """The programs robus, robus_bridge and robus_picture; `path` is that of robus."""

    name = "program"

    def path_of(self, program: str) -> Optional[Path]:
        """A program that was built or installed with robus."""
        here = Path(self.path)
        beside = here.parents[2] / program / "out" / program if here.parent.name == "out" else None
        found = beside or quick_builds.beside(here, program)
        return found if os.access(found, os.X_OK) else None

    def has(self, words: Sequence[str], program: str = "robus") -> bool:
        """Whether the program is there; robus itself is taken to be. No program has a bus."""
        return program != BUS and (program == "robus" or self.path_of(program) is not None)

    def command(self, words: Sequence[str], program: str) -> List[str]:
        """The command line of these words."""
        return [self.path if program == "robus" else str(self.path_of(program)), *words]

    def raw(self, words: Sequence[str], data: bytes = b"", program: str = "robus") -> Answer:
        """Runs the program; the status is below 0 if a signal killed it."""
        written: List[bytes] = []
        status = self.stream(words, data, written.append, program)
        return Answer(status, b"".join(written))

    def stream(self, words: Sequence[str], data: Optional[bytes], sink: Sink,
               program: str = "robus") -> int:
        """Runs the program, and hands what it writes to the sink piece by piece."""
        try:
            child = subprocess.Popen(self.command(words, program), stdout=subprocess.PIPE,
                                     stdin=None if data is None else subprocess.PIPE)
        except (OSError, ValueError) as fault:
            why = getattr(fault, "strerror", None) or fault
            raise NoEngine(f"engine: {self.path} cannot be run: {why}") from None
        if data is not None:
            threading.Thread(target=feed, args=(child.stdin, data), daemon=True).start()
        try:
            for piece in iter(lambda: child.stdout.read1(1 << 16), b""):
                sink(piece)
        except BaseException:
            child.terminate()
            raise
        finally:
            child.stdout.close()
            child.wait()
        return child.returncode


@dataclass(frozen=True)
class Quick(Program):
    """The programs built without any proof, as tools/quick keeps them; `path` is that of robus."""

    name = "quick"

    def path_of(self, program: str) -> Optional[Path]:
        """The program of the same sources, if it is kept."""
        found = quick_builds.beside(Path(self.path), program)
        return found if found.exists() else None

    def __str__(self) -> str:
        return f"an unproved build in {Path(self.path).parent}"


@dataclass(frozen=True)
class Tried(Engine):
    """The programs run by `rt try`, which builds them anew for each call, without any proof, and
    sets limits to a run: 60 seconds, and 1 MiB of output. It is used if no build can be kept."""

    path: str = "rt"
    name = "try"

    def has(self, words: Sequence[str], program: str = "robus") -> bool:
        """Any words of any program."""
        return program != BUS

    def raw(self, words: Sequence[str], data: bytes = b"", program: str = "robus") -> Answer:
        """Builds the program and runs it once."""
        return Answer(*quick_builds.run_once(program, list(words), data))

    def __str__(self) -> str:
        return "rt try, as an unproved build that is not kept"


@dataclass(frozen=True)
class Model(Engine):
    """tools/model, a second model of the bus in Python. Nothing is proved of it, and it has no
    letters, spell, group, listen, bridges and pictures. It wants Python 3.11."""

    path: str = str(PACKAGE / "second_model")
    name = "model"

    def has(self, words: Sequence[str], program: str = "robus") -> bool:
        """Whether these words are among those of the second model, which are words of robus. It
        has a bus, too."""
        return program == BUS or program == "robus" and not LACKING & set(words[:1])

    def raw(self, words: Sequence[str], data: bytes = b"", program: str = "robus") -> Answer:
        """Runs the words in this process."""
        from robus.model import model

        return Answer(*model.answer(list(words), io.BytesIO(data)))

    def __str__(self) -> str:
        return "tools/model, a second model of the bus, which is not proved"


LACKING = {"letters", "spell", "group", "listen"}
Which = Union[None, str, os.PathLike, Engine]


def installed(place: str) -> Optional[str]:
    """A file of the prefix in which the package lies, if it is there."""
    path = PREFIX / place if PREFIX else None
    return str(path) if path and path.exists() else None


def is_current(path: Path) -> bool:
    """Whether a file of the repository is there, and no source is newer."""
    return path.exists() and subprocess.run([str(TOP / "tools/proved"), str(path)]).returncode == 0


@lru_cache(maxsize=None)
def library() -> Optional[Library]:
    """The library of the repository, of the prefix, or of the system."""
    built = TOP / "crates/robus_c/out/librobus.so"
    path = str(built) if is_current(built) else installed("lib/librobus.so")
    path = path or ctypes.util.find_library("robus")
    try:
        return Library(path) if path and function_of(path, "robus") else None
    except OSError:
        return None


@lru_cache(maxsize=None)
def program() -> Optional[Program]:
    """The program of the repository if it is up to date, of the prefix, or in PATH."""
    built = TOP / "crates/robus/out/robus"
    path = str(built) if is_current(built) else installed("bin/robus") or shutil.which("robus")
    return Program(path) if path else None


def quick() -> Optional[Quick]:
    """The unproved build of the repository's sources, if one is kept."""
    path = quick_builds.kept("robus")
    return Quick(str(path)) if path and path.exists() else None


@lru_cache(maxsize=None)
def model() -> Optional[Model]:
    """The second model, if this Python can read it."""
    return Model() if sys.version_info >= (3, 11) else None


ENGINES = {"library": library, "program": program, "quick": quick, "model": model}


def at_path(choice: str) -> Engine:
    """The library or the program at a path; NoEngine if there is none."""
    path = os.path.abspath(choice)
    if not os.path.isfile(path):
        raise NoEngine(f"engine: {choice or repr(choice)} is none of {', '.join(ENGINES)}, and no "
                       "file")
    if not path.endswith(".so"):
        if not os.access(path, os.X_OK):
            raise NoEngine(f"engine: {choice} is no program: it may not be executed")
        return Program(path)
    try:
        has_call = function_of(path, "robus") is not None
    except OSError as fault:
        raise NoEngine(f"engine: {choice} is no library: {fault}") from None
    if not has_call:
        raise NoEngine(f"engine: {choice} has no robus_call")
    return Library(path)


def named(choice: str) -> Engine:
    """The engine of a name or a path; NoEngine if it is not there."""
    if choice not in ENGINES:
        return at_path(choice)
    found = ENGINES[choice]()
    if found is None:
        raise NoEngine(f"engine: {choice} is not there; docs/LIBRARY.md says how to have it")
    return found


def choose(words: Sequence[str], engine: Which = None, program: str = "robus") -> Engine:
    """The engine for these words: the one that is asked for, or the first that has them."""
    wanted = (os.environ.get("ROBUS_ENGINE") or None) if engine is None else engine
    if wanted is not None and not isinstance(wanted, (str, os.PathLike, Engine)):
        raise BadArgument(f"engine: {shown(wanted)} is no name ({', '.join(ENGINES)}), no path and "
                          "no Engine")
    deed = ("give a bus to your own software" if program == BUS else
            f"do '{' '.join([program, *words[:1]])}'")
    if wanted is not None:
        found = wanted if isinstance(wanted, Engine) else named(os.fspath(wanted))
        if found.has(words, program):
            return found
        raise NoEngine(f"engine: the one that is asked for, {found}, cannot {deed}")
    for find in ENGINES.values():
        it = find()
        if it is not None and it.has(words, program):
            return it
    raise NoEngine(f"no engine that is there can {deed}: make build builds the programs")
