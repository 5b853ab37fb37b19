"""What all tools share: how they take their words, how they read a file, and how they end."""
from __future__ import annotations

import argparse
import io
import os
import sys
import traceback
from typing import Any, Callable, NoReturn, Optional, TextIO, Tuple

from robus.errors import BadArgument, BusError, Refused, RobusError

ENGINE_HELP = "library, program, quick, model, or a path (docs/LIBRARY.md)"
# The statuses of a tool that failed. No program of the repository ends with 70 or 130
MISUSED, REFUSED, NOT_READ, NOT_WRITTEN, NO_ANSWER, INTERRUPTED = 2, 3, 5, 6, 70, 130


class Parser(argparse.ArgumentParser):
    """The parser of a tool's words, for which what is wrong with them is one line. Without `usage`
    it is made of the arguments."""

    def __init__(self, tool: str, page: str, usage: Optional[str] = None):
        super().__init__(prog=tool, description=page, usage=usage,
                         formatter_class=argparse.RawDescriptionHelpFormatter)

    def error(self, message: str) -> NoReturn:
        """Raises what is wrong."""
        raise BadArgument(f"{message}; --help says more")


def input_of(path: str) -> bytes:
    """All bytes of a file, or of standard input if the path is `-`. It is read once."""
    if path != "-":
        with open(path, "rb") as file:
            return file.read()
    if sys.stdin is None:
        raise OSError(None, "it is closed", "standard input")
    try:
        return sys.stdin.buffer.read()
    except OSError as fault:
        raise OSError(fault.errno, fault.strerror, "standard input") from None


def lines_of(path: str) -> TextIO:
    """The lines of a file, or of standard input, each read as it is asked for. A byte that is not
    ASCII becomes a character that no line of a report has."""
    source = open(path, "rb") if path != "-" else sys.stdin.buffer
    return io.TextIOWrapper(source, encoding="ascii", errors="replace")


class NotWritten(Exception):
    """Standard output could not be written. It is no OSError, so that no tool takes it for a
    failure to read a file."""

    def __init__(self, fault: OSError):
        super().__init__(f"standard output could not be written: {fault.strerror}")
        self.is_closed_pipe = isinstance(fault, BrokenPipeError)


class StandardOutput(io.FileIO):
    """Standard output, whose failures are NotWritten."""

    def write(self, piece: Any) -> Optional[int]:
        """Writes a piece."""
        try:
            return super().write(piece)
        except OSError as fault:
            raise NotWritten(fault) from None


def open_output() -> None:
    """Makes standard output one whose failures are told apart from others."""
    if sys.stdout is not None:
        raw = io.BufferedWriter(StandardOutput(sys.stdout.fileno(), "wb", closefd=False))
        sys.stdout = io.TextIOWrapper(raw, sys.stdout.encoding, sys.stdout.errors,
                                      line_buffering=sys.stdout.isatty())


def drop_output() -> None:
    """Gives up what is not yet written, so that Python does not try it once more at its end."""
    os.dup2(os.open(os.devnull, os.O_WRONLY), 1)


def failure_of(fault: BaseException) -> Tuple[str, int]:
    """Why a tool failed, in one line, and its status."""
    if isinstance(fault, KeyboardInterrupt):
        return str(fault) or "interrupted", INTERRUPTED
    if isinstance(fault, (BadArgument, BusError)):
        return str(fault), MISUSED
    if isinstance(fault, Refused):
        return str(fault), REFUSED
    if isinstance(fault, (RobusError, ImportError)):
        return str(fault), NO_ANSWER
    if isinstance(fault, NotWritten):
        return str(fault), NOT_WRITTEN
    if isinstance(fault, OSError):
        where = "" if fault.filename is None else (os.fsdecode(fault.filename) or "''") + ": "
        return f"{where}{fault.strerror or fault}", MISUSED
    if isinstance(fault, MemoryError):
        return "no memory was left", NO_ANSWER
    if isinstance(fault, RecursionError):
        return "the input is nested too deeply", NO_ANSWER
    traceback.print_exception(type(fault), fault, fault.__traceback__)
    return "this is a fault of the tool itself", NO_ANSWER


def guarded(tool: str, work: Callable[[], Optional[int]]) -> int:
    """The status of a tool's work. Every failure is one line on standard error, with the tool's
    name before it. A reader that closed the pipe is no failure."""
    try:
        status = work() or 0
        if sys.stdout:
            sys.stdout.flush()
        return status
    except (Exception, KeyboardInterrupt) as fault:
        if isinstance(fault, NotWritten):
            drop_output()
            if fault.is_closed_pipe:
                return 0
        why, status = failure_of(fault)
        print(f"{tool}: {why}", file=sys.stderr)
        return status
