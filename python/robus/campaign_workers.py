"""How a campaign runs its scenarios: in worker processes, or on GNU parallel."""
from __future__ import annotations

import itertools
import os
import shlex
import signal
import subprocess
import sys
from concurrent.futures import ThreadPoolExecutor
from contextlib import suppress
from subprocess import PIPE
from typing import BinaryIO, List, Optional, TextIO

from robus.engines import PACKAGE

MOST_ITEMS = 64


def run_workers(words: List[str], items: List[str], jobs: int, rows: BinaryIO) -> bool:
    """Runs the items in `jobs` worker processes. Each gets the next item when it has written the
    row of the last one. After a signal the items that were begun are still run to their end. The
    result says whether Ctrl-C was among these signals."""
    left, done = iter(items), itertools.count(1)
    stopped: List[int] = []
    path = [str(PACKAGE.parent), *filter(None, [os.environ.get("PYTHONPATH")])]
    env = {**os.environ, "PYTHONPATH": os.pathsep.join(path)}
    for it in (signal.SIGTERM, signal.SIGINT):
        signal.signal(it, lambda number, _: stopped.append(number))

    def work(_: int) -> None:
        """Runs items in one worker process, as long as any are left."""
        with suppress(BrokenPipeError), subprocess.Popen(words, stdin=PIPE, stdout=PIPE,
                                                         env=env) as worker:
            for item in left:
                worker.stdin.write(item.encode() + b"\n")
                worker.stdin.flush()
                row = worker.stdout.readline()
                os.write(rows.fileno(), row)
                if stopped or not row:
                    return
                if sys.stderr.isatty():
                    print(f"\r{next(done)} of {len(items)} ", end="", file=sys.stderr)

    with ThreadPoolExecutor(jobs) as pool:
        list(pool.map(work, range(min(jobs, len(items)))))
    if sys.stderr.isatty():
        print(file=sys.stderr)
    return signal.SIGINT in stopped


def run_parallel(words: List[str], items: List[str], jobs: Optional[int], asked: List[str],
                 rows: BinaryIO, lock: TextIO) -> bool:
    """Runs the items by GNU parallel, several in a worker. It holds the lock too, so that no
    second run begins beside it if this process is killed. The result says whether it was
    interrupted."""
    stopped: List[int] = []
    size = max(1, min(MOST_ITEMS, len(items) // 64))
    options = ["--line-buffer", "--max-args", str(size), *asked]
    if jobs:
        options += ["--jobs", str(jobs)]
    child = subprocess.Popen(["parallel", *options, *map(shlex.quote, words)], text=True,
                             stdin=PIPE, stdout=rows, pass_fds=[lock.fileno()])
    for it in (signal.SIGTERM, signal.SIGINT):
        signal.signal(it, lambda number, _: (stopped.append(number),
                                             child.send_signal(signal.SIGTERM)))
    child.communicate("".join(item + "\n" for item in items))
    return signal.SIGINT in stopped


def is_gnu_parallel() -> bool:
    """Whether it is there; another program has the same name."""
    try:
        said = subprocess.run(["parallel", "--version"], capture_output=True, text=True).stdout
    except OSError:
        return False
    return said.startswith("GNU parallel")
