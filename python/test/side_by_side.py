"""Runs the tests side by side, a class of them at a time in each of some processes.

    python/test/run                            all tests
    python/test/run test_plan test_lint.py     those of these files
    python/test/run test_plan.Sheets           those of this class, or one of them with its name
    python/test/run --jobs 1                   in one process; else there is one for each processor

It prints a line for each class as it is done, then the whole text of each failure, and which tests
were skipped and why. The status is 0 if all tests passed or were skipped, 1 if one failed, and 2 if
a file cannot be loaded or has no such test."""
from __future__ import annotations

import argparse
import compileall
import os
import shutil
import signal
import sys
import time
import unittest
from collections.abc import Iterator
from concurrent.futures import ProcessPoolExecutor, as_completed
from contextlib import contextmanager
from dataclasses import dataclass, field
from pathlib import Path

HERE = Path(__file__).resolve().parent
RULE = "=" * 70
# Classes that take longest are begun first, so that none of them is alone at the end
SLOW = ("Generated", "Campaigns", "Endings", "Processes")


@dataclass
class Outcome:
    """What came of the tests of a class: how many there are, how long they took by the clock and by
    the processor, and of each that failed or was skipped its name and the text."""

    name: str
    count: int = 0
    seconds: float = 0
    processor: float = 0
    failed: list[tuple[str, str]] = field(default_factory=list)
    skipped: list[tuple[str, str]] = field(default_factory=list)

    def line(self) -> str:
        """The outcome in a line."""
        ends = [f"{len(it)} {what}" for it, what in ((self.failed, "FAILED"), (self.skipped, "skipped"))
                if it]
        times = f"{self.seconds:6.1f} s {self.processor:6.1f} s of a processor"
        return f"{times}  {self.name}: {', '.join([f'{self.count} tests', *ends])}"


def cases_in(suite: unittest.TestSuite) -> Iterator[unittest.TestCase]:
    """The tests of a suite, one by one."""
    for it in suite:
        if isinstance(it, unittest.TestSuite):
            yield from cases_in(it)
        else:
            yield it


def classes_of(names: list[str]) -> dict[str, list[str]]:
    """The names of the tests that are asked for, by their class; all tests without a name."""
    wanted = names or sorted(it.stem for it in HERE.glob("test_*.py"))
    found: dict[str, list[str]] = {}
    for case in cases_in(unittest.defaultTestLoader.loadTestsFromNames(wanted)):
        found.setdefault(case.id().rpartition(".")[0], []).append(case.id())
    return found


def processor_time() -> float:
    """The seconds of a processor that this process and its children had."""
    return sum(os.times()[:4])


def outcome_of(name: str, tests: list[str]) -> Outcome:
    """Runs the tests of a class in this process."""
    suite = unittest.defaultTestLoader.loadTestsFromNames(tests)
    result, start, used = unittest.TestResult(), time.monotonic(), processor_time()
    suite.run(result)
    bad = result.errors + result.failures
    bad += [(case, "it was expected to fail, and passed") for case in result.unexpectedSuccesses]
    return Outcome(name, result.testsRun, time.monotonic() - start, processor_time() - used,
                   [(str(case), text) for case, text in bad],
                   [(str(case), why) for case, why in result.skipped])


def outcomes(classes: dict[str, list[str]], jobs: int) -> Iterator[Outcome]:
    """The outcome of each class as it is done."""
    order = sorted(classes, key=lambda name: not name.endswith(SLOW))
    if jobs == 1:
        yield from (outcome_of(name, classes[name]) for name in order)
        return
    with ProcessPoolExecutor(jobs) as pool:
        under_way = {pool.submit(outcome_of, name, classes[name]): name for name in order}
        for future in as_completed(under_way):
            fault = future.exception()
            if fault is None:
                yield future.result()
            else:
                name = under_way[future]
                yield Outcome(name, failed=[(name, f"its process ended: {fault}\n")])


def report(found: list[Outcome], seconds: float, jobs: int) -> int:
    """Prints failures, skipped tests and a summary; the status."""
    failed = [it for outcome in found for it in outcome.failed]
    skipped = [it for outcome in found for it in outcome.skipped]
    for name, text in failed:
        print(f"{RULE}\nFAILED: {name}\n\n{text}")
    for name, why in sorted(skipped):
        print(f"skipped: {name}: {why}")
    count, used = sum(it.count for it in found), sum(it.processor for it in found)
    print(f"{count} tests in {seconds:.1f} s, {used:.1f} s of a processor, {jobs} at a time: "
          f"{len(failed)} failed, {len(skipped)} skipped", flush=True)
    return 1 if failed else 0


@contextmanager
def compiled_package() -> Iterator[None]:
    """Has the package compiled in place meanwhile. Otherwise each tool that a test starts would
    compile it anew, since tools write nothing into the repository."""
    packages = [HERE.parent / name for name in ("robus", "robus_docs")]
    folders = [it / "__pycache__" for package in packages
               for it in (package, *package.rglob("*")) if it.is_dir() and it.name != "__pycache__"]
    new = [it for it in folders if not it.exists()]
    for package in packages:
        compileall.compile_dir(package, quiet=2)
    try:
        yield
    finally:
        for it in new:
            shutil.rmtree(it, ignore_errors=True)


def main(words: list[str]) -> int:
    """Runs the tests that are asked for; the status."""
    parser = argparse.ArgumentParser(prog="python/test/run", description=__doc__,
                                     formatter_class=argparse.RawDescriptionHelpFormatter)
    parser.add_argument("names", nargs="*", metavar="TEST", help="a file, a class or a test")
    parser.add_argument("--jobs", type=int, default=len(os.sched_getaffinity(0)),
                        help="how many processes")
    asked = parser.parse_args(words)
    # Where SIGINT is ignored, as in the background of a shell, the tools under test would ignore it
    signal.signal(signal.SIGINT, signal.default_int_handler)
    start, found = time.monotonic(), []
    with compiled_package():
        classes = classes_of([Path(it).name.removesuffix(".py") for it in asked.names])
        if unittest.defaultTestLoader.errors:
            print("\n".join(unittest.defaultTestLoader.errors))
            return 2
        jobs = max(1, min(asked.jobs, len(classes)))
        for it in outcomes(classes, jobs):
            print(it.line(), flush=True)
            found.append(it)
    return report(found, time.monotonic() - start, jobs)


if __name__ == "__main__":
    sys.exit(main(sys.argv[1:]))
