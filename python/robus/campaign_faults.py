"""What the rows of a campaign on one bus say by the number and kinds of faulty nodes."""
from __future__ import annotations

import math
from collections import Counter
from dataclasses import dataclass
from statistics import median_low
from typing import Dict, List, Optional, Tuple

from robus.units import Unit

Row = Dict[str, str]
# The standard normal quantile of a 95 % interval
QUANTILE = 1.959963984540054


def wilson(found: int, total: int) -> Tuple[float, float]:
    """The 95 % Wilson score interval of a share, of which `found` of `total` were seen."""
    share, square = found / total, QUANTILE ** 2 / total
    middle = (share + square / 2) / (1 + square)
    half = QUANTILE / (1 + square) * math.sqrt(share * (1 - share) / total + square / 4 / total)
    return max(0.0, middle - half), min(1.0, middle + half)


def share_text(found: int, total: int) -> str:
    """How many were seen, and the interval of their share in per cent."""
    if not total:
        return "-"
    low, high = wilson(found, total)
    return f"{found:,} ({100 * low:.1f}..{100 * high:.1f} %)"


def faulty_in(row: Row) -> List[Tuple[str, str]]:
    """The faulty nodes of a row, each with the kind of its fault."""
    parts = [it.split(":") for it in row["faults"].split()]
    return [(name, kind) for name, kind, _ in parts]


def kinds_of(row: Row) -> Tuple[str, ...]:
    """The kinds of a row's faults, each as often as there are nodes of it."""
    return tuple(sorted(kind for _, kind in faulty_in(row)))


def group_name(kinds: Tuple[str, ...]) -> str:
    """The name of the runs with faults of these kinds."""
    return ", ".join(f"{count} {kind}" for kind, count in sorted(Counter(kinds).items()))


@dataclass(frozen=True)
class Group:
    """The runs of a campaign with faults of some kinds."""

    name: str
    rows: List[Row]

    def sum_of(self, column: str) -> int:
        """The sum of a column."""
        return sum(int(it[column]) for it in self.rows)

    def counted(self, test: str) -> int:
        """How many runs pass one of the three tests of the first table."""
        tests = {"breach": lambda it: it["status"] == "1", "lost": lambda it: int(it["none"]) > 0,
                 "convicted": lambda it: all(name in it["convicted"].split()
                                             for name, _ in faulty_in(it))}
        return sum(1 for it in self.rows if tests[test](it))

    def shares(self) -> Tuple[str, ...]:
        """Its line of the first table: runs, and shares of these."""
        total = len(self.rows)
        has_faults = any(faulty_in(it) for it in self.rows)
        convicted = share_text(self.counted("convicted"), total) if has_faults else "-"
        return (self.name, f"{total:,}", share_text(self.counted("breach"), total), convicted,
                share_text(self.counted("lost"), total))

    def totals(self, unit: Optional[Unit]) -> Tuple[str, ...]:
        """Its line of the second table: sums over the runs, and latencies."""
        faulty = [(name, it) for it in self.rows for name, _ in faulty_in(it)]
        convicted = sum(1 for name, it in faulty if name in it["convicted"].split())
        found = [it for it in self.rows if it["latency_least"]]
        greatest = [int(it["latency_greatest"]) for it in found]
        times = [min(int(it["latency_least"]) for it in found), median_low(greatest),
                 max(greatest)] if found else []
        latencies = [unit.time(it) if unit else f"{it:,}" for it in times] or ["-"] * 3
        return (self.name, f"{convicted:,} of {len(faulty):,}", f"{self.sum_of('deliveries'):,}",
                f"{self.sum_of('none'):,}", f"{self.sum_of('lost_of_good'):,}", *latencies)


def groups_of(rows: List[Row]) -> List[Group]:
    """The runs by the number of faulty nodes: all of a number, and behind them those of each
    choice of kinds."""
    found: List[Group] = []
    for count in sorted({len(kinds_of(it)) for it in rows}):
        some = [it for it in rows if len(kinds_of(it)) == count]
        found.append(Group("none" if count == 0 else f"{count} of any kind", some))
        for kinds in sorted({kinds_of(it) for it in some} if count else ()):
            alike = [it for it in some if kinds_of(it) == kinds]
            found.append(Group("  " + group_name(kinds), alike))
    return found


def table(head: Tuple[str, ...], lines: List[Tuple[str, ...]]) -> List[str]:
    """Lines under a head, the first column to the left and the others to the right."""
    rows = [head, *lines]
    first, *others = [max(len(it[at]) for it in rows) for at in range(len(head))]
    return ["  ".join([it[0].ljust(first), *map(str.rjust, it[1:], others)]) for it in rows]


def summary_of_faults(rows: Dict[int, Row], unit: Optional[Unit] = None) -> str:
    """Two tables by the number and kinds of faulty nodes: shares of runs with their intervals, and
    sums over the runs."""
    groups = groups_of(list(rows.values()))
    shares = table(("faulty nodes", "runs", "breach", "all convicted", "a delivery lost"),
                   [it.shares() for it in groups])
    totals = table(("faulty nodes", "convicted", "deliveries", "lost", "from good",
                    "latency: least", "median", "greatest"), [it.totals(unit) for it in groups])
    return "\n".join([
        "runs, each with the 95 % Wilson interval of its share of the runs in its line:", "",
        *shares, "",
        "faulty nodes that were convicted; deliveries, how many of them were lost (none), and how",
        "many of those from good senders; latency of words from good senders, from the offer to",
        f"the delivery{'' if unit else ', in units of time'}: the least, and the median and the "
        "greatest of the greatest of each run:", "", *totals]) + "\n"
