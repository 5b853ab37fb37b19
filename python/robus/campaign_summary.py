"""What the rows of a campaign say: a table, and how far apart the clocks were as a picture."""
from __future__ import annotations

from typing import Callable, Dict, Iterator, List, Optional, Tuple
from xml.sax.saxutils import escape

from robus.units import Unit, behind

# A row by column, the rows by number, and what holds for some of them
Row = Dict[str, str]
Rows = Dict[int, Row]
Test = Callable[[Row], object]
ENDS = {0: "ended", 1: "breach of the fault premise", 3: "refused", 4: "too long", 7: "no memory"}
STYLE = """.page { fill: #fff } text { font: 12px sans-serif; fill: #333 }
.count { font-size: 9px } .bar { fill: #3b6fb6 } .line { stroke: #999; stroke-width: 1 }
@media (prefers-color-scheme: dark) {
.page { fill: #0d1117 } text { fill: #ccc } .bar { fill: #7aa7e0 } .line { stroke: #666 } }"""


def first_of(rows: Rows, test: Test) -> Optional[int]:
    """The least number of a row that passes the test."""
    return next((number for number in sorted(rows) if test(rows[number])), None)


def summary_of(rows: Rows, unit: Optional[Unit] = None) -> str:
    """A table: how the scenarios ended, and why; how many nodes were convicted; spread and
    deliveries. A row to look at beside each."""
    lines = [f"{'':42s} {'scenarios':>10s}   first row", f"{'all':42s} {len(rows):>10,}"]

    def tell(what: str, test: Test) -> None:
        """Adds a line on the rows that pass the test, if there are any."""
        found = sum(1 for it in rows.values() if test(it))
        if found:
            lines.append(f"{what:42s} {found:>10,}   {first_of(rows, test)}")

    for status in sorted({it["status"] for it in rows.values()}, key=int):
        meaning = ENDS.get(int(status), "see docs/robus.md")
        some = [it for it in rows.values() if it["status"] == status]
        tell(f"status {status}, {meaning}", lambda it: it["status"] == status)
        for cause in sorted({it["cause"] for it in some if it["cause"]}):
            tell("  " + cause, lambda it: it["status"] == status and it["cause"] == cause)
    ran = {number: it for number, it in rows.items() if it["spread"]}
    for count in sorted({len(it["convicted"].split()) for it in ran.values()}):
        tell(f"nodes convicted: {count}",
             lambda it: it["spread"] and len(it["convicted"].split()) == count)
    tell("with a delivery that is none", lambda it: int(it["none"]) > 0)
    return "\n".join(lines + totals(ran, unit)) + "\n"


def totals(ran: Rows, unit: Optional[Unit]) -> List[str]:
    """Lines on the deliveries and the spreads of the runs that began."""
    if not ran:
        return []
    sums = [sum(int(it[name]) for it in ran.values()) for name in ("deliveries", "none")]
    lines = ["", f"{'deliveries':42s} {sums[0]:>10,}", f"{'  of which none':42s} {sums[1]:>10,}"]
    spreads = sorted(int(it["spread"]) for it in ran.values())
    middle = spreads[(len(spreads) - 1) // 2]
    for what, value in (("least", spreads[0]), ("median", middle), ("greatest", spreads[-1])):
        number = first_of(ran, lambda it: int(it["spread"]) == value)
        name = "greatest spread of a run: " + what
        lines.append(f"{name:42s} {value:>10,}   {number}{behind(unit, value)}")
    return lines


# --- The picture ------------------------------------------------------------------------

BINS = 30
STEPS = 1, 2, 5
LEFT, TOP, WIDE, HIGH = 70, 44, 640, 240
Bin = Tuple[int, int]  # its first value, and the first value behind it


def round_width(most: int, count: int) -> int:
    """The least round number of which `count` are more than the most."""
    numbers = (step * 10 ** e for e in range(40) for step in STEPS)
    return next(it for it in numbers if it * count > most)


def wants_log(values: List[int]) -> bool:
    """Whether the greatest value is so far above the median that even ranges would leave half of
    the runs in the first two."""
    middle = sorted(values)[(len(values) - 1) // 2]
    return max(values) > BINS / 2 * max(1, middle)


def even_bins(values: List[int]) -> List[Bin]:
    """At most about thirty ranges of one round width. They begin at 0, unless the values are so
    near each other that they would leave most of the ranges empty."""
    low, high = min(values), max(values)
    if low == high:
        width = round_width(high, 2 * BINS)
        first, last = max(0, low // width - 2), high // width + 2
    else:
        low = 0 if high - low > high / 2 else low
        width = round_width(high - low, BINS)
        first, last = low // width, high // width
    return [(it * width, (it + 1) * width) for it in range(first, last + 1)]


def log_bins(values: List[int]) -> List[Bin]:
    """Ranges from 1, 2 and 5 times each power of ten on, and one for what is below them."""
    least = min((it for it in values if it), default=1)
    edges = [step * 10 ** e for e in range(len(str(max(values))) + 1) for step in STEPS]
    used = [it for at, it in enumerate(edges[:-1])
            if edges[at + 1] > least and (at == 0 or edges[at - 1] <= max(values))]
    found = [(low, high) for low, high in zip(used, used[1:]) if low <= max(values)]
    return ([(0, found[0][0])] if min(values) < found[0][0] else []) + found


def value_text(value: int, unit: Optional[Unit]) -> str:
    """A value on an axis: in seconds if a unit is given."""
    return f"{value:,}" if unit is None else unit.time(value)


def bars(bins: List[Bin], counts: List[int], unit: Optional[Unit]) -> Iterator[str]:
    """A bar for each range that has runs, with its count above it."""
    step, most = WIDE / len(bins), max(counts)
    for at, ((low, high), found) in enumerate(zip(bins, counts)):
        if not found:
            continue
        tall, x = max(1, round(HIGH * found / most)), LEFT + step * at
        title = f"{low:,} to {high - 1:,}{behind(unit, high - 1)}: {found:,}"
        yield (f'<rect class="bar" x="{x + 1:.1f}" y="{TOP + HIGH - tall}" '
               f'width="{max(1, step - 2):.1f}" height="{tall}"><title>{title}</title></rect>')
        if len(bins) <= BINS:
            yield (f'<text x="{x + step / 2:.1f}" y="{TOP + HIGH - tall - 4}" '
                   f'text-anchor="middle" class="count">{found:,}</text>')


def axes(bins: List[Bin], most: int, unit: Optional[Unit], is_log: bool) -> Iterator[str]:
    """Both axes with their names, and the edges of some ranges."""
    step, foot = WIDE / len(bins), TOP + HIGH
    yield f'<line class="line" x1="{LEFT}" y1="{foot}" x2="{LEFT + WIDE}" y2="{foot}"/>'
    edges = [low for low, _ in bins] + [bins[-1][1]]
    for at, edge in enumerate(edges):
        if str(edge)[0] not in "01" if is_log else at % -(-len(edges) // 7):
            continue
        x = LEFT + step * at
        yield f'<line class="line" x1="{x:.1f}" y1="{foot}" x2="{x:.1f}" y2="{foot + 5}"/>'
        yield (f'<text x="{x:.1f}" y="{foot + 20}" text-anchor="middle">'
               f'{value_text(edge, unit)}</text>')
    for value, y in ((0, foot), (most, TOP)):
        yield f'<text x="{LEFT - 8}" y="{y + 4}" text-anchor="end">{value:,}</text>'
    name = "greatest spread of a run" + ("" if unit else ", in units of time")
    name += ", on a logarithmic axis" if is_log else ""
    yield f'<text x="{LEFT + WIDE / 2:.0f}" y="{foot + 42}" text-anchor="middle">{name}</text>'
    yield f'<text x="{LEFT - 8}" y="{TOP - 14}" text-anchor="end">runs</text>'


def histogram_of(spreads: List[int], unit: Optional[Unit] = None) -> str:
    """An SVG: into how many runs each range of spreads falls. The axis is logarithmic if the
    greatest spread is far above the median."""
    size = LEFT + WIDE + 50, TOP + HIGH + 56
    title = escape(f"How far apart good nodes began a frame: {len(spreads):,} runs")
    parts = [f'<text x="{LEFT}" y="16">{title}</text>']
    if spreads:
        is_log = wants_log(spreads)
        bins = log_bins(spreads) if is_log else even_bins(spreads)
        counts = [sum(1 for it in spreads if low <= it < high) for low, high in bins]
        parts += [*bars(bins, counts, unit), *axes(bins, max(counts), unit, is_log)]
    return (f'<svg xmlns="http://www.w3.org/2000/svg" viewBox="0 0 {size[0]} {size[1]}">\n'
            f'<style>{STYLE}</style>\n<rect class="page" width="{size[0]}" height="{size[1]}"/>\n'
            + "\n".join(parts) + "\n</svg>\n")
