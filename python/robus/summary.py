"""A run in a line: how it ended, whom the good nodes convicted, how far apart they were."""
from __future__ import annotations

from dataclasses import dataclass
from typing import Any, Dict, Iterable, List, Optional, Tuple

from robus.rows import Breach, Conviction, Delivery, Epoch, Refusal, Row, names_in, rows_of


@dataclass(frozen=True)
class Summary:
    """What a campaign keeps of a run (docs/CAMPAIGNS.md).

    `status` is that of the program. `frame`, `slot` and `stage` are the place of a breach, `cause`
    its cause, or the rule if the scenario was refused; None and empty if it ended. `spread`
    is the greatest difference between the times at which good nodes begin one frame, in reference
    units, and None if no good node began one. `none` counts the deliveries that are none."""

    status: int
    frame: Optional[int] = None
    slot: Optional[int] = None
    stage: Optional[int] = None
    cause: str = ""
    convicted: Tuple[str, ...] = ()
    spread: Optional[int] = None
    deliveries: int = 0
    none: int = 0


def spread_of(epochs: Iterable[Epoch]) -> Optional[int]:
    """The greatest difference between the times at which nodes begin one frame, in units."""
    times: Dict[int, Tuple[int, int]] = {}
    for it in epochs:
        if it.time is not None:
            low, high = times.get(it.frame, (it.time, it.time))
            times[it.frame] = min(low, it.time), max(high, it.time)
    return max((high - low for low, high in times.values()), default=None)


def convicted_in(convictions: Iterable[Conviction]) -> Tuple[str, ...]:
    """Whom any node of these holds convicted, BIUs before RMUs."""
    biu_mask = rmu_mask = 0
    for it in convictions:
        biu_mask, rmu_mask = biu_mask | it.biu_mask, rmu_mask | it.rmu_mask
    return tuple(names_in(biu_mask, "B") + names_in(rmu_mask, "R"))


def summary_of(status: int, rows: Iterable[Row]) -> Summary:
    """The summary of a report's rows."""
    found: Dict[type, List[Any]] = {Epoch: [], Conviction: [], Delivery: [], Breach: [],
                                    Refusal: []}
    for row in rows:
        if type(row) in found:
            found[type(row)].append(row)
    end: Dict[str, object] = {}
    for breach in found[Breach]:
        end = dict(frame=breach.frame, slot=breach.slot, stage=breach.stage, cause=breach.cause)
    for it in found[Refusal]:
        number = "" if it.number is None else f" {it.number}"
        end = dict(cause=f"{it.code} {it.name}{number}")
    deliveries = found[Delivery]
    return Summary(status, convicted=convicted_in(found[Conviction]),
                   spread=spread_of(found[Epoch]), deliveries=len(deliveries),
                   none=sum(1 for it in deliveries if it.word is None), **end)


def summary_of_output(status: int, output: bytes) -> Summary:
    """The summary of what `robus run` wrote, whatever its status."""
    return summary_of(status, rows_of(output.decode("ascii").splitlines()))
