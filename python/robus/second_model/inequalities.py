"""The seven inequalities, for which a timing plan is feasible."""
from __future__ import annotations

from .bus import Bus


def sides_of(bus: Bus) -> list[tuple[int, int]]:
    """Both sides of the seven inequalities; each left side is to be at least its right one."""
    q = bus.plan
    short, long, sent = q.u - q.r, q.u + q.r, 3 * bus.sync * q.l + q.h
    drift = 2 * q.r
    spread = q.dmax - q.dmin + long
    ahead = max(spread, q.dmax + long - q.c * short, q.c * long - q.dmin, drift * q.c)
    return [
        (q.h * short + q.dmin, q.p + drift * sent),
        ((q.l - 1 - q.h) * short, q.p + q.dmax + drift * sent),
        (q.h * long + 2 * q.dmin, q.p + drift * (sent + q.l)),
        ((q.v - 1 - q.h) * short, q.p + 2 * q.dmax + long + drift * (sent + q.l)),
        (q.h * long + 3 * q.dmin, q.p + drift * (sent + q.l + q.v)),
        ((q.z - 1 - q.h) * short, q.p + 3 * q.dmax + 2 * long + drift * (sent + q.l + q.v)),
        (q.p, 2 * spread + drift * (q.l + q.v + q.z) + ahead),
    ]


def first_failing(bus: Bus) -> int | None:
    """The number, 1 to 7, of the first inequality that fails; nothing if the plan is
    feasible."""
    return next((i for i, (left, right) in enumerate(sides_of(bus), 1) if left < right), None)
