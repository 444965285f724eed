"""The axis of the strips: where a tick stands between 0 and 1, which stretches are drawn shorter, and which ticks are written."""
from collections.abc import Iterable

import human

BREAK = 0.07     # a break's width, of what is drawn without breaks
SPACING = 0.15   # between two ticks that are written
EDGE = 0.01      # what is left free at both ends
MS, SECOND, MINUTE, HOUR, DAY = 10**6, 10**9, 60 * 10**9, 3600 * 10**9, 86400 * 10**9
# The steps between written ticks, from a millisecond to four weeks; behind them four weeks, eight, and so on.
STEPS = tuple(n * unit for unit, counts in ((MS, (1, 2, 5, 10, 20, 50, 100, 200, 500)), (SECOND, (1, 2, 5, 10, 15, 30)), (MINUTE, (1, 2, 5, 10, 15, 30)),
                                            (HOUR, (1, 2, 3, 6, 12)), (DAY, (1, 2, 7, 14, 28))) for n in counts)


class Axis:
    """long stretches in which nothing happens are shortened, and drawn as a break"""

    def __init__(self, times: Iterable[int]) -> None:
        ordered = sorted(set(times))
        self.low, self.high = ordered[0], ordered[-1]
        gaps = sorted(b - a for a, b in zip(ordered, ordered[1:]))
        usual = 3 * gaps[len(gaps) * 3 // 4] if gaps else 1
        whole = self.high - self.low
        empty = [(a, b) for a, b in zip(ordered, ordered[1:]) if b - a > usual and b - a > whole / 10]
        width = max((whole - sum(b - a for a, b in empty)) * BREAK, 1)
        self.parts: list[tuple[int, int, float]] = []     # from, to, and where it begins
        self.breaks: list[tuple[int, int, float]] = []
        at, begun = 0.0, self.low
        for a, b in empty:
            self.parts.append((begun, a, at))
            at += a - begun
            self.breaks.append((a, b, at))
            at += width
            begun = b
        self.parts.append((begun, self.high, at))
        self.width, self.whole = width, max(at + self.high - begun, 1)

    def at(self, tick: int) -> float:
        """where a tick stands: 0 to 1"""
        tick = min(max(tick, self.low), self.high)
        for a, b, begins in self.parts:
            if a <= tick <= b:
                return EDGE + (1 - 2 * EDGE) * (begins + tick - a) / self.whole
        a, b, begins = next(gap for gap in self.breaks if gap[0] <= tick <= gap[1])
        return EDGE + (1 - 2 * EDGE) * (begins + self.width * (tick - a) / (b - a)) / self.whole

    def written(self) -> list[tuple[float, str]]:
        """the ticks to write and where, none too near to another and all of them round: in each part those of the usual step, or the roundest one that there is"""
        usual = step_over(int(self.whole * SPACING / (1 - 2 * EDGE)))
        out: list[tuple[float, str]] = []
        for a, b, _ in self.parts:
            for step in (usual, *(step for step in reversed(STEPS) if step < usual)):
                ticks = [tick for tick in range(-(-a // step) * step, b + 1, step)] if b - a < 1000 * step else []
                if ticks:
                    break
            for tick in ticks:
                where = self.at(tick)
                if all(abs(where - other) >= SPACING for other, _ in out):
                    out.append((where, human.round_tick(tick)))
        return out


def step_over(least: int) -> int:
    """the step for ticks that are to be so far apart"""
    step = next((step for step in STEPS if step >= least), STEPS[-1])
    while step < least:
        step *= 2
    return step
