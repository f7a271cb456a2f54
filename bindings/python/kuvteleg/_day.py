"""What governs a resource in a time, to be drawn: a lane for each payload type."""
from dataclasses import dataclass
from datetime import datetime, timedelta
from decimal import Decimal
from typing import Dict, List, Tuple

from ._moments import EPOCH
from ._values import Point, Value

# Steps of an axis, in seconds: each divides the day or is a number of days.
STEPS = [60, 300, 600, 900, 1800, 3600, 2 * 3600, 3 * 3600, 6 * 3600, 12 * 3600, 86400, 2 * 86400, 7 * 86400, 14 * 86400, 28 * 86400, 56 * 86400]
LEVELS = ("SIMPLE", "CTA2045_REBOOT", "CTA2045_SET_OVERRIDE_STATUS")


def said(value: Value) -> str:
    """A value as a reader of a picture wants it: plain numbers, a proper minus sign."""
    if isinstance(value, bool):
        return "true" if value else "false"
    if isinstance(value, Point):
        return f"({said(value.x)}, {said(value.y)})"
    return f"{value:f}".replace("-", "\u2212") if isinstance(value, Decimal) else value


@dataclass(frozen=True)
class Stretch:
    """A stretch of time, in seconds since 1970, that one interval of an event governs."""

    start: float
    end: float
    event: str
    name: str
    values: Tuple[Value, ...]

    def amount(self) -> float:
        """Its first value, where that is a number."""
        first = self.values[0] if self.values else None
        return float(first) if isinstance(first, Decimal) else 0.0

    def says(self) -> str:
        return "; ".join(map(said, self.values)) if self.values and isinstance(self.values[0], str) else ", ".join(map(said, self.values))


@dataclass(frozen=True)
class Lane:
    payload_type: str
    stretches: List[Stretch]

    def is_amounts(self) -> bool:
        """Whether it is drawn as a line of steps; alerts, levels, texts and curves are bands."""
        numbers = all(it.values and isinstance(it.values[0], Decimal) for it in self.stretches)
        return numbers and self.payload_type not in LEVELS

    def is_short(self) -> bool:
        """Whether all that it says are numbers and truth values."""
        return all(not isinstance(value, (str, Point)) for it in self.stretches for value in it.values)

    def amounts(self) -> List[float]:
        return [it.amount() for it in self.stretches]


@dataclass(frozen=True)
class Day:
    resource: str
    name: str
    start: float
    end: float
    lanes: List[Lane]

    def events(self) -> Dict[str, str]:
        """The events that govern somewhere, in order of their first stretch, with their names."""
        stretches = sorted((it for lane in self.lanes for it in lane.stretches), key=lambda it: it.start)
        return {it.event: it.name for it in stretches}

    def when(self) -> str:
        """The day in words, or the days."""
        first, last = at(self.start), at(self.end - 1)
        if first.date() == last.date():
            return f"{first:%A} {first.day} {first:%B %Y}, UTC"
        return f"{first.day} {first:%B %Y} to {last.day} {last:%B %Y}, UTC"

    def ticks(self, most: int) -> List[float]:
        """Moments for an axis, at even times, so many at most."""
        span = self.end - self.start
        step = next((it for it in STEPS if span / it <= most), STEPS[-1])
        first = -(-self.start // step) * step
        return [first + i * step for i in range(int((self.end - first) // step) + 1)]


def at(seconds: float) -> datetime:
    return EPOCH + timedelta(seconds=seconds)


def clock(seconds: float, is_end: bool = False) -> str:
    """The time of day; midnight at the end of something is 24:00."""
    time = at(seconds)
    if is_end and (time.hour, time.minute, time.second) == (0, 0, 0):
        return "24:00"
    return f"{time:%H:%M:%S}" if time.second else f"{time:%H:%M}"
