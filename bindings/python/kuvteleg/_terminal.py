"""A day in characters, for a terminal of 80 columns."""
import textwrap
from typing import List

from ._day import Day, Lane, clock
from ._drawing import times

WIDTH, BROADEST = 72, 78
STEPS = "\u2581\u2582\u2583\u2584\u2585\u2586\u2587\u2588"


def _row(lane: Lane, day: Day) -> str:
    """The lane at a glance: a character for each of 72 parts of the time, as what governs at its middle stands."""
    amounts = lane.amounts() if lane.is_amounts() else [0.0]
    low, high = min(0.0, *amounts), max(0.0, *amounts)
    marks: List[str] = []
    for i in range(WIDTH):
        now = day.start + (i + 0.5) * (day.end - day.start) / WIDTH
        it = next((it for it in lane.stretches if it.start <= now < it.end), None)
        if it is None:
            marks.append("\u00b7")
        elif lane.is_amounts() and high > low:
            marks.append(STEPS[round((it.amount() - low) / (high - low) * (len(STEPS) - 1))])
        else:
            says = it.says()
            marks.append(says if len(says) == 1 else "\u2501")
    return "".join(marks)


def _axis(day: Day) -> str:
    line = [" "] * (WIDTH + 6)
    for tick in day.ticks(9):
        place = round((tick - day.start) / (day.end - day.start) * WIDTH)
        label = clock(tick, is_end=tick == day.end)
        if "".join(line[max(place - 1, 0) : place + len(label)]).strip() == "":
            line[place : place + len(label)] = label
    return "".join(line).rstrip()


def _stretches(lane: Lane, day: Day) -> List[str]:
    """A line for each stretch: when, what and which event; where that is too broad the event comes first and the rest below it."""
    rows = [(times(it, day), it.says(), it.name) for it in lane.stretches]
    when, says, name = (max(len(row[i]) for row in rows) for i in range(3))
    align = ">" if lane.is_amounts() else "<"
    lines: List[str] = []
    for row in rows:
        if when + says + name + 6 <= BROADEST or lane.is_amounts():
            lines.append(f"  {row[0]:<{when}}  {row[1]:{align}{says}}  {row[2]}".rstrip())
        else:
            lines.append(f"  {row[0]:<{when}}  {row[2]}")
            lines += textwrap.wrap(row[1], BROADEST, initial_indent=" " * (when + 6), subsequent_indent=" " * (when + 6))
    return lines


def written(day: Day) -> str:
    """The day as lines of text."""
    called = day.name if day.name == day.resource else f"{day.name} ({day.resource})"
    lines = [called, day.when(), ""]
    for lane in day.lanes:
        lines += [lane.payload_type, "  " + _row(lane, day), "  " + _axis(day), *_stretches(lane, day), ""]
    if not day.lanes:
        lines += ["Nothing governs in this time.", ""]
    return "\n".join(lines)
