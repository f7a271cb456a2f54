"""The picture of a day, as SVG of 800 pixels' width, for light and dark."""
import re
from dataclasses import dataclass
from typing import Dict, Iterator, List, Optional
from xml.sax.saxutils import escape

from ._day import Day, Lane, Stretch, at, clock

WIDTH, LEFT, RIGHT = 800, 32, 778
PLOT, FLAT = 84, 34
LISTED = 12
LETTERS = "ABCDEFGHIJKLMNOPQRSTUVWXYZ"
COLOURS = ["#1f6feb", "#b35900", "#1a7f37", "#8250df", "#bf3989", "#0e7490", "#8a6100", "#57606a"]
DARK_COLOURS = ["#79b8ff", "#ffab70", "#7ee787", "#d2a8ff", "#ff9bce", "#67e8f9", "#e3b341", "#adbac7"]
STYLE = """
svg { --ground: #ffffff; --ink: #1f2328; --soft: #59636e; --rule: #d8dee4; %s }
@media (prefers-color-scheme: dark) { svg { --ground: #0d1117; --ink: #e6edf3; --soft: #9198a1; --rule: #30363d; %s } }
text { font-family: system-ui, "Segoe UI", "Helvetica Neue", Arial, sans-serif; fill: var(--ink); font-size: 12px; }
.title { font-size: 21px; font-weight: 650; } .lane { font-weight: 650; letter-spacing: .02em; } .soft { fill: var(--soft); }
.small { font-size: 11px; } .value { font-weight: 600; } .ground { fill: var(--ground); } .letter { font-size: 10px; font-weight: 650; }
.lane, .halo { paint-order: stroke; stroke: var(--ground); stroke-width: 4px; stroke-linejoin: round; }
.rule { stroke: var(--rule); stroke-width: 1; } .zero { stroke: var(--soft); stroke-width: 1; }
.tint { fill-opacity: .16; } .edge { stroke-width: 2.5; } .rise { stroke: var(--soft); stroke-width: 1; }
"""


def width(text: str, size: float, is_bold: bool = False) -> float:
    """What a text takes, in pixels, in the broadest of the fonts that may show it."""
    narrow = sum(it in " .,:;'|!()[]iljtfrI/-" for it in text)
    broad = sum(it in "mwMW@%\u2014" or ord(it) > 0x2E80 for it in text)
    capitals = sum(it.isupper() and it not in "IMW" for it in text)
    return size * (1.1 if is_bold else 1) * (0.40 * narrow + broad + 0.76 * capitals + 0.64 * (len(text) - narrow - broad - capitals))


def shortened(text: str, room: float, size: float) -> str:
    """A text that fits, with an ellipsis where it was cut; nothing where less than three characters would be left."""
    if width(text, size) <= room:
        return text
    while text and width(text + "\u2026", size) > room:
        text = text[:-1]
    return text.rstrip() + "\u2026" if len(text) >= 3 else ""


def wrapped(text: str, room: float, size: float, is_bold: bool = False) -> List[str]:
    """A text in lines that fit, broken at spaces and behind hyphens; a word that is too long for a line is left so."""
    lines = [""]
    for word in re.findall(r"[^\s-]*-+|[^\s-]+-*\s*", text):
        if lines[-1] and width((lines[-1] + word).rstrip(), size, is_bold) > room:
            lines.append("")
        lines[-1] += word
    return [line.rstrip() for line in lines]


def fitted(text: str, room: float, size: float, most: int, is_bold: bool = False) -> List[str]:
    """A text in so many lines at most that all fit; none where that can't be."""
    lines = wrapped(text, room, size, is_bold)
    fits = len(lines) <= most and all(width(line, size, is_bold) <= room for line in lines)
    return lines if fits else []


def clean(text: str) -> str:
    """A text as XML may hold it."""
    return escape(re.sub("[^\t\n\r\u0020-\ud7ff\ue000-\ufffd\U00010000-\U0010ffff]", "\ufffd", text), {'"': "&quot;"})


@dataclass(frozen=True)
class Box:
    left: float
    top: float
    right: float
    bottom: float

    def meets(self, other: "Box") -> bool:
        return self.left < other.right and other.left < self.right and self.top < other.bottom and other.top < self.bottom


class Picture:
    """The parts of a picture, and where on it the time and the events are."""

    def __init__(self, day: Day):
        self.day = day
        self.parts: List[str] = []
        self.number_of: Dict[str, int] = {event: i for i, event in enumerate(day.events())}

    def x(self, seconds: float) -> float:
        return LEFT + (RIGHT - LEFT) * (seconds - self.day.start) / (self.day.end - self.day.start)

    def colour(self, event: str) -> str:
        return f"var(--e{self.number_of[event] % len(COLOURS)})"

    def letter(self, event: str) -> str:
        """What stands for an event's name where that has no room."""
        number = self.number_of[event]
        return LETTERS[number] if number < len(LETTERS) else str(number + 1)

    def text(self, x: float, y: float, text: str, kind: str = "", anchor: str = "start") -> None:
        self.parts.append(f'<text x="{x:.1f}" y="{y:.1f}" text-anchor="{anchor}" class="{kind}">{clean(text)}</text>')

    def rule(self, x: float, y: float, to_x: float, to_y: float, kind: str, colour: str = "") -> None:
        stroke = f' style="stroke:{colour}"' if colour else ""
        self.parts.append(f'<line x1="{x:.1f}" y1="{y:.1f}" x2="{to_x:.1f}" y2="{to_y:.1f}" class="{kind}"{stroke}/>')

    def block(self, box: Box, colour: str, kind: str = "", told: str = "", radius: float = 0) -> None:
        about = f"<title>{clean(told)}</title>" if told else ""
        self.parts.append(
            f'<rect x="{box.left:.1f}" y="{box.top:.1f}" width="{max(box.right - box.left, 0.5):.1f}" '
            f'height="{max(box.bottom - box.top, 0.5):.1f}" rx="{radius}" class="{kind}" style="fill:{colour}">{about}</rect>'
        )

    def card(self, box: Box, event: str, told: str) -> None:
        """A block in an event's colour that hides what is behind it, broad enough to be seen."""
        box = Box(box.left, box.top, max(box.right, box.left + 2), box.bottom)
        self.block(box, "var(--ground)", radius=3)
        self.block(box, self.colour(event), "tint", told, 3)
        self.block(Box(box.left, box.top, box.right, box.top + 3), self.colour(event))

    def name(self, it: Stretch, box: Box, top: float, most: int, kind: str = "small") -> None:
        """An event's name in so many lines, or in one that is cut late, or its letter."""
        room = box.right - box.left - 10
        short = shortened(it.name, room, 11)
        lines = fitted(it.name, room, 11, most) or ([short] if len(short) > 12 else [])
        for i, line in enumerate(lines):
            self.text(box.left + 6, top + 13 * i, line, kind)
        if not lines and box.right - box.left >= 10:
            self.text((box.left + box.right) / 2, top, self.letter(it.event), "letter", "middle")


def times(it: Stretch, day: Day) -> str:
    """When a stretch starts and ends, with its days where they are not those of the picture."""
    one_day = at(day.start).date() == at(day.end - 1).date()
    first, last = at(it.start), at(it.end)
    if one_day:
        return f"{clock(it.start)}\u2013{clock(it.end, is_end=True)}"
    same = first.date() == last.date()
    return f"{first.day} {first:%b} {clock(it.start)}\u2013{'' if same else f'{last.day} {last:%b} '}{clock(it.end)}"


def about(it: Stretch, day: Day) -> str:
    return f"{times(it, day)}  {it.says()}  {it.name}" + (f" ({it.event})" if it.name != it.event else "")


class Scale:
    """Heights of amounts: zero is always on it."""

    def __init__(self, amounts: List[float], top: float):
        self.low, self.high, self.top = min(0.0, *amounts), max(0.0, *amounts), top
        self.height = PLOT if len(set(amounts)) > 1 else FLAT
        if self.low == self.high:
            self.high = 1.0

    def y(self, amount: float) -> float:
        return self.top + self.height * (self.high - amount) / (self.high - self.low)

    def bottom(self) -> float:
        """Below a step that is less than zero there is room for its number."""
        return self.top + self.height + (16 if self.low < 0 else 0)


def edges(picture: Picture, lane: Lane, scale: Scale) -> List[Box]:
    """Draws the steps, and answers the boxes that their lines take."""
    boxes, before = [], None
    zero = scale.y(0)
    for it in lane.stretches:
        left, right, y = picture.x(it.start), picture.x(it.end), scale.y(it.amount())
        picture.block(Box(left, min(y, zero), right, max(y, zero)), picture.colour(it.event), "tint", about(it, picture.day))
        if before and before[0] == it.start and before[1] != y:
            picture.rule(left, before[1], left, y, "rise")
            boxes.append(Box(left - 1, min(before[1], y), left + 1, max(before[1], y)))
        picture.rule(left, y, right, y, "edge", picture.colour(it.event))
        boxes.append(Box(left, y - 1.5, right, y + 1.5))
        before = (it.end, y)
    return boxes


def places(left: float, right: float, room: float) -> List[float]:
    """Where the middle of a number may be over a step: the step's own middle, or so that it ends or begins with the step."""
    inside = [it for it in ((left + right) / 2, right - room - 2, left + room + 2) if left <= it <= right]
    return [min(max(it, LEFT + room), RIGHT - room) for it in inside]


def numbers(picture: Picture, lane: Lane, scale: Scale, taken: List[Box]) -> List[Stretch]:
    """Writes the amounts on their steps: the greatest and the least first, then by length, each where nothing else is. Answers the
    stretches whose amounts have no room."""
    amounts, left_out = lane.amounts(), []
    first = {amounts.index(max(amounts)), amounts.index(min(amounts))}
    order = sorted(range(len(amounts)), key=lambda i: (i not in first, lane.stretches[i].start - lane.stretches[i].end))
    for i in order:
        it, y = lane.stretches[i], scale.y(amounts[i])
        room = width(it.says(), 12, is_bold=True) / 2 + 1
        bases = (y - 5, y + 15) if amounts[i] >= 0 else (y + 15, y - 5)
        tried = [(middle, base) for base in bases for middle in places(picture.x(it.start), picture.x(it.end), room) if base < scale.bottom()]
        boxes = {(middle, base): Box(middle - room, base - 11, middle + room, base + 3) for middle, base in tried}
        free = next((at for at, box in boxes.items() if not any(box.meets(other) for other in taken)), None)
        if free is None:
            left_out.append(it)
            continue
        picture.text(*free, it.says(), "value halo" if free[1] < y else "value", "middle")
        taken.append(boxes[free])
    return sorted(left_out, key=lambda it: it.start)


def merged(stretches: List[Stretch]) -> Iterator[Stretch]:
    """Stretches of one event that touch, as one."""
    whole: Optional[Stretch] = None
    for it in stretches:
        if whole and whole.event == it.event and whole.end == it.start:
            whole = Stretch(whole.start, it.end, it.event, it.name, it.values)
        else:
            if whole:
                yield whole
            whole = it
    if whole:
        yield whole


def second_line(picture: Picture, stretches: List[Stretch]) -> int:
    """The height of a second line of names, where some name takes one."""
    rooms = [(it.name, picture.x(it.end) - picture.x(it.start) - 11.5) for it in stretches]
    return 13 if any(len(fitted(name, room, 11, 2)) == 2 for name, room in rooms) else 0


def amount_lane(picture: Picture, lane: Lane, y: float) -> float:
    picture.text(LEFT, y + 12, lane.payload_type, "lane")
    scale = Scale(lane.amounts(), y + 40)
    zero = scale.y(0)
    picture.rule(LEFT, zero, RIGHT, zero, "zero")
    picture.text(LEFT - 6, zero + 4, "0", "soft small", "end")
    boxes = edges(picture, lane, scale)
    left_out = numbers(picture, lane, scale, boxes + [Box(LEFT, zero - 1, RIGHT, zero + 1)])
    top = scale.bottom() + 8
    whole = list(merged(lane.stretches))
    for it in whole:
        box = Box(picture.x(it.start) + 0.75, top, picture.x(it.end) - 0.75, top + 22 + second_line(picture, whole))
        picture.card(box, it.event, f"{times(it, picture.day)}  {it.name} ({it.event})")
        picture.name(it, box, top + 16, 2)
    return list_of(picture, left_out, box.bottom) if len(left_out) <= 4 else box.bottom


def band(picture: Picture, it: Stretch, top: float, height: float) -> bool:
    """Draws a stretch of a band, and answers whether all that it says could be written."""
    box = Box(picture.x(it.start) + 0.75, top, picture.x(it.end) - 0.75, top + height)
    picture.card(box, it.event, about(it, picture.day))
    says = fitted(it.says(), box.right - box.left - 10, 12, 2, is_bold=True) if it.says() else []
    for i, line in enumerate(says):
        picture.text(box.left + 6, top + 20 + 15 * i, line, "value")
    picture.name(it, box, top + 20 + 15 * len(says), 2, "small soft" if says else "small")
    return bool(says) or not it.says()


def list_of(picture: Picture, left_out: List[Stretch], y: float) -> float:
    """Writes below a lane what had no room in it."""
    for it in left_out[:LISTED]:
        picture.text(LEFT, y + 18, picture.letter(it.event), "letter halo")
        when = times(it, picture.day)
        picture.text(LEFT + 15, y + 18, when, "small soft halo")
        indent = LEFT + 15 + width(when, 11) + 10
        for line in wrapped(it.says() or it.name, RIGHT - indent, 12)[:3]:
            picture.text(indent, y + 18, shortened(line, RIGHT - indent, 12), "halo")
            y += 16
        y += 2
    if len(left_out) > LISTED:
        picture.text(LEFT + 15, y + 18, f"and {len(left_out) - LISTED} more", "small soft halo")
        y += 18
    return y


def band_lane(picture: Picture, lane: Lane, y: float) -> float:
    picture.text(LEFT, y + 12, lane.payload_type, "lane")
    top = y + 22
    height = (46 if lane.is_short() else 61) + second_line(picture, lane.stretches)
    left_out = [it for it in lane.stretches if not band(picture, it, top, height)]
    return list_of(picture, left_out, top + height)


def axis(picture: Picture, top: float, bottom: float) -> float:
    """The times, with a line up through all lanes at each."""
    day = picture.day
    ticks = day.ticks(12)
    whole_days = all(clock(it) == "00:00" for it in ticks) and len(ticks) > 2
    grid = [f'<line x1="{picture.x(it):.1f}" y1="{top:.1f}" x2="{picture.x(it):.1f}" y2="{bottom:.1f}" class="rule"/>' for it in ticks]
    picture.parts[:0] = grid
    room = (RIGHT - LEFT) / max(len(ticks), 2)
    for it in ticks:
        midnight = clock(it) == "00:00"
        label = f"{at(it).day} {at(it):%b}" if whole_days else clock(it, is_end=it == day.end)
        x = picture.x(it)
        picture.text(x, bottom + 16, label, "small soft", "middle")
        if midnight and not whole_days and day.end - day.start > 86400 and room > 30:
            picture.text(x, bottom + 30, f"{at(it).day} {at(it):%b}", "small", "middle")
    return bottom + 34


def legend(picture: Picture, y: float) -> float:
    """Each event with its colour and letter, its name and its id."""
    x: float = LEFT
    for event, name in picture.day.events().items():
        label = shortened(name if name == event else f"{name} ({event})", RIGHT - LEFT - 24, 12)
        room = width(label, 12) + 42
        if x > LEFT and x + room > RIGHT + 18:
            x, y = LEFT, y + 22
        box = Box(x, y, x + 17, y + 17)
        picture.card(box, event, "")
        picture.text(x + 8.5, y + 13, picture.letter(event), "letter", "middle")
        picture.text(x + 24, y + 13, label)
        x += room
    return y + 32


def drawn(day: Day) -> str:
    """The picture of a day."""
    picture = Picture(day)
    top = y = 74.0
    for lane in day.lanes:
        y = (amount_lane if lane.is_amounts() else band_lane)(picture, lane, y) + 24
    if not day.lanes:
        picture.text((LEFT + RIGHT) / 2, y + 30, "Nothing governs in this time.", "soft", "middle")
        y += 60
    height = legend(picture, axis(picture, top, y - 8) + 6)
    light, dark = (" ".join(f"--e{i}: {it};" for i, it in enumerate(them)) for them in (COLOURS, DARK_COLOURS))
    called = day.name if day.name == day.resource else f"{day.name} ({day.resource})"
    heading = Picture(day)
    heading.text(LEFT, 36, shortened(day.name, RIGHT - LEFT, 22), "title")
    heading.text(LEFT, 56, day.when() if day.name == day.resource else f"{day.when()}  \u00b7  {day.resource}", "soft")
    return (
        f'<svg xmlns="http://www.w3.org/2000/svg" viewBox="0 0 {WIDTH} {height:.0f}" width="{WIDTH}" height="{height:.0f}" role="img">\n'
        f"<title>{clean(f'What governs {called}, {day.when()}')}</title>\n<style>{STYLE % (light, dark)}</style>\n"
        f'<rect class="ground" width="{WIDTH}" height="{height:.0f}"/>\n' + "\n".join(heading.parts + picture.parts) + "\n</svg>\n"
    )
