"""Draws what governs a resource in a time: a picture (SVG) on standard output, or with --text the same in characters.

    python -m kuvteleg.day SCRIPT RESOURCE FROM TO > day.svg

Each line of the script that is refused is told on standard error. The exit status is 0, or 1 where a line was refused or nothing could
be drawn, or 2 for a bad command line.
"""
import argparse
import json
import sys
from dataclasses import dataclass, field
from datetime import datetime, timedelta
from typing import Dict, List, Optional

from . import _drawing, _terminal
from ._day import Day, Lane, Stretch
from ._moments import Moment, moment, parts
from ._refusals import Refusal
from ._resolver import Reader, Resolver, Segment

UNKNOWN_RESOURCE = 29


class Fault(Exception):
    """Why nothing can be drawn, in words."""


@dataclass
class Named:
    """The names that a script gives to its events and resources, by their ids."""

    events: Dict[str, str] = field(default_factory=dict)
    resources: Dict[str, str] = field(default_factory=dict)

    def learn(self, line: bytes) -> None:
        """Reads the name in the body of an accepted edit."""
        words = line.split(b" ", 5)
        if len(words) < 6 or words[3] not in (b"event", b"resource"):
            return
        names, member = (self.events, "eventName") if words[3] == b"event" else (self.resources, "resourceName")
        names[words[4].decode()] = json.loads(words[5]).get(member) or ""


@dataclass
class Ran:
    """What a script left: its last publication, the names that this one shows, and how many lines were refused."""

    publication: int = 0
    named: Named = field(default_factory=Named)
    refused: int = 0


def tell(what: object) -> None:
    print(f"kuvteleg.day: {what}", file=sys.stderr)


def lines(script: bytes) -> List[bytes]:
    """The lines of a script, each without its end; a last one without a line feed counts if it has a byte."""
    found = script.split(b"\n")
    return [it[:-1] if it.endswith(b"\r") else it for it in (found if found[-1] else found[:-1])]


def run(resolver: Resolver, script: bytes, publication: Optional[int]) -> Ran:
    """Runs a script, to its end or to a publication, and tells each line that is refused."""
    ran = Ran()
    edits: List[bytes] = []
    for number, line in enumerate(lines(script), 1):
        if ran.publication == publication:
            break
        try:
            reply = resolver.line(line)
        except Refusal as refusal:
            tell(f"line {number}: refused {refusal}")
            ran.refused += 1
            continue
        if line.startswith(b"edit "):
            edits.append(line)
        elif reply.startswith("published "):
            ran.publication = int(reply.split(" ")[1])
            for it in edits:
                ran.named.learn(it)
            edits.clear()
    if publication is not None and ran.publication < publication:
        raise Fault(f"there is no publication {publication}; the last is {ran.publication}")
    return ran


def segments(reader: Reader, resource: str, payload_type: str, start: datetime, end: datetime) -> List[Segment]:
    """The segments of a window; of a type with a space, which no line can name, state by state."""
    if " " not in payload_type:
        return reader.list(resource, payload_type, start, end)
    found, now = [], start
    while now < end:
        state = reader.at(resource, payload_type, now)
        until = end if state.until is None or parts(state.until) > parts(end) else state.until
        if state.event is not None and state.interval is not None:
            found.append(Segment(now, until, state.event, state.interval, state.values))
        now = until
    return found


def seconds(at: Moment) -> float:
    whole, nanoseconds = parts(at)
    return whole + nanoseconds / 1e9


def gather(reader: Reader, named: Named, resource: str, payload_types: List[str], start: datetime, end: datetime) -> Day:
    lanes = []
    for payload_type in payload_types:
        stretches = [
            Stretch(seconds(it.start), seconds(it.end), it.event, named.events.get(it.event) or it.event, it.values)
            for it in segments(reader, resource, payload_type, start, end)
        ]
        if stretches:
            lanes.append(Lane(payload_type, stretches))
    return Day(resource, named.resources.get(resource) or resource, seconds(start), seconds(end), lanes)


def read_moment(text: str) -> datetime:
    """An instant, or a date, which is its midnight in UTC."""
    try:
        at = moment(*parts(f"{text}T00:00:00Z" if len(text) == 10 else text))
    except Refusal:
        raise argparse.ArgumentTypeError(f"{text!r} is no instant as 2024-07-15T17:30:00Z, and no date") from None
    if isinstance(at, str) or not 1900 < at.year < 9999:
        raise argparse.ArgumentTypeError(f"{text!r} can't be drawn")
    return at.replace(microsecond=0)


def known_types(reader: Reader, resource: str, is_whole: bool) -> List[str]:
    """The payload types of a resource, which the publication has to have. The script was run to its end or not."""
    try:
        return reader.types(resource)
    except Refusal as refusal:
        if refusal.number != UNKNOWN_RESOURCE:
            raise
        number = reader.seen().number
        hint = "; does the script publish?" if is_whole and number == 0 else ""
        raise Fault(f"publication {number} has no resource {resource}{hint}") from None


def main() -> int:
    parser = argparse.ArgumentParser(prog="python -m kuvteleg.day", description="Draws what governs a resource in a time.")
    parser.add_argument("script", metavar="SCRIPT", help="a file of edits and publications; - is standard input")
    parser.add_argument("resource", metavar="RESOURCE", help="the resource's id")
    parser.add_argument("start", metavar="FROM", type=read_moment, help="an instant, or a date for its midnight in UTC")
    parser.add_argument("end", metavar="TO", type=read_moment, help="as FROM, and later")
    parser.add_argument("--text", action="store_true", help="characters for a terminal in place of a picture")
    parser.add_argument("--publication", metavar="NUMBER", type=int, help="run the script to this publication, and not to its end")
    parser.add_argument("--tie", choices=["newest", "latest-start"], default="newest", help="which interval of one priority governs")
    given = parser.parse_args()
    if not timedelta(0) < given.end - given.start <= timedelta(days=366):
        parser.error("TO is later than FROM, by a year at most")
    if given.publication is not None and given.publication < 0:
        parser.error("NUMBER is 0 or more")
    try:
        script = sys.stdin.buffer.read() if given.script == "-" else open(given.script, "rb").read()
        with Resolver(given.tie) as resolver:
            ran = run(resolver, script, given.publication)
            with resolver.reader() as reader:
                payload_types = known_types(reader, given.resource, given.publication is None)
                day = gather(reader, ran.named, given.resource, payload_types, given.start, given.end)
    except (OSError, Refusal, Fault) as fault:
        tell(fault)
        return 1
    sys.stdout.write(_terminal.written(day) if given.text else _drawing.drawn(day))
    return 1 if ran.refused else 0


if __name__ == "__main__":
    sys.exit(main())
