"""Random scripts that more than one machine answers, each from its seed, and what such scripts and their replies reach.

A script has a shape, which the seed chooses: a few objects with all that bodies can say; many events in little time; objects
that go and come again; bodies and lines with each fault; years from -9999 to 9999; or events whose intervals end at a chunk's
border or beside it, up to the largest. What PostgreSQL doesn't read (faults of bodies, nanoseconds, years before -4700) stays
out where the scripts are `plain`.
"""
import collections
import dataclasses
import datetime
import random
import re

START = datetime.datetime(2024, 1, 25)
KINDS = ("program", "ven", "resource", "event")
TYPES = ("PRICE", "PRICE", "SIMPLE", "CURVE", "ALERT_OTHER", "GHG", "X_MODE", "price")
ZEROS = ("0000-00-00", "0000-00-00T00:00:00Z", "0000-00-00T00:00:00")
HOURS = ("PT1H", "PT1H", "PT2H", "PT3H", "PT90M", "PT30M")
LENGTHS = ("P1D", "P1M", "P1W", "PT0S", "P1DT1H", "P1Y", "P1M1DT1H", "PT6H", "PT0.5S", "P1Y2M3W4DT5H6M7.008S")
ERAS = ("-009999-01-02", "-009998-02-28", "-004800-02-29", "-004713-11-24")
PLAIN_ERAS = """-004699-12-31 -000044-03-15 -000001-12-31 0000-02-29 0001-01-01 1582-10-15 1900-02-28 1969-12-31 2024-02-29
    2262-04-11 9998-12-31 9999-12-28""".split()
TEXTS = (r'"a \"b\""', r'"back\\slash"', r'"new\nline\t\u0001"', '"\u00e9\u20ac\U0001f600"', '""', '"stage 2"', r'"\u00e9\ud83d\ude00"', '"\x7f"')
# Counts of intervals beside the borders of the chunks, which hold 64 entries of an index and 128 segments of a timeline, and
# of what larger parts of a book hold, and the most that there may be.
BORDERS = tuple(64 * many + by for many in (1, 2, 3, 4, 5, 6) for by in (-2, -1, 0, 1, 2))
BLOCKS = tuple(size + by for size in (512, 1024, 2048, 4096) for by in (-1, 0, 1))
LARGEST = (8191, 8192, 8193, 16383, 16384)


@dataclasses.dataclass(frozen=True)
class Shape:
    """How many scripts of 10,000 are of this shape, and what stands in one."""

    share: float
    events: tuple = (2, 14)
    rounds: tuple = (2, 8)
    hours: tuple = (6, 12, 30, 240)
    long: tuple = ()
    most_resources: int = 8
    deletes: float = 0.2
    faults: float = 0.0
    # Of how many queries beside those borders the whole time is listed.
    whole: float = 0.3
    has_eras: bool = False


SHAPES = {
    "few objects": Shape(4400),
    "many events": Shape(1200, events=(15, 40), hours=(6, 12, 30)),
    "objects that go and come": Shape(1400, events=(2, 6), rounds=(4, 10), deletes=0.5, most_resources=5),
    "faults": Shape(1205, events=(1, 4), rounds=(2, 4), faults=0.6, most_resources=3),
    "years": Shape(1200, events=(2, 10), has_eras=True),
    "borders of chunks": Shape(590, events=(2, 5), rounds=(2, 5), long=BORDERS, most_resources=4),
    "borders of blocks": Shape(4.5, events=(1, 3), rounds=(1, 3), long=BLOCKS, most_resources=3),
    "the largest events": Shape(0.5, events=(1, 2), rounds=(1, 2), long=LARGEST, most_resources=2, whole=0.1),
}
PLAIN_SHAPES = [name for name in SHAPES if name not in ("faults", "borders of blocks", "the largest events")]


class Case:
    """The script of a seed, in `lines`. Of how many seeds a shape is chosen is its share, or those given."""

    def __init__(self, seed, plain=False, shape=None):
        self.random = random.Random(seed)
        names = PLAIN_SHAPES if plain else list(SHAPES)
        self.name = shape or self.random.choices(names, [SHAPES[it].share for it in names])[0]
        self.shape, self.plain, self.lines = SHAPES[self.name], plain, []
        self.pick, self.chance = self.random.choice, self.random.random
        self.hours = self.pick(self.shape.hours)
        self.ids = {
            "program": [f"p{it}" for it in range(self.random.randint(1, 4))],
            "ven": [f"v{it}" for it in range(self.random.randint(1, 5))],
            "resource": [f"r{it}" for it in range(self.random.randint(1, self.shape.most_resources))],
            "event": [f"e{it}" for it in range(self.random.randint(*self.shape.events))],
        }
        self.there = {kind: {} for kind in KINDS}
        self.types = self.random.sample(TYPES, self.random.randint(1, 3))
        self.groups = ["A", "B", "C", "a"][: self.random.randint(1, 4)]
        self.is_rich, self.untargeted = self.chance() < 0.6, self.pick([0.2, 0.4, 0.7])
        self.eras = [*PLAIN_ERAS, *([] if plain else ERAS)]
        self.eras = self.random.sample(self.eras, 3)
        self.write()

    def text(self):
        return "".join(line + "\n" for line in self.lines).encode()

    # Instants and lengths

    def instant(self, minutes=None):
        """An instant of the script's hours, or of one of its eras."""
        if self.shape.has_eras and self.chance() < 0.85:
            return f"{self.pick(self.eras)}T{self.random.randrange(2, 22):02}:{self.pick(['00:00', '30:00', '59:59', self.fraction()])}Z"
        if minutes is None:
            minutes = 60 * self.random.randrange(-2, self.hours + 8) + self.pick([0, 0, 15, 30])
        return (START + datetime.timedelta(minutes=minutes)).isoformat() + "Z"

    def fraction(self):
        return "00:00.000001" if self.plain else self.pick(["00:00.000001", "00:00.000000001", "59:59.999999999", "00:00.25"])

    def start(self):
        if self.chance() < 0.04:
            return self.pick(ZEROS)
        return self.instant(60 * self.random.randrange(self.hours) + (30 if self.chance() < 0.1 else 0))

    def length(self, is_own):
        turn = self.chance()
        if turn < 0.75:
            return self.pick(HOURS)
        if turn < 0.93:
            return self.pick(LENGTHS)
        if self.shape.has_eras and turn < 0.95:
            return self.pick(["P1000Y", "P9998Y", "P7000Y11M30D"])
        return "P9999Y" if is_own else "PT5H"

    def period(self, is_own=False, length=None):
        length = length or (self.length(is_own) if self.chance() < 0.85 else None)
        return f'{{"start":"{self.start()}"' + (f',"duration":"{length}"}}' if length else "}"), length == "P9999Y"

    # Targets

    def target_value(self, kind):
        if kind == "GROUP":
            return f'"{self.pick(self.groups)}"'
        values = {
            "ZONE": ["1", "2", '"1"', "1.5", "10e-1", "1.0"],
            "FLAG": ["true", "false", '"true"'],
            "PT": ['{"x":0,"y":1}', '{"y":1.0,"x":0}', '{"x":1,"y":1}', '{"x":1,"y":0,"z":7}'],
            "RESOURCE_NAME": ['"Pump"', '"EV"', '"Heat"', "7"],
            "VEN_NAME": ['"Ven A"', '"Ven B"', "true"],
            "EVENT_NAME": ['"Shed"', '"Peak"', '""'],
            "PROGRAM_NAME": ['"Tariff"', '"DR"', '"tariff"'],
        }
        return self.pick(values[kind])

    def targets(self, asks):
        """A member behind a comma, or nothing."""
        if self.chance() < (self.untargeted if asks else 0.15):
            return self.pick(["", ',"targets":null', ',"targets":[]'])
        kinds = ["GROUP", "GROUP", "GROUP"]
        if self.is_rich:
            kinds += ["ZONE", "FLAG", "PT", "RESOURCE_NAME", "VEN_NAME"] + (["EVENT_NAME", "PROGRAM_NAME"] if asks else [])
        maps = []
        for _ in range(1 if self.chance() < 0.6 else self.random.randint(1, 4)):
            kind = self.pick(kinds)
            values = ",".join(self.target_value(kind) for _ in range(0 if self.chance() < 0.04 else self.random.randint(1, 3)))
            maps.append(f'{{"type":"{kind}","values":[{values}]}}')
        return f',"targets":[{",".join(maps)}]'

    # Events

    def values(self, kind):
        many = self.random.randint
        if kind == "SIMPLE":
            return self.pick(["0", "1", "2", "3.0", "1,-7.5"])
        if kind in ("PRICE", "GHG"):
            return ",".join(self.pick(["0", "1", "-3", "0.5", "12.25", "1e20", "0.000001", "-0", "1.50"]) for _ in range(self.pick([1, 1, 1, 3])))
        if kind == "CURVE":
            return ",".join(f'{{"x":{many(0, 2)},"y":{self.pick(["0.5", "-2", "7.0"])}}}' for _ in range(many(1, 3)))
        if kind == "ALERT_OTHER":
            return ",".join(self.pick(TEXTS) for _ in range(many(0, 2)))
        return ",".join(self.pick(["1", '"auto"', "true", "false", "2.5", '{"x":1,"y":2}']) for _ in range(many(0, 3)))

    def payloads(self):
        count = 0 if self.chance() < 0.03 else self.pick([1, 1, 1, 2, 3])
        kinds = [self.pick(self.types) for _ in range(count)]
        return ",".join(f'{{"type":"{kind}","values":[{self.values(kind)}]}}' for kind in kinds)

    def few_intervals(self, has_default):
        """Some intervals, the first with a start, none that the one before it leaves without one, but for one in fifty."""
        intervals, is_endless, is_careless = [], False, self.chance() < 0.02
        for place in range(self.random.randint(1, 5)):
            members = []
            if self.chance() < 0.6:
                members.append(f'"id":{self.pick([place, place, 0, 7, -5, 10 * place])}')
            if not is_careless and (is_endless or place == 0 and not has_default) or self.chance() < 0.25:
                period, is_endless = self.period(True)
                members.append(f'"intervalPeriod":{period}')
            members.append(f'"payloads":[{self.payloads()}]')
            intervals.append("{" + ",".join(members) + "}")
        return ",".join(intervals)

    def many_intervals(self):
        """One after the other, so many that they end at the border of a chunk or beside it."""
        kind, other, step = self.pick(self.types), self.pick(self.types), self.pick([7, 64, 10**6])
        sample, rare = self.values(kind), self.values(other)
        price = "{0}" if kind in ("PRICE", "GHG", "SIMPLE") else sample.replace("{", "{{").replace("}", "}}")
        usual = f'{{{{"id":{{0}},"payloads":[{{{{"type":"{kind}","values":[{price}]}}}}]}}}}'
        unusual = f'{{"payloads":[{{"type":"{other}","values":[{rare}]}}]}}'
        return ",".join(unusual if place % step == 1 else usual.format(place) for place in range(self.pick(self.shape.long)))

    def event(self):
        head = f'{{"programID":"{self.pick(self.ids["program"]) if self.chance() < 0.97 else "p9"}"'
        if self.chance() < 0.7:
            head += f',"eventName":"{self.pick(["Shed", "Peak", ""])}"'
        turn = self.chance()
        head += f',"priority":{self.random.randrange(self.pick([2, 4]))}' if turn < 0.75 else ',"priority":null' if turn < 0.8 else ""
        head += self.targets(True)
        if self.shape.long and self.chance() < 0.5:
            period, _ = self.period(length=self.pick(["PT15M", "PT30M", "PT1H", "PT1S"]))
            return f'{head},"intervalPeriod":{period},"intervals":[{self.many_intervals()}]}}'
        has_default = self.chance() < 0.8
        if has_default:
            head += f',"intervalPeriod":{self.period()[0]}'
        return f'{head},"intervals":[{self.few_intervals(has_default)}]}}'

    def repriced(self, body):
        """The event's body with another priority alone."""
        priority = f'"priority":{self.random.randrange(4)}'
        if '"priority":' in body:
            return re.sub(r'"priority":(?:null|\d+)', priority, body, count=1)
        return body.replace("{", f"{{{priority},", 1)

    # Edits

    def body(self, kind):
        if kind == "event":
            return self.event()
        if kind == "program":
            return f'{{"programName":"{self.pick(["Tariff", "DR"])}"{self.targets(True) if self.chance() < 0.3 else ""}}}'
        if kind == "ven":
            return f'{{"venName":"{self.pick(["Ven A", "Ven B"])}"{self.targets(False)}}}'
        ven = self.pick(self.ids["ven"]) if self.chance() < 0.97 else "v9"
        return f'{{"resourceName":"{self.pick(["Pump", "EV", "Heat"])}","venID":"{ven}"{self.targets(False)}}}'

    def edit(self, verb, kind, name, body=None):
        head = f"edit {self.instant()} {verb} {kind} {name}"
        if verb == "delete":
            self.there[kind].pop(name, None)
            self.lines.append(head)
        else:
            self.there[kind][name] = body = body or self.body(kind)
            self.lines.append(f"{head} {body}")

    def some_edit(self):
        kind = self.pick(["event"] * 6 + ["ven", "resource", "program"])
        name, turn = self.pick(self.ids[kind]), self.chance()
        body = self.there[kind].get(name)
        if turn < 0.05:
            self.edit(self.pick(["create", "change", "delete"]), kind, name)
        elif body is None:
            self.edit("create", kind, name)
        elif turn < 0.05 + self.shape.deletes:
            self.edit("delete", kind, name)
        elif kind == "event" and turn > 0.7:
            self.edit("change", kind, name, self.repriced(body))
        else:
            self.edit("change", kind, name)

    # Queries

    def query(self):
        resource = self.pick(self.ids["resource"]) if self.chance() < 0.97 else "r99"
        kind = self.pick(self.types) if self.chance() < 0.95 else "NOTHING"
        turn = 0.8 if self.shape.long and self.chance() < self.shape.whole else self.chance()
        if turn < 0.5:
            return f"at {resource} {kind} {self.instant()}"
        if turn < 0.76:
            ends = [self.instant(), self.instant()]
            return f"list {resource} {kind} {' '.join(ends if self.chance() < 0.05 else sorted(ends))}"
        if turn < 0.82:
            return f"list {resource} {kind} {'0001' if self.plain else '-009999'}-01-03T00:00:00Z 9999-12-30T00:00:00Z"
        return f"roll {kind} {self.instant()}" if turn < 0.95 else f"types {resource}"

    # Lines

    def fault(self):
        """A line that is refused, for a body or for its words."""
        name, start = self.pick(self.ids["event"]), self.instant()
        interval = '"intervals":[{"payloads":[]}]'
        no_instant = self.pick(["yesterday", "2024-01-01", "2024-01-01T00:00:00", "9999-12-31T00:00:00Z"])
        period = f'"intervalPeriod":{{"start":"{start}","duration":"PT1H"}}'
        bodies = [
            f'{{"programID":"p0","x":{self.pick(["1e36", "1e-37", "9" * 37])},{interval}}}',
            r'{"programID":"p0","eventName":"\u0000"}',
            self.pick(['{"programID":"p0"', "", "{'a':1}", '{"a":01}', "[" * 128 + "]" * 128]),
            self.pick(["[]", "7", "null", '"event"']),
            '{"programID":"p0","objectType":"VEN","intervals":[]}',
            '{"programID":"p0","id":"other","intervals":[]}',
            self.pick(['{"intervals":[]}', '{"programID":null,"intervals":[]}', '{"programID":"p0"}']),
            self.pick(['{"programID":7,"intervals":[]}', f'{{"programID":"p0",{period},"intervals":[{{"id":1.5,"payloads":[]}}]}}']),
            '{"programID":"no id!","intervals":[]}',
            f'{{"programID":"p0","intervalPeriod":{{"start":"{no_instant}"}},{interval}}}',
            f'{{"programID":"p0","intervalPeriod":{{"start":"{start}","duration":"{self.pick(["1 hour", "P", "P19999Y"])}"}},{interval}}}',
            f'{{"programID":"p0","intervalPeriod":{{"start":"{start}","duration":"{self.pick(["-PT1H", "-P9999Y"])}"}},{interval}}}',
            f'{{"programID":"p0","priority":{self.pick(["-1", "1.5", "4294967296"])},"intervals":[]}}',
            f'{{"programID":"p0",{period},"intervals":[{{"payloads":[{{"type":"PRICE","values":["x"]}}]}}]}}',
            f'{{"programID":"p0",{period},"intervals":[{{"payloads":[{{"type":"X","values":[{",".join("1" * 257)}]}}]}}]}}',
            f'{{"programID":"p0",{interval}}}',
            f'{{"programID":"p0","intervalPeriod":{{"start":"{start}","duration":"P9999Y"}},"intervals":[{{"payloads":[]}},{{"payloads":[]}}]}}',
            f'{{"programID":"p0","intervalPeriod":{{"start":"9999-12-30T00:00:00Z","duration":"P1Y"}},{interval}}}',
        ]
        lines = ["nothing", "edit now create event", "publish ", "at r0 PRICE 2024-01-01T00:00:00", "at r! PRICE 2024-01-01T00Z"]
        lines.append(f"at r0 {'T' * 129} 2024-01-01T00Z")
        if self.chance() < 0.0005:
            lines = ["x" * 4_194_305]
        edit = f"edit {self.instant()} {self.pick(['create', 'change'])} event {name} {self.pick(bodies)}"
        self.lines.append(self.pick(lines) if self.chance() < 0.2 else edit)

    def round(self):
        for _ in range(self.random.randint(3, 12)):
            self.lines.append(self.query())
        for _ in range(self.random.randint(1, 8)):
            if self.chance() < self.shape.faults:
                self.fault()
            else:
                self.some_edit()
            if self.chance() < 0.2:
                self.lines.append(self.query())
        if self.chance() < 0.9:
            self.lines.append("publish")
        if not self.plain and self.chance() < 0.1:
            self.lines.append("condense")

    def write(self):
        for kind in KINDS:
            for name in self.ids[kind]:
                if self.chance() < (0.85 if kind == "event" else 0.97):
                    self.edit("create", kind, name)
        self.lines.append("publish")
        for _ in range(self.random.randint(*self.shape.rounds)):
            self.round()
        self.lines += [self.query() for _ in range(6)]


# What scripts and their replies reach

WIDE = ("list", "roll", "types")


def replies_to(lines, text):
    """The reply to each of the lines, in a text of all."""
    told, at, replies = text.split("\n"), 0, []
    for line in lines:
        first = at
        if line.startswith(WIDE) and at < len(told) and re.fullmatch(r"version \d+", told[at]):
            while at < len(told) and told[at] != ".":
                at += 1
        at += 1
        replies.append("\n".join(told[first:at]))
    if told[at:] != [""]:
        raise SystemExit(f"{len(lines)} lines, and other replies: {told[at:][:3]}")
    return replies


class Coverage(collections.Counter):
    """How often each thing was reached."""

    def line(self, line, reply):
        words, told = line.split(" ", 5), reply.split(" ")
        self["lines"] += 1
        if told[0] == "refused":
            self["refusal", int(told[1])] += 1
        elif words[0] == "edit":
            self["edit", f"{words[2]} {words[3]}"] += 1
            if len(words) > 5 and words[3] == "event":
                self["chunks of 64 intervals", -(-words[5].count('"payloads"') // 64)] += 1
        elif words[0] == "at":
            self["reply", f"at {told[2]}{' until end' if ' until end' in reply else ''}"] += 1
        elif words[0] == "list":
            segments = reply.count("\n") - 1
            self["reply", "list of segments" if segments else "list of none"] += 1
            self["chunks of 128 segments", -(-segments // 128)] += 1
        else:
            self["reply", words[0] + (" of none" if reply.count("\n") == 1 else "")] += 1

    def case(self, case, tie, workers, text):
        self["scripts"] += 1
        self["shape", case.name] += 1
        self["tie", tie] += 1
        self["workers", workers] += 1
        for line, reply in zip(case.lines, replies_to(case.lines, text)):
            self.line(line, reply)

    def print(self, out=print):
        groups = collections.defaultdict(list)
        for key in self:
            if isinstance(key, tuple):
                groups[key[0]].append(key[1])
        for name in sorted(groups):
            many = ", ".join(f"{it}: {self[name, it]}" for it in sorted(groups[name], key=lambda it: (str(type(it)), it)))
            out(f"  {name}: {many}", flush=True)

    def lacking(self, refusals):
        """What must be reached and wasn't."""
        wanted = [("refusal", it) for it in refusals]
        wanted += [("edit", f"{verb} {kind}") for verb in ("create", "change", "delete") for kind in KINDS]
        states = ("at event", "at event until end", "at none", "at none until end")
        wanted += [("reply", it) for it in (*states, "list of none", "list of segments", "roll", "types", "publish")]
        return [" ".join(map(str, it)) for it in wanted if not self[it]]
