"""Desks and boards of many resources and events, as lines of the edits that make and change them.

A desk has its resources 64 to a ven and its group, and its events 64 to a program. The lines are those that `adr_trials`
reads: `VERB KIND ID BODY`.
"""
MEMBERS = 64
PRIORITY = 5
INTERVAL = '{"payloads":[{"type":"PRICE","values":[1]}]}'
LONG = (0, 1024, "PT1H")
ENDLESS = (0, 1, "P9999Y")


def targets(group):
    return "null" if group is None else f'[{{"type":"GROUP","values":["{group}"]}}]'


def program(verb, number, group=None):
    return f'{verb} program {number} {{"programName":"P","targets":{targets(group)}}}'


def ven(verb, number, group):
    return f'{verb} ven {number} {{"venName":"V","targets":{targets(group)}}}'


def resource(verb, number, of):
    return f'{verb} resource {number} {{"resourceName":"R","venID":"{of}"}}'


def event(verb, number, groups=None, priority=PRIORITY, hours=None):
    """For one of so many groups, which take turns, or for all; sixteen hours that start within thirty days, or those given:
    the place of the first, how many there are and how long each is."""
    place, count, length = hours or (number, 16, "PT1H")
    start = f"2024-01-{place % 30 + 1:02}T{place // 30 % 24:02}Z"
    return (
        f'{verb} event {number} {{"programID":"{number // MEMBERS}","targets":{targets(number % groups if groups else None)},'
        f'"priority":{priority},"intervalPeriod":{{"start":"{start}","duration":"{length}"}},'
        f'"intervals":[{",".join([INTERVAL] * count)}]}}'
    )


def removal(kind, number):
    return f"delete {kind} {number} {{}}"


def desk(resources, events=(), groups=None, hours=None):
    """So many resources, and the events of those numbers."""
    lines = []
    for number in range(resources // MEMBERS + 1):
        lines += [program("create", number), ven("create", number, number)]
    lines += [resource("create", number, number // MEMBERS) for number in range(resources)]
    return lines + [event("create", number, groups, hours=hours) for number in events]


def desk_of(count):
    """So many resources and as many events, each for one group."""
    return desk(count, range(count), count // MEMBERS)


def rounds(count):
    """Edits of each kind on such a desk, each with the one that takes it back."""
    groups = count // MEMBERS
    return {
        "a priority of an event of a group": (event("change", 0, groups, 0), event("change", 0, groups)),
        "an event of a group goes; it comes": (removal("event", 0), event("create", 0, groups)),
        "an event of all comes; it goes": (event("create", count), removal("event", count)),
        "64 events go with their program's targets; they come": (program("change", 0, count), program("change", 0)),
        "a ven's 64 resources go to another group; they come back": (ven("change", 0, 1), ven("change", 0, 0)),
        "a resource goes to another ven; it comes back": (resource("change", 0, 1), resource("change", 0, 0)),
        "a resource comes; it goes": (resource("create", count, 0), removal("resource", count)),
    }


def workloads():
    """The kinds of work that servers do, on small desks: the lines that make the desk, and the edits."""
    many, few, groups = 256, 64, 256 // MEMBERS
    return {
        "256 events come, 64 to each of four groups": (desk(many), [event("create", it, groups) for it in range(many)]),
        "256 events of four groups get another priority": (desk_of(many), [event("change", it, groups, it % 10) for it in range(many)]),
        "64 events of 256 resources get another priority": (desk(many, range(few)), [event("change", it, None, it % 10) for it in range(few)]),
        "an endless event is written 16 times over 1,024 intervals": (
            desk_of(few),
            [event("change" if it else "create", few, None, it % 10, ENDLESS) for it in range(16)],
        ),
        "64 events come over one of 1,024 intervals": (
            desk(few, [few], hours=LONG),
            [event("create", it, None, it % 10) for it in range(few)],
        ),
        "four events of 1,024 intervals are written four times": (
            desk(few, range(4), hours=LONG),
            [event("change", it % 4, None, it % 10, LONG) for it in range(16)],
        ),
    }


def board(resources):
    """A board's edits in the short lines that its life and its looks are made of: 64 resources to a ven, and an event for
    each ven, with one hour between two vens' starts."""
    lines = ["create program p"]
    for number in range(resources // MEMBERS):
        lines.append(f"create ven v{number}")
        lines += [f"create resource r{number}_{member} v{number}" for member in range(MEMBERS)]
        lines.append(f"create event e{number} p 2024-01-01T{number % 20:02}:00:00Z PT3H 3 {number} v{number}")
    return "".join(line + "\n" for line in lines).encode()
