"""Objects for tests: a program, a ven, a resource and an event with a price from midnight to one."""
from datetime import datetime, timezone

NEW_YEAR = datetime(2024, 1, 1, tzinfo=timezone.utc)
PROGRAM = '{"programName":"P"}'
VEN = '{"venName":"V"}'
RESOURCE = '{"resourceName":"R","venID":"v1"}'


def event(*values, payload_type="PRICE", start="2024-01-01T00:00:00Z", priority="null"):
    return (
        f'{{"programID":"p1","priority":{priority},"intervals":[{{"id":0,"intervalPeriod":{{"start":"{start}","duration":"PT1H"}},'
        f'"payloads":[{{"type":"{payload_type}","values":[{",".join(map(str, values))}]}}]}}]}}'
    )


def fill(resolver, *values):
    """Creates the four objects; the next edit has version 5."""
    resolver.create("program", "p1", PROGRAM, NEW_YEAR)
    resolver.create("ven", "v1", VEN, NEW_YEAR)
    resolver.create("resource", "r1", RESOURCE, NEW_YEAR)
    resolver.create("event", "e1", event(*(values or (17,))), NEW_YEAR)
