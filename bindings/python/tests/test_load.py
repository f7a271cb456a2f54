"""Objects as a VTN serves them."""
import json
import unittest
from datetime import timedelta
from decimal import Decimal

from kuvteleg import Refusal, Resolver

from .objects import NEW_YEAR, event

PROGRAMS = '[{"objectType":"PROGRAM","id":"p1","createdDateTime":"2023-12-01T00:00:00Z","programName":"P","payloadDescriptors":null}]'
VENS = '[{"objectType":"VEN","id":"v1","venName":"V","targets":[{"type":"GROUP","values":["a"]}]}]'
RESOURCES = '[{"objectType":"RESOURCE","id":"r1","resourceName":"R","venID":"v1"}]'


def served(id, *values, modified=None, start="2024-01-01T00:00:00Z"):
    members = f'"objectType":"EVENT","id":"{id}",' + (f'"modificationDateTime":"{modified}",' if modified else "")
    return "{" + members + event(*values, start=start)[1:]


class Load(unittest.TestCase):
    def price(self, resolver):
        resolver.publish()
        return resolver.reader().at("r1", "PRICE", NEW_YEAR)

    def test_lists_in_any_order(self):
        for objects in (
            [f"[{served('e1', 17)}]", RESOURCES, VENS, PROGRAMS],
            [json.loads(it) for it in (RESOURCES, PROGRAMS, f"[{served('e1', 17)}]", VENS)],
            json.dumps([it for text in (f"[{served('e1', 17)}]", VENS, RESOURCES, PROGRAMS) for it in json.loads(text)]),
        ):
            with Resolver() as resolver:
                self.assertEqual(resolver.load(objects), 4)
                self.assertEqual(self.price(resolver).values, (Decimal(17),))

    def test_numbers_are_kept_as_they_are_written(self):
        with Resolver() as resolver:
            resolver.load([PROGRAMS, VENS, RESOURCES, served("e1", "0.1000000000000000055511151231257827", "12345678901234567890123456789012345e-5")])
            wanted = (Decimal("0.1000000000000000055511151231257827"), Decimal("123456789012345678901234567890.12345"))
            self.assertEqual(self.price(resolver).values, wanted)

    def test_numbers_of_mappings(self):
        body = json.loads(served("e1", 1))
        body["intervals"][0]["payloads"][0]["values"] = [Decimal("0.30"), 0.1, -2]
        with Resolver() as resolver:
            resolver.load([PROGRAMS, VENS, RESOURCES, [body]])
            self.assertEqual(self.price(resolver).values, (Decimal("0.3"), Decimal("0.1"), Decimal(-2)))

    def test_the_later_write_governs(self):
        first, second = served("e1", 1, modified="2023-12-01T00:00:00Z"), served("e2", 2, modified="2023-12-02T00:00:00Z")
        for events in ((first, second), (second, first)):
            with Resolver() as resolver:
                resolver.load([PROGRAMS, VENS, RESOURCES, events])
                self.assertEqual(self.price(resolver).event, "e2")
        with Resolver() as resolver:
            resolver.load([PROGRAMS, VENS, RESOURCES, served("e2", 2), first])
            self.assertEqual(self.price(resolver).event, "e1")

    def test_a_write_is_told_by_its_change_else_by_its_creation(self):
        changed, created = served("e1", 1, modified="2023-12-02T00:00:00Z"), served("e2", 2, modified="2023-12-01T00:00:00Z")
        created = created.replace("modificationDateTime", "createdDateTime")
        with Resolver() as resolver:
            resolver.load([PROGRAMS, VENS, RESOURCES, changed, created])
            self.assertEqual(self.price(resolver).event, "e1")

    def test_moments_are_compared_as_instants(self):
        early = served("e1", 1, modified="2023-12-01T13:00:00Z")
        for late in ("2023-12-01T13:00:00.5Z", "2023-12-01T12:00:01-01:00"):
            with Resolver() as resolver:
                resolver.load([PROGRAMS, VENS, RESOURCES, served("e2", 2, modified=late), early])
                self.assertEqual(self.price(resolver).event, "e2")

    def test_moments_in_each_form_of_a_line(self):
        early = served("e1", 1, modified="2023-12-01T13:00:00Z")
        forms = ("2023-12-01T15:00:01+0200", "20231201T130001Z", "2023-12-01 13:00:00,000000001z", "2023-12-01T15:00:01+02[Europe/Athens]")
        for late in (*forms, "2023-12-01T13:01Z", "-000001-01-01T00:00:00Z"):
            with Resolver() as resolver:
                resolver.load([PROGRAMS, VENS, RESOURCES, served("e2", 2, modified=late), early])
                self.assertEqual(self.price(resolver).event, "e1" if late.startswith("-") else "e2", late)

    def test_nanoseconds_of_a_moment_count(self):
        first, second = (served(f"e{i}", i, modified=f"2023-12-01T13:00:00.00000000{i}Z") for i in (1, 2))
        with Resolver() as resolver:
            resolver.load([PROGRAMS, VENS, RESOURCES, second, first])
            self.assertEqual(self.price(resolver).event, "e2")

    def test_what_is_no_moment_is_told(self):
        good = served("e1", 1, modified="2023-12-01T13:00:00Z")
        texts = ("2024-07-14T13:00:00", "2024-07-14", "0", "", "0000-00-00", "9999-12-31T00:00:00Z", "2023-02-29T00:00:00Z")
        for member in ("modificationDateTime", "createdDateTime"):
            for text in (*(f'"{it}"' for it in texts), "20240714", "true", "[]"):
                bad = served("e2", 2).replace('"id"', f'"{member}":{text},"id"')
                told = text.replace('"', "'").replace("true", "True").replace("[]", r"\[\]")
                with Resolver() as resolver:
                    with self.assertRaisesRegex(ValueError, f"^event e2: {member} {told} is no moment$"):
                        resolver.load([PROGRAMS, VENS, RESOURCES, good, bad], on_refusal=self.fail)
                    self.assertEqual(resolver.publish(), (1, 0))

    def test_a_moment_of_null_is_none(self):
        first = served("e1", 1).replace('"id"', '"modificationDateTime":null,"createdDateTime":"2023-12-01T13:00:00Z","id"')
        second = served("e2", 2, modified="2023-12-02T13:00:00Z").replace('"id"', '"createdDateTime":"now","id"')
        with Resolver() as resolver:
            resolver.load([PROGRAMS, VENS, RESOURCES, second, first])
            self.assertEqual(self.price(resolver).event, "e2")
        with Resolver() as resolver:
            resolver.load([PROGRAMS, VENS, RESOURCES, second, first.replace('"2023-12-01T13:00:00Z"', "null")])
            self.assertEqual(self.price(resolver).event, "e1")

    def test_moments_of_other_objects_are_not_looked_at(self):
        with Resolver() as resolver:
            resolver.load([PROGRAMS.replace("2023-12-01T00:00:00Z", "long ago"), VENS])
            self.assertEqual(resolver.publish(), (1, 2))

    def test_a_zero_start_is_when_the_event_was_written(self):
        with Resolver() as resolver:
            resolver.load([PROGRAMS, VENS, RESOURCES, served("e1", 1, modified="2023-12-31T23:30:00Z", start="0000-00-00")])
            self.assertEqual(self.price(resolver).until, NEW_YEAR + timedelta(minutes=30))
        with Resolver() as resolver:
            resolver.load([PROGRAMS, VENS, RESOURCES, served("e1", 1, start="0000-00-00")], moment=NEW_YEAR)
            self.assertEqual(self.price(resolver).until, NEW_YEAR + timedelta(hours=1))

    def test_a_refused_object_is_named(self):
        broken = served("e2", '"text"')
        with Resolver() as resolver:
            with self.assertRaises(Refusal) as caught:
                resolver.load([PROGRAMS, VENS, RESOURCES, broken])
            self.assertEqual(str(caught.exception), "17 BadShape: event e2")
            self.assertEqual(resolver.publish(), (1, 3))
        with Resolver() as resolver:
            refused = []
            self.assertEqual(resolver.load([PROGRAMS, VENS, RESOURCES, broken, served("e1", 17)], on_refusal=refused.append), 4)
            self.assertEqual([(it.kind, it.id, it.number) for it in refused], [("event", "e2", 17)])
            self.assertEqual(self.price(resolver).event, "e1")

    def test_what_is_no_object(self):
        with Resolver() as resolver:
            deep = PROGRAMS.replace("null", "[" * 5000 + "]" * 5000)
            nobody = ('[{"id":"p1"}]', '[{"objectType":"PROGRAM"}]', '[{"objectType":"REPORT","id":"x"}]')
            for objects in (deep, "[" * 100000, "[1]", "[NaN]", "{", *nobody):
                self.assertRaises(ValueError, resolver.load, objects)
            self.assertEqual(resolver.load([]), 0)
            self.assertEqual(resolver.publish(), (1, 0))

    def test_a_kind_stands_in_where_none_is_told(self):
        texts = [(text.replace(f'"objectType":"{kind.upper()}",', ""), kind) for text, kind in ((PROGRAMS, "program"), (VENS, "ven"))]
        with Resolver() as resolver:
            for text, kind in texts:
                self.assertEqual(resolver.load(text, kind=kind), 1)
            self.assertEqual(resolver.load([RESOURCES, served("e1", 17).replace('"EVENT"', "null")], kind="event"), 2)
            self.assertEqual(self.price(resolver).event, "e1")
            for kind in ("events", "EVENT", ""):
                self.assertRaisesRegex(ValueError, "^kind is one of program, event, ven, resource$", resolver.load, [], kind=kind)

    def test_what_an_object_lacks_is_told_with_its_place(self):
        wanted = {
            '[{"objectType":"VEN","id":"v1"},{"id":"p1"}]': r"objects\[1\] lacks objectType",
            '[[],[{"objectType":"PROGRAM"}]]': r"objects\[1\]\[0\] lacks id",
            '{"id":null}': "objects lacks objectType and id",
            '[{"objectType":"REPORT","id":"x"}]': r"objects\[0\] has the objectType 'REPORT', which is none of PROGRAM, VEN, RESOURCE, EVENT",
            '[{"objectType":5,"id":"x"}]': r"objects\[0\] has the objectType 5, which is none of PROGRAM, VEN, RESOURCE, EVENT",
            '[{"objectType":"VEN","id":5}]': r"objects\[0\] has the id 5, which is no text",
            "[1]": r"objects\[0\] is no object: 1",
        }
        with Resolver() as resolver:
            for text, told in wanted.items():
                self.assertRaisesRegex(ValueError, f"^{told}$", resolver.load, text)
            self.assertRaisesRegex(ValueError, r"^objects\[1\]\[0\] lacks id$", resolver.load, [PROGRAMS, '[{"objectType":"VEN"}]'])
            self.assertRaisesRegex(ValueError, r"^objects\[0\] lacks id$", resolver.load, [{}], kind="ven")
            self.assertEqual(resolver.publish(), (1, 0))
