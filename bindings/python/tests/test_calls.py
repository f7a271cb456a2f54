"""Calls in words: edits, publications, and what readers are told."""
import ctypes
import os
import pathlib
import subprocess
import sys
import tempfile
import unittest
from datetime import datetime, timedelta, timezone
from decimal import Decimal

from kuvteleg import Point, Published, Reader, Refusal, Resolver, Segment, State, _library

from .objects import NEW_YEAR, PROGRAM, RESOURCE, VEN, event, fill

ONE = NEW_YEAR + timedelta(hours=1)


class Layouts(unittest.TestCase):
    def test_structs_are_those_of_the_header(self):
        # bindings/c/test.c compares the header's structs with these sizes.
        self.assertEqual((ctypes.sizeof(_library.Handle), ctypes.sizeof(_library.State)), (16, 40))

    def test_a_library_that_does_not_load(self):
        asks = "try:\n    import kuvteleg\nexcept ImportError as error:\n    print(error)"
        with tempfile.TemporaryDirectory() as folder:
            for content in (None, b"", b"no library"):
                if content is not None:
                    pathlib.Path(folder, "libkuvteleg.so").write_bytes(content)
                environment = {**os.environ, "KUVTELEG_LIB": folder}
                ran = subprocess.run([sys.executable, "-c", asks], env=environment, stdout=subprocess.PIPE, text=True)
                self.assertEqual((ran.returncode, ran.stdout.startswith("kuvteleg: ")), (0, True), content)
                self.assertIn(folder, ran.stdout)


class Edits(unittest.TestCase):
    def refused(self, number, name, call, *given):
        with self.assertRaises(Refusal) as caught:
            call(*given)
        self.assertEqual((caught.exception.number, caught.exception.name), (number, name))

    def test_each_edit_is_answered_with_its_version(self):
        with Resolver() as resolver:
            fill(resolver)
            self.assertEqual(resolver.change("event", "e1", event(18), NEW_YEAR), 5)
            self.assertEqual(resolver.publish(), Published(1, 5))
            self.assertEqual(resolver.condense(), 5)
            self.assertEqual(resolver.delete("event", "e1"), 6)
            self.assertEqual(resolver.publish(), (2, 6))

    def test_bodies_are_text_bytes_or_mappings(self):
        with Resolver() as resolver:
            self.assertEqual(resolver.create("program", "p1", {"programName": "P", "targets": None}), 1)
            self.assertEqual(resolver.create("ven", "v1", VEN.encode()), 2)
            self.assertEqual(resolver.create("program", "p2", PROGRAM), 3)

    def test_refusals_have_number_and_name(self):
        with Resolver("latest-start") as resolver:
            fill(resolver)
            self.refused(22, "Exists", resolver.create, "ven", "v1", VEN)
            self.refused(23, "NotThere", resolver.change, "ven", "v2", VEN)
            self.refused(24, "NoProgram", resolver.create, "event", "e2", event(1).replace("p1", "p2"))
            self.refused(26, "InUse", resolver.delete, "program", "p1")
            self.refused(4, "BadId", resolver.create, "ven", "v 1", VEN)
            self.refused(7, "NotObject", resolver.create, "ven", "v2", "[]")
            self.refused(2, "BadLine", resolver.line, "publish now")
            self.assertEqual(resolver.create("ven", "v2", VEN), 5)

    def test_an_unknown_kind(self):
        with Resolver() as resolver:
            fill(resolver)
            for kind in ("van", "VEN", "", None):
                for call in (
                    lambda: resolver.create(kind, "v2", VEN),
                    lambda: resolver.change(kind, "v1", VEN),
                    lambda: resolver.delete(kind, "v1"),
                ):
                    self.assertRaisesRegex(ValueError, "^kind is one of program, event, ven, resource$", call)
            self.assertEqual(resolver.publish(), (1, 4))

    def test_a_zero_start_is_the_moment_of_the_edit(self):
        with Resolver() as resolver:
            fill(resolver)
            resolver.change("event", "e1", event(1, start="0000-00-00"), ONE)
            resolver.publish()
            self.assertEqual(resolver.reader().at("r1", "PRICE", ONE).until, ONE + timedelta(hours=1))

    def test_a_closed_resolver_refuses(self):
        resolver = Resolver()
        resolver.close()
        resolver.close()
        self.refused(100, "Closed", resolver.publish)
        self.refused(100, "Closed", resolver.line, "publish")
        self.refused(100, "Closed", resolver.reader)
        self.refused(100, "Closed", Reader().seen)
        self.assertRaises(ValueError, Resolver, "oldest")


class Queries(unittest.TestCase):
    def reader(self, *values, payload_type="PRICE"):
        with Resolver() as resolver:
            fill(resolver)
            resolver.change("event", "e1", event(*values, payload_type=payload_type), NEW_YEAR)
            resolver.publish()
            return resolver.reader()

    def test_states(self):
        with self.reader("0.170", "-3") as reader:
            self.assertEqual(reader.at("r1", "PRICE", "2024-01-01T00:30:00Z"), State("e1", 0, ONE, (Decimal("0.17"), Decimal(-3))))
            self.assertEqual(reader.at("r1", "PRICE", ONE), State(None, None, None, ()))
            self.assertEqual(reader.at("r1", "PRICE", NEW_YEAR - timedelta(microseconds=1)), State(None, None, NEW_YEAR, ()))
            east = timezone(timedelta(hours=2))
            self.assertEqual(reader.at("r1", "PRICE", datetime(2024, 1, 1, 2, 30, tzinfo=east)).event, "e1")
            self.assertEqual(reader.roll("PRICE", NEW_YEAR), {"r1": State("e1", 0, ONE, (Decimal("0.17"), Decimal(-3)))})
            self.assertEqual(reader.seen(), (1, 5))

    def test_segments_are_cut_to_the_window(self):
        with self.reader(17) as reader:
            middle = NEW_YEAR + timedelta(minutes=30)
            self.assertEqual(reader.list("r1", "PRICE", middle, ONE + timedelta(days=1)), [Segment(middle, ONE, "e1", 0, (Decimal(17),))])
            self.assertEqual(reader.list("r1", "PRICE", ONE, ONE + timedelta(days=1)), [])
            with self.assertRaises(Refusal) as caught:
                reader.list("r1", "PRICE", ONE, ONE)
            self.assertEqual(caught.exception.name, "BadWindow")

    def test_values_of_every_kind(self):
        values = ('"a \\"b\\" \\u0001 (c)"', "true", "false", '{"x":0,"y":-1.50}', "123456789012345678901234567890.5", '""')
        wanted = ('a "b" \x01 (c)', True, False, Point(Decimal(0), Decimal("-1.5")), Decimal("123456789012345678901234567890.5"), "")
        with self.reader(*values, payload_type="MINE") as reader:
            self.assertEqual(reader.at("r1", "MINE", NEW_YEAR).values, wanted)
            self.assertEqual(reader.roll("MINE", NEW_YEAR)["r1"].values, wanted)
            self.assertEqual(reader.list("r1", "MINE", NEW_YEAR, ONE)[0].values, wanted)
        with self.reader(payload_type="ALERT_FIRE") as reader:
            self.assertEqual(reader.at("r1", "ALERT_FIRE", NEW_YEAR), State("e1", 0, ONE, ()))
            self.assertEqual(reader.list("r1", "ALERT_FIRE", NEW_YEAR, ONE), [Segment(NEW_YEAR, ONE, "e1", 0, ())])

    def test_types_with_spaces_and_quotes(self):
        with self.reader(1, payload_type='a \\"type\\"') as reader:
            self.assertEqual(reader.types("r1"), ['a "type"'])
            self.assertEqual(reader.at("r1", 'a "type"', NEW_YEAR).event, "e1")
            self.assertRaises(Refusal, reader.list, "r1", 'a "type"', NEW_YEAR, ONE)

    def test_a_word_is_one_word(self):
        with self.reader(1) as reader:
            for word in ("r1 PRICE", "r1\npublish", ""):
                with self.assertRaises(Refusal):
                    reader.types(word)

    def test_a_long_reply(self):
        with Resolver() as resolver:
            fill(resolver)
            for i in range(2, 1000):
                resolver.create("resource", f"r{i}", RESOURCE, NEW_YEAR)
            resolver.publish()
            self.assertEqual(list(resolver.reader().roll("PRICE", NEW_YEAR)), [f"r{i}" for i in range(1, 1000)])

    def test_a_reader_sees_one_publication(self):
        with Resolver() as resolver:
            fill(resolver)
            early = resolver.reader()
            self.assertEqual(early.seen(), (0, 0))
            resolver.publish()
            with self.assertRaises(Refusal) as caught:
                early.types("r1")
            self.assertEqual(caught.exception.name, "UnknownResource")
            early.look(resolver)
            other = early.share()
        self.assertEqual(early.types("r1"), ["PRICE"])
        early.close()
        self.assertEqual((other.seen(), other.types("r1")), ((1, 4), ["PRICE"]))


class Moments(unittest.TestCase):
    def until(self, end):
        """Until when the event governs that starts an hour before `end`."""
        with Resolver() as resolver:
            fill(resolver)
            resolver.change("event", "e1", event(1, start="0000-00-00"), end)
            resolver.publish()
            return resolver.reader().at("r1", "PRICE", end).until

    def test_a_datetime_where_one_holds_it(self):
        self.assertEqual(self.until("2024-06-19T17:30:05.25Z"), datetime(2024, 6, 19, 18, 30, 5, 250000, tzinfo=timezone.utc))
        self.assertEqual(self.until("0001-01-01T00:00:00Z"), datetime(1, 1, 1, 1, tzinfo=timezone.utc))

    def test_text_where_none_does(self):
        self.assertEqual(self.until("2024-06-19T17:30:05.000000001Z"), "2024-06-19T18:30:05.000000001Z")
        self.assertEqual(self.until("-000044-03-15T12:00:00Z"), "-000044-03-15T13:00:00Z")
        self.assertEqual(self.until("0000-12-31T23:00:00Z"), datetime(1, 1, 1, tzinfo=timezone.utc))
        self.assertEqual(self.until("-009999-01-02T01:59:59Z"), "-009999-01-02T02:59:59Z")

    def test_the_forms_of_a_text(self):
        for text in ("2024-06-19T19:30:05+02:00", "2024-06-19 17:30:05z", "2024-06-19t17:30:05,0Z", "2024-06-19T12:00:05-05:30"):
            self.assertEqual(self.until(text), datetime(2024, 6, 19, 18, 30, 5, tzinfo=timezone.utc), text)
        self.assertEqual(self.until("2016-12-31T23:59:60Z"), datetime(2017, 1, 1, 0, 59, 59, tzinfo=timezone.utc))
        self.assertEqual(self.until("2024-06-19T17Z"), datetime(2024, 6, 19, 18, tzinfo=timezone.utc))

    def test_what_is_no_moment(self):
        for text in ("2024-06-19T17:30:05", "2024-06-19", "2023-02-29T00:00:00Z", "0000-00-00", "", "2024-06-19T24:00:00Z", "-009999-01-01T00:00:00Z"):
            with self.assertRaises(Refusal) as caught:
                self.until(text)
            self.assertEqual(caught.exception.name, "BadMoment", text)
        self.assertRaises(ValueError, self.until, datetime(2024, 1, 1))

    def test_what_is_neither_a_datetime_nor_a_text(self):
        with Resolver() as resolver:
            fill(resolver)
            resolver.publish()
            reader = resolver.reader()
            for moment in (1704067200.5, 0, b"2024-01-01T00:00:00Z", NEW_YEAR.date(), timedelta(0)):
                for call in (
                    lambda: resolver.create("ven", "v2", VEN, moment),
                    lambda: resolver.change("ven", "v1", VEN, moment),
                    lambda: resolver.load([], moment),
                    lambda: reader.at("r1", "PRICE", moment),
                    lambda: reader.list("r1", "PRICE", moment, ONE),
                    lambda: reader.list("r1", "PRICE", NEW_YEAR, moment),
                    lambda: reader.roll("PRICE", moment),
                ):
                    self.assertRaisesRegex(TypeError, "^a moment is a datetime or a text$", call)
            self.assertRaises(TypeError, reader.at, "r1", "PRICE", None)
            self.assertEqual(resolver.publish(), (2, 4))
