"""Texts of moments: Python takes what a line takes, and as the same instant."""
import random
import unittest

from kuvteleg import Refusal, Resolver, _moments

from .objects import event, fill

ALL = "-009999-01-02T01:59:59Z 9999-12-30T22:00:00.999999999Z"
FORMS = (
    "2024-06-19T17:30:05Z 2024-06-19T19:30:05.25+02:00 2024-06-19t17:30:05,5Z 2024-06-19T17Z 2024-06-19T17:30Z 20240619T173005Z "
    "2016-12-31T23:59:60Z 2024-06-19T17:30:05+02:00[Europe/Paris] 2024-06-19T17:30:05Z[!key=value] -000044-03-15T12:00:00Z "
    "2024-06-19T17:30:05 2024-06-19 0000-00-00 0 2024-07-14T13:00:00+0200 20240714T130000Z +002024-06-19T17Z -000000-01-01T00Z "
    "+0020240619T1730-0530 2024-06-19T17:30:05-25:59:59.4 2024-06-19T17:30:05+25:59:59.5 2024-06-19T17+02 20240619T17+023015,123456789 "
    "2024-06-19T17Z[u-ca=hebrew] 2024-06-19T17Z[+02:00][u-ca=hebrew][x_1=a-B-9] 2024-06-19T17Z[!-2559] 2024-06-19T17Z[!_a.b+1/C/d] "
    "2024-06-19T17Z[u-ca=hebrew][Europe/Paris] 2024-06-19T17Z[] 2024-06-19T173005.123456789Z 2024-06-19T17:30:05.1234567891Z "
    "20240619T17:30:05Z 2024-0619T17Z 2024-06-19T17:3005Z 2024-06-19T1730:05Z 2024-06-19T17:30+02:0000 2024-02-29T00Z 2023-02-29T00Z "
    "1900-02-29T00Z 2000-02-29T00Z -000004-02-29T00Z 9999-12-30T22:00:00.999999999Z 9999-12-30T22:00:01Z 9999-12-31T23:59:59+25:59:59 "
    "-009999-01-02T01:59:59Z -009999-01-02T01:59:58.999999999Z -009999-01-01T00:00:00-25:59:59 0000-01-01T00Z 2024-13-01T00Z "
    "2024-06-19T24Z 2024-06-19T17:60Z 2024-06-19T17:30:61Z 2024-06-19T17+26 2024-06-19T17+02:60 2024-06-19T17+02:00:60 +012024-06-19T17Z"
).split()
MARKS = "0123456789-+:.,TtZz[]!=/_aZé\u0660"


def mutant(rng, text):
    """A text with one to three characters left out, put in or changed, or joined of two."""
    for _ in range(rng.randint(1, 3)):
        at, way = rng.randint(0, len(text)), rng.randint(0, 3)
        if way == 3:
            other = rng.choice(FORMS)
            text = text[:at] + other[at:]
        else:
            text = text[:at] + (rng.choice(MARKS) if way else "") + text[at + (way != 1) :]
    return text


class AsLinesDo(unittest.TestCase):
    def setUp(self):
        self.resolver = Resolver()
        self.addCleanup(self.resolver.close)
        fill(self.resolver)
        self.body = event(1, start="0000-00-00").replace("PT1H", "P9999Y")

    def of_line(self, text):
        """The instant that a line takes a text for, as replies print it, or none."""
        try:
            self.resolver.line(f"edit {text} change event e1 {self.body}")
        except Refusal as refusal:
            self.assertIn(refusal.number, (2, 3), text)
            return None
        self.resolver.publish()
        segments = self.resolver.line(f"list r1 PRICE {ALL}").split("\n")[1:-2]
        return segments[0].split(" ")[0] if segments else ALL.split(" ")[1]

    def of_python(self, text):
        try:
            return _moments.written(text)
        except Refusal as refusal:
            self.assertEqual(refusal.number, 3)
            return None

    def test_each_form(self):
        told = [(it, self.of_line(it)) for it in FORMS]
        self.assertEqual([(it, self.of_python(it)) for it in FORMS], told)
        self.assertEqual(sum(it is not None for _, it in told), 30)

    def test_mutated_forms(self):
        rng, accepted = random.Random(20240619), 0
        for _ in range(10000):
            text = mutant(rng, rng.choice(FORMS))
            wanted = self.of_line(text)
            self.assertEqual(self.of_python(text), wanted, text)
            accepted += wanted is not None
        self.assertGreater(accepted, 500)

    def test_a_space_for_the_letter_of_the_time(self):
        self.assertEqual(_moments.written("2024-06-19 17:30:05.000000001z"), "2024-06-19T17:30:05.000000001Z")
        self.assertRaises(Refusal, _moments.read, "2024-06-19  17:30:05Z")

    def test_readers_and_edits_take_each_form(self):
        self.resolver.publish()
        reader = self.resolver.reader()
        for text in ("20240101T003000Z", "2024-01-01T02:30:00+0200", "2024-01-01 00:30z", "2024-01-01T00:30:00.000000001Z[Europe/Paris]"):
            self.assertEqual(reader.at("r1", "PRICE", text).event, "e1", text)
            self.assertEqual(reader.roll("PRICE", text)["r1"].event, "e1", text)
            self.assertEqual(reader.list("r1", "PRICE", text, "20240101T02Z")[0].start, _moments.told(_moments.written(text)), text)
            self.resolver.change("event", "e1", event(1), text)
