"""The picture of a day, and the same in characters."""
import pathlib
import re
import subprocess
import sys
import unittest
import xml.etree.ElementTree as xml

from kuvteleg._drawing import Box, width

TOP = pathlib.Path(__file__).resolve().parents[3]
SPACE = "{http://www.w3.org/2000/svg}"
DAYS = (
    ("prices.adr", "heat-pump", "2024-07-15", "2024-07-16", "--publication", "1"),
    ("prices.adr", "heat-pump", "2024-07-15T16:00:00Z", "2024-07-15T21:00:00Z", "--publication", "2"),
    ("capacity.adr", "chargers-a", "2024-12-12", "2024-12-13", "--publication", "1"),
    ("capacity.adr", "chargers-a", "2024-12-10", "2024-12-20", "--publication", "1"),
    ("demand_response.adr", "battery-2", "2024-07-16", "2024-07-17", "--publication", "2"),
)


HEATER = (
    b'edit 2024-07-15T00:00:00Z create program p1 {"programName":"P"}',
    b'edit 2024-07-15T00:00:00Z create ven v1 {"venName":"V"}',
    b'edit 2024-07-15T00:00:00Z create resource heater {"resourceName":"Heater","venID":"v1"}',
)


def named(change, name, hour=12):
    """A line that writes an event of an hour."""
    period = f'{{"start":"2024-07-15T{hour}:00:00Z","duration":"PT1H"}}'
    intervals = f'[{{"intervalPeriod":{period},"payloads":[{{"type":"PRICE","values":[17]}}]}}]'
    return f'edit 2024-07-15T00:00:00Z {change} event e1 {{"programID":"p1","eventName":"{name}","intervals":{intervals}}}'.encode()


def ran(script, *words, given=None):
    call = [sys.executable, "-m", "kuvteleg.day", script, *words]
    run = subprocess.run(call, cwd=TOP / "bindings" / "python", capture_output=True, timeout=60, input=given)
    return run.returncode, run.stdout.decode(), run.stderr.decode()


def day(script, *words):
    return ran(str(TOP / "examples" / script), *words)


def heater(*lines, words=()):
    """The day of a heater by a script of these lines, in characters."""
    return ran("-", "heater", "2024-07-15", "2024-07-16", "--text", *words, given=b"\n".join((*HEATER, *lines, b"")))


class Days(unittest.TestCase):
    def test_a_day_of_prices(self):
        status, told, _ = day("prices.adr", "heat-pump", "2024-07-15", "2024-07-16", "--publication", "1", "--text")
        self.assertEqual(status, 0)
        rows = re.findall(r"^  (\d\d:\d\d)–(\d\d:\d\d) +([0-9.]+)  (.*)$", told, re.MULTILINE)
        self.assertEqual(
            rows,
            [
                ("00:00", "04:00", "0.184", "Prices of 15 July"),
                ("04:00", "08:00", "0.162", "Prices of 15 July"),
                ("08:00", "12:00", "0.217", "Prices of 15 July"),
                ("12:00", "16:00", "0.195", "Prices of 15 July"),
                ("16:00", "17:00", "0.341", "Prices of 15 July"),
                ("17:00", "18:30", "0.58", "Evening peak"),
                ("18:30", "20:00", "0.341", "Prices of 15 July"),
                ("20:00", "24:00", "0.248", "Prices of 15 July"),
            ],
        )
        self.assertIn("Heat pump (heat-pump)\nMonday 15 July 2024, UTC\n", told)

    def texts(self, *words):
        status, told, fault = day(*words)
        self.assertEqual((status, fault), (0, ""))
        return ["".join(it.itertext()) for it in xml.fromstring(told).iter(SPACE + "text")]

    def test_a_picture_names_lanes_events_and_amounts(self):
        texts = self.texts("capacity.adr", "chargers-a", "2024-12-12T12:00:00Z", "2024-12-12T22:00:00Z", "--publication", "1")
        for wanted in ("Chargers, row A", "Thursday 12 December 2024, UTC  ·  chargers-a", "IMPORT_CAPACITY_LIMIT", "EXPORT_CAPACITY_LIMIT"):
            self.assertIn(wanted, texts)
        for wanted in ("ALERT_GRID_EMERGENCY", "ALERT_POSSIBLE_OUTAGE", "250", "120.5", "180", "Feeder 12 (feeder-12)", "Cold snap (cold-snap)"):
            self.assertIn(wanted, texts)
        self.assertIn("Feeder 12 is open; Stay off until told", texts)

    def test_levels_and_amounts_below_zero(self):
        texts = self.texts("demand_response.adr", "battery-2", "2024-07-16T12:00:00Z", "2024-07-16T20:00:00Z", "--publication", "2")
        self.assertIn("\u22124.5", texts)
        self.assertEqual([it for it in texts if it in ("0", "1", "2")].count("1"), 2)

    def boxes(self, *words):
        """Where each text of a picture stands, with what it says."""
        boxes = []
        for it in xml.fromstring(day(*words)[1]).iter(SPACE + "text"):
            classes, text = it.get("class").split(), "".join(it.itertext())
            size = 21 if "title" in classes else 11 if "small" in classes else 10 if "letter" in classes else 12
            room, x, y = width(text, size, is_bold="value" in classes), float(it.get("x")), float(it.get("y"))
            left = x - {"start": 0, "middle": room / 2, "end": room}[it.get("text-anchor")]
            boxes.append((text, Box(left, y - size * 0.75, left + room, y + size * 0.2)))
        return boxes

    def test_no_text_stands_on_another(self):
        for words in DAYS:
            boxes = self.boxes(*words)
            self.assertGreater(len(boxes), 10)
            for i, (text, box) in enumerate(boxes):
                self.assertTrue(0 <= box.left and box.right <= 800, text)
                for other, place in boxes[i + 1 :]:
                    self.assertFalse(box.meets(place), f"{words}: {text} and {other}")

    def test_light_and_dark(self):
        self.assertIn("@media (prefers-color-scheme: dark)", day(*DAYS[0])[1])

    def test_where_nothing_governs(self):
        self.assertIn("Nothing governs in this time.", self.texts("prices.adr", "heat-pump", "2024-07-20", "2024-07-21"))

    def test_what_cannot_be_drawn(self):
        self.assertEqual(
            day("prices.adr", "no-such", "2024-07-20", "2024-07-21"), (1, "", "kuvteleg.day: publication 3 has no resource no-such\n")
        )
        self.assertEqual(day("no_such.adr", "heat-pump", "2024-07-20", "2024-07-21")[0], 1)
        self.assertEqual(day("prices.adr", "heat-pump", "2024-07-20", "2024-07-20")[0], 2)
        self.assertEqual(day("prices.adr", "heat-pump", "yesterday", "2024-07-20")[0], 2)
        self.assertEqual(day("prices.adr", "heat-pump", "2024-07-20", "2024-07-21", "--publication", "-1")[0], 2)


class Scripts(unittest.TestCase):
    def test_refused_lines_are_told_and_the_day_is_drawn(self):
        status, told, faults = heater(named("create", "First").replace(b"p1", b"p2"), named("create", "Second"), b"", b"publish", b"at heater PRICE now")
        wanted = ("line 4: refused 24 NoProgram", "line 6: refused 2 BadLine", "line 8: refused 3 BadMoment")
        self.assertEqual((status, faults), (1, "".join(f"kuvteleg.day: {it}\n" for it in wanted)))
        self.assertRegex(told, "12:00–13:00  17  Second")

    def test_no_line_behind_the_drawn_publication_is_run(self):
        status, told, faults = heater(named("create", "First"), b"publish", b"publish now", words=("--publication", "1"))
        self.assertEqual((status, faults), (0, ""))
        self.assertRegex(told, "12:00–13:00  17  First")

    def test_a_last_line_without_a_line_feed_counts(self):
        script = b"\r\n".join((*HEATER, named("create", "First"), b"publish"))
        status, told, faults = ran("-", "heater", "2024-07-15", "2024-07-16", "--text", given=script)
        self.assertEqual((status, faults), (0, ""))
        self.assertRegex(told, "12:00–13:00  17  First")

    def test_names_are_those_of_the_publication(self):
        lines = (named("create", "First"), b"publish", named("change", "Second", 13), b"publish", named("change", "Third", 14))
        self.assertRegex(heater(*lines)[1], "13:00–14:00  17  Second\n")
        self.assertRegex(heater(*lines, words=("--publication", "1"))[1], "12:00–13:00  17  First\n")
        renamed = HEATER[2].replace(b"create", b"change").replace(b'"Heater"', b'"Stove"')
        self.assertRegex(heater(*lines, renamed)[1], "^Heater \\(heater\\)\n")
        self.assertRegex(heater(*lines, renamed, b"publish")[1], "^Stove \\(heater\\)\n")

    def test_a_resource_that_no_publication_has(self):
        fault = "kuvteleg.day: publication 0 has no resource heater"
        self.assertEqual(heater(named("create", "First")), (1, "", fault + "; does the script publish?\n"))
        self.assertEqual(heater(b"publish", words=("--publication", "0")), (1, "", fault + "\n"))

    def test_a_publication_behind_the_last_one(self):
        self.assertEqual(
            heater(b"publish", b"publish", words=("--publication", "3")), (1, "", "kuvteleg.day: there is no publication 3; the last is 2\n")
        )
