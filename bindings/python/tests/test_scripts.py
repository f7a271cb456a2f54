"""Stored scripts through the library, line by line: each reply is the bytes that stand there."""
import pathlib
import unittest

from kuvteleg import Refusal, Resolver

TOP = pathlib.Path(__file__).resolve().parents[3]


def told(resolver, line):
    # Whoever parts lines drops one carriage return at a line's end.
    line = line[:-1] if line.endswith(b"\r") else line
    try:
        return resolver.line(line).encode()
    except Refusal as refusal:
        return f"refused {refusal}\n".encode()


def lines(path):
    all_lines = path.read_bytes().split(b"\n")
    return all_lines[:-1] if all_lines[-1] == b"" else all_lines


def replies(tie, script):
    with Resolver(tie) as resolver:
        return b"".join(told(resolver, line) for line in script)


class StoredScripts(unittest.TestCase):
    def answer(self, folder, *ties):
        paths = sorted((TOP / "transcripts" / folder).iterdir())
        self.assertTrue(paths)
        for path in paths:
            script = [line for line in lines(path) if not line.startswith(b"> ")]
            wanted = b"".join(line[2:] + b"\n" for line in lines(path) if line.startswith(b"> "))
            for tie in ties:
                with self.subTest(path.name, tie=tie):
                    self.assertEqual(replies(tie, script), wanted)

    def test_under_both_rules_for_ties(self):
        self.answer("both", "newest", "latest-start")

    def test_the_newest_write_first(self):
        self.answer("newest", "newest")

    def test_the_latest_start_first(self):
        self.answer("latest-start", "latest-start")

    def test_examples(self):
        paths = sorted((TOP / "examples").glob("*.adr"))
        self.assertTrue(paths)
        for path in paths:
            with self.subTest(path.name):
                self.assertEqual(replies("newest", lines(path)), path.with_suffix(".replies").read_bytes())
