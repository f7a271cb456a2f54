"""What an `at` costs, in microseconds: the least of nine rounds of 4,096 calls, over 1,000 resources and 50 events of 24 intervals.

    python bench.py [PROGRAM]     beside it, the program `adr run` as a coprocess over a pipe
"""
import random
import subprocess
import sys
import time
from datetime import datetime, timedelta, timezone

from kuvteleg import Resolver

NEW_YEAR = datetime(2024, 1, 1, tzinfo=timezone.utc)


def script():
    """The lines of the edits, and a publication."""
    yield 'edit 2024-01-01T00:00:00Z create program p {"programName":"P"}'
    yield 'edit 2024-01-01T00:00:00Z create ven v {"venName":"V"}'
    for i in range(1000):
        yield f'edit 2024-01-01T00:00:00Z create resource r{i} {{"resourceName":"R","venID":"v"}}'
    for i in range(50):
        hours = ",".join(f'{{"payloads":[{{"type":"PRICE","values":[{i}.{hour:02}]}}]}}' for hour in range(24))
        period = f'"intervalPeriod":{{"start":"2024-01-{i % 28 + 1:02}T00:00:00Z","duration":"PT1H"}}'
        yield f'edit 2024-01-01T00:00:00Z create event e{i} {{"programID":"p","priority":{i % 7},{period},"intervals":[{hours}]}}'
    yield "publish"


def measure(name, call, asked, rounds=9):
    least = 1e9
    for _ in range(rounds):
        start = time.perf_counter()
        for it in asked:
            call(*it)
        least = min(least, (time.perf_counter() - start) / len(asked))
    print(f"{name:<24} {least * 1e6:8.2f} \u00b5s")


class Coprocess:
    """The program `adr run`, one line out and its reply back."""

    def __init__(self, program):
        self.run = subprocess.Popen([program, "run"], stdin=subprocess.PIPE, stdout=subprocess.PIPE, bufsize=0)
        self.replies = open(self.run.stdout.fileno(), "rb", closefd=False)

    def line(self, line):
        self.run.stdin.write(line.encode() + b"\n")
        return self.replies.readline().decode()

    def close(self):
        self.run.stdin.close()
        self.run.wait()


def main():
    random.seed(1)
    places = [(f"r{random.randrange(1000)}", NEW_YEAR + timedelta(minutes=random.randrange(28 * 1440))) for _ in range(4096)]
    lines = [(f"at {resource} PRICE {moment:%Y-%m-%dT%H:%M:%SZ}",) for resource, moment in places]
    with Resolver() as resolver:
        for line in script():
            resolver.line(line)
        with resolver.reader() as reader:
            measure("at by its line", reader.line, lines)
            measure("at, typed", lambda resource, moment: reader.at(resource, "PRICE", moment), places)
            if len(sys.argv) > 1:
                other = Coprocess(sys.argv[1])
                for line in script():
                    other.line(line)
                assert all(other.line(*it) == reader.line(*it) for it in lines)
                measure("at over a pipe", other.line, lines, rounds=3)
                other.close()


if __name__ == "__main__":
    main()
