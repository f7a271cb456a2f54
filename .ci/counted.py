"""The line that each script of the gate ends with, 'N passed, M failed', and programs that a script talks with."""
import subprocess
import sys
import threading
import traceback

PASSED = []


def passed(count=1):
    """So many checks more have passed."""
    PASSED.append(count)


def judged(checks, *words):
    """Makes the checks, up to the first that fails, and ends the script. No check at all is a failure too."""
    failed = 0
    try:
        checks(*words)
        if not sum(PASSED):
            raise SystemExit("nothing was checked")
    except SystemExit as end:
        print(end.code)
        failed = 1
    except Exception:
        print(traceback.format_exc())
        failed = 1
    print(f"{sum(PASSED)} passed, {failed} failed", flush=True)
    sys.exit(failed)


class Talk:
    """A program that lines are said to and that answers in lines. Where it ends too early or takes too long, the script fails
    with what was read last."""

    def __init__(self, words, seconds=600, stdout=subprocess.PIPE, **how):
        self.process = subprocess.Popen(words, stdin=subprocess.PIPE, stdout=stdout, **how)
        self.name, self.last, self.seconds = " ".join(map(str, words)), b"", seconds
        self.alarm = threading.Timer(seconds, self.process.kill)
        self.alarm.daemon = True
        self.alarm.start()

    def say(self, text):
        try:
            self.process.stdin.write(text)
            self.process.stdin.flush()
        except BrokenPipeError:
            self.fail()

    def line(self):
        """Its next line."""
        line = self.process.stdout.readline()
        if not line.endswith(b"\n"):
            self.fail(line)
        self.last = line
        return line

    def until(self, wanted):
        """Reads on to that line."""
        while self.line() != wanted:
            pass

    def end(self):
        """Its status, and what it writes once its input has ended."""
        rest, _ = self.process.communicate()
        self.alarm.cancel()
        return self.process.returncode, rest

    def fail(self, rest=b""):
        self.process.kill()
        status = self.process.wait()
        if self.process.stdout:
            rest += self.process.stdout.read()
        raise SystemExit(f"{self.name}: status {status} within {self.seconds} seconds; what it told last: {(self.last + rest)[-200:]!r}")
