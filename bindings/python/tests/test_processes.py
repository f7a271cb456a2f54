"""Forks, copies, signal handlers and the interpreter's end."""
import copy
import os
import pickle
import signal
import subprocess
import sys
import threading
import unittest
import warnings

from kuvteleg import Reader, Refusal, Resolver

from .objects import NEW_YEAR, PROGRAM, RESOURCE, event, fill

FORKS, SIGNALS, HUNG = 20, 200, 60
LEFT_OPEN = """
import threading
from kuvteleg import Resolver
from tests.objects import NEW_YEAR, fill
resolver = Resolver()
fill(resolver)
resolver.publish()
reader = resolver.reader()
begun = threading.Event()
def asks(resolver=resolver, reader=reader):
    while True:
        reader.look(resolver)
        reader.at("r1", "PRICE", NEW_YEAR)
        begun.set()
threading.Thread(target=asks, daemon=True).start()
begun.wait()
"""


def in_child(call):
    """Whether a call answers in a forked child."""
    with warnings.catch_warnings():
        warnings.simplefilter("ignore", DeprecationWarning)  # of a fork beside threads
        child = os.fork()
    if child == 0:
        signal.alarm(HUNG)
        try:
            call()
        except BaseException:
            os._exit(1)
        os._exit(0)
    return os.waitpid(child, 0)[1] == 0


class Held(unittest.TestCase):
    def setUp(self):
        self.resolver = Resolver()
        fill(self.resolver)
        self.resolver.publish()
        self.reader = self.resolver.reader()

    def tearDown(self):
        self.reader.close()
        self.resolver.close()

    def price(self):
        return self.reader.at("r1", "PRICE", NEW_YEAR).values


class Copies(Held):
    def test_none_is_made(self):
        for held in (self.resolver, self.reader):
            for made in (copy.copy, copy.deepcopy, pickle.dumps):
                with self.assertRaisesRegex(TypeError, "neither copied nor pickled"):
                    made(held)
        self.assertEqual((self.price(), self.resolver.publish()), ((17,), (2, 4)))

    def test_a_refusal_is_pickled(self):
        told = pickle.loads(pickle.dumps(Refusal(22, "event", "e1")))
        self.assertEqual((told.number, told.name, told.kind, told.id), (22, "Exists", "event", "e1"))


class Kinds(Held):
    def test_a_look_is_of_a_resolver(self):
        for other in (self.reader, None, "newest"):
            self.assertRaises(TypeError, Reader().look, other)
        self.assertEqual(self.price(), (17,))

    def test_a_subclass_that_never_opens_is_closed(self):
        class Unopened(Resolver):
            def __init__(self):
                pass

        with self.assertRaises(Refusal) as caught:
            Unopened().publish()
        self.assertEqual(caught.exception.name, "Closed")


class Forks(Held):
    def test_a_child_has_copies_of_its_own(self):
        def uses():
            self.resolver.change("event", "e1", event(18), NEW_YEAR)
            self.resolver.publish()
            with self.resolver.reader() as fresh:
                assert (self.price(), fresh.at("r1", "PRICE", NEW_YEAR).values) == ((17,), (18,))

        self.assertTrue(in_child(uses))
        self.assertTrue(in_child(self.tearDown))
        self.assertEqual((self.price(), self.resolver.publish()), ((17,), (2, 4)))

    def test_beside_threads_that_call(self):
        over, begun = threading.Event(), threading.Barrier(4)

        def calls(call):
            begun.wait()
            while not over.is_set():
                call()

        looking = self.resolver.reader()
        for i in range(2, 500):
            self.resolver.create("resource", f"r{i}", RESOURCE, NEW_YEAR)
        threads = [
            threading.Thread(target=calls, args=(call,))
            for call in (self.resolver.publish, lambda: looking.look(self.resolver), lambda: self.reader.roll("PRICE", NEW_YEAR))
        ]
        for it in threads:
            it.start()
        begun.wait()

        def uses():
            assert self.price() == (17,)
            self.resolver.create("program", "p2", PROGRAM, NEW_YEAR)
            self.resolver.publish()
            looking.look(self.resolver)
            assert looking.seen().version == 503 and len(looking.roll("PRICE", NEW_YEAR)) == 499
            looking.close()

        answered = [in_child(uses) for _ in range(FORKS)]
        over.set()
        for it in threads:
            it.join()
        self.assertEqual(answered, [True] * FORKS)


class Signals(Held):
    def test_a_handler_calls_in_the_middle_of_a_call(self):
        for i in range(2, 100):
            self.resolver.create("resource", f"r{i}", RESOURCE, NEW_YEAR)
        self.resolver.publish()
        self.reader.look(self.resolver)
        told = []

        def asks(*_):
            told.append((self.price(), len(self.reader.roll("PRICE", NEW_YEAR))))
            if len(told) < SIGNALS:
                signal.setitimer(signal.ITIMER_REAL, 0.0007)

        before = signal.signal(signal.SIGALRM, asks)
        try:
            signal.setitimer(signal.ITIMER_REAL, 0.0007)
            while len(told) < SIGNALS:
                self.assertEqual((self.price(), len(self.reader.roll("PRICE", NEW_YEAR))), ((17,), 99))
        finally:
            signal.setitimer(signal.ITIMER_REAL, 0)
            signal.signal(signal.SIGALRM, before)
        self.assertEqual(set(told), {((17,), 99)})

    def test_a_handler_closes(self):
        before = signal.signal(signal.SIGALRM, lambda *_: self.reader.close())
        try:
            signal.setitimer(signal.ITIMER_REAL, 0.0107)
            with self.assertRaises(Refusal) as caught:
                while True:
                    self.price()
        finally:
            signal.signal(signal.SIGALRM, before)
        self.assertEqual(caught.exception.name, "Closed")


class Ends(unittest.TestCase):
    def test_nothing_needs_to_be_closed(self):
        ran = subprocess.run([sys.executable, "-c", LEFT_OPEN], stdin=subprocess.DEVNULL, stderr=subprocess.PIPE)
        self.assertEqual(ran.returncode, 0, ran.stderr)
