"""Readers in threads beside an editor."""
import asyncio
import threading
import unittest

from kuvteleg import Resolver

from .objects import NEW_YEAR, event, fill

READERS, LOOKS = 3, 4000


class Threads(unittest.TestCase):
    def test_readers_beside_an_editor(self):
        wrong, finished = [], threading.Event()

        def reads(resolver):
            reader, last = resolver.reader(), 0
            for _ in range(LOOKS):
                reader.look(resolver)
                number, version = reader.seen()
                # The price of a publication is its version.
                if number < last or reader.at("r1", "PRICE", NEW_YEAR).values != (version,):
                    wrong.append((number, version))
                last = number

        with Resolver() as resolver:
            fill(resolver, 4)
            resolver.publish()
            threads = [threading.Thread(target=reads, args=(resolver,)) for _ in range(READERS)]
            for it in threads:
                it.start()
            watch = threading.Thread(target=lambda: ([it.join() for it in threads], finished.set()))
            watch.start()
            version = 4
            while not finished.is_set():
                version = resolver.change("event", "e1", event(version + 1), NEW_YEAR)
                resolver.publish()
                if version % 100 == 0:
                    resolver.condense()
            watch.join()
        self.assertEqual(wrong, [])
        self.assertGreater(version, 4)

    def test_one_reader_in_many_threads(self):
        with Resolver() as resolver:
            fill(resolver)
            resolver.publish()
            reader, told = resolver.reader(), []
            threads = [threading.Thread(target=lambda: told.append({reader.at("r1", "PRICE", NEW_YEAR).event for _ in range(1000)})) for _ in range(4)]
            for it in threads:
                it.start()
            for it in threads:
                it.join()
            self.assertEqual(told, [{"e1"}] * 4)

    def test_a_loop_asks_while_another_thread_loads(self):
        served = [
            {"id": "p1", "objectType": "PROGRAM", "programName": "P"},
            {"id": "v1", "objectType": "VEN", "venName": "V"},
            *({"id": f"r{i}", "objectType": "RESOURCE", "resourceName": "R", "venID": "v1"} for i in range(2000)),
        ]

        def load():
            with Resolver() as fresh:
                fresh.load(served, NEW_YEAR)
                fresh.publish()
                return fresh.reader()

        async def follow(reader):
            task, answered = asyncio.create_task(asyncio.to_thread(load)), 0
            while not task.done():
                self.assertEqual(reader.at("r1", "PRICE", NEW_YEAR).event, "e1")
                answered += 1
                await asyncio.sleep(0)
            return answered, len(task.result().roll("PRICE", NEW_YEAR))

        with Resolver() as resolver:
            fill(resolver)
            resolver.publish()
            answered, count = asyncio.run(follow(resolver.reader()))
        self.assertGreater(answered, 0)
        self.assertEqual(count, 2000)
