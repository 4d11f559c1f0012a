"""Interrupts at random, as Ctrl-C is one: what a Bench says of its steps is what its chainstate took."""

import random
import threading
import time
import unittest
from uuid import uuid4

from blocks import NOW, Maker, block_id
from interrupts import Interrupts
from wakotehu import Bench, Chainstate, Replica, errors, replica
from wakotehu.encoding import GENESIS
from wakotehu.replicalog import Command
from wakotehu.replication import State


class JournalTest(unittest.TestCase):
    def setUp(self):
        self.interrupts = Interrupts(self)

    def test_no_step_is_lost(self):
        for seed in range(7):
            with self.subTest(seed=seed):
                self.played(random.Random(seed))

    def played(self, chance):
        maker = Maker()
        main, other = maker.chain(40), maker.chain(41, extra=b"o")
        blocks = [block for pair in zip(main, other) for block in pair] + other[-1:]
        with Bench() as bench:
            told = []
            bench.taken = lambda command, id, data, now, reply: told.append((command, id, now, reply))
            cut = 0
            while len(blocks) > len({entry.id for entry in bench.journal if entry.command == "submit"}):
                known = {entry.id for entry in bench.journal}
                block = next(block for block in blocks if block_id(block) not in known)
                cut += self.interrupts.cut(lambda: bench.try_submit(block, NOW), chance.uniform(1e-5, 2e-4))
                command = chance.choice(("invalidate", "reconsider", "precious"))
                marked = chance.choice(sorted(known)) if known else GENESIS.id
                cut += self.interrupts.cut(lambda: bench.try_mark(command, marked), chance.uniform(1e-5, 1e-4))
            self.assertGreater(cut, 10)
            self.agrees(bench)
            # Each step was told once, unless the interrupt came into the telling.
            self.assertLessEqual(len(told), len(set(map(id, told))))

    def agrees(self, bench):
        """The journal, played again, has its replies, and leads to what the bench has."""
        with Chainstate() as chain:
            for entry in bench.journal:
                if entry.command == "submit":
                    self.assertEqual(chain.try_submit(bench.block(entry.id), entry.now).text, entry.reply)
                else:
                    self.assertEqual(chain.try_mark(entry.command, entry.id).text, entry.reply)
            self.assertEqual(chain.tips(), bench.tips())
            self.assertEqual(chain.best(), bench.best())
        self.assertEqual(bench.index.active[-1], bench.best())
        self.assertEqual(len(bench.index.active), bench.height() + 1)
        self.assertEqual(bench.index.active_size, 285 + sum(len(bench.block(id)) for id in bench.branch()))
        for entry in bench.journal:
            self.assertTrue(bench.is_kept(entry.id))


class WaitTest(unittest.TestCase):
    """Who waits at a replica, for a place or for what becomes of a command, and is interrupted, lets go no lock of others."""

    def setUp(self):
        self.interrupts, self.state = Interrupts(self), State("name")
        self.replica = object.__new__(Replica)
        self.replica._state, self.replica._timeout, self.replica._may_write = self.state, 0.001, True

    def test_waits(self):
        stop = threading.Event()

        def hold():
            """Takes places all the time, so that a wait's end often waits for the lock."""
            while not stop.is_set():
                with self.state.lock:
                    self.state.wake()
                    time.sleep(0.0003)
                time.sleep(0.0001)

        thread, chance, cut = threading.Thread(target=hold), random.Random(3), 0
        thread.start()
        try:
            for _ in range(1500):
                write = replica.Write(Command(uuid4(), "", "invalidate", bytes(32), None), replica.Bell())
                for call in (lambda: self.replica.wait_for(1), lambda: write.done.wait(0.001)):
                    try:
                        cut += self.interrupts.cut(call, chance.uniform(1e-5, 2e-3))
                    except errors.TimedOut:
                        pass
        finally:
            stop.set()
            thread.join()
        self.assertGreater(cut, 100)
        self.assertFalse(self.state.lock.locked() or self.state._looks)

    def test_a_bell(self):
        bell = replica.Bell()
        self.assertFalse(bell.wait(0.001))
        threading.Timer(0.05, bell.set).start()
        self.assertTrue(bell.wait(5) and bell.wait(5))
        bell.set()
        self.assertTrue(bell.wait())


if __name__ == "__main__":
    unittest.main()
