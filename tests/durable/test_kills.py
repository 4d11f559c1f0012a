"""A node that is killed at random moments, under sixteen clients that write and read."""
from __future__ import annotations

import os
import random
import signal
import time

import blocks
import running
from keeping import Client, Keeping, KeepingTest

# How often it is killed.
KILLS, MANY = 12, 500


class Kills(KeepingTest):
    def test_nothing_told_is_lost(self) -> None:
        """Killed again and again, over one folder: each time the next node has every step that anyone was told of."""
        draw = random.Random(8)
        pool = [(id, data.hex()) for id, data in map(blocks.child_of_genesis, (f"{a}{b}" for a in "ab" for b in "cdefgh"))]
        pool.append((blocks.FIRST_ID, blocks.FIRST))
        clients = [Client(seat, seat, pool) for seat in range(16)]
        before = 0
        for kill in range(MANY if running.LONG else KILLS):
            words = ["--no-sync"] if kill % 3 == 2 else []
            keeping = Keeping(self.folder, clients, *words)
            keeping.run()
            time.sleep(draw.uniform(0, 0.15))
            keeping.kill()
            steps = self.expect_kept(clients)
            self.assertGreaterEqual(steps, before)
            before = steps
            if steps > 20_000:
                for name in os.listdir(self.path("data")):
                    os.remove(self.path(f"data/{name}"))
                before = 0
                for client in clients:
                    client.told.clear()
        self.assertGreater(sum(len(client.told) for client in clients), 0)

    def test_signals(self) -> None:
        """A signal that ends the process loses nothing either."""
        for number in (signal.SIGTERM, signal.SIGINT, signal.SIGHUP):
            clients = [Client(seat, seat, []) for seat in range(16)]
            for name in os.listdir(self.path("data")) if self.exists("data") else []:
                os.remove(self.path(f"data/{name}"))
            keeping = Keeping(self.folder, clients)
            keeping.run()
            # On a busy machine it may take its time to begin.
            until = time.monotonic() + 60
            while not any(client.told for client in clients) and time.monotonic() < until:
                time.sleep(0.01)
            time.sleep(0.1)
            keeping.stops = True
            keeping.process.send_signal(number)
            self.assertEqual(keeping.finish()[0], -number)
            self.assertGreater(self.expect_kept(clients), 0)
