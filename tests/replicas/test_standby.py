"""A standby of PostgreSQL: replicas that follow it, and a failover to it."""
from __future__ import annotations

import signal
import time
import unittest

import running
from blocks import NOW, Maker, block_id
from database import Database
from wakotehu import errors
from wakotehu.replica import Replica


class Standby(unittest.TestCase):
    def test_a_failover(self) -> None:
        """A follower of the standby asks for rows, as it can't be notified. With a synchronous standby nothing that was answered
        is lost when the server dies, and writes go on at the standby."""
        first = Database()
        self.addCleanup(first.remove)
        url = first.make("history")
        second = Database(of=first)
        self.addCleanup(second.remove)
        first.run(url, "ALTER SYSTEM SET synchronous_standby_names = '*'")
        first.run(url, "SELECT pg_reload_conf()")
        both = f"host={first.folder},{second.folder} dbname=history user=owner target_session_attrs=read-write"
        how = {"program": running.PROGRAM, "timeout": 60, "catch_up": 60}
        with Replica(both, name="writer", **how) as writer, Replica(second.url("history"), name="reader", poll=0.05, **how) as reader:
            chain = Maker().chain(6)
            for block in chain[:5]:
                at = writer.seat(0).submit(block, NOW).at
            self.assertEqual(reader.seat(0).told(at), 5)
            self.assertEqual(reader.seat(0).getbestblockhash().value, block_id(chain[4]))
            self.assertRaises(errors.ReadOnly, reader.seat(0).submit, chain[5], NOW)
            first.stop(signal.SIGQUIT)
            second.promote()
            until = time.monotonic() + 60
            while time.monotonic() < until:
                try:
                    at = writer.seat(0).submit(chain[5], NOW).at
                    break
                except errors.Unavailable:
                    time.sleep(0.05)
            self.assertEqual(at, 6)
            self.assertEqual(reader.seat(0).told(6), 6)
            self.assertEqual(reader.seat(0).getbestblockhash().value, block_id(chain[5]))
        rows = second.run(second.url("history"), "SELECT place, command FROM wakotehu.commands ORDER BY place")
        self.assertEqual(rows, [(place, "submit") for place in range(1, 7)])


if __name__ == "__main__":
    unittest.main()
