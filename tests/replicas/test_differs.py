"""Replicas whose replies differ: a planted program with a wrong rule, and planted verdicts."""
from __future__ import annotations

import unittest
from typing import Callable

from cases import NOW, ReplicaTest
from wakotehu import errors


class Planted(ReplicaTest):
    def test_the_planted_replica_follows(self) -> None:
        """The honest replica writes; the planted one is stopped by that reply, and another honest one goes on."""
        self.history()
        honest, other = self.replica("honest"), self.replica("other")
        planted = self.replica("planted", program=self.wrong_program(3))
        chain = self.chain(5)
        for block in chain[:3]:
            self.assertEqual(honest.seat(0).submit(block, NOW).value, "accepted")
        self.until(lambda: planted._state.error is not None)
        calls: list[Callable[[], object]] = [planted.status, planted.seat(0).getbestblockhash, lambda: planted.seat(0).submit(chain[3], NOW)]
        for call in calls:
            with self.assertRaises(errors.ReplicaDiffers) as caught:
                call()
        differs = caught.exception
        self.assertEqual((differs.place, differs.own, differs.other, differs.replica), (3, "inconclusive", "accepted", "honest"))
        # No command went in behind it, so it was stopped within this one. The writer of the disputed reply stops too.
        self.assertLessEqual(planted.place, 3)
        self.until(lambda: honest._state.error is not None)
        with self.assertRaises(errors.ReplicaDiffers) as caught:
            honest.status()
        self.assertEqual((caught.exception.own, caught.exception.other, caught.exception.replica), ("accepted", "inconclusive", "planted"))
        self.assertEqual(other.seat(0).submit(chain[3], NOW).at, 4)
        self.assertEqual(self.database.run(self.url, "SELECT place, replica, reply FROM wakotehu.differences"), [(3, "planted", "inconclusive")])
        ended = self.command("check", self.url)
        self.assertEqual((ended.returncode, ended.stdout.splitlines()[1:]), (1, ["agrees", "place 3: planted differs: inconclusive"]))

    def test_the_planted_replica_writes(self) -> None:
        """Its wrong reply stands in the table; the others stop, and it is stopped by theirs before it answers one more."""
        self.history()
        honest, planted = self.replica("honest"), self.replica("planted", program=self.wrong_program(2))
        chain = self.chain(3)
        self.assertEqual(planted.seat(0).submit(chain[0], NOW).value, "accepted")
        self.assertEqual(planted.seat(0).submit(chain[1], NOW).value, "inconclusive")
        self.until(lambda: planted._state.error is not None and honest._state.error is not None)
        for replica, own, other, name in ((honest, "accepted", "inconclusive", "planted"), (planted, "inconclusive", "accepted", "honest")):
            with self.assertRaises(errors.ReplicaDiffers) as caught:
                replica.status()
            differs = caught.exception
            self.assertEqual((differs.place, differs.own, differs.other, differs.replica), (2, own, other, name))
        self.assertEqual(self.database.run(self.url, "SELECT max(place) FROM wakotehu.commands"), [(2,)])
        ended = self.command("check", self.url)
        self.assertEqual((ended.returncode, ended.stdout.splitlines()[1:]), (1, ["line 2", "place 2: honest differs: accepted"]))
        # Who opens a replica over a wrong reply is stopped by it too.
        with self.assertRaises(errors.ReplicaDiffers):
            self.replica("third")

    def test_a_follower_is_stopped_too(self) -> None:
        """One that may write nothing compares all the same."""
        self.history()
        self.database.run(self.url, "CREATE ROLE reads_only LOGIN IN ROLE wakotehu_follower")
        honest = self.replica("honest")
        planted = self.replica("planted", url=self.url.replace("user=owner", "user=reads_only"), program=self.wrong_program(1))
        honest.seat(0).submit(self.chain(1)[0], NOW)
        self.until(lambda: planted._state.error is not None)
        self.assertRaises(errors.ReplicaDiffers, planted.seat(0).getbestblockhash)
        self.assertEqual(honest.status().place, 1)


if __name__ == "__main__":
    unittest.main()
