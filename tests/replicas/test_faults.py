"""Replicas and PostgreSQL that are killed, stopped and cut off at random: nothing answered is lost, and no place is there twice."""
from __future__ import annotations

import os
import random
import signal
import threading
import time
import unittest
import unittest.mock
import uuid
from typing import Any

import psycopg
import running
from blocks import NOW, block_id
from cases import ReplicaTest
from checker import WRITES, check
from database import Database
from playing import REPLICAS, History, Worker
from wakotehu import errors, replication
from wakotehu.encoding import GENESIS
from wakotehu.following import Follower
from wakotehu.replicalog import Log, Lost, Refused

#: So many faults come one after the other, about a second apart.
FAULTS = 60 if running.LONG else 18


class Random(unittest.TestCase):
    def test_faults_at_random(self) -> None:
        """Three replicas, of which one is slow and one for asyncio, with six clients each, under faults of every kind."""
        database = Database()
        self.addCleanup(database.remove)
        history = History(database, "faults", running.PROGRAM)
        self.addCleanup(history.remove)
        draw, self.until = random.Random(5), os.path.join(history.room.name, "until")
        workers = [self.start(history, number, 0) for number in range(REPLICAS)]
        kinds = ["kill", "stop", "restart", "immediate", "cut", "cut"]
        for fault in range(FAULTS):
            kind, number = kinds[fault % len(kinds)], draw.randrange(REPLICAS)
            time.sleep(draw.uniform(0.2, 0.8))
            if kind == "kill":
                workers[number].kill()
                workers[number] = self.start(history, number, fault + 1)
            elif kind == "stop":
                workers[number].process.send_signal(signal.SIGSTOP)
                time.sleep(draw.uniform(0.1, 0.6))
                workers[number].process.send_signal(signal.SIGCONT)
            elif kind == "cut":
                # Under load some of them are amid a commit.
                database.run(
                    history.url, "SELECT pg_terminate_backend(pid) FROM pg_stat_activity WHERE application_name = 'wakotehu' AND random() < 0.7"
                )
            else:
                database.stop(signal.SIGINT if kind == "restart" else signal.SIGQUIT)
                time.sleep(draw.uniform(0, 0.3))
                database.start()
        with open(self.until, "w", encoding="ascii"):
            pass
        for worker in workers:
            worker.ended(180)
        rows, clients = history.rows(), history.clients()
        check(rows, clients, running.PROGRAM)
        writes = [own for each in clients.values() for own in each if own.what["asks"] in WRITES]
        ends = {end: sum(own.error == end for own in writes) for end in (None, "undecided", "unavailable", "ended")}
        print(f"{len(rows)} rows, {FAULTS} faults, writes by their ends: {ends}")
        self.assertGreater(ends[None], 300)
        self.assertGreater(ends["unavailable"] + ends["ended"] + ends["undecided"], 0)

    def start(self, history: History, number: int, generation: int) -> Worker:
        worker = history.start(
            number, generation, seed=generation, until=self.until, pause=0.02, slow=0.001 if number == 2 else 0.0,
            is_async=number == 1,
        )  # fmt: skip
        worker.opened()
        return worker


class Worked(ReplicaTest):
    """Single faults, with what has to come of each."""

    def setUp(self) -> None:
        super().setUp()
        self.history()

    def pids(self) -> list[int]:
        return [pid for (pid,) in self.database.run(
            self.url, "SELECT pid FROM pg_stat_activity WHERE application_name = 'wakotehu' AND datname = current_database()"
        )]  # fmt: skip

    def test_the_answer_to_a_commit_is_lost(self) -> None:
        """Most commits are refused, or lose the connection before they are sent or behind them: each command is there once."""
        draw, append = random.Random(3), Log.append

        def cut(log: Log, first: Any, commands: Any, told: Any) -> Any:
            kind = draw.randrange(6)
            if kind == 0:
                raise Lost("before it was sent")
            if kind == 1:
                raise Refused("nothing is done")
            answered = append(log, first, commands, told)
            if kind < 4:
                raise Lost("behind the commit")
            return answered

        replicas = [self.replica(name) for name in ("one", "two")]
        marked, faults = [], []

        def run(replica: Any, number: int) -> None:
            try:
                for n in range(20):
                    token = uuid.uuid4()
                    while True:
                        try:
                            marked.append((replica.seat(number).try_mark("precious", GENESIS.id, token).at, token))
                            break
                        except errors.Unavailable:
                            token = uuid.uuid4()
                            time.sleep(0.005)
            except BaseException as fault:
                faults.append(fault)

        with unittest.mock.patch.object(Log, "append", cut):
            threads = [threading.Thread(target=run, args=(replica, number)) for replica in replicas for number in range(4)]
            for thread in threads:
                thread.start()
            for thread in threads:
                thread.join(60)
        self.assertEqual(faults, [])
        rows = self.database.run(self.url, "SELECT place, token FROM wakotehu.commands ORDER BY place")
        # What was answered is all that is there: so none is there twice, and none of what was refused is.
        self.assertEqual(sorted(marked), rows)
        self.assertEqual([place for place, _ in rows], list(range(1, 161)))

    def test_a_refusal_behind_a_lost_commit(self) -> None:
        """That the database refuses a row says nothing of the row that went in before, when the connection was lost."""
        one, append, calls = self.replica("one"), Log.append, []
        taken, take_all = threading.Event(), Follower._take_all

        def cut(log: Log, first: Any, commands: Any, told: Any) -> Any:
            calls.append(first)
            if len(calls) == 2:
                raise Refused("no room")
            answered = append(log, first, commands, told)
            if len(calls) == 1:
                raise Lost("behind the commit")
            taken.set()
            return answered

        def late(follower: Follower, rows: Any) -> None:
            # So that nobody hears of the row from the log before it is tried again.
            taken.wait(30)
            take_all(follower, rows)

        with unittest.mock.patch.object(Log, "append", cut), unittest.mock.patch.object(Follower, "_take_all", late):
            self.assertEqual(one.seat(0).try_mark("precious", GENESIS.id).at, 1)
        self.assertEqual(calls[:3], [1, 1, 1])
        self.assertEqual(self.database.run(self.url, "SELECT count(*) FROM wakotehu.commands"), [(1,)])

    def test_a_commit_that_comes_late(self) -> None:
        """A connection is lost amid a commit, which goes in only after the database said to try again: the row is there once."""
        one, append, calls, late = self.replica("one"), Log.append, [], []

        def cut(log: Log, first: Any, commands: Any, told: Any) -> Any:
            calls.append(first)
            if len(calls) == 1:
                late.append((first, commands))
                raise Lost("amid the commit")
            if len(calls) == 2:
                return False
            if late:
                with Log(self.url) as other:
                    append(other, *late.pop(), [])
            return append(log, first, commands, told)

        with unittest.mock.patch.object(Log, "append", cut):
            self.assertEqual(one.seat(0).try_mark("precious", GENESIS.id).at, 1)
            self.assertEqual(one.seat(0).try_mark("precious", GENESIS.id).at, 2)
        self.assertEqual(calls[:3], [1, 1, 1])
        self.assertEqual(self.database.run(self.url, "SELECT count(*) FROM wakotehu.commands"), [(2,)])

    def test_a_stopped_database(self) -> None:
        """A write that isn't answered in time says that it is undecided; its row is found by its token, and comes once."""
        one = self.replica("one", timeout=4)
        seat, token = one.seat(0), uuid.uuid4()
        [block] = self.chain(1)
        seat.try_mark("precious", GENESIS.id)
        # Nothing else is under way then.
        self.until(lambda: self.database.run(self.url, "SELECT count(*) FROM wakotehu.replies") == [(1,)])
        stopped = self.pids()
        for pid in stopped:
            os.kill(pid, signal.SIGSTOP)
        try:
            with self.assertRaises(errors.Undecided) as caught:
                seat.submit(block, NOW, token)
            self.assertEqual(caught.exception.token, token)
            best = seat.getbestblockhash()
            self.assertEqual((best.at, best.value), (1, GENESIS.id))
            self.assertGreater(best.behind, 1)
        finally:
            for pid in stopped:
                os.kill(pid, signal.SIGCONT)
        self.until(lambda: one.find(token) == 2)
        self.assertEqual(seat.told(2), 2)
        self.assertEqual(seat.getbestblockhash().value, block_id(block))
        self.assertEqual(self.database.run(self.url, "SELECT count(*) FROM wakotehu.commands"), [(2,)])

    def test_a_connection_that_hangs(self) -> None:
        """The server's process of the one that follows, and of the one that appends, is stopped: another one is asked, and the
        write is there once, also when the stopped process goes on."""
        for number in (0, 1):
            self.history()
            with unittest.mock.patch.object(replication, "_PATIENCE", 2):
                one = self.replica("one", timeout=40)
            # Nothing else is under way then.
            one.seat(0).try_mark("precious", GENESIS.id)
            self.until(lambda: self.database.run(self.url, "SELECT count(*) FROM wakotehu.replies") == [(1,)])
            threads: Any = one._threads
            stopped = threads[number]._log._connection.info.backend_pid
            os.kill(stopped, signal.SIGSTOP)
            try:
                self.assertEqual(one.seat(0).try_mark("precious", GENESIS.id).at, 2)
            finally:
                os.kill(stopped, signal.SIGCONT)
            self.until(lambda: stopped not in self.pids())
            self.assertEqual(one.seat(0).try_mark("precious", GENESIS.id).at, 3)
            self.assertEqual(self.database.run(self.url, "SELECT count(*) FROM wakotehu.commands"), [(3,)])

    def test_patience(self) -> None:
        """A connection is given up later each time, until a statement was answered; one that isn't waited for never is."""
        interrupted: list[int] = []
        first, other = unittest.mock.Mock(), unittest.mock.Mock()
        thread, second = replication.Connected(replication.State("one"), "", "follow", first), 0
        first.interrupt = other.interrupt = lambda: interrupted.append(second)
        # At the first second of each row there is another statement. On another connection that is no answer.
        for log, asked, seconds, last in ((first, 2, 700, 0), (first, 3, 21, 721), (other, 5, 41, 762), (other, 7, 21, 783), (other, 8, 700, 783)):
            log.asked, thread._log = asked, log
            for _ in range(seconds):
                second += 1
                thread.tick()
            self.assertEqual(interrupted[-1:], [last] if last else [])
        self.assertEqual(interrupted, [721, 762, 783])

    def test_a_cut_connection_alone(self) -> None:
        """Idle connections that are cut are opened again, and the next write goes in."""
        one = self.replica("one")
        for number in range(5):
            for pid in self.pids():
                self.database.run(self.url, "SELECT pg_terminate_backend(%s)", pid)
            done = False
            while not done:
                try:
                    at = one.seat(0).try_mark("precious", GENESIS.id).at
                    done = True
                except errors.Unavailable:
                    time.sleep(0.01)
            self.assertEqual(at, number + 1)

    def test_a_log_that_lost_rows(self) -> None:
        """As after a failover to a standby that lacks some: a replica that is ahead takes nothing more, and adds nothing."""
        for other in (0, 1, 3):
            self.history()
            one = self.replica("one")
            for _ in range(3):
                one.seat(0).try_mark("precious", GENESIS.id)
            with psycopg.connect(self.url) as connection:
                # All of it at once.
                connection.execute("DELETE FROM wakotehu.commands WHERE place > 1")
                connection.execute(
                    "INSERT INTO wakotehu.commands SELECT place, gen_random_uuid(), 'x_0', 'precious', %s, NULL"
                    " FROM generate_series(2, %s) place", (GENESIS.id, 1 + other),
                )  # fmt: skip
            self.until(lambda: one._state.error is not None)
            self.assertRaises(errors.BadRow, one.status)
            self.assertRaises(errors.BadRow, one.seat(0).try_mark, "precious", GENESIS.id)
            self.assertEqual(self.database.run(self.url, "SELECT count(*) FROM wakotehu.commands"), [(1 + other,)])

    def test_replies_that_a_dead_replica_did_not_write(self) -> None:
        """A command that has no reply gets it from another replica."""
        self.replica("one")
        self.database.run(
            self.url, "INSERT INTO wakotehu.commands VALUES (1, gen_random_uuid(), 'gone_0', 'precious', %s, NULL)", GENESIS.id
        )
        found = "SELECT reply, replica FROM wakotehu.replies"
        self.until(lambda: self.database.run(self.url, found) == [("done", "one")])


class Ended(unittest.TestCase):
    """A server of its own, which ends."""

    def test_reads_go_on_without_the_database(self) -> None:
        """Writes say that they aren't there; reads say how far behind they may be; both go on with the database."""
        from wakotehu.replica import Replica

        database = Database()
        self.addCleanup(database.remove)
        url = database.make("ended")
        with Replica(url, name="one", program=running.PROGRAM, timeout=30) as one:
            seat = one.seat(0)
            seat.try_mark("precious", GENESIS.id)
            for how in (signal.SIGINT, signal.SIGQUIT):
                database.stop(how)
                stopped, until = time.monotonic(), time.monotonic() + 20
                while one.status().lost is None and time.monotonic() < until:
                    time.sleep(0.01)
                begun = time.monotonic()
                self.assertRaises(errors.Unavailable, seat.try_mark, "precious", GENESIS.id)
                self.assertLess(time.monotonic() - begun, 5)
                place = one.place
                best = seat.getbestblockhash()
                self.assertEqual((best.at, best.value), (place, GENESIS.id))
                self.assertGreaterEqual(best.behind, time.monotonic() - stopped - 1)
                database.start()
                while one.status().lost is not None and time.monotonic() < until:
                    time.sleep(0.01)
                self.assertEqual(seat.try_mark("precious", GENESIS.id).at, place + 1)
                self.assertLess(seat.getbestblockhash().behind, 5)


if __name__ == "__main__":
    unittest.main()
