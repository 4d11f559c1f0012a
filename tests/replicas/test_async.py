"""`AsyncReplica`: a replica for asyncio, beside one for threads."""
from __future__ import annotations

import asyncio
import os
import signal
import threading
import time
import unittest
import unittest.mock
import uuid
from typing import Any, Awaitable, Callable

import running
from blocks import NOW, Maker, block_id
from cases import ReplicaTest
from wakotehu import AsyncReplica, errors
from wakotehu.encoding import GENESIS
from wakotehu.replicalog import Log


class AsyncReplicaTest(ReplicaTest):
    def opened(self, name: str, **more: Any) -> AsyncReplica:
        url = more.pop("url", None) or self.url
        return AsyncReplica(url, name=name, **{"program": running.PROGRAM, "timeout": 60, "catch_up": 60, **more})

    def run_in_loop(self, work: Callable[[], Awaitable[None]]) -> None:
        """Runs it in an event loop, which has to be there yet after at most so long."""
        asyncio.run(asyncio.wait_for(work(), 120))

    async def until_so(self, is_so: Callable[[], bool]) -> None:
        end = time.monotonic() + 60
        while not is_so():
            self.assertLess(time.monotonic(), end)
            await asyncio.sleep(0.01)

    def tokens(self) -> list[uuid.UUID]:
        return [token for (token,) in self.database.run(self.url, "SELECT token FROM wakotehu.commands ORDER BY place")]

    def test_each_call_and_a_note(self) -> None:
        """Beside a replica for threads, which each tells places; worked by hand."""
        self.history()
        maker = Maker()
        [first, second] = maker.chain(2)
        [other] = maker.chain(1, extra=b"\x07")
        threads = self.replica("threads").seat(3)

        async def work() -> None:
            async with self.opened("tasks", seats=2) as replica:
                self.assertEqual((replica.name, replica.place, len(replica.seats)), ("tasks", 0, 2))
                seat = replica.seat(1)
                self.assertIs(seat, replica.seat(1))
                self.assertEqual((await seat.submit(first, NOW)).at, 1)
                self.assertEqual((await seat.note(), threads.told(1)), (1, 1))
                self.assertEqual(threads.submit(second, NOW).at, 2)
                begun = time.monotonic()
                # The second time it is there already.
                self.assertEqual((await seat.told(2), await seat.told(2)), (2, 2))
                self.assertLess(time.monotonic() - begun, 30)
                best = await seat.getbestblockhash()
                self.assertEqual((best.at, best.value), (2, block_id(second)))
                self.assertLess(best.behind, 5)
                with self.assertRaises(errors.NotFound) as caught:
                    await seat.invalidate(block_id(other))
                self.assertEqual(caught.exception.at, 3)
                self.assertEqual((await seat.try_submit(other, NOW)).value.text, "inconclusive")
                self.assertEqual((await seat.invalidate(block_id(second))).value, "done")
                self.assertEqual((await seat.precious(block_id(other))).at, 6)
                self.assertEqual((await seat.getbestblockhash()).value, block_id(other))
                self.assertEqual((await seat.reconsider(block_id(second))).value, "done")
                self.assertEqual((await seat.getblockhash(2)).value, block_id(second))
                self.assertEqual((await seat.getancestor(block_id(second), 1)).value, block_id(first))
                self.assertEqual((await seat.getfork(block_id(other), block_id(second))).value, GENESIS.id)
                self.assertEqual((await seat.getspent(block_id(second))).value, [])
                moved = await seat.moved(block_id(other))
                self.assertEqual(moved.value, (GENESIS.id, [block_id(other)], [block_id(first), block_id(second)]))
                coins = [maker.coinbases[block_id(block)].id for block in (first, second, other)]
                found = await seat.gettxouts([(coin, 0) for coin in coins])
                self.assertEqual([(own.at, own.value is not None) for own in found], [(7, True), (7, True), (7, False)])
                self.assertEqual((await seat.gettxout(coins[0], 0)).value.height, 1)
                self.assertEqual(len((await seat.coins()).value), 2)
                self.assertEqual((await seat.getblock(block_id(other))).value, other)
                self.assertEqual((await seat.getblockheader(block_id(other))).value.confirmations, -1)
                self.assertEqual([tip.height for tip in (await seat.getchaintips()).value], [2, 1])
                told = await seat.judge(maker.block(block_id(second), more=1), NOW)
                self.assertEqual((told.at, told.value.text), (7, "bad-cb-amount"))
                token = uuid.uuid4()
                self.assertEqual((await seat.try_mark("precious", GENESIS.id, token)).at, 8)
                self.assertEqual((await replica.find(token), await replica.find(token, after=8)), (8, None))
                self.assertEqual(threads.told(8), 8)
                self.assertEqual((replica.status().place, replica.status().lost), (8, None))
                self.assertEqual(replica.setting.heights, (1, 1, 1, 1))

        self.run_in_loop(work)
        names = [seat for (seat,) in self.database.run(self.url, "SELECT seat FROM wakotehu.commands ORDER BY place")]
        self.assertEqual(names, ["tasks_1", "threads_3", *["tasks_1"] * 6])
        self.audited()

    def test_many_writes_take_no_threads(self) -> None:
        """Three hundred writes, and as many who wait for the last place, are under way at once."""
        self.history()

        async def work() -> None:
            async with self.opened("tasks") as replica:
                before, most = threading.active_count(), 0
                waits = [asyncio.create_task(replica.seat(number % 4).told(300)) for number in range(300)]
                writes = [asyncio.create_task(replica.seat(number % 4).try_mark("precious", GENESIS.id)) for number in range(300)]
                while not all(task.done() for task in writes):
                    most = max(most, threading.active_count())
                    await asyncio.sleep(0)
                self.assertEqual(sorted(task.result().at for task in writes), list(range(1, 301)))
                self.assertEqual(await asyncio.gather(*waits), [300] * 300)
                # Those that read.
                self.assertLessEqual(most - before, 8)

        self.run_in_loop(work)
        self.assertEqual(len(self.tokens()), 300)

    def test_writes_that_are_cancelled(self) -> None:
        """One that was sent goes in once, one that wasn't leaves nothing."""
        self.history()
        sent, going, append = threading.Event(), threading.Event(), Log.append

        def slow(log: Log, first, commands, told):
            if commands:
                sent.set()
                going.wait(30)
            return append(log, first, commands, told)

        async def work() -> None:
            first, second, third = (uuid.uuid4() for _ in range(3))
            async with self.opened("tasks") as replica:
                with unittest.mock.patch.object(Log, "append", slow):
                    tasks = [asyncio.create_task(replica.seat(0).try_mark("precious", GENESIS.id, first))]
                    await self.until_so(sent.is_set)
                    tasks.append(asyncio.create_task(replica.seat(0).try_mark("precious", GENESIS.id, second)))
                    await self.until_so(lambda: len(replica._opened()._state.queue) == 1)
                    for task in tasks:
                        task.cancel()
                    await asyncio.wait(tasks)
                    self.assertEqual([task.cancelled() for task in tasks], [True, True])
                    self.assertEqual((len(replica._opened()._state.queue), replica._opened()._state.writes), (0, {}))
                    going.set()
                    await self.until_so(lambda: replica.place == 1)
                self.assertEqual((await replica.seat(0).try_mark("precious", GENESIS.id, third)).at, 2)
            self.assertEqual(self.tokens(), [first, third])

        self.run_in_loop(work)

    def test_waits_that_end(self) -> None:
        """By the time, by the end, by a cancel, and by a difference; none leaves anything."""
        self.history()

        async def work() -> None:
            async with self.opened("tasks", timeout=1.5) as replica:
                state = replica._opened()._state
                begun = time.monotonic()
                with self.assertRaises(errors.TimedOut):
                    await replica.seat(0).told(5)
                self.assertGreater(time.monotonic() - begun, 1)
                task = asyncio.create_task(replica.wait_for(5))
                await asyncio.sleep(0)
                self.assertEqual(len(state._waits), 1)
                task.cancel()
                await asyncio.wait([task])
                self.assertEqual(state._waits, [])
            for closes in (True, False):
                async with self.opened("tasks") as replica:
                    task = asyncio.create_task(replica.seat(0).told(5))
                    await asyncio.sleep(0)
                    if closes:
                        await replica.close()
                    else:
                        await asyncio.to_thread(
                            self.database.run, self.url, "WITH one AS (INSERT INTO wakotehu.commands VALUES (1, %s, 'x_0', 'precious', %s, NULL)"
                            " RETURNING 1) INSERT INTO wakotehu.replies SELECT 1, 'not-found', '', 'x' FROM one", uuid.uuid4(), GENESIS.id,
                        )  # fmt: skip
                    with self.assertRaises(errors.Closed if closes else errors.ReplicaDiffers):
                        await task
                    with self.assertRaises(errors.Closed if closes else errors.ReplicaDiffers):
                        await replica.seat(0).getbestblockhash()

        self.run_in_loop(work)

    def test_a_stopped_database(self) -> None:
        """The event loop goes on while a write waits; it is undecided in the end, and found later."""
        self.history()

        async def work() -> None:
            async with self.opened("tasks", timeout=3) as replica:
                seat, token = replica.seat(0), uuid.uuid4()
                await seat.try_mark("precious", GENESIS.id)
                await self.until_so(lambda: self.database.run(self.url, "SELECT count(*) FROM wakotehu.replies") == [(1,)])
                stopped = [pid for (pid,) in self.database.run(
                    self.url, "SELECT pid FROM pg_stat_activity WHERE application_name = 'wakotehu' AND datname = current_database()"
                )]  # fmt: skip
                for pid in stopped:
                    os.kill(pid, signal.SIGSTOP)
                try:
                    write = asyncio.create_task(seat.try_mark("precious", GENESIS.id, token))
                    reads = 0
                    while not write.done():
                        self.assertEqual((await seat.getbestblockhash()).at, 1)
                        reads += 1
                    with self.assertRaises(errors.Undecided) as caught:
                        await write
                    self.assertEqual(caught.exception.token, token)
                    self.assertGreater(reads, 5)
                finally:
                    for pid in stopped:
                        os.kill(pid, signal.SIGCONT)
                await replica.wait_for(2)
                self.assertEqual(await replica.find(token), 2)

        self.run_in_loop(work)

    def test_what_is_refused(self) -> None:
        self.history()

        async def work() -> None:
            replica = self.opened("tasks")
            self.assertRaises(errors.Closed, replica.seat, 0)
            with self.assertRaises(ValueError):
                async with self.opened("a b"):
                    pass
            with self.assertRaises(errors.Unavailable):
                async with self.opened("one", url=f"host={self.room} dbname=none"):
                    pass
            async with replica:
                with self.assertRaises(errors.Closed):
                    await replica.__aenter__()
                self.assertRaises(IndexError, replica.seat, 4)
                seat = replica.seat(0)
                for call, kind in (
                    (lambda: seat.submit("00", NOW), TypeError), (lambda: seat.submit(b"", -1), ValueError), (lambda: seat.told(-1), ValueError),
                    (lambda: seat.invalidate(b"1"), ValueError), (lambda: seat.invalidate(GENESIS.id, "token"), TypeError),
                    (lambda: seat.gettxout(b"", 0), ValueError), (lambda: replica.find("a"), TypeError),
                ):  # fmt: skip
                    with self.assertRaises(kind):
                        await call()

                def elsewhere() -> str:
                    try:
                        asyncio.run(seat.getbestblockhash())
                    except errors.OtherLoop as error:
                        return str(error)
                    return ""

                self.assertEqual(await asyncio.to_thread(elsewhere), "the replica was opened in another event loop")
            with self.assertRaises(errors.Closed):
                await seat.try_mark("precious", GENESIS.id)

        self.run_in_loop(work)
        self.assertEqual(self.tokens(), [])

    def test_an_opening_that_is_cancelled(self) -> None:
        """What is opened yet is closed: its connections and its node end."""
        self.history()
        opening, going, connect = threading.Event(), threading.Event(), Log.setting

        def slow(log: Log):
            opening.set()
            going.wait(30)
            return connect(log)

        async def work() -> None:
            with unittest.mock.patch.object(Log, "setting", slow):
                task = asyncio.create_task(self.opened("tasks").__aenter__())
                await self.until_so(opening.is_set)
                task.cancel()
                await asyncio.wait([task])
                self.assertTrue(task.cancelled())
                going.set()
                of = "SELECT count(*) FROM pg_stat_activity WHERE application_name = 'wakotehu' AND datname = current_database()"
                await self.until_so(lambda: self.database.run(self.url, of) == [(0,)])

        self.run_in_loop(work)


if __name__ == "__main__":
    unittest.main()
