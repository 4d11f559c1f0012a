"""Who waits at a node, and for how long: processes that don't answer, calls that are cut short, processes and event loops
that aren't the node's, and nodes that nobody closes."""

import asyncio
import gc
import os
import random
import subprocess
import sys
import tempfile
import threading
import time
import unittest
import unittest.mock
import warnings

import wakotehu
from blocks import NOW, Maker, block_id
from fakes import fake
from interrupts import Interrupts
from test_node import PROGRAM
from wakotehu import AsyncNode, Node, Stamped, errors, pipe
from wakotehu.served import LONGEST_BLOCK, UNDER_WAY

#: Answers nothing but `getbestblockhash`.
SILENT = """
if asked['method'] == 'getbestblockhash':
    say(asked['id'], result={'at': 0, 'answer': {'hash': '00' * 32}})
"""
#: Holds what it is asked until `getchaintips` comes; then it answers all, the last first.
HOLDS = """
if asked['method'] == 'finish':
    say(asked['id'], result={'at': 0})
    break
held.append(asked)
if asked['method'] == 'getchaintips':
    for one in reversed(held):
        answer = {'at': len(held)} if one['method'] == 'note' else {'at': len(held), 'answer': []}
        say(one['id'], result=answer)
    held.clear()
"""
#: Refuses its first line without naming it, as the program does with one that is too long.
NAMELESS = """
if asked['method'] == 'note':
    if not held:
        say(None, error={'code': -32600, 'message': 'invalid request', 'data': 'line'})
    held.append(asked)
else:
    say(asked['id'], result={'at': 0})
    if asked['method'] == 'finish':
        break
"""
NOISE = """
print('{"id": 1' if asked['method'] == 'note' else '', flush=True)
"""
#: Reads nothing more after `note`.
DEAF = """
if asked['method'] == 'note':
    time.sleep(1000)
"""


def is_running(process):
    """Whether a process runs; one that has ended and isn't waited for doesn't."""
    try:
        with open(f"/proc/{process}/stat", encoding="ascii") as file:
            return file.read().rsplit(") ", 1)[1][0] != "Z"
    except OSError:
        return False


class WaitingTest(unittest.TestCase):
    def setUp(self):
        room = tempfile.TemporaryDirectory()
        self.addCleanup(room.cleanup)
        self.room = room.name

    def node(self, body, **more):
        node = Node(seats=1, program=fake(self.room, body), **more)
        self.addCleanup(node.kill)
        return node

    def thread(self, call):
        """A thread that makes a call, and a list that gets what it answers or raises."""
        found = []

        def run():
            try:
                found.append(call())
            except Exception as error:
                found.append(error)

        thread = threading.Thread(target=run, daemon=True)
        thread.start()
        return thread, found

    # ---- for how long

    def test_a_call_waits_no_longer_than_it_may(self):
        node = self.node(SILENT, timeout=4.0)
        self.assertRaises(wakotehu.TimedOut, node.seat(0).note)
        self.assertEqual(node.seat(0).getbestblockhash().value, bytes(32))
        self.assertTrue(issubclass(wakotehu.TimedOut, TimeoutError))
        self.assertRaises(wakotehu.TimedOut, node.close)
        self.assertEqual(node._process.returncode, -9)
        self.assertRaises(wakotehu.Closed, node.seat(0).note)

    def test_an_opening_too(self):
        path = os.path.join(self.room, "sleeper")
        with open(path, "w", encoding="ascii") as file:
            file.write("#!/bin/sh\nexec sleep 1000\n")
        os.chmod(path, 0o755)
        self.assertRaises(wakotehu.TimedOut, Node, program=path, timeout=0.3)
        opened = AsyncNode(program=path, timeout=0.3)
        self.assertRaises(wakotehu.TimedOut, asyncio.run, opened.__aenter__())

    def test_a_line_that_nobody_reads(self):
        node = self.node(DEAF, timeout=4.0)
        self.assertRaises(wakotehu.TimedOut, node.seat(0).note)
        for _ in range(2):
            self.assertRaises(wakotehu.TimedOut, node.seat(0).submit, bytes(10**6), NOW)
        self.assertRaises(wakotehu.TimedOut, node.close)

    def test_it_is_killed_while_another_thread_writes(self):
        node = self.node(DEAF, timeout=60)
        calls = [self.thread(node.seat(0).note), self.thread(lambda: node.seat(0).submit(bytes(10**6), NOW))]
        time.sleep(0.3)
        begun = time.monotonic()
        node.kill()
        self.assertLess(time.monotonic() - begun, 20)
        for thread, _ in calls:
            thread.join(10)
        self.assertEqual({type(found) for _, [found] in calls}, {wakotehu.NodeDied})

    def test_the_places_of_calls_that_were_not_answered(self):
        """Not more than the program lets wait are under way, also of those of which nobody waits any more."""
        node = self.node(HOLDS, timeout=4.0)
        seat = node.seat(0)
        calls = [self.thread(seat.note) for _ in range(UNDER_WAY + 5)]
        for thread, _ in calls:
            thread.join(30)
        self.assertEqual({type(found) for _, [found] in calls}, {wakotehu.TimedOut})
        self.assertEqual(len({id(found) for _, [found] in calls}), UNDER_WAY + 5)
        self.assertRaises(wakotehu.TimedOut, seat.getchaintips)
        self.assertEqual(sum(map(len, node._pipe._waiting)), UNDER_WAY)

    def test_answers_in_any_order_find_who_asked(self):
        seat = self.node(HOLDS).seat(0)
        calls = [self.thread(seat.note) for _ in range(20)]
        while sum(map(len, seat.node._pipe._waiting)) < 20:
            time.sleep(0.01)
        self.assertEqual(seat.getchaintips(), Stamped(21, []))
        for thread, found in calls:
            thread.join(10)
            self.assertEqual(found, [21])

    def test_an_answer_that_another_one_read_before(self):
        """Between its look for an answer and its turn to read another thread reads that answer, and leaves."""
        own, is_reader = threading.get_ident(), pipe.Pipe._is_reader

        def late(of, waiter):
            while waiter.thread == own and waiter.answer is None:
                thread, _ = self.thread(node.seat(1).note)
                thread.join(10)
            return is_reader(of, waiter)

        begun = time.monotonic()
        with Node(seats=2, program=PROGRAM) as node, unittest.mock.patch.object(pipe.Pipe, "_is_reader", late):
            self.assertEqual(node.seat(0).note(), 0)
        self.assertLess(time.monotonic() - begun, 30)

    # ---- answers that are of no call

    def test_a_block_that_is_too_long_is_not_sent(self):
        with Node(seats=1, program=PROGRAM) as node:
            with self.assertRaisesRegex(ValueError, "block"):
                node.seat(0).submit(bytes(LONGEST_BLOCK + 1), NOW)
            with self.assertRaises(wakotehu.DecodeFailed):
                node.seat(0).submit(bytes(LONGEST_BLOCK), NOW)

    def test_a_refusal_without_a_name_ends_the_calls_that_wait(self):
        node = self.node(NAMELESS)
        with self.assertRaises(wakotehu.BadRequest) as caught:
            node.seat(0).note()
        self.assertEqual((caught.exception.code, caught.exception.data), (-32600, "line"))
        self.assertEqual(node.close(), 0)

    def test_an_answer_that_is_none(self):
        node = self.node(NOISE)
        with self.assertRaises(wakotehu.NodeDied) as caught:
            node.seat(0).note()
        self.assertIn('{"id": 1', caught.exception.stderr)

    def test_each_that_waits_has_its_own_exception(self):
        node = self.node(SILENT)
        calls = [self.thread(node.seat(0).note) for _ in range(8)]
        while sum(map(len, node._pipe._waiting)) < 8:
            time.sleep(0.01)
        node._process.kill()
        for thread, _ in calls:
            thread.join(10)
        self.assertEqual({type(found) for _, [found] in calls}, {wakotehu.NodeDied})
        self.assertEqual(len({id(found) for _, [found] in calls}), 8)

    # ---- processes

    def test_the_place_of_a_refusal_has_a_type(self):
        self.assertIsNone(errors.Error().at)
        self.assertIsNone(errors.BadCbAmount().at)

    def test_it_is_in_a_session_of_its_own(self):
        with Node(seats=1, program=PROGRAM) as node:
            self.assertEqual(os.getsid(node._process.pid), node._process.pid)
            self.assertNotEqual(os.getpgid(node._process.pid), os.getpgid(0))

    def test_a_node_that_is_dropped_ends_its_process(self):
        for keep_seat in (False, True):
            node = Node(seats=1, program=PROGRAM)
            seat = node.seat(0) if keep_seat else None
            process = node._process
            with warnings.catch_warnings(record=True) as caught:
                warnings.simplefilter("always")
                del node
                if seat:
                    self.assertEqual(seat.note(), 0)
                    self.assertIsNone(process.poll())
                    del seat
            self.assertEqual([one.category for one in caught], [ResourceWarning])
            self.assertEqual(process.poll(), -9)

    def test_a_fork_is_refused(self):
        with Node(seats=1, program=PROGRAM) as node:
            seat = node.seat(0)
            seat.submit(Maker().chain(1)[0], NOW)
            child = os.fork()
            if child == 0:
                wrong = 0
                for call in (seat.note, node.close, node.kill):
                    try:
                        call()
                        wrong += 1
                    except errors.OtherProcess:
                        pass
                del seat, node
                gc.collect()
                os._exit(wrong)
            self.assertEqual(os.waitpid(child, 0)[1], 0)
            self.assertEqual(seat.note(), 1)

    def test_a_fork_that_lives_on_keeps_no_process(self):
        """The node's process ends with the one that opened it, also where a fork of that doesn't."""
        begins = "import asyncio, os, sys, time\nfrom wakotehu import AsyncNode, Node\n"
        ends = "if os.fork() == 0:\n    os.close(1)\n    time.sleep(20)\n    os._exit(0)\nprint({}, flush=True)\nos._exit(0)\n"
        cases = [
            "node = Node(seats=1, program=sys.argv[1])\n" + ends.format("node._process.pid"),
            "async def main():\n    node = await AsyncNode(seats=1, program=sys.argv[1]).__aenter__()\n"
            + "".join(f"    {line}\n" for line in ends.format("node._pipe.transport.get_pid()").splitlines())
            + "asyncio.run(main())\n",
        ]
        for code in cases:
            with self.subTest(code):
                done = subprocess.run(
                    [sys.executable, "-c", begins + code, PROGRAM], stdout=subprocess.PIPE, start_new_session=True, timeout=60
                )
                process, end = int(done.stdout), time.monotonic() + 20
                while is_running(process) and time.monotonic() < end:
                    time.sleep(0.01)
                self.assertFalse(is_running(process))

    def test_interrupts_at_random(self):
        """Calls that are cut short anywhere leave the pipe in order."""
        chance, blocks, interrupts = random.Random(5), Maker().chain(30), Interrupts(self)
        with Node(seats=1, program=PROGRAM, timeout=20) as node:
            seat, cut = node.seat(0), 0
            for round in range(2000):
                cut += interrupts.cut(
                    lambda: [seat.try_submit(block, NOW) for block in blocks[round % 30 :]], chance.uniform(1e-5, 4e-4)
                )
                if round % 50 == 0:
                    seat.note()
            self.assertGreater(cut, 500)
            for block in blocks:
                seat.try_submit(block, NOW)
            self.assertEqual(seat.getbestblockhash().value, block_id(blocks[-1]))
            self.assertEqual(seat.note(), len(seat.journal().value))
            self.assertEqual(sum(map(len, node._pipe._waiting)), 0)

    def test_interrupts_of_one_thread_hold_up_no_other(self):
        chance, interrupts = random.Random(6), Interrupts(self)
        with Node(seats=2, program=PROGRAM, timeout=20) as node:

            def reads():
                return [node.seat(1).getbestblockhash().at for _ in range(1500)]

            threads = [self.thread(reads) for _ in range(3)]
            while any(thread.is_alive() for thread, _ in threads):
                interrupts.cut(lambda: [node.seat(0).note() for _ in range(100)], chance.uniform(2e-5, 1e-3))
            self.assertEqual([found for _, found in threads], [[[0] * 1500]] * 3)

    def test_ctrl_c_goes_to_python_alone(self):
        code = (
            "import os, signal, sys\n"
            "signal.signal(signal.SIGINT, signal.default_int_handler)\n"
            "from wakotehu import Node\n"
            "node = Node(seats=1, program=sys.argv[1])\n"
            "try:\n"
            "    os.killpg(0, signal.SIGINT)\n"
            "    signal.pause()\n"
            "except KeyboardInterrupt:\n"
            "    print(node.seat(0).note(), node.close())\n"
        )
        done = subprocess.run(
            [sys.executable, "-c", code, PROGRAM], stdout=subprocess.PIPE, start_new_session=True, timeout=60
        )
        self.assertEqual(done.stdout, b"0 0\n")


class AsyncWaitingTest(unittest.IsolatedAsyncioTestCase):
    def setUp(self):
        room = tempfile.TemporaryDirectory()
        self.addCleanup(room.cleanup)
        self.room = room.name

    def node(self, body, **more):
        return AsyncNode(seats=1, program=fake(self.room, body), **more)

    async def test_a_call_waits_no_longer_than_it_may(self):
        node = await self.node(SILENT, timeout=4.0).__aenter__()
        with self.assertRaises(wakotehu.TimedOut):
            await node.seat(0).note()
        self.assertEqual((await node.seat(0).getbestblockhash()).value, bytes(32))
        many = await asyncio.gather(*(node.seat(0).note() for _ in range(99)), return_exceptions=True)
        self.assertEqual({type(one) for one in many}, {wakotehu.TimedOut})
        self.assertEqual(len({id(one) for one in many}), 99)
        with self.assertRaises(wakotehu.TimedOut):
            await node.close()
        self.assertEqual(node._pipe.status, -9)
        with self.assertRaises(wakotehu.Closed):
            await node.seat(0).note()

    async def test_a_line_that_nobody_reads(self):
        node = await self.node(DEAF, timeout=4.0).__aenter__()
        for call in (node.seat(0).note(), node.seat(0).submit(bytes(10**6), NOW), node.seat(0).note()):
            with self.assertRaises(wakotehu.TimedOut):
                await call
        await node.kill()

    async def test_a_cancelled_call_keeps_its_place_until_its_answer_came(self):
        async with self.node(HOLDS) as node:
            seat = node.seat(0)
            calls = [asyncio.ensure_future(seat.note()) for _ in range(UNDER_WAY)]
            await asyncio.sleep(0.1)
            for call in calls:
                call.cancel()
            await asyncio.sleep(0.1)
            self.assertEqual(sum(map(len, node._pipe._waiting)), UNDER_WAY)
            late = asyncio.ensure_future(seat.note())
            await asyncio.sleep(0.1)
            self.assertEqual(sum(map(len, node._pipe._waiting)), UNDER_WAY)
            # One that waits for its turn leaves nothing.
            gone = asyncio.ensure_future(seat.getchaintips())
            await asyncio.sleep(0)
            gone.cancel()
            node._pipe.transport.get_pipe_transport(0).write(
                b'{"jsonrpc":"2.0","id":0,"method":"getchaintips","params":{"seat":0}}\n'
            )
            await asyncio.sleep(0.1)
            self.assertEqual(sum(map(len, node._pipe._waiting)), 1)
            self.assertEqual(await seat.getchaintips(), Stamped(2, []))
            self.assertEqual(await late, 2)

    async def test_calls_that_are_cancelled_at_random(self):
        chance, blocks = random.Random(7), Maker().chain(20)
        async with AsyncNode(seats=2, program=PROGRAM) as node:
            first, second = node.seats
            for _ in range(30):
                calls = [asyncio.ensure_future(second.getbestblockhash()) for _ in range(150)]
                await asyncio.sleep(chance.uniform(0, 0.004))
                for call in chance.sample(calls, 70):
                    call.cancel()
                found = await asyncio.gather(*calls, return_exceptions=True)
                self.assertLessEqual({type(one) for one in found}, {Stamped, asyncio.CancelledError})
            self.assertEqual([(await first.submit(block, NOW)).at for block in blocks], list(range(1, 21)))
            self.assertEqual(await second.note(), 0)
            self.assertEqual(sum(map(len, node._pipe._waiting)), 0)
            self.assertEqual(len(node._pipe._all), 0)

    async def test_lines_longer_than_a_pipe_takes(self):
        async with AsyncNode(seats=2, program=PROGRAM) as node:
            with self.assertRaisesRegex(ValueError, "block"):
                await node.seat(0).submit(bytes(LONGEST_BLOCK + 1), NOW)
            asked = [node.seat(n % 2).try_submit(bytes(10**6), NOW) for n in range(12)]
            found = await asyncio.gather(*asked, *(node.seat(1).note() for _ in range(5)))
            self.assertEqual([one.value.text for one in found[:12]], ["decode-failed"] * 12)
            self.assertEqual(found[12:], [0] * 5)

    async def test_a_refusal_without_a_name_ends_the_calls_that_wait(self):
        async with self.node(NAMELESS) as node:
            found = await asyncio.gather(*(node.seat(0).note() for _ in range(3)), return_exceptions=True)
            self.assertEqual({type(one) for one in found}, {wakotehu.BadRequest})
            self.assertEqual(len({id(one) for one in found}), 3)

    async def test_an_answer_that_is_none(self):
        node = await self.node(NOISE).__aenter__()
        with self.assertRaises(wakotehu.NodeDied) as caught:
            await node.seat(0).note()
        self.assertIn('{"id": 1', caught.exception.stderr)
        await node.kill()

    async def test_each_that_waits_has_its_own_exception(self):
        node = await self.node(SILENT).__aenter__()
        calls = [asyncio.ensure_future(node.seat(0).note()) for _ in range(8)]
        await asyncio.sleep(0.1)
        node._pipe.transport.kill()
        found = await asyncio.gather(*calls, return_exceptions=True)
        self.assertEqual({type(one) for one in found}, {wakotehu.NodeDied})
        self.assertEqual(len({id(one) for one in found}), 8)
        await node.kill()

    async def test_another_event_loop_is_refused(self):
        async with AsyncNode(seats=1, program=PROGRAM) as node:
            for call in (node.seat(0).note, node.close, node.kill):
                with self.assertRaises(errors.OtherLoop):
                    await asyncio.get_running_loop().run_in_executor(None, lambda: asyncio.run(call()))
            self.assertEqual(await node.seat(0).note(), 0)

    async def test_a_fork_is_refused(self):
        async with AsyncNode(seats=1, program=PROGRAM) as node:
            child = os.fork()
            if child == 0:
                try:
                    node.seat(0).note().send(None)
                except errors.OtherProcess:
                    os._exit(0)
                finally:
                    os._exit(1)
            self.assertEqual(os.waitpid(child, 0)[1], 0)
            self.assertEqual(await node.seat(0).note(), 0)

    async def test_a_node_that_is_dropped_ends_its_process(self):
        node = await AsyncNode(seats=1, program=PROGRAM).__aenter__()
        pipe = node._pipe
        self.assertEqual(os.getsid(pipe.transport.get_pid()), pipe.transport.get_pid())
        with warnings.catch_warnings(record=True) as caught:
            warnings.simplefilter("always")
            del node
            gc.collect()
        self.assertEqual([one.category for one in caught], [ResourceWarning])
        await asyncio.wait_for(pipe.ended, 10)
        self.assertEqual(pipe.status, -9)


if __name__ == "__main__":
    unittest.main()
