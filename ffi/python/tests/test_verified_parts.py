"""One command wants many signatures: each part is reported while the next is verified, and the command follows the last report.
These tests break that in different ways."""

import asyncio
import contextlib
import gc
import os
import random
import tempfile
import threading
import unittest

from blocks import NOW, block_id, signed
from fakes import fake
from interrupts import Interrupts
from test_node_by_need import COIN, KEYS, SCRIPT, SECP, SECRETS, Mined, with_script
from test_node import PROGRAM
from wakotehu import AsyncNode, Contradiction, Memory, Node, NodeDied, Reply, Stamped, TimedOut, errors, secp256k1
from wakotehu.encoding import Input, Output, Transaction, push
from wakotehu.served import parted

#: How many steps there are before the block of many signatures: 110 blocks, a verdict, and the block that it spends from.
BEFORE = 112
PART = 200
COUNT = 4 * PART

#: Wants 800 signatures for a first submission, and answers nothing more until the next one comes: then it answers what it was
#: told by `learnt`, and the submission by `taken`.
LATE = """
def learnt(number, one):
    {learnt}
def taken(one):
    {taken}
WANTED = {{'at': 0, 'answer': {{'wants': ['%03x - ' % n + '00' * 32 for n in range(800)]}}}}
if asked['method'] == 'submit' and not held:
    held.append(asked)
    say(asked['id'], result=WANTED)
elif asked['method'] == 'submit':
    for number, one in enumerate(held[1:]):
        learnt(number, one)
    taken(asked)
    held.clear()
elif asked['method'] == 'learn':
    held.append(asked)
else:
    say(asked['id'], result={{'at': len(held)}})
    if asked['method'] == 'finish':
        break
"""
DONE = "say(one['id'], result={'at': 200 * number + 200, 'answer': 'done'})"
ACCEPTED = "say(one['id'], result={'at': 801, 'answer': 'accepted'})"
AGAIN = "say(one['id'], result=WANTED)"
NOTHING = "pass"


def second(answer):
    """Answers the second part otherwise."""
    return f"say(one['id'], {answer}) if number == 1 else {DONE}"


MEMORY = second("error={'code': -32001, 'message': 'memory'}")
CONTRADICTED = second("result={'at': 300, 'answer': {'contradicted': 'that line'}}")


class Many:
    """A block of many signatures, and those before it."""

    def __init__(self, count=COUNT, of=SECRETS[:1], script=SCRIPT, ends=(KEYS[0],), begins=b""):
        mined = Mined()
        split = mined.spend(0, outputs=count, to=script)
        first = mined.block(mined.tip, [split])
        self.before = [*mined.chain, first]
        each = [self.taken(split, place, COIN // count, of, script, ends, begins) for place in range(count)]
        self.block = mined.block(block_id(first), each)

    @staticmethod
    def taken(split, place, value, of, script, ends, begins):
        tx = Transaction(1, [Input(split.id, place, b"", 0xFFFFFFFF)], [Output(value, b"\x51")], 0)
        return with_script(tx, 0, *signed(SECP, of, tx, 0, script), *ends, begins=begins)


class Parts:
    """`secp256k1`, or what says that all are valid, which keeps what it was asked for the block of many signatures; `within` is
    called before it answers, with the number of the call, from 0."""

    def __init__(self, within=lambda number: None, verify=secp256k1):
        self.asked, self.within, self.verify, self.threads = [], within, verify, []

    def __call__(self, lines):
        if len(lines) > 1:
            self.asked.append(list(lines))
            self.threads.append(threading.get_ident())
            self.within(len(self.asked) - 1)
        return self.verify(lines)

    @property
    def sizes(self):
        return [len(lines) for lines in self.asked]


@contextlib.contextmanager
def waiting(node, timeout):
    """Calls wait so many seconds: a bound for these alone, as a busy machine begins a process slowly."""
    kept, node._pipe.timeout = node._pipe.timeout, timeout or node._pipe.timeout
    try:
        yield
    finally:
        node._pipe.timeout = kept


def all_valid(lines):
    return [True] * len(lines)


class PartsTest(unittest.TestCase):
    @classmethod
    def setUpClass(cls):
        cls.many = Many()

    def setUp(self):
        room = tempfile.TemporaryDirectory()
        self.addCleanup(room.cleanup)
        self.room = room.name

    def node(self, verify, **more):
        node = Node(program=PROGRAM, verify=verify, **{"seats": 2, "timeout": 120, **more})
        self.addCleanup(node.kill)
        for block in self.many.before:
            node.seat(0).submit(block, NOW)
        self.assertEqual(node.seat(0).note(), BEFORE)
        return node

    def steps(self, seat):
        """The commands of the steps after the earlier blocks."""
        return [entry.command for entry in seat.journal(BEFORE + 1).value]

    def test_how_many(self):
        for count, sizes in (
            (1, [1]), (399, [399]), (400, [200] * 2), (599, [299, 300]), (600, [200] * 3), (2000, [500] * 4), (10, [10]),
        ):  # fmt: skip
            lines = [b"%d" % number for number in range(count)]
            parts = parted(lines)
            self.assertEqual([len(part) for part in parts], sizes)
            self.assertEqual([line for part in parts for line in part], lines)

    # ---- threads

    def test_a_part_is_told_while_the_next_is_verified(self):
        verify = Parts(lambda number: told.append(node.seat(1).wait(BEFORE + PART * number - 1)))
        node, told = self.node(verify), []
        self.assertEqual(node.seat(0).submit(self.many.block, NOW), Stamped(BEFORE + COUNT + 1, "accepted"))
        self.assertEqual(verify.sizes, [PART] * 4)
        self.assertEqual(told, [BEFORE + PART * number for number in range(4)])
        self.assertEqual(set(verify.threads), {threading.get_ident()})
        lines = [line for part in verify.asked for line in part]
        self.assertEqual(len(set(lines)), COUNT)
        entries = node.seat(0).journal(BEFORE + 1).value
        self.assertEqual([entry.command for entry in entries], ["valid"] * COUNT + ["submit"])
        # As they were told: a line ends with the digest.
        self.assertEqual([entry.block.hex().encode() for entry in entries[:-1]], [line.split()[2] for line in lines])

    def test_dry_runs_and_other_seats_too(self):
        verify = Parts()
        node = self.node(verify)
        self.assertEqual(node.seat(1).judge(self.many.block, NOW).value.text, "accepted")
        self.assertEqual(node.seat(0).submit(self.many.block, NOW).at, BEFORE + COUNT + 1)
        self.assertEqual(verify.sizes, [PART] * 4)

    def test_a_contradiction_in_the_second_part(self):
        """Another seat says of the hundredth line of the second part that it isn't valid, before the first seat does."""

        def within(number):
            if number == 1:
                node.seat(1)._learn(verify.asked[1][99:100], [False])

        verify = Parts(within)
        node = self.node(verify)
        with self.assertRaises(Contradiction) as caught:
            node.seat(0).submit(self.many.block, NOW)
        self.assertEqual(caught.exception.at, BEFORE + PART + 1 + 99)
        self.assertIn(verify.asked[1][99].decode(), str(caught.exception))
        # What was told stays: all but the rest of that part. By that the block is refused: the transaction behind the coinbase,
        # a part and 99 others.
        steps = self.steps(node.seat(0))
        self.assertEqual([steps.count(command) for command in ("valid", "invalid", "submit")], [3 * PART + 99, 1, 1])
        text = f"blk-bad-inputs {1 + PART + 99}:0"
        self.assertEqual(
            caught.exception.answered,
            Stamped(BEFORE + 3 * PART + 101, Reply(text, "rejected", "blk-bad-inputs", 1 + PART + 99, 0)),
        )
        self.assertEqual(node.seat(0).submit(self.many.block, NOW).value, "duplicate-invalid")
        self.assertEqual(verify.sizes, [PART] * 4)

    def test_a_contradiction_of_a_command_that_wants_more(self):
        """Another seat says of a line that it is valid which isn't said here, nor of the next one: that isn't told."""
        wrong = []

        def verdicts(lines):
            if verify.asked and lines == verify.asked[-1] and len(verify.asked) == 2:
                wrong.extend(lines[99:101])
                node.seat(1)._learn(lines[99:100], [True])
            return [line not in wrong for line in lines]

        verify = Parts(verify=verdicts)
        node = self.node(verify)
        with self.assertRaises(Contradiction) as caught:
            node.seat(0).submit(self.many.block, NOW)
        self.assertIn(wrong[0].decode(), str(caught.exception))
        self.assertEqual((caught.exception.at, caught.exception.answered), (BEFORE + 2 * PART - 1, None))
        self.assertEqual(self.steps(node.seat(0)), ["valid"] * (COUNT - 1))
        # It took no step, and wants that line.
        wrong.clear()
        verify.asked.clear()
        self.assertEqual(node.seat(0).submit(self.many.block, NOW), Stamped(BEFORE + COUNT + 1, "accepted"))
        self.assertEqual(verify.asked, [])

    def test_a_contradiction_of_a_command_that_is_taken(self):
        """All that it asks for is known: it is a step, and its answer isn't lost."""
        mined = Mined()
        block = mined.block(mined.tip, [mined.spend(0)])

        def verify(lines):
            node.seat(1)._learn(lines, [True])
            return [False] * len(lines)

        with Node(seats=2, program=PROGRAM, verify=verify) as node:
            for one in mined.chain:
                node.seat(0).submit(one, NOW)
            with self.assertRaises(Contradiction) as caught:
                node.seat(0).submit(block, NOW)
            self.assertEqual(caught.exception.at, 111)
            self.assertEqual(caught.exception.answered, Stamped(112, Reply("accepted", "accepted", "", 0, 0)))
            self.assertEqual(node.seat(0).getbestblockhash(), Stamped(112, block_id(block)))

    def test_it_wants_more(self):
        """Each of two keys may have signed: the second is asked for where the first is known not to have, also in parts."""
        count = 450
        script = b"\x51" + push(KEYS[0]) + push(KEYS[1]) + b"\x52\xae"
        many = Many(count, SECRETS[:1], script, (), b"\x00")
        verify = Parts()
        with Node(seats=2, program=PROGRAM, verify=verify, timeout=120) as node:
            for block in many.before:
                node.seat(0).submit(block, NOW)
            self.assertEqual(node.seat(0).try_submit(many.block, NOW).value.text, "accepted")
            self.assertEqual(verify.sizes, [225] * 4)
            asked = [{line.split()[0] for line in part} for part in verify.asked]
            keys = [{key.hex().encode()} for key in KEYS]
            self.assertEqual(asked, [keys[1], keys[1], keys[0], keys[0]])
            steps = self.steps(node.seat(0))
            self.assertEqual(steps, ["invalid"] * count + ["valid"] * count + ["submit"])

    def test_an_exception_in_the_second_part(self):
        def within(number):
            if len(verify.asked) == 2:
                raise KeyError("out of order")

        verify = Parts(within)
        seat = self.node(verify).seat(0)
        with self.assertRaises(KeyError):
            seat.submit(self.many.block, NOW)
        self.assertEqual(self.steps(seat), ["valid"] * PART)
        self.assertEqual(seat.note(), BEFORE + PART)
        self.assertEqual(seat.submit(self.many.block, NOW), Stamped(BEFORE + COUNT + 1, "accepted"))
        self.assertEqual(verify.sizes, [PART] * 5)
        self.assertEqual(self.steps(seat), ["valid"] * COUNT + ["submit"])

    def test_a_verdict_too_many_in_the_second_part(self):
        verify = Parts(verify=lambda lines: all_valid(lines) + [True] * (len(verify.asked) == 2))
        seat = self.node(verify).seat(0)
        with self.assertRaises(ValueError):
            seat.submit(self.many.block, NOW)
        self.assertEqual(self.steps(seat), ["valid"] * PART)

    def test_the_process_dies_in_the_second_part(self):
        def within(number):
            if number == 1:
                node._process.kill()

        node = self.node(Parts(within))
        self.assertRaises(NodeDied, node.seat(0).submit, self.many.block, NOW)
        self.assertRaises(NodeDied, node.seat(1).note)

    def test_it_is_closed_in_the_second_part(self):
        steps = []
        verify = Parts(lambda number: steps.append(node.close()) if number == 1 else None)
        node = self.node(verify, save=self.room)
        self.assertRaises(errors.Closed, node.seat(0).submit, self.many.block, NOW)
        self.assertEqual(steps, [BEFORE + PART])

    def test_a_killed_node_has_the_parts_that_were_told(self):
        """A part is on the disk once an answer behind it came."""
        folder = os.path.join(self.room, "data")

        def within(number):
            if number == 2 and not killed:
                killed.append(node.seat(1).wait(BEFORE + 2 * PART - 1))
                node._process.kill()

        killed, verify = [], Parts(within)
        node = self.node(verify, datadir=folder)
        self.assertRaises(NodeDied, node.seat(0).submit, self.many.block, NOW)
        self.assertEqual(killed, [BEFORE + 2 * PART])
        verify.asked.clear()
        with Node(program=PROGRAM, verify=verify, datadir=folder, timeout=120) as node:
            self.assertEqual(node.info.loaded, BEFORE + 2 * PART)
            self.assertEqual(node.seat(0).submit(self.many.block, NOW).at, BEFORE + COUNT + 1)
        self.assertEqual(verify.sizes, [PART] * 2)

    def test_interrupts_at_random(self):
        """What is cut short anywhere leaves the seat in order, and what was learnt stays."""
        chance, interrupts, verify = random.Random(8), Interrupts(self), Parts(verify=all_valid)
        seat, cut = self.node(verify).seat(0), 0
        # Delays of each order of magnitude: a quick machine ends a call of known signatures within milliseconds.
        for _ in range(300):
            cut += interrupts.cut(lambda: seat.judge(self.many.block, NOW), 10 ** chance.uniform(-4, -0.5))
            self.assertEqual(set(self.steps(seat)) - {"valid"}, set())
            if cut == 20:
                break
        self.assertEqual(cut, 20)
        self.assertEqual(seat.submit(self.many.block, NOW), Stamped(BEFORE + COUNT + 1, "accepted"))
        self.assertEqual(sum(map(len, seat.node._pipe._waiting)), 0)

    # ---- answers that come late, or are refusals

    def answered(self, learnt, taken, timeout=None):
        """What a thread and a task are answered, or the exceptions that they are raised, and the steps of what they ask then."""
        program = fake(self.room, LATE.format(learnt=learnt, taken=taken))
        node = Node(seats=1, program=program, verify=all_valid)
        self.addCleanup(node.kill)
        found = []
        try:
            with waiting(node, timeout):
                found.append(node.seat(0).try_submit(b"", NOW))
        except errors.Error as error:
            found.append(error)
        self.assertIsInstance(node.seat(0).note(), int)

        async def main():
            async with AsyncNode(seats=1, program=program, verify=all_valid) as other:
                try:
                    with waiting(other, timeout):
                        found.append(await other.seat(0).try_submit(b"", NOW))
                except errors.Error as error:
                    found.append(error)
                self.assertIsInstance(await other.seat(0).note(), int)
                self.assertEqual(sum(map(len, other._pipe._waiting)) and learnt != NOTHING, 0)

        asyncio.run(main())
        return found

    def test_the_command_waits_for_no_answer_of_verdicts(self):
        reply = Reply("accepted", "accepted", "", 0, 0)
        self.assertEqual(self.answered(DONE, ACCEPTED), [Stamped(801, reply)] * 2)

    def test_verdicts_are_refused(self):
        """That is raised, and the command isn't made once more."""
        found = self.answered(MEMORY, AGAIN)
        self.assertEqual([type(error) for error in found], [Memory] * 2)

    def test_verdicts_are_refused_and_the_command_is_taken(self):
        reply = Reply("accepted", "accepted", "", 0, 0)
        self.assertEqual(self.answered(MEMORY, ACCEPTED), [Stamped(801, reply)] * 2)
        found = self.answered(CONTRADICTED, ACCEPTED)
        self.assertEqual([type(error) for error in found], [Contradiction] * 2)
        self.assertEqual([(error.at, error.answered) for error in found], [(300, Stamped(801, reply))] * 2)

    def test_both_are_refused(self):
        found = self.answered(CONTRADICTED, "say(one['id'], error={'code': -32006, 'message': 'history-full'})")
        self.assertEqual([(type(error), error.at, error.answered) for error in found], [(Contradiction, 300, None)] * 2)
        found = self.answered(DONE, "say(one['id'], error={'code': -32006, 'message': 'history-full'})")
        self.assertEqual([type(error) for error in found], [errors.HistoryFull] * 2)

    def test_no_answer_comes(self):
        self.assertEqual([type(error) for error in self.answered(NOTHING, NOTHING, timeout=4.0)], [TimedOut] * 2)

    # ---- asyncio

    def played(self, verify, play, **more):
        """Runs a coroutine of a node that has the blocks before; what the loop reports fails the test."""
        reported = []

        async def main():
            asyncio.get_running_loop().set_exception_handler(lambda loop, context: reported.append(context))
            async with AsyncNode(**{"seats": 2, "program": PROGRAM, "verify": verify, "timeout": 120, **more}) as node:
                for block in self.many.before:
                    await node.seat(0).submit(block, NOW)
                await play(node)

        asyncio.run(main())
        gc.collect()
        self.assertEqual(reported, [])

    def test_tasks(self):
        """`verify` runs on a thread of the event loop and asks another seat of the node: the loop goes on meanwhile."""
        told = []

        async def play(node):
            loop = asyncio.get_running_loop()

            def within(number):
                waiting = asyncio.run_coroutine_threadsafe(node.seat(1).wait(BEFORE + PART * number - 1), loop)
                told.append(waiting.result(60))

            verify.within = within
            self.assertEqual(await node.seat(0).submit(self.many.block, NOW), Stamped(BEFORE + COUNT + 1, "accepted"))
            entries = (await node.seat(0).journal(BEFORE + 1)).value
            self.assertEqual([it.command for it in entries], ["valid"] * COUNT + ["submit"])

        verify = Parts()
        self.played(verify, play)
        self.assertEqual(verify.sizes, [PART] * 4)
        self.assertEqual(told, [BEFORE + PART * number for number in range(4)])
        self.assertNotIn(threading.get_ident(), verify.threads)

    def test_an_exception_in_the_second_part_of_a_task(self):
        def within(number):
            if len(verify.asked) == 2:
                raise KeyError("out of order")

        async def play(node):
            seat = node.seat(0)
            with self.assertRaises(KeyError):
                await seat.submit(self.many.block, NOW)
            self.assertEqual(await seat.note(), BEFORE + PART)
            self.assertEqual(await seat.submit(self.many.block, NOW), Stamped(BEFORE + COUNT + 1, "accepted"))

        verify = Parts(within)
        self.played(verify, play)
        self.assertEqual(verify.sizes, [PART] * 5)

    def test_a_task_is_cancelled_in_the_second_part(self):
        async def play(node):
            loop, reached, goes_on = asyncio.get_running_loop(), asyncio.Event(), threading.Event()

            def within(number):
                if len(verify.asked) == 2:
                    loop.call_soon_threadsafe(reached.set)
                    goes_on.wait(60)

            verify.within = within
            task = asyncio.ensure_future(node.seat(0).submit(self.many.block, NOW))
            await reached.wait()
            task.cancel()
            with self.assertRaises(asyncio.CancelledError):
                await task
            goes_on.set()
            self.assertEqual(await node.seat(0).note(), BEFORE + PART)
            self.assertEqual((await node.seat(0).submit(self.many.block, NOW)).at, BEFORE + COUNT + 1)

        verify = Parts()
        self.played(verify, play)
        self.assertEqual(verify.sizes, [PART] * 5)

    def test_a_process_of_tasks_dies_in_the_second_part(self):
        async def main():
            node = await AsyncNode(seats=2, program=PROGRAM, verify=verify, timeout=120).__aenter__()
            for block in self.many.before:
                await node.seat(0).submit(block, NOW)
            verify.within = lambda number: node._pipe.transport.kill() if number == 1 else None
            with self.assertRaises(NodeDied):
                await node.seat(0).submit(self.many.block, NOW)
            with self.assertRaises(NodeDied):
                await node.seat(1).note()
            await node.kill()

        verify = Parts()
        asyncio.run(main())


if __name__ == "__main__":
    unittest.main()
