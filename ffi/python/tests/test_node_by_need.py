"""A served node with real signatures: libsecp256k1 finds them out as blocks ask for them, on the threads of the callers."""

import asyncio
import hashlib
import os
import random
import subprocess
import tempfile
import threading
import unittest

from blocks import NOW, Maker, block_id, signed, spend, with_script
from test_node import PROGRAM
from wakotehu import AsyncNode, Bench, Contradiction, Node, Stamped, errors, secp256k1
from wakotehu.encoding import GENESIS, Input, Output, Transaction, push
from wakotehu.signatures import Secp256k1

SECP = Secp256k1()
SECRETS = [bytes([number]) * 32 for number in (1, 2, 3)]
KEYS = [SECP.public_key(secret) for secret in SECRETS]
COIN = 5000000000
VERDICTS = ("valid", "invalid")


def hash160(data):
    return hashlib.new("ripemd160", hashlib.sha256(data).digest()).digest()


SCRIPT = b"\x76\xa9" + push(hash160(KEYS[0])) + b"\x88\xac"
MULTISIG = b"\x52" + b"".join(map(push, KEYS)) + b"\x53\xae"


class Mined:
    """A chain whose coinbases can be spent: each pays to a key's hash."""

    def __init__(self, count=110):
        self.maker = Maker(SCRIPT)
        self.chain = self.maker.chain(count)
        self.tip = block_id(self.chain[-1])

    def spend(self, place, kind=1, secret=0, to=SCRIPT, outputs=1):
        """A transaction that spends the coinbase of the block of a place."""
        made = self.maker.coinbases[block_id(self.chain[place])].id
        tx = spend(made, 0, COIN, b"")._replace(outputs=[Output(COIN // outputs, to)] * outputs)
        return with_script(tx, 0, *signed(SECP, SECRETS[secret : secret + 1], tx, 0, SCRIPT, kind), KEYS[0])

    def block(self, parent, transactions, extra=b"\x00"):
        return self.maker.block(parent, transactions, extra)


def then(tx, kind=1, right=True):
    """A transaction that spends the first output of one."""
    more = spend(tx.id, 0, tx.outputs[0].value, b"", SCRIPT)
    return with_script(more, 0, *signed(SECP, SECRETS[: 1 if right else 2][-1:], more, 0, SCRIPT, kind), KEYS[0])


def take(tx, place, secret=0):
    """A transaction that spends an output of one."""
    more = spend(tx.id, place, tx.outputs[place].value, b"", SCRIPT)
    return with_script(more, 0, *signed(SECP, SECRETS[secret : secret + 1], more, 0, SCRIPT), KEYS[0])


class Counted:
    """`secp256k1`, which counts what it is asked, and how often."""

    def __init__(self):
        self.asked, self.rounds = [], 0

    def __call__(self, lines):
        self.asked += lines
        self.rounds += 1
        return secp256k1(lines)


class Beside:
    """Eleven blocks on a fork, and a branch of twelve beside them, which becomes the best by its last. Each of these has three
    signatures: two spend coins from below the fork, one a coin of the block before."""

    def __init__(self, wrong=None, missing=None):
        """In the block at `wrong` one isn't valid, the one at `missing` also spends a coin that is spent."""
        mined = Mined()
        split = mined.spend(0, outputs=25)
        fork = mined.block(mined.tip, [split])
        self.chain = [*mined.chain, fork, *mined.maker.chain(11, block_id(fork), b"\x01")]
        self.branch, at, last = [], block_id(fork), None
        for n in range(12):
            last = then(last) if last else take(split, 24)
            spends = [take(split, 2 * n, int(n == wrong)), take(split, 2 * n + 1), last]
            self.branch.append(mined.block(at, spends + [take(split, 0)] * (n == missing), b"\x02"))
            at = block_id(self.branch[-1])

    def replies(self, submit):
        return [submit(block) for block in (*self.chain, *self.branch)][len(self.chain) :]


class ByNeedTest(unittest.TestCase):
    def setUp(self):
        room = tempfile.TemporaryDirectory()
        self.addCleanup(room.cleanup)
        self.room = room.name

    def node(self, verify=secp256k1, **more):
        node = Node(program=PROGRAM, verify=verify, **more)
        self.addCleanup(node.kill)
        return node

    def mined(self, seat, count=110):
        mined = Mined(count)
        for block in mined.chain:
            seat.submit(block, NOW)
        return mined

    def audited(self):
        ended = subprocess.run([PROGRAM, "audit", "--saved", self.room], capture_output=True, text=True)
        self.assertEqual((ended.stdout, ended.stderr), ("agrees\n", ""))

    def verdicts(self, seat):
        return [entry for entry in seat.journal().value if entry.command in VERDICTS]

    # ---- calls

    def test_a_caller_sees_submit_alone(self):
        verify = Counted()
        node = self.node(verify, seats=2, save=self.room)
        one, two = node.seats
        mined = self.mined(one)
        good = mined.block(mined.tip, [mined.spend(0)])
        self.assertEqual(one.submit(good, NOW), Stamped(112, "accepted"))
        bad = mined.block(block_id(good), [mined.spend(1, secret=1)])
        with self.assertRaises(errors.BlkBadInputs) as caught:
            two.submit(bad, NOW)
        self.assertEqual((caught.exception.transaction, caught.exception.input, caught.exception.at), (1, 0, 114))
        # What is known is asked for no more, at any seat, and in no other block.
        self.assertEqual(two.submit(good, NOW).value, "duplicate")
        beside = mined.block(mined.tip, [mined.spend(0)], b"\x01")
        self.assertEqual(two.submit(beside, NOW).value, "inconclusive")
        self.assertEqual(one.invalidate(block_id(good)).value, "done")
        self.assertEqual(one.getbestblockhash().value, block_id(beside))
        self.assertEqual((len(verify.asked), len(self.verdicts(two))), (2, 2))
        self.assertEqual([entry.command for entry in self.verdicts(two)], ["valid", "invalid"])
        self.assertEqual(node.close(), 117)
        self.audited()
        with open(f"{self.room}/table.txt", "rb") as file:
            self.assertEqual(file.read().splitlines(), verify.asked[:1])

    def test_marks_want_signatures_too(self):
        node = self.node(seats=1)
        seat = node.seat(0)
        mined = self.mined(seat)
        first = mined.block(mined.tip, [])
        beside = mined.block(mined.tip, [mined.spend(0), mined.spend(1, kind=130)], b"\x01")
        self.assertEqual([seat.submit(it, NOW).value for it in (first, beside)], ["accepted", "inconclusive"])
        self.assertEqual(self.verdicts(seat), [])
        self.assertEqual(seat.precious(block_id(beside)).value, "done")
        self.assertEqual(seat.getbestblockhash().value, block_id(beside))
        self.assertEqual([entry.command for entry in self.verdicts(seat)], ["valid", "valid"])

    def test_two_of_three(self):
        node = self.node(seats=1)
        seat = node.seat(0)
        mined = self.mined(seat)
        paid = mined.spend(0, to=MULTISIG)
        tx = spend(paid.id, 0, COIN, b"")
        both = signed(SECP, SECRETS[1:], tx, 0, MULTISIG)
        block = mined.block(mined.tip, [paid, with_script(tx, 0, *both[::-1], begins=b"\x00")], b"\x01")
        self.assertEqual(seat.try_submit(block, NOW).value.text, "blk-bad-inputs 2:0")
        block = mined.block(mined.tip, [paid, with_script(tx, 0, *both, begins=b"\x00")])
        self.assertEqual(seat.submit(block, NOW).value, "accepted")

    def test_a_thousand_inputs(self):
        verify = Counted()
        seat = self.node(verify, seats=1).seat(0)
        mined = self.mined(seat)
        split = mined.spend(0, outputs=1000)
        self.assertEqual(seat.submit(mined.block(mined.tip, [split]), NOW).value, "accepted")
        value = COIN // 1000
        each = []
        for n in range(1000):
            tx = Transaction(1, [Input(split.id, n, b"", 0xFFFFFFFF)], [Output(value, b"\x51")], 0)
            each.append(with_script(tx, 0, *signed(SECP, SECRETS[:1], tx, 0, SCRIPT), KEYS[0]))
        self.assertEqual(seat.submit(mined.block(seat.getbestblockhash().value, each), NOW).value, "accepted")
        self.assertEqual((len(verify.asked), len(set(verify.asked))), (1001, 1001))

    # ---- rounds

    def reorganised(self, beside):
        """The last reply and the best block, as a node over a table has them, and what was asked in how many rounds."""
        verify = Counted()
        seat = self.node(verify, seats=1).seat(0)
        replies = beside.replies(lambda block: seat.try_submit(block, NOW).value.text)
        lines = verify.asked
        valid = [line for line, is_valid in zip(lines, secp256k1(lines)) if is_valid]
        with Node(program=PROGRAM, seats=1, table=b"\n".join(valid)) as other, Bench() as bench:
            over = other.seat(0)
            best = over.getbestblockhash
            self.assertEqual(beside.replies(lambda block: over.try_submit(block, NOW).value.text), replies)
            self.assertEqual(best().value, seat.getbestblockhash().value)
            self.assertEqual(beside.replies(lambda block: bench.try_submit(block, NOW).text), replies)
            self.assertEqual((bench.best(), bench.rounds, bench.found_out), (best().value, verify.rounds, len(lines)))
        self.assertEqual(replies[:-1], ["inconclusive"] * 11)
        # One was asked for below the fork.
        return replies[-1], seat.getbestblockhash().value, len(lines) - 1, verify.rounds - 1

    def test_a_reorganisation_takes_few_rounds(self):
        """Not a round for each of its twelve blocks."""
        beside = Beside()
        reply, best, asked, rounds = self.reorganised(beside)
        self.assertEqual((reply, best, asked), ("accepted", block_id(beside.branch[-1]), 12 * 3))
        self.assertLessEqual(rounds, 3)

    def test_an_invalid_signature_in_its_midst(self):
        beside = Beside(wrong=3)
        reply, best, asked, rounds = self.reorganised(beside)
        self.assertEqual((reply, best, asked), ("inconclusive", block_id(beside.chain[-1]), 12 * 3))
        self.assertLessEqual(rounds, 3)

    def test_nothing_is_asked_above_a_block_that_breaks_a_rule(self):
        beside = Beside(missing=4)
        reply, best, asked, rounds = self.reorganised(beside)
        self.assertEqual((reply, best, asked), ("inconclusive", block_id(beside.chain[-1]), 4 * 3))
        self.assertLessEqual(rounds, 3)

    # ---- what goes wrong

    def test_verify_raises(self):
        def verify(lines):
            if failing:
                raise failing[0]
            return secp256k1(lines)

        failing = [KeyError("out of order")]
        seat = self.node(verify, seats=1).seat(0)
        mined = self.mined(seat)
        good = mined.block(mined.tip, [mined.spend(0)])
        with self.assertRaises(KeyError):
            seat.submit(good, NOW)
        self.assertEqual((seat.note(), seat.getbestblockhash().value), (110, mined.tip))
        failing.clear()
        self.assertEqual(seat.submit(good, NOW), Stamped(112, "accepted"))

    def test_a_verdict_for_each(self):
        seat = self.node(lambda lines: [True] * (len(lines) + 1), seats=1).seat(0)
        mined = self.mined(seat)
        with self.assertRaises(ValueError):
            seat.submit(mined.block(mined.tip, [mined.spend(0)]), NOW)
        self.assertEqual(seat.note(), 110)

    def test_a_wrong_verdict(self):
        """The history is legal under the sets of valid signatures that have it."""
        node = self.node(lambda lines: [True] * len(lines), seats=1, save=self.room)
        mined = self.mined(node.seat(0))
        self.assertEqual(node.seat(0).submit(mined.block(mined.tip, [mined.spend(0, secret=1)]), NOW).value, "accepted")
        node.close()
        self.audited()

    def test_two_that_contradict(self):
        gate = threading.Barrier(2)

        def verify(lines):
            # Both are asked before either tells.
            gate.wait(30)
            return [threading.current_thread().name == "yes"] * len(lines)

        node = self.node(verify, seats=2)
        mined = self.mined(node.seat(0))
        block = mined.block(mined.tip, [mined.spend(0)])
        told = {}

        def run(name, seat):
            try:
                told[name] = seat.try_submit(block, NOW).value.text
            except Contradiction as error:
                told[name] = error

        threads = [threading.Thread(target=run, name=name, args=it) for name, *it in
                   (("yes", "yes", node.seat(0)), ("no", "no", node.seat(1)))]  # fmt: skip
        for thread in threads:
            thread.start()
        for thread in threads:
            thread.join()
        errors_told = [error for error in told.values() if isinstance(error, Contradiction)]
        self.assertEqual(len(errors_told), 1, told)
        self.assertEqual(errors_told[0].at is not None, True)
        self.assertEqual(len(self.verdicts(node.seat(0))), 1)

    def test_arguments(self):
        for more, kind in (({"table": b"aa - " + b"00" * 32}, ValueError), ({"blk": "blocks.blk"}, ValueError)):
            with self.assertRaises(kind):
                Node(program=PROGRAM, verify=secp256k1, **more)
            with self.assertRaises(kind):
                AsyncNode(program=PROGRAM, verify=secp256k1, **more)
        with self.assertRaises(TypeError):
            Node(program=PROGRAM, verify=True)

    # ---- folders

    def test_a_folder_is_loaded(self):
        verify = Counted()
        node = self.node(verify, seats=1, save=self.room)
        mined = self.mined(node.seat(0))
        tx = mined.spend(0)
        good = mined.block(mined.tip, [tx])
        node.seat(0).submit(good, NOW)
        node.seat(0).try_submit(mined.block(block_id(good), [mined.spend(1, secret=1)]), NOW)
        node.close()
        self.audited()
        node = self.node(verify, seats=1, load=self.room, save=self.room)
        seat = node.seat(0)
        self.assertEqual(node.info.loaded, 112)
        self.assertEqual([entry.command for entry in self.verdicts(seat)], ["valid", "invalid"])
        self.assertEqual(seat.getbestblockhash().value, block_id(good))
        self.assertEqual(seat.submit(mined.block(block_id(good), [then(tx)]), NOW).value, "accepted")
        self.assertEqual(len(verify.asked), 3)
        node.close()
        self.audited()
        with Node(program=PROGRAM, load=self.room) as under_a_table:
            self.assertEqual(under_a_table.info.loaded, 113)

    # ---- many at once

    def test_writers_and_readers(self):
        """Branches of real signatures by four threads at once, with wrong ones among them, beside four readers."""
        dice, mined = random.Random(3), Mined(116)
        node = self.node(seats=8, save=self.room)
        for block in mined.chain:
            node.seat(0).submit(block, NOW)
        branches = [self.branch(mined, dice, number) for number in range(4)]
        failed, ended = [], threading.Event()

        def write(seat, branch):
            try:
                for block in branch:
                    reply = seat.try_submit(block, NOW).value.reply
                    if reply not in ("accepted", "inconclusive", "rejected"):
                        failed.append((seat.number, reply))
                    if dice.random() < 0.2:
                        seat.try_mark("precious", block_id(block))
            except BaseException as error:
                failed.append((seat.number, repr(error)))

        def read(seat):
            last = 0
            try:
                while not ended.is_set():
                    tips = seat.getchaintips()
                    best = seat.getbestblockhash()
                    if not last <= tips.at <= best.at:
                        failed.append((seat.number, last, tips.at, best.at))
                    last = best.at
            except BaseException as error:
                failed.append((seat.number, repr(error)))

        writers = [threading.Thread(target=write, args=it) for it in zip(node.seats, branches)]
        readers = [threading.Thread(target=read, args=(seat,)) for seat in node.seats[4:]]
        for thread in writers + readers:
            thread.start()
        for thread in writers:
            thread.join()
        ended.set()
        for thread in readers:
            thread.join()
        self.assertEqual(failed, [])
        self.assertEqual({entry.command for entry in self.verdicts(node.seat(0))}, set(VERDICTS))
        told = [(entry.command, entry.block) for entry in self.verdicts(node.seat(0))]
        self.assertEqual(len(told), len(set(told)))
        node.close()
        self.audited()

    def branch(self, mined, dice, number):
        """Blocks one on the other, each with a spend; before some of them one with a wrong signature. All branches spend the
        same coins."""
        tip, blocks, last = mined.tip, [], None
        for place in range(12):
            kind = dice.choice((1, 2, 3, 129, 130, 131))
            if dice.random() < 0.4:
                blocks.append(mined.block(tip, [mined.spend(place, secret=1)], bytes([number, 1])))
            tx = mined.spend(place, kind) if last is None or dice.random() < 0.5 else then(last, kind)
            block = mined.block(tip, [tx], bytes([number, 0]))
            blocks.append(block)
            tip, last = block_id(block), tx
        return blocks

    def test_two_threads_on_one_branch(self):
        """Both submit all blocks: each is accepted once, and each signature is one step."""
        mined = Mined(106)
        node = self.node(seats=2, save=self.room)
        for block in mined.chain:
            node.seat(0).submit(block, NOW)
        tip, blocks = mined.tip, []
        for place in range(6):
            blocks.append(mined.block(tip, [mined.spend(place)]))
            tip = block_id(blocks[-1])
        replies = {}

        def run(seat):
            replies[seat.number] = [seat.submit(block, NOW).value for block in blocks]

        threads = [threading.Thread(target=run, args=(seat,)) for seat in node.seats]
        for thread in threads:
            thread.start()
        for thread in threads:
            thread.join()
        for pair in zip(replies[0], replies[1]):
            self.assertEqual(sorted(pair), ["accepted", "duplicate"])
        self.assertEqual(len(self.verdicts(node.seat(0))), 6)
        node.close()
        self.audited()

    def test_asyncio(self):
        mined = Mined(106)

        async def main():
            async with AsyncNode(seats=4, program=PROGRAM, verify=secp256k1, save=self.room) as node:
                for block in mined.chain:
                    await node.seat(0).submit(block, NOW)
                tip, blocks = mined.tip, []
                for place in range(6):
                    blocks.append(mined.block(tip, [mined.spend(place)]))
                    tip = block_id(blocks[-1])
                wrong = mined.block(tip, [mined.spend(5, secret=1)])

                async def run(seat):
                    return [(await seat.submit(block, NOW)).value for block in blocks]

                replies = await asyncio.gather(*(run(seat) for seat in node.seats))
                for each in zip(*replies):
                    self.assertEqual(sorted(each), ["accepted"] + ["duplicate"] * 3)
                self.assertEqual((await node.seat(1).getbestblockhash()).value, tip)
                with self.assertRaises(errors.BlkBadInputs):
                    await node.seat(2).submit(mined.block(tip, [then(mined.spend(5), right=False)]), NOW)
                with self.assertRaises(errors.BadTxnsInputsMissingorspent):
                    await node.seat(3).submit(wrong, NOW)
                entries = (await node.seat(0).journal()).value
                self.assertEqual([it.command for it in entries if it.command in VERDICTS], ["valid"] * 6 + ["invalid"])

        asyncio.run(main())
        self.audited()

    # ---- a folder that outlives the process

    def test_a_killed_node_asks_nothing_again(self):
        """However it ends, the next node has each verdict: the same block costs no signature, and its stamps go on."""
        folder, verify = os.path.join(self.room, "data"), Counted()
        node = self.node(verify, seats=2, datadir=folder)
        mined = self.mined(node.seat(0))
        good = mined.block(mined.tip, [mined.spend(0)])
        bad = mined.block(block_id(good), [mined.spend(1, secret=1)])
        self.assertEqual(node.seat(1).submit(good, NOW), Stamped(112, "accepted"))
        self.assertEqual(node.seat(1).try_submit(bad, NOW).value.text, "blk-bad-inputs 1:0")
        self.assertEqual((len(verify.asked), len(self.verdicts(node.seat(1)))), (2, 2))
        entries = node.seat(1).journal()
        node.kill()
        again = Counted()
        node = self.node(again, seats=2, datadir=folder)
        self.assertEqual(node.seat(0).journal(), entries)
        self.assertEqual(node.seat(0).getbestblockhash().value, block_id(good))
        beside = mined.block(mined.tip, [mined.spend(0)], b"\x01")
        self.assertEqual(node.seat(0).submit(beside, NOW).value, "inconclusive")
        self.assertEqual(node.seat(0).precious(block_id(beside)).value, "done")
        self.assertEqual(node.seat(0).try_submit(bad, NOW).value.text, "duplicate-invalid")
        self.assertEqual(again.asked, [])
        node.close()
        ended = subprocess.run([PROGRAM, "audit", "--datadir", folder], capture_output=True, text=True)
        self.assertEqual((ended.stdout, ended.stderr), ("agrees\n", ""))
        with self.assertRaises(errors.NodeDied) as caught:
            Node(program=PROGRAM, datadir=folder)
        self.assertIn("made with --by-need", str(caught.exception))

    def test_genesis_alone(self):
        with Node(program=PROGRAM, verify=secp256k1) as node:
            self.assertEqual(node.seat(3).getbestblockhash(), Stamped(0, GENESIS.id))


if __name__ == "__main__":
    assert os.path.exists(PROGRAM)
    unittest.main()
