"""Signatures that are found out by need: one by one, in any order, with the answers of a table of all that are valid.
SEED names another seed of the random blocks, BLOCKS how many there are."""

import ctypes
import os
import random
import tempfile
import unittest
from ctypes import CFUNCTYPE, byref, c_int, c_size_t, c_uint64, c_void_p

from bitcoin.core import COutPoint, CMutableTransaction, CMutableTxIn, CMutableTxOut, CTransaction
from bitcoin.core.script import CScript, SignatureHash
from bitcoin.wallet import CBitcoinSecret

from blocks import NOW, Maker, block_id
from test_scenarios import PROGRAM, Player, run, scenarios
from wakotehu import Bench, Chainstate, consensus, errors
from wakotehu.consensus import Table, Triple
from wakotehu.encoding import GENESIS, Input, Output, Transaction, push, read_transaction
from wakotehu.library import library

SEED, BLOCKS = int(os.environ.get("SEED", 7)), int(os.environ.get("BLOCKS", 1000))
SECRETS = [CBitcoinSecret.from_secret_bytes(bytes([number]) * 32) for number in range(1, 21)]
KEYS = [bytes(secret.pub) for secret in SECRETS]
HASH_TYPES = (1, 2, 3, 129, 130, 131)
STRAY = [Triple(b"\x02" + bytes([number]) * 32, b"\x30", bytes([number]) * 32) for number in range(256)]


class ByNeed:
    """A chainstate by need with the calls of one with a table. The table says what is found out: of all that a command
    wants one at a time, in random order; and in between it is told of signatures that nobody asks for."""

    def __init__(self, heights, table, dice):
        self.chain, self.table, self.dice = Chainstate(heights, by_need=True), Table(table), dice
        self.rounds = 0
        self.best, self.height, self.tips, self.coin = (
            self.chain.best, self.chain.height, self.chain.tips, self.chain.coin,
        )  # fmt: skip

    def close(self):
        self.chain.close()

    def valid(self, triple):
        return self.table.has(*triple)

    def stray(self):
        triple = self.dice.choice(STRAY)
        self.chain.learn(triple, self.valid(triple))

    def made(self, command):
        while True:
            before = self.chain.best(), self.chain.tips()
            try:
                return command()
            except errors.Wants as wants:
                self.rounds += 1
                assert wants.triples and wants.triples == self.chain.wants()
                assert (self.chain.best(), self.chain.tips()) == before, "it was no step"
                self.stray()
                one = self.dice.choice(wants.triples)
                self.chain.learn(one, self.valid(one))

    def try_submit(self, data, now):
        return self.made(lambda: self.chain.try_submit(data, now))

    def try_mark(self, command, id):
        return self.made(lambda: self.chain.try_mark(command, id))


class ScenariosTest(unittest.TestCase):
    def test_answers_are_those_of_the_table(self):
        self.assertTrue(os.path.exists(PROGRAM), f"{PROGRAM} isn't there: run ./build or rt ci first")
        dice, answers, rounds = random.Random(1), 0, 0
        for scenario in scenarios():
            with self.subTest(scenario=scenario.name), tempfile.TemporaryDirectory() as folder:
                told, more = self.compared(scenario, folder, dice)
                answers, rounds = answers + told, rounds + more
        print(f"\n{answers} answers, {rounds} times something was wanted")
        self.assertGreater(answers, 1000)
        self.assertGreater(rounds, 3)

    def compared(self, scenario, folder, dice):
        words = ("--scenario", "-", "--heights", scenario.heights, "--save", folder)
        printed = run("run", *words, text=scenario.text)
        told = [line.rsplit(" @", 1)[0] for line in printed[1 : printed.index("journal")]]
        shown = [line.split() for line in run("show", "--scenario", "-", text=scenario.text)]
        with open(f"{folder}/table.txt", encoding="ascii") as file:
            table = file.read()
        with open(f"{folder}/heights.txt", encoding="ascii") as file:
            heights = [int(height) for height in file.read().split(",")]
        chain = ByNeed(heights, table, dice)
        self.addCleanup(chain.close)
        player = Player(chain, [(name, id, bytes.fromhex(data)) for name, id, data in shown])
        played = [f"{words} = {answer}" for line in scenario.commands for words, answer in player.answer(line)]
        self.assertEqual(played, told)
        return len(played), chain.rounds


class VerdictsTest(unittest.TestCase):
    def test_a_verdict_stays(self):
        with Chainstate(by_need=True) as chain:
            for valid in (True, False):
                triple = STRAY[int(valid)]
                chain.learn(triple, valid)
                chain.learn(triple, valid)
                with self.assertRaises(errors.Contradiction):
                    chain.learn(triple, not valid)
                chain.learn(triple, valid)
            self.assertEqual(chain.wants(), [])

    def test_of_a_table_all_is_known(self):
        with Chainstate(table=STRAY[0].line) as chain:
            chain.learn(STRAY[0], True)
            chain.learn(STRAY[1], False)
            for triple, valid in ((STRAY[0], False), (STRAY[1], True)):
                with self.assertRaises(errors.Contradiction):
                    chain.learn(triple, valid)

    def test_a_table_or_by_need(self):
        with self.assertRaises(ValueError):
            Chainstate(table=STRAY[0].line, by_need=True)

    def test_what_is_wanted_in_any_room(self):
        maker, script = Maker(push(KEYS[0]) + b"\xac"), push(b"\x30\x01") + push(b"\x01")
        blocks = maker.chain(102)
        spends = [Input(maker.coinbases[block_id(block)].id, 0, script, 2**32 - 1) for block in blocks[:2]]
        with Chainstate((1, 1, 200, 1), by_need=True) as chain:
            for block in blocks:
                chain.submit(block, NOW)
            with self.assertRaises(errors.Wants) as caught:
                chain.submit(maker.block(block_id(blocks[-1]), [Transaction(1, spends, [Output(0, b"")], 0)]), NOW)
            lines = caught.exception.lines
            self.assertEqual([triple.line for triple in chain.wants()], [line + b"\n" for line in lines])
            self.assertEqual(len(lines), 2)
            self.assertEqual({triple[:2] for triple in chain.wants()}, {(KEYS[0], b"")})
            self.rooms(chain, b"".join(b"\n" + line for line in lines))

    def rooms(self, chain, text):
        told, took = [], CFUNCTYPE(c_int, c_void_p, c_void_p, c_size_t)
        for ends in (0, 1):
            take = took(lambda _context, line, length: told.append(ctypes.string_at(line, length)) or ends)
            self.assertEqual(library().wakotehu_wants(c_uint64(chain._handle), take, None), 0)
            self.assertEqual(b"".join(told), text[: len(told[0])] if ends else text)
            told.clear()
        for room in (*range(len(text) + 2), 10**6):
            lines, needed = ctypes.create_string_buffer(b"\xaa" * (room + 1), room + 1), c_size_t()
            code = library().wakotehu_want_lines(chain._handle, lines, room, byref(needed))
            self.assertEqual((code, needed.value), (0 if room >= len(text) else 5, len(text)))
            self.assertEqual(lines.raw[room:], b"\xaa")
            if code == 0:
                self.assertEqual(lines.raw[: len(text)], text)

    def test_a_closed_chainstate(self):
        chain = Chainstate(by_need=True)
        chain.close()
        for call in (chain.wants, lambda: chain.learn(STRAY[0], True)):
            with self.assertRaises(errors.Closed):
                call()


def multisig(needed, keys):
    return number(needed) + b"".join(map(push, keys)) + number(len(keys)) + b"\xae"


def number(value):
    return bytes([0x50 + value]) if value <= 16 else push(bytes([value]))


class Spends:
    """Kinds of outputs: the script that is paid to, and how bitcoinlib's signatures spend it."""

    def __init__(self, dice):
        self.dice = dice
        one, two = self.dice.sample(range(20), 2)
        self.kinds = [
            (push(KEYS[one]) + b"\xac", (one,), None, b""),
            (b"\x76\xa9" + push(consensus.hash160(KEYS[two])) + b"\x88\xac", (two,), None, push(KEYS[two])),
            # What stands before a separator isn't signed.
            (b"\x61\xab" + push(KEYS[one]) + b"\xac", (one,), push(KEYS[one]) + b"\xac", b""),
            # Not the first of two is valid: the other branch is taken.
            (push(KEYS[two]) + b"\xac\x63\x51\x67\x51\x68", (one,), None, b""),
        ]
        for needed, keys in ((2, range(3)), (3, range(20))):
            script = multisig(needed, [KEYS[place] for place in keys])
            signers = sorted(self.dice.sample(list(keys), needed))
            self.kinds.append((script, signers, None, None))
        script = multisig(1, KEYS[:2])
        paid = b"\xa9" + push(consensus.hash160(script)) + b"\x87"
        self.kinds.append((paid, (self.dice.randrange(2),), script, push(script)))

    def script(self):
        return self.dice.choice(self.kinds)


class RandomTest(unittest.TestCase):
    """A thousand random blocks with forks, whose signatures bitcoinlib makes and libsecp256k1 judges."""

    def test_blocks_with_forks(self):
        self.dice, self.reorganisations = random.Random(SEED), 0
        self.maker, self.spends = Maker(), Spends(self.dice)
        #: By block: the coins that it leaves unspent, of those that were made to be spent.
        self.free = {GENESIS.id: ()}
        self.commands = []
        heights = (1, 1, 1, 1)
        with Bench(heights) as bench:
            replies = []
            while len(self.maker.heights) <= BLOCKS:
                replies += self.fork(bench) if self.dice.random() < 0.05 else [self.one(bench)]
            table, ends = bench.table, self.state(bench)
            found = bench.found_out
            bad = sum(reply.startswith("blk-bad") for reply in replies)
            print(f"\n{found} signatures were found out in {bench.rounds} rounds; {bad} blocks had a bad one; "
                  f"{self.reorganisations} reorganisations")  # fmt: skip
        # By the table of all that were found valid each reply is the same: no verdict came too late.
        with Chainstate(heights, table) as chain:
            again = [self.made(chain, command) for command in self.commands]
            self.assertEqual(again, replies)
            self.assertEqual(self.state(chain), ends)
        # And found out one by one, in another order.
        slow = ByNeed(heights, table, self.dice)
        self.addCleanup(slow.close)
        self.assertEqual([self.made(slow, command) for command in self.commands], replies)
        self.assertEqual(self.state(slow.chain), ends)
        self.assertGreater(found, BLOCKS // 5)
        self.assertGreater(bad, BLOCKS // 100)
        self.assertGreater(self.reorganisations, BLOCKS // 50)

    def state(self, chain):
        return chain.best(), chain.height(), chain.tips(), sorted(chain.coins())

    def made(self, chain, command):
        name, *words = command
        call = chain.try_submit if name == "submit" else chain.try_mark
        return call(*(words if name == "submit" else command)).text

    def one(self, bench, parent=None):
        """The reply to a block on this one, or to any command."""
        before = bench.best()
        if parent is None and self.dice.random() < 0.03 and bench.height() > 3:
            branch = bench.branch()
            command = (self.dice.choice(["invalidate", "reconsider", "precious"]), self.dice.choice(branch[-4:]))
            self.commands.append(command)
            reply = self.made(bench, command)
        else:
            reply = self.block(bench, parent or self.parent(bench))
        # The active block went, and one came that isn't on it.
        self.reorganisations += bench.best() != before and before not in bench.branch()[-2:]
        return reply

    def block(self, bench, parent):
        transactions = self.transactions(parent) if self.dice.random() < 0.6 else []
        block = self.maker.block(parent, transactions, extra=self.dice.randbytes(4))
        command = ("submit", block, NOW + 10**6)
        self.commands.append(command)
        reply = self.made(bench, command)
        self.last = block_id(block)
        if reply in ("accepted", "inconclusive"):
            self.free[self.last] = self.left(parent, block, transactions)
        return reply

    def parent(self, bench):
        """The best block, or sometimes one of the last."""
        if self.dice.random() < 0.85 and bench.best() in self.free:
            return bench.best()
        return self.dice.choice(list(self.free)[-6:])

    def fork(self, bench):
        """The replies to a branch that leaves the active one some blocks below its end and gets higher."""
        below = self.dice.randrange(1, 4)
        at, replies = ([GENESIS.id] * 4 + bench.branch())[-below - 1], []
        while len(replies) <= below and at in self.free:
            replies.append(self.one(bench, at))
            at = self.last
        return replies

    def left(self, parent, block, transactions):
        """The coins after a block: those below it that it doesn't spend, and those that it makes."""
        spent = {(spends.id, spends.index) for tx in transactions for spends in tx.inputs}
        kept = [coin for coin in self.free[parent] if coin[:2] not in spent]
        made = [(tx.id, n, output.value, kind) for tx in transactions
                for n, (output, kind) in enumerate(zip(tx.outputs, self.kinds[tx.id]))]
        height = self.maker.heights[block_id(block)]
        coinbase = self.maker.coinbases[block_id(block)]
        return (*kept, *made, (coinbase.id, 0, coinbase.outputs[0].value, height))

    def transactions(self, parent):
        """Up to three transactions that spend coins of this branch."""
        height, found, self.kinds = self.maker.heights[parent] + 1, [], getattr(self, "kinds", {})
        ready = [coin for coin in self.free[parent] if not isinstance(coin[3], int) or coin[3] + 100 <= height]
        for coin in self.dice.sample(ready, min(len(ready), self.dice.randrange(1, 4))):
            found.append(self.spending(coin))
        return found

    def spending(self, coin):
        id, index, value, kind = coin
        kinds = [self.spends.script() for _ in range(2)]
        outputs = [CMutableTxOut(value // 2, CScript(made[0])) for made in kinds]
        tx = CMutableTransaction([CMutableTxIn(COutPoint(id, index))], outputs)
        if not isinstance(kind, int):
            tx.vin[0].scriptSig = CScript(self.signed(tx, kind))
        data = CTransaction.from_tx(tx).serialize()
        made = read_transaction(data)
        self.kinds[made.id] = kinds
        return made

    def signed(self, tx, kind):
        script, signers, code, behind = kind
        wrong = self.dice.random() < 0.06
        pushed = b""
        for place in signers:
            hash_type = self.dice.choice(HASH_TYPES)
            digest = SignatureHash(CScript(script if code is None else code), tx, 0, hash_type)
            secret = SECRETS[(place + 5) % 20] if wrong else SECRETS[place]
            pushed += push(secret.sign(digest) + bytes([hash_type]))
        begins = b"\x00" if behind is None or code is not None and code.endswith(b"\xae") else b""
        return begins + pushed + (behind or b"")


if __name__ == "__main__":
    unittest.main()
