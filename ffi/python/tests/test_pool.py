"""Transactions that wait to be mined on a `Bench`: what is said of them beside Debian's litecoind 0.21.2.1 (litecoind.json, under
"mempool"), what follows from the rules, and that whatever waits may be mined, by blocks that are made otherwise."""

import random
import unittest
from fractions import Fraction
from unittest import mock

from blocks import NOW, Maker, block_id, signed, spend, with_script
from mempool_steps import played
from test_bench import KEYS, SECP, SECRETS, pay_to_key_hash
from test_pure import rows
from wakotehu import Bench, DecodeFailed, NotAccepted, NotFound, Pool, errors, mempool, pool, read_id, show, stage
from wakotehu.consensus import Triple
from wakotehu.encoding import (
    Input, Output, Transaction, block_at_front, coinbase, hash160, push, read_block, read_transaction, signature_digest,
    write_transaction,
)  # fmt: skip

COIN, LAST = 100_000_000, 0xFFFFFFFF
# Bitcoin Core's text of this fault, from memory; under its relay rules it may find another fault first.
FAILED = "mandatory-script-verify-flag-failed"
FALSE = " (Script evaluated without error but finished with a false/empty top stack element)"
MISSING, LOCKED, CONFLICT = "bad-txns-inputs-missingorspent", "non-BIP68-final", "txn-mempool-conflict"
#: Why one doesn't replace others, by Bitcoin Core's words, from memory.
NOT_REPLACED = (
    "insufficient fee", "replacement-adds-unconfirmed", "bad-txns-spends-conflicting-tx", "too many potential replacements",
)  # fmt: skip


def spends(id, value=50 * COIN, index=0, to=b"\x51", sequence=LAST, version=1, lock=0, script=b""):
    return Transaction(version, [Input(id, index, script, sequence)], [Output(value, to)], lock)


def money(satoshis):
    return f"{satoshis // COIN}.{satoshis % COIN:08}"


class Calls:
    """A few of bitcoind's calls over a pool, so that litecoind's steps can be played. Of others the answer is None."""

    def __init__(self, bench):
        self.bench, self.pool = bench, Pool(bench)

    def __call__(self, name, *words):
        return getattr(self, name, lambda *words: None)(*words)

    def generatetodescriptor(self, count, _):
        return [show(id) for id in self.pool.mine(count)]

    def getblock(self, id):
        return {"tx": [show(id) for id in block_at_front(self.bench.block(read_id(id))).ids]}

    def invalidateblock(self, id):
        self.bench.invalidate(read_id(id))

    def testmempoolaccept(self, raw):
        if len(raw) != 1 or raw == ["00"]:
            return None
        data = bytes.fromhex(raw[0])
        found = {"txid": show(read_transaction(data).id)}
        try:
            entry = self.pool.test(data)
        except NotAccepted as error:
            why = "missing-inputs" if error.reason == MISSING else error.reason
            return [{**found, "allowed": False, "reject-reason": why}]
        return [{**found, "allowed": True, "vsize": entry.size, "fees": {"base": money(entry.fee)}}]

    def sendrawtransaction(self, raw, most=None):
        if raw in (5, "00", "zz"):
            return None
        id = show(read_transaction(bytes.fromhex(raw)).id)
        try:
            # The call's own limit is 0.1 for 1,000 bytes.
            entry = self.pool.test(bytes.fromhex(raw))
            if most != 0 and 1000 * entry.fee > 10_000_000 * entry.size:
                return None
            return show(self.pool.add(bytes.fromhex(raw)))
        except NotAccepted as error:
            return id if error.reason == "txn-already-in-mempool" else {"message": str(error)}

    def getrawmempool(self, verbose=False, sequence=False):
        if sequence:
            return None
        return {show(it.id): self.getmempoolentry(show(it.id)) for it in self.pool} if verbose else [show(it.id) for it in self.pool]

    def getmempoolentry(self, id):
        try:
            entry = self.pool.entry(read_id(id))
        except (NotFound, ValueError):
            return None
        above, below = self.pool.ancestors(entry.id), self.pool.descendants(entry.id)
        return {
            "vsize": entry.size, "fee": money(entry.fee), "height": entry.height, "unbroadcast": entry.is_sent,
            "depends": [show(it) for it in self.pool.parents(entry.id)],
            "spentby": [show(it) for it in self.pool.children(entry.id)],
            "ancestorcount": 1 + len(above), "descendantcount": 1 + len(below),
            "ancestorfees": entry.fee + sum(self.pool.entry(it).fee for it in above),
            "descendantfees": entry.fee + sum(self.pool.entry(it).fee for it in below),
        }  # fmt: skip

    def getmempoolancestors(self, id):
        return [show(it) for it in self.pool.ancestors(read_id(id))]

    def getmempooldescendants(self, id, verbose=False):
        return None if verbose else [show(it) for it in self.pool.descendants(read_id(id))]


class BesideLitecoindTest(unittest.TestCase):
    #: What the calls refuse by a limit of theirs, and what `sendrawtransaction` says of a transaction that has coins.
    #: Litecoin's code replaces none.
    OTHERWISE = {"J pays too much?", "J pays too much", "C is in a block", "R spends the same coin as A"}

    def test_steps(self):
        with Bench() as bench:
            compared = 0
            for (what, answer), (name, other) in zip(played(Calls(bench)), rows("mempool")):
                self.assertEqual(what, name)
                if answer is not None and what not in self.OTHERWISE:
                    with self.subTest(what):
                        compared += 1
                        self.assertEqual(answer, self.part(other, answer))
            self.assertGreater(compared, 45)

    def part(self, other, answer):
        """What is there of it in an answer of ours."""
        if isinstance(other, dict) and isinstance(answer, dict):
            return {name: self.part(it, answer[name]) for name, it in other.items() if name in answer}
        return other


class Waiting(unittest.TestCase):
    """A bench of 110 blocks, whose coinbases anyone spends."""

    heights = (1, 1, 1, 1)

    def setUp(self):
        self.bench, self.maker = Bench(self.heights), Maker()
        self.addCleanup(self.bench.close)
        self.blocks = self.maker.chain(110)
        for block in self.blocks:
            self.bench.submit(block, NOW)
        self.coins = [self.maker.coinbases[block_id(block)].id for block in self.blocks]
        self.tip = block_id(self.blocks[-1])
        self.pool = self.pooled()

    def pooled(self, **more):
        return Pool(self.bench, **more)

    def add(self, *txs):
        for tx in txs:
            self.assertEqual(self.pool.add(write_transaction(tx)), tx.id)

    def block(self, parent, txs=(), extra=b"\0", now=NOW):
        block = self.maker.block(parent, txs, extra)
        self.bench.submit(block, now)
        return block_id(block)

    def waiting(self):
        return [entry.id for entry in self.pool]

    def seen(self):
        return self.bench.best(), self.bench.tips(), self.bench.coins(), self.bench.journal[:], dict(self.bench.index.blocks)

    def refused(self, tx, reason, more=""):
        """It isn't accepted for this reason, and nothing is left of it."""
        seen, waiting = self.seen(), list(self.pool)
        for call in (self.pool.test, self.pool.add):
            with self.assertRaises(NotAccepted) as caught:
                call(write_transaction(tx))
            self.assertEqual((caught.exception.reason, caught.exception.more), (reason, more))
        self.assertEqual((self.seen(), list(self.pool)), (seen, waiting))
        return caught.exception


class RulesTest(Waiting):
    def test_refused(self):
        first, late = self.coins[0], self.coins[-3]
        pay = [Output(COIN, b"\x51")]
        for tx, reason, more in (
            (spends(b"\1" * 32), MISSING, ""), (spends(first, index=1), MISSING, ""),
            (spends(first, 50 * COIN + 1), "bad-txns-in-belowout", "value in (50.00) < value out (50.00000001)"),
            (spends(late), "bad-txns-premature-spend-of-coinbase", "tried to spend coinbase at depth 3"),
            (spends(self.coins[11]), "bad-txns-premature-spend-of-coinbase", "tried to spend coinbase at depth 99"),
            (spends(first, script=b"\x6a"), FAILED + " (OP_RETURN was encountered)", ""),
            (spends(first, -1), "bad-txns-vout-negative", ""), (Transaction(1, [Input(first, 0, b"", 0)], [], 0), "bad-txns-vout-empty", ""),
            (Transaction(1, [Input(first, 0, b"", 0)] * 2, pay, 0), "bad-txns-inputs-duplicate", ""),
            (Transaction(1, [Input(bytes(32), LAST, b"\x51\x51", 0)], pay, 0), "coinbase", ""),
            (spends(first, sequence=0, lock=111), "non-final", ""), (spends(first, sequence=111, version=2), LOCKED, ""),
            (spends(first, to=b"\xac" * 20_001), "bad-txns-too-many-sigops", ""),
            (spends(first, to=bytes(999_900)), "tx-size", ""), (spends(first, to=bytes(1_000_000)), "bad-txns-oversize", ""),
            # What a transaction breaks by its coins comes first.
            (spends(b"\1" * 32, to=b"\xac" * 20_001), MISSING, ""), (spends(b"\1" * 32, to=bytes(999_900)), MISSING, ""),
            (spends(first, 51 * COIN, to=b"\xac" * 20_001), "bad-txns-in-belowout", "value in (50.00) < value out (51.00)"),
        ):  # fmt: skip
            with self.subTest(reason):
                self.refused(tx, reason, more)
        self.assertEqual(len(self.pool), 0)
        self.add(spends(self.coins[10]), spends(first, sequence=110, version=2), spends(self.coins[1], sequence=0, lock=110))

    def test_bytes_that_are_no_transaction(self):
        raw = write_transaction(spends(self.coins[0]))
        for data in (b"", raw[:-1], raw + b"\0", raw.replace(b"\1" + self.coins[0], b"\xfd\1\0" + self.coins[0])):
            for call in (self.pool.add, self.pool.test):
                self.assertRaises(DecodeFailed, call, data)

    def test_the_first_stays(self):
        first, child = spends(self.coins[0]), spends(self.coins[0], COIN)
        self.add(first)
        self.refused(first, "txn-already-in-mempool")
        self.refused(child, CONFLICT)
        two = Transaction(1, [Input(self.coins[1], 0, b"", LAST), Input(self.coins[0], 0, b"", LAST)], [Output(COIN, b"")], 0)
        self.refused(two, CONFLICT)
        self.assertEqual((self.waiting(), self.pool.spender(self.coins[0], 0), self.pool.spender(self.coins[1], 0)),
                         ([first.id], first.id, None))  # fmt: skip

    def test_asking_changes_nothing(self):
        tx, seen = spends(self.coins[0], 49 * COIN), self.seen()
        entry = self.pool.test(write_transaction(tx))
        self.assertEqual((entry.id, entry.tx, entry.data, entry.fee, entry.height), (tx.id, tx, write_transaction(tx), COIN, 110))
        self.assertEqual((self.waiting(), self.pool.size, self.seen()), ([], 0, seen))

    def test_signature_operations_and_fees(self):
        """Those of inner scripts count, and those of outputs; coins of what waits count as fees."""
        inner = b"\x51\xae" * 9
        first = spends(self.coins[0], 49 * COIN, to=b"\xa9\x14" + hash160(inner) + b"\x87")
        self.add(first, spends(self.coins[1], to=b"\xac\xac\xae"))
        self.assertEqual([(entry.fee, entry.sigops) for entry in self.pool], [(COIN, 0), (0, 22)])
        known = self.pool.entry(first.id)
        self.assertEqual((known.size, self.pool.size), (len(write_transaction(first)), sum(it.size for it in self.pool)))
        again = spends(first.id, 40 * COIN, script=push(b"\x51\xae\x51"))
        self.refused(again, FAILED + FALSE)
        code = b"\x51\x63\x51\x67" + b"\x51\xae" * 3 + b"\x68"
        paid = spends(self.coins[2], to=b"\xa9\x14" + hash160(code) + b"\x87")
        self.add(paid, spends(paid.id, 45 * COIN, script=push(code)))
        self.assertEqual([(it.fee, it.sigops) for it in self.pool][2:], [(0, 0), (5 * COIN, 3)])

    def test_relative_locks_on_what_waits(self):
        """A lock of no block is met in the same block; one of a block, or of 512 seconds, isn't."""
        first = spends(self.coins[0])
        self.add(first)
        for sequence in (1, 1 << 22 | 1):
            self.refused(spends(first.id, sequence=sequence, version=2), LOCKED)
        self.add(spends(first.id, sequence=0, version=2))
        [mined] = self.pool.mine()
        self.assertEqual(len(read_block(self.bench.block(mined)).transactions), 3)

    def test_a_median_is_the_moment(self):
        median = self.bench.index.blocks[self.tip].median
        self.refused(spends(self.coins[0], sequence=0, lock=median), "non-final")
        self.add(spends(self.coins[0], sequence=0, lock=median - 1))

    def test_coins_of_blocks(self):
        """One that is in a block, and whose coin is there; one whose coins are spent."""
        first, second = spends(self.coins[0]), spends(self.coins[1])
        self.add(first, second)
        self.pool.mine()
        self.refused(first, "txn-already-known")
        self.add(spends(first.id))
        self.pool.mine()
        self.refused(first, MISSING)

    def test_most(self):
        tx = spends(self.coins[0])
        size = len(write_transaction(tx))
        self.pool = self.pooled(most=2 * size - 1)
        self.add(tx)
        self.refused(spends(self.coins[1]), "mempool full")
        self.pool.mine()
        self.add(spends(self.coins[1]))
        self.assertEqual(self.pool.size, size)

    def test_others_ids(self):
        for name in ("entry", "parents", "children", "ancestors", "descendants"):
            self.assertRaises(NotFound, getattr(self.pool, name), self.coins[0])
        self.assertIsNone(self.pool.spender(self.coins[0], 0))
        self.assertNotIn(self.coins[0], self.pool)


class ReplacedTest(Waiting):
    """BIP 125, with Bitcoin Core's words from memory: litecoind replaces none."""

    def signalling(self, place=0, value=49 * COIN, count=1):
        """One that may be replaced, which pays a coin."""
        outs = [Output(value // count, b"\x51")] * count
        return Transaction(2, [Input(self.coins[place], 0, b"", LAST - 2)], outs, 0)

    def test_one_that_pays_more(self):
        first = self.signalling()
        child = spends(first.id, 48 * COIN)
        self.add(first, child)
        self.assertEqual(self.waiting(), [first.id, child.id])
        size = 61
        self.assertEqual(len(write_transaction(first)), size)
        # What goes paid two coins, and the new one pays for its own bytes besides.
        for value, more in (
            (49 * COIN, f"new feerate {self.rate(COIN, size)} <= old feerate {self.rate(COIN, size)}"),
            (48 * COIN + 1, "less fees than conflicting txs; 1.99999999 < 2.00"),
            (48 * COIN, "not enough additional fees to relay; 0.00 < 0.00000061"),
            (48 * COIN - size + 1, "not enough additional fees to relay; 0.0000006 < 0.00000061"),
        ):
            other = spends(self.coins[0], value)
            sign = ";" if "feerate" in more else ","
            self.refused(other, "insufficient fee", f"rejecting replacement {show(other.id)}{sign} {more}")
        self.assertEqual(self.waiting(), [first.id, child.id])
        last = spends(self.coins[0], 48 * COIN - size)
        entry, seen = self.pool.test(write_transaction(last)), self.waiting()
        self.assertEqual((entry.fee, seen), (2 * COIN + size, [first.id, child.id]))
        self.add(last)
        self.assertEqual((self.waiting(), self.pool.size), ([last.id], size))
        # It doesn't signal.
        self.refused(spends(self.coins[0], COIN), CONFLICT)
        [mined] = self.pool.mine()
        self.assertEqual([tx.id for tx in read_block(self.bench.block(mined)).transactions[1:]], [last.id])

    def rate(self, fee, size):
        satoshis = fee * 1000 // size
        return f"{satoshis // COIN}.{satoshis % COIN:08} BTC/kB"

    def test_the_own_inputs_signal(self):
        """Not those of what it hangs on; all that are spent have to."""
        first = self.signalling()
        child = spends(first.id, 48 * COIN)
        quiet = spends(self.coins[1], 49 * COIN)
        self.add(first, child, quiet)
        self.refused(spends(first.id, 40 * COIN), CONFLICT)
        both = Transaction(2, [Input(self.coins[0], 0, b"", LAST), Input(self.coins[1], 0, b"", LAST)], [Output(COIN, b"\x51")], 0)
        self.refused(both, CONFLICT)
        self.pool = self.pooled(full_rbf=True)
        self.add(first, child, quiet, both)
        self.assertEqual(self.waiting(), [both.id])

    def test_what_it_needs(self):
        """It may spend what the others spent of what waits, and no more; nothing that hangs on what it replaces."""
        first, other = self.signalling(), self.signalling(1)
        child = Transaction(2, [Input(first.id, 0, b"", LAST - 2)], [Output(48 * COIN, b"\x51")], 0)
        self.add(first, other, child)
        adds = Transaction(2, [Input(first.id, 0, b"", LAST), Input(other.id, 0, b"", LAST)], [Output(COIN, b"\x51")], 0)
        self.refused(adds, "replacement-adds-unconfirmed", f"replacement {show(adds.id)} adds unconfirmed input, idx 1")
        loop = Transaction(2, [Input(child.id, 0, b"", LAST), Input(self.coins[0], 0, b"", LAST)], [Output(COIN, b"\x51")], 0)
        self.refused(loop, "bad-txns-spends-conflicting-tx", f"{show(loop.id)} spends conflicting transaction {show(first.id)}")
        again = spends(first.id, 40 * COIN)
        self.add(again)
        self.assertEqual(self.waiting(), [first.id, other.id, again.id])

    def test_too_many(self):
        first = self.signalling(count=100)
        self.add(first, *(spends(first.id, 1000 + at, at) for at in range(100)))
        last = spends(self.coins[0], 0)
        more = f"rejecting replacement {show(last.id)}; too many potential replacements (101 > 100)\n"
        self.refused(last, "too many potential replacements", more)

    def test_room(self):
        """What goes leaves its room."""
        first = self.signalling()
        size = len(write_transaction(first))
        self.pool = self.pooled(most=size)
        self.add(first)
        self.refused(spends(self.coins[1], 0), "mempool full")
        self.add(spends(self.coins[0], 0))
        self.assertEqual(self.pool.size, size)

    def test_priority(self):
        """What is to be added to a fee counts for replacements and blocks; a block that has it ends that."""
        first = self.signalling()
        other = spends(self.coins[0], 49 * COIN + COIN // 2)
        self.add(first)
        self.pool.prioritise(first.id, -COIN)
        self.refused(spends(self.coins[0], 50 * COIN), "insufficient fee", mock.ANY)
        self.add(other)
        large = [spends(self.coins[place], 49 * COIN, to=b"\x6a" + bytes(600_000)) for place in (1, 2)]
        self.add(*large)
        self.assertEqual([it.id for it in self.pool.selection()], [other.id, large[0].id])
        self.pool.prioritise(large[1].id, 1)
        self.assertEqual([it.id for it in self.pool.selection()], [other.id, large[1].id])
        self.pool.prioritise(large[1].id, 49 * COIN * 10_000)
        self.assertEqual([it.id for it in self.pool.selection()], [large[1].id, other.id])
        self.pool.mine(2)
        self.assertEqual(self.pool._all.deltas, {first.id: -COIN})
        self.assertRaises(ValueError, self.pool.prioritise, first.id, 1 << 63)


class ChosenTest(Waiting):
    """What a block has that has no room for all."""

    def selected(self, room):
        with mock.patch.object(mempool, "MAX_BLOCK", room):
            return [entry.id for entry in self.pool.selection()]

    def family(self, draw, count):
        """Transactions that hang on others at random, with fees at random."""
        outpoints = [(id, 0, 50 * COIN) for id in self.coins[:6]]
        for _ in range(count):
            chosen = [outpoints.pop(draw.randrange(len(outpoints))) for _ in range(draw.choice((1, 1, 2)))]
            value = sum(it[2] for it in chosen)
            left = max(value - draw.choice((0, 100, 1000, 5000, 40_000)), 0)
            outs = [Output(left // 3, b"\x51" + b"\x61" * draw.randrange(150)) for _ in range(3)]
            tx = Transaction(2, [Input(id, index, b"", LAST) for id, index, _ in chosen], outs, 0)
            self.add(tx)
            outpoints += [(tx.id, index, left // 3) for index in range(3)]

    def chosen_plainly(self, room):
        """Bitcoin Core's way by its definition: each time the best of all packages that fit, looked at anew."""
        entries, chosen, left = {it.id: it for it in self.pool}, [], room - 80 - 1 - self.made
        while True:
            packages = []
            for place, id in enumerate(entries):
                if id not in chosen:
                    all = [it for it in [*self.pool.ancestors(id), id] if it not in chosen]
                    sums = sum(entries[it].fee for it in all), sum(entries[it].size for it in all)
                    own = Fraction(entries[id].fee, entries[id].size)
                    packages.append((min(Fraction(*sums), own), -place, all, sums[1]))
            packages = [it for it in packages if it[3] <= left]
            if not packages:
                return chosen
            best = max(packages, key=lambda it: it[:2])
            chosen += best[2]
            left -= best[3]

    def test_as_its_definition(self):
        self.made = len(write_transaction(pool._made(111, 0, b"\x51", 0)))
        for seed in range(12):
            self.setUp()
            self.family(random.Random(seed), 40)
            for room in (1500, 3000, 6000):
                with self.subTest(seed=seed, room=room):
                    ours, plain = self.selected(room), self.chosen_plainly(room)
                    self.assertEqual(self.worth(ours), self.worth(plain))

    def worth(self, ids):
        return sum(self.pool.entry(id).fee for id in ids)

    def test_a_child_pays_for_its_parent(self):
        parent = spends(self.coins[0])
        other = spends(self.coins[1], 50 * COIN - 500)
        child = spends(parent.id, 50 * COIN - 5000)
        self.add(parent, other, child)
        size = len(write_transaction(parent))
        room = 80 + 1 + len(write_transaction(pool._made(111, 0, b"\x51", 0)))
        self.assertEqual(self.selected(room + 2 * size), [parent.id, child.id])
        self.assertEqual(self.selected(room + size), [other.id])
        self.assertEqual(self.selected(room + 3 * size), [parent.id, other.id, child.id])

    def test_a_long_line(self):
        """What would be looked at together with more than 24 others comes when these are in the block."""
        line = [spends(self.coins[0])]
        for at in range(60):
            line.append(spends(line[-1].id, 50 * COIN - at))
        self.add(*line)
        large = spends(self.coins[1], to=b"\x6a" + bytes(999_000 - 80))
        self.add(large)
        ids = [entry.id for entry in self.pool.selection()]
        self.assertEqual(ids, [tx.id for tx in line])


class RoomTest(Waiting):
    def test_what_fits(self):
        """What is too large for one block comes in the next one, with what hangs on it."""
        large = [spends(self.coins[place], to=b"\x6a" + bytes(300_000)) for place in range(4)]
        small = spends(self.coins[4], 49 * COIN)
        child = spends(small.id, 48 * COIN)
        self.add(*large, small, child)
        ids = [tx.id for tx in (small, child, *large[:3])]
        self.assertEqual([entry.id for entry in self.pool.selection()], ids)
        self.assertEqual(read_block(self.pool.template()).header.parent, self.tip)
        first, second = self.pool.mine(2)
        self.assertEqual([tx.id for tx in read_block(self.bench.block(first)).transactions][1:], ids)
        self.assertEqual([tx.id for tx in read_block(self.bench.block(second)).transactions][1:], [large[3].id])
        self.assertEqual(read_block(self.bench.block(first)).transactions[0].outputs, [Output(52 * COIN, b"\x51")])

    def test_signature_operations(self):
        """20,000 at most, with those of the coinbase that is made."""
        many = [spends(self.coins[place], to=b"\xac" * count) for place, count in enumerate((10_000, 10_001, 10_000))]
        self.add(*many)
        for to, left in ((b"\x51", 0), (b"\xac", 2)):
            ids = [it.id for place, it in enumerate(many) if place not in ((1,) if left == 0 else (1, 2))]
            self.assertEqual([entry.id for entry in self.pool.selection(to)], ids)

    def test_as_much_as_a_block_may_have(self):
        """A transaction that leaves no byte over beside a coinbase that makes no coin, and one of one byte more."""
        more = len(write_transaction(spends(self.coins[1], to=bytes(999_000)))) - 999_000
        room = 1_000_000 - 80 - 1 - len(write_transaction(coinbase(111, 0, b"\x6a", b"a dry run"))) - more
        fits, sigops = spends(self.coins[1], to=bytes(room)), spends(self.coins[0], to=b"\xac" * 20_000)
        self.refused(spends(self.coins[1], to=bytes(room + 1)), "tx-size")
        self.add(fits)
        self.assertEqual(self.pool.selection(bytes(10)), [])
        [mined] = self.pool.mine()
        self.assertEqual(len(self.bench.block(mined)), 1_000_000 - len(b"a dry run") + len(b"pool") + 4)
        self.add(sigops)
        self.assertEqual([entry.id for entry in self.pool.selection(b"\xac")], [])
        [mined] = self.pool.mine()
        self.assertEqual(read_block(self.bench.block(mined)).transactions[1].id, sigops.id)

    def test_a_child_of_what_is_left_out(self):
        large, many = spends(self.coins[0], 40 * COIN, to=b"\xac" * 10_000), spends(self.coins[1], 49 * COIN)
        many = many._replace(outputs=[*many.outputs, Output(0, b"\xac" * 10_001)])
        child = spends(many.id, 49 * COIN)
        self.add(large, many, child)
        self.assertEqual([entry.id for entry in self.pool.selection()], [large.id])

    def test_a_chain_that_no_block_has_room_for(self):
        many = Transaction(1, [Input(self.coins[0], 0, b"", LAST)], [Output(COIN, b"\x51"), Output(0, b"\x6a" + bytes(600_000))], 0)
        large = Transaction(1, [Input(many.id, 0, b"", LAST)], [Output(COIN, b"\x6a" + bytes(500_000))], 0)
        self.add(many)
        self.refused(large, "too-long-mempool-chain", "no block has room for it and what it needs")
        self.pool.mine()
        self.add(large)

    def test_whom_a_block_pays(self):
        [mined] = self.pool.mine(to="2N2JD6wb56AfK4tfmM6PwdVmoYk2dCKf4Br")
        [made] = read_block(self.bench.block(mined)).transactions
        self.assertEqual((made.outputs[0].script[:2], made.outputs[0].script[22:]), (b"\xa9\x14", b"\x87"))
        self.assertRaises(ValueError, self.pool.mine, 1, "no address")


class GraphTest(Waiting):
    def test_what_hangs_on_what(self):
        first = Transaction(1, [Input(self.coins[0], 0, b"", LAST)], [Output(20 * COIN, b"\x51"), Output(20 * COIN, b"\x51")], 0)
        left, right = spends(first.id, 20 * COIN), spends(first.id, 19 * COIN, 1)
        last = Transaction(1, [Input(right.id, 0, b"", LAST), Input(left.id, 0, b"", LAST)], [Output(COIN, b"\x51")], 0)
        self.add(first, left, right, last)
        self.assertEqual(self.pool.parents(last.id), [right.id, left.id])
        self.assertEqual(self.pool.children(first.id), [left.id, right.id])
        self.assertEqual(self.pool.ancestors(last.id), [first.id, left.id, right.id])
        self.assertEqual(set(self.pool.descendants(first.id)), {left.id, right.id, last.id})
        self.assertEqual([self.pool.entry(tx.id).fee for tx in (first, left, right, last)], [10 * COIN, 0, COIN, 38 * COIN])

    def test_coins(self):
        first = Transaction(1, [Input(self.coins[0], 0, b"", LAST)], [Output(7, b"\x52"), Output(5, b"\x6a")], 0)
        self.add(first)
        coin = self.pool.coin(first.id, 0)
        self.assertEqual((coin.value, coin.script, coin.height, coin.coinbase), (7, b"\x52", 0x7FFFFFFF, False))
        for id, index in ((first.id, 1), (first.id, 2), (self.coins[0], 0), (b"\1" * 32, 0)):
            self.assertIsNone(self.pool.coin(id, index))
        self.assertEqual(self.pool.coin(self.coins[1], 0), self.bench.coin(self.coins[1], 0))
        self.assertIsNotNone(self.bench.coin(self.coins[0], 0))
        self.add(spends(first.id, 6))
        self.assertIsNone(self.pool.coin(first.id, 0))


class BranchTest(Waiting):
    def test_mined_ones_leave_with_what_conflicts(self):
        first, other = spends(self.coins[0]), spends(self.coins[1])
        second = spends(first.id)
        third = spends(second.id)
        self.add(first, second, third, other)
        self.block(self.tip, [spends(self.coins[0], COIN), other])
        self.assertEqual((self.waiting(), self.pool.size), ([], 0))
        self.assertIsNone(self.pool.coin(self.coins[0], 0))

    def test_what_hangs_on_what_was_mined_by_itself(self):
        first = spends(self.coins[0])
        second = spends(first.id)
        third = spends(second.id)
        self.add(first, second)
        self.block(self.tip, [first])
        self.assertEqual(self.waiting(), [second.id])
        self.add(third)
        self.assertEqual((self.pool.parents(second.id), self.pool.ancestors(third.id)), ([], [second.id]))

    def test_a_reorganisation_brings_back(self):
        """What was mined on the branch that left waits again, unless the new branch has it, or spends the same coin."""
        kept, again, gone = (spends(self.coins[place]) for place in range(3))
        self.add(again)
        before = self.pool.entry(again.id)
        self.block(self.tip, [kept, again, gone])
        child = spends(gone.id, COIN)
        self.add(child)
        low = self.block(self.tip, [kept, spends(self.coins[2], 3 * COIN)], b"\1")
        self.block(low, extra=b"\1")
        self.assertEqual(self.waiting(), [again.id])
        entry = self.pool.entry(again.id)
        self.assertEqual((entry.fee, before.is_sent, entry.is_sent), (0, True, False))
        self.assertGreaterEqual(entry.height, 112)

    def test_blocks_that_leave_one_after_the_other(self):
        """They are all taken up at once, each transaction behind those that it spends coins of."""
        chain = [spends(self.coins[0], 49 * COIN)]
        for place in range(8):
            chain.append(spends(chain[-1].id, (48 - place) * COIN))
        blocks, at = [], self.tip
        for place in range(0, 9, 3):
            at = self.block(at, chain[place : place + 3])
            blocks.append(at)
        self.assertEqual(self.waiting(), [])
        for id in reversed(blocks):
            self.bench.invalidate(id)
        self.assertEqual(self.waiting(), [tx.id for tx in chain])
        self.bench.reconsider(blocks[0])
        self.assertEqual(self.waiting(), [])

    def test_a_block_that_came_and_left_unseen(self):
        tx = spends(self.coins[0])
        self.bench.invalidate(self.block(self.tip, [tx]))
        self.assertEqual(self.waiting(), [tx.id])

    def test_a_coinbase_that_is_early_again(self):
        late, other = spends(self.coins[10]), spends(self.coins[0])
        self.add(late, other)
        self.bench.invalidate(self.tip)
        self.assertEqual(self.waiting(), [other.id])
        self.refused(late, "bad-txns-premature-spend-of-coinbase", "tried to spend coinbase at depth 99")
        self.bench.reconsider(self.tip)
        self.add(late)

    def test_what_is_kept_of_an_entry(self):
        self.add(spends(self.coins[0], COIN), spends(self.coins[1], COIN))
        before = list(self.pool)
        self.bench.invalidate(self.tip)
        self.assertEqual(list(self.pool), before)

    def test_a_few_that_may_not_wait_any_more(self):
        """Among many, so that they aren't all of one block: the others stay."""
        many = Transaction(1, [Input(self.coins[0], 0, b"", LAST)], [Output(COIN // 10, b"\x51")] * 60, 0)
        early = [spends(self.coins[10]), spends(many.id, 5, 7), spends(many.id, 5, 50)]
        more = [Transaction(1, [Input(many.id, n, b"", LAST), Input(early[0].id, 0, b"", LAST)], [Output(1, b"")], 0) for n in (3,)]
        txs = [many, *early, *more, *(spends(many.id, 9, n) for n in range(60) if n not in (3, 7, 50))]
        self.add(*txs)
        self.bench.invalidate(self.tip)
        gone = {early[0].id, more[0].id}
        self.assertEqual(self.waiting(), [tx.id for tx in txs if tx.id not in gone])

    def test_more_than_a_block(self):
        large = [spends(self.coins[place], to=b"\x6a" + bytes(300_000)) for place in range(7)]
        self.add(*large)
        self.bench.invalidate(self.tip)
        self.assertEqual(self.waiting(), [tx.id for tx in large])

    def test_several_pools_and_copies(self):
        other, tx = self.pooled(), spends(self.coins[0])
        self.add(tx)
        self.assertEqual(len(other), 0)
        with self.bench.copy() as copy:
            own = Pool(copy)
            own.add(write_transaction(spends(self.coins[0], COIN)))
            own.mine()
            self.assertEqual((len(own), self.waiting(), copy.height(), self.bench.height()), (0, [tx.id], 111, 110))
            self.assertEqual((copy.bests, len(copy.journal)), ([*self.bench.bests, copy.best()], 111))
        mined = [*self.pool.mine(), *other.mine()]
        self.bench.invalidate(mined[0])
        self.assertEqual((self.waiting(), [it.id for it in other]), ([tx.id], [tx.id]))
        self.assertEqual(len({*self.pool.mine(), *mined}), 3)

    def test_a_move_in_words(self):
        """`way` is what `follow` answers."""
        index = self.bench.index.copy()
        low = self.block(self.tip, extra=b"\1")
        high = self.block(self.block(self.tip, extra=b"\2"), extra=b"\2")
        way = self.bench.index.way(low, high)
        self.assertEqual(way, ([low], [self.bench.parent(high), high]))
        self.assertEqual(self.bench.index.way(high, low), (way[1][::-1], way[0]))
        self.assertEqual(self.bench.index.way(self.tip, self.tip), ([], []))
        self.assertEqual(index.active[-1], self.tip)


class ForksTest(Waiting):
    """BIPs 68 and 112 come into force at height 115."""

    heights = (1, 1, 1, 115)

    def test_a_fork_that_comes_into_force(self):
        locked, other = spends(self.coins[0], sequence=200, version=2), spends(self.coins[1])
        self.add(locked, other)
        at = self.tip
        for _ in range(3):
            at = self.block(at)
            self.assertEqual(self.waiting(), [locked.id, other.id])
        self.block(at)
        self.assertEqual(self.waiting(), [other.id])
        self.refused(locked, LOCKED)


class SignaturesTest(unittest.TestCase):
    def test_real_ones(self):
        """A signature that was found out is asked for once: not when its block is mined, and not when it comes back."""
        script = pay_to_key_hash(KEYS[0])
        maker = Maker(script)
        with Bench() as bench:
            blocks = maker.chain(101)
            for block in blocks:
                bench.submit(block, NOW)
            pool, tx = Pool(bench), spend(maker.coinbases[block_id(blocks[0])].id, 0, COIN, b"", script)
            wrong, right = (with_script(tx, 0, *signed(SECP, [SECRETS[n]], tx, 0, script), KEYS[0]) for n in (1, 0))
            for _ in range(2):
                with self.assertRaises(NotAccepted) as caught:
                    pool.add(write_transaction(wrong))
                self.assertEqual(caught.exception.reason, FAILED + FALSE)
                reply = caught.exception.reply
                self.assertEqual((reply.text, reply.transaction, reply.input), ("blk-bad-inputs 1:0", 1, 0))
            self.assertEqual((len(bench.journal), bench.found_out), (101, 1))
            pool.add(write_transaction(right))
            self.assertEqual((len(bench.journal), bench.found_out), (101, 2))
            [mined] = pool.mine()
            bench.invalidate(mined)
            self.assertEqual([entry.id for entry in pool], [right.id])
            self.assertEqual(bench.found_out, 2)

    def test_what_the_table_has_is_valid(self):
        script = push(KEYS[0]) + b"\xad\x6a"
        maker = Maker(script)
        blocks = maker.chain(101)
        tx = spend(maker.coinbases[block_id(blocks[0])].id, 0, COIN, b"", script)
        [other] = signed(SECP, [SECRETS[1]], tx, 0, script)
        line = Triple(KEYS[0], other[:-1], signature_digest(tx, 0, script, 1)).line
        for table, text in ((b"", "Script failed an OP_CHECKSIGVERIFY operation"), (line, "OP_RETURN was encountered")):
            with Bench(table=table) as bench:
                for block in blocks:
                    bench.submit(block, NOW)
                with self.assertRaises(NotAccepted) as caught:
                    Pool(bench).test(write_transaction(with_script(tx, 0, other)))
                self.assertEqual(caught.exception.reason, f"{FAILED} ({text})")


class RandomTest(Waiting):
    """Random transactions, right and wrong, blocks and marks. Of each transaction the pool says what a copy of the chainstate
    says of a block that has it behind those that it needs; and whatever waits, together, is a block's."""

    def test_as_a_block_of_a_copy(self):
        for seed in range(5):
            with self.subTest(seed=seed):
                self.setUp()
                self.play(random.Random(seed))

    def test_on_stages(self):
        """The same where each that hangs on another is judged on a stage, if it may be."""
        with mock.patch.object(mempool, "DEEP", 0), mock.patch.object(stage.Stage, "judge", autospec=True, side_effect=stage.Stage.judge) as judge:
            for seed in range(5, 12):
                with self.subTest(seed=seed):
                    self.setUp()
                    self.play(random.Random(seed))
        self.assertGreater(judge.call_count, 100)

    def play(self, draw):
        outpoints, accepted, tops = [(id, 0) for id in self.coins[:14]], 0, [self.tip]
        for step in range(120):
            chance = draw.random()
            if chance < 0.08:
                tops.append(self.pool.mine()[0])
                self.maker.heights[tops[-1]] = self.bench.height()
            elif chance < 0.15:
                block = self.maker.block(draw.choice(tops[-3:]), extra=b"r%d" % step)
                if self.bench.try_submit(block, NOW).reply in ("accepted", "inconclusive"):
                    tops.append(block_id(block))
            elif chance < 0.2:
                self.bench.try_mark(draw.choice(("invalidate", "reconsider")), draw.choice(tops))
            else:
                accepted += self.tries(draw, outpoints)
            self.check()
        self.assertGreater(accepted, 15)

    def tries(self, draw, outpoints):
        count = draw.choice((1, 1, 1, 2, 3))
        unspent = [it for it in outpoints if self.pool.coin(*it)] if draw.random() < 0.8 else outpoints
        chosen = [draw.choice(unspent[-6:] if draw.random() < 0.6 else unspent) for _ in range(count)]
        coins = [self.pool.coin(*it) or self.bench.coin(*it) for it in chosen]
        value = sum(coin.value for coin in coins if coin) + draw.choice((0, 0, 0, 0, 0, -5, 1))
        sequence, version = draw.choice((LAST, LAST, LAST, LAST, LAST, 0, 1, 3, 1 << 22)), draw.choice((1, 2))
        ins = [Input(*it, b"\x6a" if draw.random() < 0.03 else b"", sequence) for it in chosen]
        outs = [Output(max(value, 0) // 2, b"\x51"), Output(max(value, 0) - max(value, 0) // 2, draw.choice((b"\x51", b"\x51", b"\x6a")))]
        tx = Transaction(version, ins, outs, draw.choice((0, 0, 0, 105, 111, 113)))
        entries = {entry.id: entry for entry in self.pool}
        try:
            id = self.pool.add(write_transaction(tx))
        except NotAccepted as error:
            if error.reason not in (CONFLICT, "txn-already-in-mempool", *NOT_REPLACED):
                self.assertNotEqual(self.as_a_block(entries, tx), "accepted", error)
            return False
        outpoints += [(id, 0), (id, 1)]
        self.assertEqual(self.as_a_block(entries, tx), "accepted")
        return True

    def as_a_block(self, entries, tx):
        """What a copy says of a block of what it needs, found here by ids alone, and of itself."""
        needed, left = set(), [it.id for it in tx.inputs]
        while left:
            id = left.pop()
            if id in entries and id not in needed:
                needed.add(id)
                left += [it.id for it in entries[id].tx.inputs]
        with self.bench.copy() as copy:
            self.maker.heights[copy.best()] = copy.height()
            txs = [entry.tx for id, entry in entries.items() if id in needed]
            return copy.try_submit(self.maker.block(copy.best(), [*txs, tx], b"as a block"), NOW * 2).reply

    def check(self):
        with self.bench.copy() as copy:
            self.assertEqual(copy.try_submit(self.pool.template(), NOW * 2).reply, "accepted")
        entries = list(self.pool)
        spent = [(it.id, it.index) for entry in entries for it in entry.tx.inputs]
        self.assertEqual(len(spent), len(set(spent)))
        self.assertEqual(self.pool.size, sum(len(entry.data) for entry in entries))
        self.assertEqual([self.pool.spender(*it) for it in spent], [entry.id for entry in entries for _ in entry.tx.inputs])


class StageTest(Waiting):
    """What hangs on others is judged where these are mined; here on one already."""

    def setUp(self):
        super().setUp()
        patched = mock.patch.object(mempool, "DEEP", 0)
        patched.start()
        self.addCleanup(patched.stop)
        self.first = Transaction(1, [Input(self.coins[0], 0, b"", LAST)], [Output(20 * COIN, b"\x51"), Output(20 * COIN, b"\x51")], 0)
        self.add(self.first)

    def counted(self):
        return mock.patch.object(stage.Stage, "judge", autospec=True, side_effect=stage.Stage.judge)

    def test_refused(self):
        id = self.first.id
        with self.counted() as judge:
            self.refused(spends(id, 20 * COIN, script=b"\x6a"), FAILED + " (OP_RETURN was encountered)")
            self.refused(spends(id, 21 * COIN), "bad-txns-in-belowout", "value in (20.00) < value out (21.00)")
            self.assertEqual(judge.call_count, 4)
        second = spends(id, 20 * COIN)
        self.add(second)
        self.refused(spends(second.id, 20 * COIN, index=1), MISSING)

    def test_where_the_height_counts_the_next_block_is_judged(self):
        """On a stage each of them would be accepted, a block too early."""
        two = lambda id, sequence=LAST: [Input(self.first.id, 0, b"", LAST), Input(id, 0, b"", sequence)]
        pay = [Output(20 * COIN, b"\x51")]
        with self.counted() as judge:
            self.refused(Transaction(1, two(self.coins[11]), pay, 0), "bad-txns-premature-spend-of-coinbase", "tried to spend coinbase at depth 99")
            self.refused(Transaction(2, two(self.coins[1], 110), pay, 0), LOCKED)
            self.refused(Transaction(-1, two(self.coins[1], 110), pay, 0), LOCKED)
            self.refused(spends(self.first.id, COIN, sequence=1, version=2), LOCKED)
            self.refused(spends(self.first.id, COIN, sequence=0, lock=111), "non-final")
            self.refused(Transaction(1, two(b"\1" * 32), pay, 0), MISSING)
            self.assertEqual(judge.call_count, 0)
        self.add(Transaction(2, two(self.coins[1], 109), pay, 0))

    def test_a_fork_to_come(self):
        """BIP 66 comes into force behind the next block: it is judged without."""
        script = push(KEYS[0]) + b"\xac"
        with Bench((1, 1, 112, 1)) as bench:
            for block in self.blocks:
                bench.submit(block, NOW)
            pool = Pool(bench)
            first = spends(self.coins[0], to=script)
            second = spends(first.id, COIN)
            [signature] = signed(SECP, SECRETS[:1], second, 0, script)
            pool.add(write_transaction(first))
            with self.counted() as judge:
                pool.add(write_transaction(with_script(second, 0, b"\x30\x81" + signature[1:])))
                self.assertEqual(judge.call_count, 0)
                pool.mine()
                third = spends(self.coins[1], to=script)
                fourth = spends(third.id, COIN)
                [signature] = signed(SECP, SECRETS[:1], fourth, 0, script)
                pool.add(write_transaction(third))
                with self.assertRaises(NotAccepted):
                    pool.add(write_transaction(with_script(fourth, 0, b"\x30\x81" + signature[1:])))
                pool.add(write_transaction(with_script(fourth, 0, signature)))
                self.assertEqual(judge.call_count, 2)

    def test_the_stage_makes_no_coin_of_its_own(self):
        make = stage.next_block
        with self.counted() as judge, mock.patch.object(stage, "next_block", side_effect=make) as made:
            self.add(spends(self.first.id, COIN))
            ids = [make(*call.args).ids[0] for call in list(made.call_args_list)]
            for id in ids:
                self.refused(Transaction(1, [Input(self.first.id, 1, b"", LAST), Input(id, 0, b"", LAST)], [Output(1, b"")], 0), MISSING)
            self.assertEqual((len(ids), judge.call_count), (2, 1))

    def test_a_block_ends_a_stage(self):
        second = spends(self.first.id, COIN)
        self.add(second)
        self.block(self.tip, [self.first])
        third = spends(second.id, COIN - 1)
        self.add(third)
        self.bench.invalidate(self.bench.best())
        self.add(spends(third.id, COIN - 2))
        self.assertEqual(len(read_block(self.pool.template()).transactions), 5)

    def test_signatures_stay_known(self):
        script, seen = pay_to_key_hash(KEYS[0]), self.bench.found_out
        paid = spends(self.first.id, 20 * COIN, to=script)
        self.add(paid)
        tx = spends(paid.id, COIN)
        [signature] = signed(SECP, SECRETS[:1], tx, 0, script)
        with self.counted() as judge:
            self.add(with_script(tx, 0, signature, KEYS[0]))
            self.assertEqual((judge.call_count, self.bench.found_out), (1, seen + 1))
        self.pool.mine()
        self.assertEqual((self.bench.found_out, len(self.bench.table.splitlines())), (seen + 1, 1))

    def test_no_block_has_room(self):
        many = spends(self.first.id, COIN)
        self.add(many._replace(outputs=[*many.outputs, Output(0, b"\x6a" + bytes(600_000))]))
        large = Transaction(1, [Input(list(self.pool)[-1].id, 0, b"", LAST)], [Output(0, b"\x6a" + bytes(500_000))], 0)
        self.refused(large, "too-long-mempool-chain", "no block has room for it and what it needs")

    def test_what_comes_back_one_by_one(self):
        """Of some that hang on one another one may not wait any more: the others are judged by halves, and on a stage."""
        late = spends(self.coins[10])
        chain = [spends(self.first.id, 20 * COIN)]
        for place in range(9):
            chain.append(spends(chain[-1].id, 20 * COIN - place))
        last = Transaction(1, [Input(chain[-1].id, 0, b"", LAST), Input(late.id, 0, b"", LAST)], [Output(COIN, b"\x51")], 0)
        self.add(*chain[:5], late, *chain[5:], last)
        self.bench.invalidate(self.tip)
        self.assertEqual(self.waiting(), [self.first.id, *(tx.id for tx in chain)])
        self.add(spends(chain[-1].id, COIN))

    def test_no_room_for_another_chainstate(self):
        with mock.patch.object(self.bench.chain, "copy", side_effect=errors.TooMany):
            self.add(spends(self.first.id, COIN))


class CostTest(Waiting):
    def test_a_dry_run_has_what_is_needed_alone(self):
        """However many wait: the block that is judged has no more than a transaction's ancestors; and of many that come back
        all are judged at once."""
        many = Transaction(1, [Input(self.coins[0], 0, b"", LAST)], [Output(COIN // 10, b"\x51")] * 100, 0)
        judge, counts = self.bench.judge_spelled, []

        def counted(spelled, now):
            counts.append(len(spelled.ids))
            return judge(spelled, now)

        self.bench.judge_spelled = counted
        self.add(many, *(spends(many.id, 9, n) for n in range(100)))
        self.assertEqual(counts, [2] + [3] * 100)
        counts.clear()
        self.bench.invalidate(self.pool.mine()[0])
        self.assertEqual((len(self.pool), counts), (101, [102]))

    def test_a_long_chain(self):
        """However long it is: of each a few transactions are judged, and some may have to be mined on a stage."""
        judge, counts = self.bench.judge_spelled, []
        self.bench.judge_spelled = lambda spelled, now: counts.append(len(spelled.ids)) or judge(spelled, now)
        at, made = self.coins[0], stage.next_block
        with mock.patch.object(stage, "next_block", side_effect=made) as staged:
            for place in range(200):
                tx = spends(at, 49 * COIN - place)
                self.add(tx)
                at = tx.id
            sizes = [len(call.args[3]) for call in staged.call_args_list]
        # The first of these spends a coinbase, which isn't judged on a stage.
        self.assertEqual((counts, sizes[:3]), ([*range(2, 27)], [25, 1, 1]))
        self.assertEqual(set(sizes[1:]), {1})
        self.assertLessEqual(len(sizes), 2 * 175)

    def test_a_few_that_may_not_wait_any_more(self):
        """They are found by halves."""
        many = Transaction(1, [Input(self.coins[0], 0, b"", LAST)], [Output(COIN // 10, b"\x51")] * 256, 0)
        self.add(many, *(spends(many.id, 9, n) for n in range(100)), spends(self.coins[10]))
        self.add(*(spends(many.id, 9, n) for n in range(100, 200)))
        judge, counts = self.bench.judge_spelled, []
        self.bench.judge_spelled = lambda spelled, now: counts.append(len(spelled.ids)) or judge(spelled, now)
        self.bench.invalidate(self.tip)
        self.assertEqual(len(self.pool), 201)
        self.assertLess(len(counts), 20)


if __name__ == "__main__":
    unittest.main()
