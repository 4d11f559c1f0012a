"""Blocks and transactions over coins that are given. What is expected are Bitcoin Core's words and numbers, by hand."""

import copy
import pickle
import threading
import unittest
from typing import List, Sequence, Tuple

from wakotehu import CoinSet, Coin, consensus
from wakotehu.encoding import Input, Output, Transaction, coinbase, double_sha, mine, push, subsidy, write_transaction
from wakotehu.errors import Busy, Closed, Contradiction, TooMany, Wants
from wakotehu.signatures import Secp256k1

ONE, TWO, BELOW = b"\x01" * 32, b"\x02" * 32, b"\x03" * 32
TIME = 1296688602
TRUE = b"\x51"


def tx(*spent: Tuple[bytes, int], pays: Sequence[int] = (1,), version: int = 1, sequence: int = 0xFFFFFFFF,
       scripts: Sequence[bytes] = (b"", b"")) -> Transaction:  # fmt: skip
    inputs = [Input(id, index, script, sequence) for (id, index), script in zip(spent, scripts)]
    return Transaction(version, inputs, [Output(value, TRUE) for value in pays], 0)


def block(height: int, *others: Transaction, more: int = 0) -> bytes:
    return mine(BELOW, TIME + 600, [coinbase(height, subsidy(height) + more, TRUE), *others])


def id_of(made: Transaction) -> bytes:
    return double_sha(write_transaction(made))


class ConnectTest(unittest.TestCase):
    def coins(self, *given: Tuple[bytes, int, Coin]) -> CoinSet:
        made = CoinSet(given)
        self.addCleanup(made.close)
        return made

    def fault(self, coins: CoinSet, data: bytes, height: int = 200, medians: Sequence[int] = ()) -> str:
        before = coins.coins()
        found = coins.connect(data, height, TIME, medians)
        if found:
            self.assertEqual(coins.coins(), before)
            self.assertFalse(coins.disconnect())
        return f"{found.reason} {found.transaction}:{found.input}" if found else ""

    def test_a_block_there_and_back(self) -> None:
        coins = self.coins((ONE, 0, Coin(70, TRUE, 5, False)), (TWO, 3, Coin(9, b"\x52", 6, False)))
        before = coins.coins()
        first = tx((ONE, 0), (TWO, 3), pays=(40, 20))
        second = tx((id_of(first), 1), pays=(20,))
        data = block(200, first, second, more=19)
        self.assertEqual(self.fault(coins, data), "")
        made = coinbase(200, subsidy(200) + 19, TRUE)
        after = sorted([
            (id_of(made), 0, Coin(subsidy(200) + 19, TRUE, 200, True)), (id_of(first), 0, Coin(40, TRUE, 200, False)),
            (id_of(second), 0, Coin(20, TRUE, 200, False)),
        ])  # fmt: skip
        self.assertEqual(coins.coins(), after)
        spent = [Coin(70, TRUE, 5, False), Coin(9, b"\x52", 6, False), Coin(20, TRUE, 200, False)]
        self.assertEqual(coins.spent(), spent)
        self.assertTrue(coins.disconnect())
        self.assertEqual(coins.coins(), before)
        self.assertFalse(coins.disconnect())
        self.assertIsNone(coins.spent())
        # The same once more, and a coin that comes in meanwhile keeps it from being taken back.
        self.assertEqual(self.fault(coins, data), "")
        coins.put(BELOW, 0, Coin(1, b"", 7, False))
        self.assertFalse(coins.disconnect())
        self.assertEqual(len(coins.coins()), 4)

    def test_rules_over_the_coins(self) -> None:
        young = (ONE, 0, Coin(50, TRUE, 101, True))
        for height, word in ((200, "bad-txns-premature-spend-of-coinbase 0:0"), (201, ""), (202, "")):
            self.assertEqual(self.fault(self.coins(young), block(height, tx((ONE, 0))), height), word)
        old = (ONE, 0, Coin(50, TRUE, 5, False))
        missing = "bad-txns-inputs-missingorspent 0:0"
        self.assertEqual(self.fault(self.coins(), block(200, tx((ONE, 0)))), missing)
        self.assertEqual(self.fault(self.coins(old), block(200, tx((ONE, 1)))), missing)
        self.assertEqual(self.fault(self.coins(old), block(200, tx((ONE, 0)), tx((ONE, 0), pays=(2,)))), missing)
        below = "bad-txns-in-belowout 0:0"
        self.assertEqual(self.fault(self.coins(old), block(200, tx((ONE, 0), pays=(50,)))), "")
        self.assertEqual(self.fault(self.coins(old), block(200, tx((ONE, 0), pays=(50, 1)))), below)
        self.assertEqual(self.fault(self.coins(old), block(200, tx((ONE, 0), pays=(20,)), more=30)), "")
        self.assertEqual(self.fault(self.coins(old), block(200, tx((ONE, 0), pays=(20,)), more=31)), "bad-cb-amount 0:0")
        again = coinbase(200, subsidy(200), TRUE)
        there = self.coins((id_of(again), 0, Coin(1, TRUE, 3, True)))
        self.assertEqual(self.fault(there, block(200)), "bad-txns-BIP30 0:0")

    def test_a_transaction_of_too_many_bytes(self) -> None:
        """Bitcoin Core's `CheckTransaction` refuses more than 1,000,000 bytes (`bad-txns-oversize`), behind those without inputs or
        outputs and before all else. It is asked where the caller says so."""
        coins = self.coins((ONE, 0, Coin(5, TRUE, 4, False)))
        for size, word in ((1000000, 4), (1000001, "bad-txns-oversize")):
            bare = write_transaction(tx((ONE, 0), scripts=[bytes(100000)]))
            data = write_transaction(tx((ONE, 0), scripts=[bytes(100000 + size - len(bare))]))
            self.assertEqual(len(data), size)
            self.assertEqual(coins.check_tx_inputs(data, 200), 4)
            self.assertEqual(coins.check_tx_inputs(data, 200, oversize=True), word)
            self.assertEqual(consensus.transaction(data).reason, "")
            self.assertEqual(consensus.transaction(data, oversize=True).reason, "" if word == 4 else word)
            missing = write_transaction(tx((TWO, 0), scripts=[bytes(size)]))
            self.assertEqual(coins.check_tx_inputs(missing, 200), "bad-txns-inputs-missingorspent")
            self.assertEqual(coins.check_tx_inputs(missing, 200, oversize=True), "bad-txns-oversize")
        # More inputs than a block has room for.
        many = b"\1\0\0\0\xfe" + (1000000).to_bytes(4, "little") + bytes(41 * 1000000)
        nothing, pays = many + bytes(5), many + b"\1" + bytes(9) + bytes(4)
        self.assertEqual(coins.check_tx_inputs(pays, 200, oversize=True), "bad-txns-oversize")
        self.assertEqual(coins.check_tx_inputs(nothing, 200, oversize=True), "bad-txns-vout-empty")
        self.assertEqual(coins.check_tx_inputs(nothing, 200), "bad-txns-vout-empty")
        coins.close()
        with self.assertRaises(Closed):
            coins.check_tx_inputs(pays, 200, oversize=True)

    def test_scripts(self) -> None:
        both = (ONE, 0, Coin(5, b"\x52\x87", 5, False)), (ONE, 1, Coin(5, b"\x53\x87", 5, False))
        for scripts, word in (
            ((b"\x52", b"\x53"), ""), ((b"\x53", b"\x53"), "blk-bad-inputs 1:0"), ((b"\x52", b"\x52"), "blk-bad-inputs 1:1")
        ):  # fmt: skip
            data = block(200, tx((ONE, 0), (ONE, 1), scripts=scripts))
            self.assertEqual(self.fault(self.coins(*both), data), word)

    def test_relative_locks_by_the_medians(self) -> None:
        """Three units of 512 seconds since the median of the block below the coin's (BIP 68)."""
        coin = (ONE, 0, Coin(5, TRUE, 4, False))
        data = block(200, tx((ONE, 0), version=2, sequence=(1 << 22) | 3))
        for since, word in ((3 * 512, ""), (3 * 512 - 1, "bad-txns-nonfinal 0:0")):
            self.assertEqual(self.fault(self.coins(coin), data, 200, [0, 0, 0, TIME - since]), word)
        deep = block(200, tx((ONE, 0), version=2, sequence=3))
        for height, word in ((7, ""), (6, "bad-txns-nonfinal 0:0")):
            own = mine(BELOW, TIME + 600, [coinbase(height, subsidy(height), TRUE), tx((ONE, 0), version=2, sequence=3)])
            self.assertEqual(self.fault(self.coins(coin), own, height), word)
        self.assertEqual(self.fault(self.coins(coin), deep), "")

    def test_too_few_medians(self) -> None:
        """A lock by time of 3 units counts from the median below its coin. Where that isn't given there is no answer: not by 0,
        from which the lock would be met."""
        def lock(*spent: Tuple[bytes, int]) -> Transaction:
            return tx(*spent, version=2, sequence=(1 << 22) | 3)

        coins = self.coins((ONE, 0, Coin(5, TRUE, 4, False)))
        data, before = block(200, lock((ONE, 0))), coins.coins()
        for count in range(6):
            medians = [TIME] * count
            if count < 4:
                with self.assertRaisesRegex(consensus.Refused, "mismatch"):
                    coins.connect(data, 200, TIME, medians)
                self.assertEqual(coins.coins(), before)
                self.assertFalse(coins.disconnect())
            else:
                self.assertEqual(self.fault(coins, data, 200, medians), "bad-txns-nonfinal 0:0")
        # Of genesis' coins, and of those above it, it is genesis' own.
        for height in (0, 1):
            with self.assertRaisesRegex(consensus.Refused, "mismatch"):
                self.coins((ONE, 0, Coin(5, TRUE, height, False))).connect(data, 200, TIME)
            self.assertEqual(self.fault(self.coins((ONE, 0, Coin(5, TRUE, height, False))), data, 200, [TIME - 3 * 512]), "")

    def test_the_parents_median_is_the_cutoff(self) -> None:
        """A coin of the block itself counts from its parent's median, from which no lock of 1 unit is met."""
        for count, units in ((5, 1), (6, 1), (5, 0), (6, 0)):
            first = tx((ONE, 0), pays=(5,))
            second = tx((id_of(first), 0), pays=(5,), version=2, sequence=(1 << 22) | units)
            data = mine(BELOW, TIME + 600, [coinbase(6, subsidy(6), TRUE), first, second])
            coins = self.coins((ONE, 0, Coin(5, TRUE, 4, False)))
            word = "bad-txns-nonfinal 0:0" if units else ""
            self.assertEqual(self.fault(coins, data, 6, [0, 0, 0, 0, 0, TIME][:count]), word)
        with self.assertRaisesRegex(consensus.Refused, "mismatch"):
            self.coins((ONE, 0, Coin(5, TRUE, 4, False))).connect(data, 6, TIME, [0, 0, 0, 0])
        # A coin of the parent's own height counts from the block below that one.
        late = tx((ONE, 0), version=2, sequence=(1 << 22) | 1)
        data = mine(BELOW, TIME + 600, [coinbase(6, subsidy(6), TRUE), late])
        for median, word in ((TIME - 512, ""), (TIME - 511, "bad-txns-nonfinal 0:0")):
            self.assertEqual(self.fault(self.coins((ONE, 0, Coin(5, TRUE, 5, False))), data, 6, [0, 0, 0, 0, median]), word)

    def test_medians_that_no_lock_asks_for(self) -> None:
        """By blocks, disabled, of another version, before BIP 68 is in force, and of a coinbase."""
        given = (ONE, 0, Coin(5, TRUE, 4, False))
        for version, sequence in ((2, 3), (2, 1 << 31 | 1 << 22 | 3), (1, 1 << 22 | 3), (0, 1 << 22 | 3)):
            data = block(200, tx((ONE, 0), version=version, sequence=sequence))
            self.assertEqual(self.fault(self.coins(given), data), "")
        data = block(200, tx((ONE, 0), version=2, sequence=1 << 22 | 3))
        self.assertIsNone(self.coins(given).connect(data, 200, TIME, heights=(1, 1, 1, 201)))
        with self.assertRaisesRegex(consensus.Refused, "mismatch"):
            self.coins(given).connect(data, 200, TIME, heights=(1, 1, 1, 200))
        # Versions are unsigned.
        with self.assertRaisesRegex(consensus.Refused, "mismatch"):
            self.coins(given).connect(block(200, tx((ONE, 0), version=-1, sequence=1 << 22 | 3)), 200, TIME)
        plain = coinbase(200, subsidy(200), TRUE)
        timed = plain._replace(version=2, inputs=[plain.inputs[0]._replace(sequence=1 << 22 | 3)])
        self.assertEqual(self.fault(self.coins(given), mine(BELOW, TIME + 600, [timed, tx((ONE, 0))])), "")

    def test_by_itself(self) -> None:
        good = block(200)
        for root in (bytes(32), b"\x01" * 32, b"\x02" * 32, b"\x03" * 32):
            data = good[:36] + root + good[68:]
            word = "bad-txnmrklroot 0:0" if double_sha(data[:80])[31] < 0x80 else "high-hash 0:0"
            self.assertEqual(self.fault(self.coins(), data), word)
        for data, word in ((b"", "short"), (good + b"\x00", "extra"), (good[:-1], "short")):
            with self.assertRaisesRegex(consensus.Refused, word):
                self.coins().connect(data, 200, TIME)

    def test_signatures_by_need(self) -> None:
        secp, secret = Secp256k1(), bytes(31) + b"\x07"
        spent = push(secp.public_key(secret)) + b"\xac"
        coins = self.coins((ONE, 0, Coin(9, spent, 5, False)), (ONE, 1, Coin(9, spent, 5, False)))
        bare = write_transaction(tx((ONE, 0), (ONE, 1)))
        own = [push(secp.sign(secret, consensus.signature_digest(bare, n, spent, 1)) + b"\x01") for n in (0, 1)]
        data = block(200, tx((ONE, 0), (ONE, 1), scripts=own))
        with self.assertRaises(Wants) as raised:
            coins.connect(data, 200, TIME)
        wants = coins.wants()
        self.assertEqual(raised.exception.triples, wants)
        self.assertEqual([it.key for it in wants], [secp.public_key(secret)] * 2)
        self.assertEqual(len(coins.coins()), 2)
        coins.learn(wants[0], True)
        with self.assertRaises(Contradiction):
            coins.learn(wants[0], False)
        with self.assertRaises(Wants):
            coins.connect(data, 200, TIME)
        self.assertEqual(coins.wants(), wants[1:])
        coins.learn(wants[1], False)
        self.assertEqual(self.fault(coins, data), "blk-bad-inputs 1:1")
        self.assertEqual(coins.wants(), [])


class CheckTxInputsTest(unittest.TestCase):
    def check(self, given: List[Tuple[bytes, int, Coin]], made: Transaction, height: int = 200) -> object:
        with CoinSet(given) as coins:
            found = coins.check_tx_inputs(write_transaction(made), height)
            self.assertEqual(coins.coins(), sorted(given))
            return found

    def test_fees_and_rules(self) -> None:
        two = [(ONE, 0, Coin(70, TRUE, 5, False)), (TWO, 3, Coin(9, b"\x52", 150, True))]
        both = tx((ONE, 0), (TWO, 3), pays=(40, 20))
        self.assertEqual(self.check(two, both, 250), 19)
        self.assertEqual(self.check(two, both, 249), "bad-txns-premature-spend-of-coinbase")
        self.assertEqual(self.check(two[:1], both, 250), "bad-txns-inputs-missingorspent")
        self.assertEqual(self.check(two, tx((ONE, 0), pays=(70,))), 0)
        self.assertEqual(self.check(two, tx((ONE, 0), pays=(71,))), "bad-txns-in-belowout")
        self.assertEqual(self.check(two, tx((ONE, 0), (ONE, 0))), "bad-txns-inputs-duplicate")
        self.assertEqual(self.check(two, tx((ONE, 0), pays=())), "bad-txns-vout-empty")
        self.assertEqual(self.check([], coinbase(7, 50, TRUE)), -50)
        # What isn't asked: an input's script, and a relative lock of 65,535 blocks.
        self.assertEqual(self.check(two, tx((ONE, 0), pays=(1,), version=2, sequence=65535)), 69)

    def test_a_fee_that_64_bits_cant_say(self) -> None:
        most = (1 << 63) - 1
        rich = [(ONE, n, Coin(most, TRUE, 5, False)) for n in (0, 1)]
        self.assertEqual(self.check(rich, tx((ONE, 0), (ONE, 1))), most)
        self.assertEqual(self.check(rich[:1], tx((ONE, 0))), most - 1)

    def test_bytes(self) -> None:
        data = write_transaction(tx((ONE, 0)))
        with CoinSet([(ONE, 0, Coin(70, TRUE, 5, False))]) as coins:
            self.assertEqual(coins.check_tx_inputs(data + b"\xff", 200), 69)
            for length in range(len(data)):
                with self.assertRaisesRegex(consensus.Refused, "short"):
                    coins.check_tx_inputs(data[:length], 200)


class LifeTest(unittest.TestCase):
    def test_a_coin_in_the_place_of_another(self) -> None:
        with CoinSet() as coins:
            self.assertIsNone(coins.coin(ONE, 0))
            coins.put(ONE, 0, Coin(1, b"", 7, False))
            coins.put(ONE, 0, Coin(-2, b"\x00" * 300, (1 << 32) - 1, True))
            self.assertEqual(coins.coin(ONE, 0), Coin(-2, b"\x00" * 300, (1 << 32) - 1, True))
            self.assertIsNone(coins.coin(ONE, 1))

    def test_an_input_by_verdicts(self) -> None:
        """What it asks for is what a second program signs, and the answers are those by tables of lines."""
        secp, secret = Secp256k1(), bytes(31) + b"\x07"
        spent = push(secp.public_key(secret)) + b"\xac"
        bare = write_transaction(tx((ONE, 0), (TWO, 1)))
        signatures = [secp.sign(secret, consensus.signature_digest(bare, n, spent, 1)) for n in range(2)]
        data = write_transaction(tx((ONE, 0), (TWO, 1), scripts=[push(it + b"\x01") for it in signatures]))
        with CoinSet() as coins, consensus.ParsedTransaction(data) as parsed:
            for n, valid in enumerate((True, False)):
                asked = coins.verify_input(parsed, n, spent)
                assert isinstance(asked, consensus.Triple)
                self.assertEqual(asked.signature, signatures[n])
                self.assertTrue(secp.valid(asked))
                coins.learn(asked, valid)
                found = coins.verify_input(parsed, n, spent)
                self.assertEqual(found, None if valid else consensus.ScriptError.EVAL_FALSE)
                tables = (asked.line, b"") if valid else (b"", asked.line)
                self.assertEqual(found, parsed.verify_input(n, spent, valid=tables[0], invalid=tables[1]))
            self.assertEqual(coins.verify_input(parsed, 0, b"\x51\xb1", ["P2SH"]), None)
            with self.assertRaisesRegex(consensus.Refused, "no such input"):
                coins.verify_input(parsed, 2, spent)
            coins.close()
            with self.assertRaises(Closed):
                coins.verify_input(parsed, 0, spent)
        with CoinSet() as coins, self.assertRaises(Closed):
            coins.verify_input(parsed, 0, spent)

    def test_closed(self) -> None:
        coins = CoinSet()
        coins.close()
        coins.close()
        for call in (
            lambda: coins.put(ONE, 0, Coin(1, b"", 7, False)), lambda: coins.connect(block(2), 2, TIME), coins.disconnect,
            coins.coins, coins.spent, coins.wants, lambda: coins.check_tx_inputs(write_transaction(tx((ONE, 0))), 2),
        ):  # fmt: skip
            with self.assertRaises(Closed):
                call()
        for copied in (copy.copy, copy.deepcopy, pickle.dumps):
            with self.assertRaisesRegex(TypeError, "CoinSet"):
                copied(coins)

    def test_most(self) -> None:
        made = []
        with self.assertRaises(TooMany):
            for _ in range(257):
                made.append(CoinSet())
        self.assertEqual(len(made), 256)
        for it in made:
            it.close()
        CoinSet().close()

    def test_threads(self) -> None:
        """Each thread's calls are refused or done whole: the coins are those that were put in."""
        done: List[Tuple[bytes, int]] = []
        with CoinSet() as coins:

            def put(thread: int) -> None:
                for n in range(2000):
                    try:
                        coins.put(bytes([thread]) * 32, n, Coin(n, TRUE, 5, False))
                        done.append((bytes([thread]) * 32, n))
                    except Busy:
                        pass

            threads = [threading.Thread(target=put, args=(it,)) for it in range(4)]
            for it in threads:
                it.start()
            for it in threads:
                it.join()
            self.assertEqual([(id, index) for id, index, _ in coins.coins()], sorted(done))


if __name__ == "__main__":
    unittest.main()
