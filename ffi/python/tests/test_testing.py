"""The plugin of pytest: its fixtures, helpers and option, each by pytest on a file of tests; and the helpers alone."""

import importlib.util
import os
import subprocess
import sys
import tempfile
import textwrap
import unittest

from servers import PROGRAM
from wakotehu import Bench, Node, secp256k1, show
from wakotehu.benches import ANYONE, BASE, BenchMiner, NodeMiner
from wakotehu.encoding import read_block

PACKAGE = os.path.realpath(os.path.join(os.path.dirname(os.path.abspath(__file__)), ".."))
HEAD = "import pytest\nfrom wakotehu import show\nfrom wakotehu.encoding import hash160\nfrom wakotehu.rpc.scripts import address\n"


@unittest.skipUnless(importlib.util.find_spec("pytest"), "python3-pytest isn't installed")
class PluginTest(unittest.TestCase):
    def run_tests(self, text, *words):
        """What pytest says of a file of tests."""
        with tempfile.TemporaryDirectory() as folder:
            with open(os.path.join(folder, "test_it.py"), "w", encoding="ascii") as file:
                file.write(HEAD + textwrap.dedent(text))
            names = {**os.environ, "WAKOTEHU_PROGRAM": PROGRAM}
            if importlib.util.find_spec("wakotehu").origin.startswith(PACKAGE):
                names["PYTHONPATH"] = PACKAGE
            command = [sys.executable, "-m", "pytest", "-p", "wakotehu.testing", "-p", "no:cacheprovider", "-q", *words]
            done = subprocess.run(command, capture_output=True, text=True, cwd=folder, env=names, timeout=300)
            return done.returncode, done.stdout + done.stderr

    def passes(self, text, count):
        code, told = self.run_tests(text)
        self.assertEqual(code, 0, told)
        self.assertIn(f"{count} passed", told)

    def test_each_test_has_a_wallet_of_its_own(self):
        self.passes(
            """
            @pytest.mark.parametrize("number", range(2))
            def test_payment(number, wallet, bench, pool, reorg):
                assert (bench.height(), wallet.balance()) == (102, 50 * 10**8)
                own = wallet.address("a label")
                id = wallet.pay(own, 10**8)
                assert wallet.balance() == 50 * 10**8 - pool.entry(id).fee
                [block] = pool.mine()
                assert wallet.balance(1) == 50 * 10**8 - 4500
                assert reorg(1) == [block] and wallet.balance(1) == 45 * 10**8
                assert id in pool

            def test_none(bench):
                assert bench.height() == 101

            @pytest.mark.parametrize("number", range(2))
            def test_server(number, bitcoind):
                bitcoind.createwallet("w")
                bitcoind.generatetoaddress(101, bitcoind.getnewaddress())
                assert bitcoind.getbalance() == 50
                if number:
                    bitcoind.unloadwallet("w")
                    assert bitcoind.loadwallet("w")["name"] == "w"
            """,
            5,
        )

    def test_each_test_has_a_bench_of_its_own(self):
        self.passes(
            """
            def test_first(bench):
                assert bench.height() == 101
                bench.invalidate(bench.index.active[50])
                assert bench.height() == 49

            def test_second(bench, mine):
                assert bench.height() == 101
                [a, b] = mine(2)
                assert bench.best() == b and bench.parent(b) == a and bench.height() == 103

            def test_helpers(bench, mine, fund, reorg):
                id, index = fund(b"\\x52", 70 * 10**8)
                coin = bench.coin(id, index)
                assert (coin.value, coin.script, coin.coinbase) == (70 * 10**8, b"\\x52", False)
                best = bench.best()
                height = bench.height()
                assert reorg(1) == [best]
                assert bench.coin(id, index) is None and bench.height() == height + 1
                assert {tip.status for tip in bench.tips()} == {"active", "valid-fork"}

            def test_helpers_alone(mine, fund):
                assert len(mine()) == 1
                fund(address(111, hash160(b"x")), 1)

            def test_pool(bench, pool, fund, reorg):
                id, index = fund(b"\\x51", 10**8)
                assert pool.bench is bench and len(pool) == 0
                reorg(1)
                assert id in pool
                pool.mine()
                assert len(pool) == 0 and bench.coin(id, index) is not None
            """,
            5,
        )

    def test_node(self):
        self.passes(
            """
            def test_first(node, mine, fund, reorg):
                id, index = fund(b"\\x52", 5)
                one, two = node.seats[:2]
                two.told(one)
                assert two.gettxout(id, index).value.value == 5
                [gone] = reorg(1)
                assert one.gettxout(id, index).value is None

            def test_second(node):
                assert node.seat(3).gettxout(bytes(32), 0).value is None
                tips = node.seat(3).getchaintips().value
                assert [(tip.height, tip.status) for tip in tips] == [(101, "active")]
            """,
            2,
        )

    def test_bitcoind_is_set_back(self):
        """Whatever a test did: blocks, branches below the base, marks on it, and its moment."""
        self.passes(
            """
            from wakotehu.rpc.errors import RpcError

            @pytest.fixture(autouse=True)
            def same(bitcoind):
                assert bitcoind.getblockcount() == 101
                assert bitcoind.getblockhash(101) == bitcoind.getbestblockhash()
                known = same_as.setdefault("best", bitcoind.getbestblockhash())
                assert known == bitcoind.getbestblockhash()
                assert len([tip for tip in bitcoind.getchaintips() if tip["status"] == "active"]) == 1

            same_as = {}

            def test_mines(bitcoind, mine):
                mine(5)
                bitcoind.generatetodescriptor(3, "raw(51)")
                assert bitcoind.getblockcount() == 109

            def test_forks(bitcoind, mine, reorg, fund):
                mine(3)
                reorg(2)
                reorg(3)
                id, index = fund(b"\\x51", 1000)
                assert str(bitcoind.gettxout(show(id), index)["value"]) == "1e-05"

            def test_forks_below_the_base(bitcoind, reorg):
                reorg(6)
                reorg(4)

            def test_marks(bitcoind, mine):
                bitcoind.setmocktime(1700000000)
                bitcoind.invalidateblock(bitcoind.getblockhash(40))
                mine(2)

            def test_the_same_again(bitcoind, mine, reorg):
                mine(5)
                reorg(2)

            def test_marks_within(bitcoind, mine):
                [a, b] = mine(2)
                bitcoind.invalidateblock(bitcoind.getblockhash(101))
                assert bitcoind.getblockcount() == 100

            def test_faults(bitcoind):
                with pytest.raises(RpcError) as caught:
                    bitcoind.getblockhash(500)
                assert caught.value.code == -8
                assert bitcoind.call("uptime") < 1000 and bitcoind.url.endswith(str(bitcoind.port))
                assert "setmocktime" not in bitcoind.help()

            def test_moment(bitcoind):
                [id] = bitcoind.generatetodescriptor(1, "raw(51)")
                assert bitcoind.getblockheader(id)["time"] > 1700000000 + 10**7
            """,
            8,
        )

    def test_the_tree_of_a_test_that_fails(self):
        text = """
        def test_it(bench, mine, reorg):
            mine(1)
            reorg(1)
            print(show(bench.index.active[102])[:8], show(bench.best())[:8])
            assert bench.height() == 7

        def test_right(bench):
            assert bench.height() == 101
        """
        code, told = self.run_tests(text, "--wakotehu-table")
        self.assertEqual(code, 1, told)
        self.assertIn("- Block tree of bench -", told)
        low, top = told.partition("Captured stdout call")[2].split("\n")[1].split()
        rows = told.partition("Block tree of bench")[2].split("\n")[1:5]
        self.assertEqual(rows[0].split(), ["103", top, "active"])
        self.assertEqual(rows[1].split()[:2], ["102", low])
        self.assertEqual(rows[1].split()[3:], ["valid-fork"])
        self.assertEqual((rows[2].split()[0], rows[3].split()[:3]), ("101", ["100", "and", "below:"]))
        code, told = self.run_tests(text)
        self.assertEqual((code, "Block tree" in told), (1, False))
        self.assertIn("--wakotehu-table", self.run_tests("", "--help")[1])


class HelpersTest(unittest.TestCase):
    def test_funds_until_no_coin_is_old_enough(self):
        with Bench() as bench:
            miner = BenchMiner(bench)
            miner.mine(BASE)
            # Two coins of 50 are old enough; a third one is behind the next block, and so on.
            places = [miner.fund(ANYONE + bytes([0x61, 0x50 + number]), 60 * 10**8) for number in range(1, 5)]
            for number, (id, index) in enumerate(places, 1):
                self.assertEqual(bench.coin(id, index).script[-1], 0x50 + number)
            with self.assertRaisesRegex(ValueError, "no address"):
                miner.fund("x", 1)

    def test_a_reorganisation_as_deep_as_the_chain(self):
        with Bench() as bench:
            miner = BenchMiner(bench)
            ids = miner.mine(3)
            self.assertEqual(miner.reorg(3), ids)
            self.assertEqual(bench.height(), 4)
            for depth in (0, 5):
                with self.assertRaisesRegex(ValueError, "from 1 to 4"):
                    miner.reorg(depth)
            self.assertEqual(len(miner.tree().split("\n")), 5)
            self.assertEqual(miner.id_at(0)[:2], read_block(miner.block(miner.id_at(0))).header.id[:2])

    def test_a_bench_that_is_copied(self):
        """It has the same blocks, and is one of its own."""
        with Bench() as bench:
            miner = BenchMiner(bench)
            miner.mine(3)
            miner.reorg(2)
            with bench.copy() as other:
                for read in (Bench.best, Bench.coins, Bench.tips, lambda it: it.journal, lambda it: it.index.active,
                             lambda it: it.index.blocks, lambda it: it.index.transactions, Bench.branch):  # fmt: skip
                    self.assertEqual(read(other), read(bench))
                ids, moved = BenchMiner(other), bench.best()
                ids._made = 100
                [id] = ids.mine()
                self.assertEqual((bench.best(), bench.is_kept(id), other.best(), other.height()), (moved, False, id, 5))
                self.assertEqual((len(bench.journal), len(other.journal)), (6, 7))
                other.invalidate(other.index.active[1])
                self.assertEqual((other.height(), bench.height()), (0, 4))

    def test_what_is_no_argument(self):
        with Bench() as bench:
            miner = BenchMiner(bench)
            for kind, call in (
                ("count", lambda it: miner.mine(it)), ("to", lambda it: miner.mine(1, it)), ("value", lambda it: miner.fund(b"", it)),
                ("to", lambda it: miner.fund(it, 1)), ("depth", miner.reorg),
            ):  # fmt: skip
                for value in (None, 1.5, [], True):
                    with self.subTest((kind, value)), self.assertRaisesRegex((TypeError, ValueError), kind):
                        call(value)
            self.assertEqual(bench.height(), 0)

    def test_trees(self):
        """Each block that is not below all forks is there once, in the row of its height, and each tip with its status."""
        with Node(seats=1, verify=secp256k1, program=PROGRAM) as node:
            miner = NodeMiner(node)
            miner.mine(4)
            gone = miner.reorg(2)
            rows = {int(row.split()[0]): row for row in miner.tree().split("\n")}
            self.assertEqual(sorted(rows), [1, 2, 3, 4, 5])
            for height in (3, 4):
                self.assertEqual(rows[height].split()[2 - (height == 5)], show(gone[height - 3])[:8])
            self.assertIn("valid-fork", rows[4])
            node.seat(0).invalidate(gone[0])
            self.assertIn("invalid", miner.tree())


if __name__ == "__main__":
    unittest.main()
