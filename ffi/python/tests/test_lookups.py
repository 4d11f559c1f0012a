"""Where blocks stand, and what they spent: beside a tree of some hundred blocks with forks that the test knows itself, and
beside Debian's litecoind, Bitcoin Core's code, which gets the same blocks."""

import doctest
import os
import random
import unittest
from typing import Dict, List, NamedTuple, Tuple

import peers
from blocks import NOW, Maker, block_id
from servers import PROGRAM, Running
from trees import SCRIPTS, SPENDS_NONE, WORK, Tree
from wakotehu import Bench, Chainstate, Coin, Node, errors, read_id, show
from wakotehu.chainstate import BlockHeader
from wakotehu.encoding import (
    GENESIS, GENESIS_BLOCK, Header, Input, Output, Transaction, coinbase, double_sha, merkle_root, read_block, subsidy,
    write_header,
)  # fmt: skip

#: The blocks of the chain that a tree stands on, and how many commands make the tree.
BASE, STEPS = 120, 420
#: What an output costs in litecoind's statistics of unspent outputs: an outpoint, a height and whether a coinbase made it.
OVERHEAD = 41
NOBODY = b"\x6a\x01\x00"


class Made(NamedTuple):
    """A block: its bytes for the chainstate and for the peer, what it spends, the coins after it, and whether it is broken."""

    data: Tuple[bytes, bytes]
    parent: str
    height: int
    transactions: List[Transaction]
    spent: List[Coin]
    coins: Dict[Tuple[bytes, int], Coin]
    is_broken: bool


class Drawn(Tree):
    """A tree of blocks with several transactions, of several inputs and outputs, with fees. What a block spends is noted as the
    coins of its branch have it."""

    def __init__(self, genesis: str, dice: random.Random) -> None:
        self.dice, self.work = dice, (double_sha, WORK[genesis])
        self.ids = {"genesis": (GENESIS.id, bytes.fromhex(genesis)[::-1])}
        self.blocks = {"genesis": Made((b"", b""), "", 0, [], [], {}, False)}
        self.names: Tuple[Dict[bytes, str], Dict[bytes, str]] = ({}, {})
        #: The transactions so far, by their ids.
        self.pool: Dict[bytes, Transaction] = {}
        for side in (0, 1):
            self.names[side][self.ids["genesis"][side]] = "genesis"

    def branch(self, name: str) -> List[str]:
        """The names from genesis up to a block."""
        found = [name]
        while found[-1] != "genesis":
            found.append(self.blocks[found[-1]].parent)
        return found[::-1]

    def add(self, name: str, parent: str, fault: str = "") -> Made:
        below, height = self.blocks[parent], self.blocks[parent].height + 1
        coins, spent, made, fees = dict(below.coins), [], [], 0
        for _ in range(self.dice.choice((0, 0, 1, 2, 3)) if height > BASE else 0):
            ripe = sorted(at for at, coin in coins.items() if not coin.coinbase or height - coin.height >= 100)
            if not ripe:
                break
            # A branch often takes what another one took, so that one transaction is on both, at different heights.
            can, recent = set(ripe), list(self.pool.values())[-40:]
            known = [tx for tx in recent if can.issuperset((it.id, it.index) for it in tx.inputs)]
            tx = self.dice.choice(known) if known and self.dice.random() < 0.4 else self.draw(coins, ripe)
            taken = [coins.pop((it.id, it.index)) for it in tx.inputs]
            fees += sum(coin.value for coin in taken) - sum(output.value for output in tx.outputs)
            spent, made = spent + taken, [*made, tx]
            self.give(coins, tx, height)
            self.pool[tx.id] = tx
        if fault == "script" and made:
            first = made[-1].inputs[0]._replace(script=SPENDS_NONE)
            made[-1] = made[-1]._replace(inputs=[first, *made[-1].inputs[1:]])
        reward = subsidy(height) + fees + (fault == "reward")
        made = [coinbase(height, reward, self.dice.choice(list(SCRIPTS)), name.encode()), *made]
        self.give(coins, made[0], height)
        root = b"\x11" * 32 if fault == "root" else merkle_root([tx.id for tx in made])
        header = Header(4, b"", root, GENESIS.time + height, 0x207FFFFF, 0)
        data = self._mined(0, parent, header, made), self._mined(1, parent, header, made)
        self.blocks[name] = Made(data, parent, height, made, spent, coins, bool(fault))
        self.ids[name] = double_sha(data[0][:80]), double_sha(data[1][:80])
        for side in (0, 1):
            self.names[side][self.ids[name][side]] = name
        return self.blocks[name]

    def draw(self, coins: Dict[Tuple[bytes, int], Coin], ripe: List[Tuple[bytes, int]]) -> Transaction:
        taken = self.dice.sample(ripe, min(len(ripe), self.dice.choice((1, 1, 2, 3))))
        value = sum(coins[at].value for at in taken)
        fee = min(value, self.dice.choice((0, 1, 1000)))
        cuts = sorted(self.dice.randrange(value - fee + 1) for _ in range(self.dice.choice((0, 1, 2))))
        parts = [high - low for low, high in zip([0, *cuts], [*cuts, value - fee])]
        outputs = [Output(part, self.dice.choice(list(SCRIPTS))) for part in parts]
        if self.dice.random() < 0.2:
            outputs.append(Output(0, NOBODY))
        inputs = [Input(id, index, SCRIPTS[coins[id, index].script], 0xFFFFFFFF) for id, index in taken]
        return Transaction(1, inputs, outputs, 0)

    @staticmethod
    def give(coins: Dict[Tuple[bytes, int], Coin], tx: Transaction, height: int) -> None:
        is_coinbase = tx.inputs[0].id == bytes(32)
        for n, output in enumerate(tx.outputs):
            if output.script != NOBODY:
                coins[tx.id, n] = Coin(output.value, output.script, height, is_coinbase)


class Beside:
    """A tree that a chainstate gets, and a peer where there is one. After each command what the chainstate says that moved is
    applied to a list of the active blocks."""

    def __init__(self, test, chain, dice, peer=None, genesis=show(GENESIS.id)):
        self.test, self.chain, self.peer, self.dice = test, chain, peer, dice
        self.tree = Drawn(genesis, dice)
        self.active = [GENESIS.id]
        self.marked = ""
        self.calls = 0
        self.tries = {"disconnected": 0, "fork": 0}

    def ours(self, name):
        return self.tree.ids[name][0]

    def make(self, name, parent, fault=""):
        made = self.tree.add(name, parent, fault)
        before = self.chain.best()
        reply = self.chain.try_submit(made.data[0], GENESIS.time)
        if self.peer:
            self.peer.call("submitblock", made.data[1].hex())
        self.follow(before)
        return reply

    def mark(self, command, name):
        before = self.chain.best()
        self.chain.try_mark(command, self.ours(name))
        if self.peer:
            self.peer.call(f"{command}block", show(self.tree.ids[name][1]))
        self.follow(before)

    def follow(self, before):
        """What moved, applied to the list."""
        moved = self.chain.moved(before)
        for id in moved.disconnected:
            self.test.assertEqual(self.active.pop(), id)
        self.test.assertEqual(self.active[-1], moved.fork)
        self.active += moved.connected
        self.test.assertEqual(self.active[-1], self.chain.best())
        self.test.assertEqual(self.chain.moved(self.chain.best()), (self.chain.best(), [], []))
        self.tries["disconnected"] = max(self.tries["disconnected"], len(moved.disconnected))
        if self.peer:
            theirs = read_id(self.peer.call("getbestblockhash"))
            self.test.assertEqual(self.named(0, self.chain.best()), self.named(1, theirs))

    def named(self, side, id):
        return self.tree.names[side][id]

    def grow(self):
        """A chain, and a tree on it."""
        for height in range(1, BASE + 1):
            self.make(f"c{height}", f"c{height - 1}" if height > 1 else "genesis")
        for step in range(STEPS):
            self.step(step)

    def step(self, step):
        """A command. No block is put on a broken one or on a marked one, and one mark stands at a time: in other cases Bitcoin
        Core differs (docs/CORE.md)."""
        above = {it for it in self.tree.blocks if self.marked and self.tree.is_on(it, self.marked)}
        own = [it for it in self.tree.blocks if it.startswith("b") and it not in above]
        good = [it for it in own if not self.tree.blocks[it].is_broken]
        draw = self.dice.random()
        if self.marked and draw < 0.3:
            self.mark("reconsider", self.marked)
            self.marked = ""
        elif not self.marked and good and draw < 0.06:
            spoiled = {it for bad in own if bad not in good for it in self.tree.branch(bad)}
            whole = [it for it in good[-12:] if it not in spoiled]
            if whole:
                self.marked = self.dice.choice(whole)
                self.mark("invalidate", self.marked)
        elif good and draw < 0.09 and self.calls < 2:
            self.calls += 1
            self.mark("precious", self.dice.choice(good[-6:]))
        else:
            parents = [f"c{BASE}", *good]
            best = self.named(0, self.chain.best())
            near = [best] if best in parents else parents[-1:]
            parent = self.dice.choice(self.dice.choice((near, near, parents[-4:], parents[-25:])))
            self.make(f"b{step}", parent, self.dice.choice([""] * 8 + ["reward", "script", "root"]))

    # ---- what the chainstate says, by the tree

    def check(self):
        """All blocks, by what the test knows of them."""
        equal, tree, chain = self.test.assertEqual, self.tree, self.chain
        best = self.named(0, chain.best())
        active = tree.branch(best)
        equal([self.ours(name) for name in active], self.active)
        equal([chain.id_at(height) for height in range(len(active) + 2)], [*self.active, None, None])
        for name, made in tree.blocks.items():
            id = self.ours(name)
            found, is_active = chain.header(id), name in active[made.height : made.height + 1]
            if found is None:
                equal((made.is_broken, chain.spent(id)), (True, None))
                continue
            confirmations = len(active) - made.height if is_active else -1
            equal(found, BlockHeader((made.data[0] or GENESIS_BLOCK)[:80], made.height, confirmations))
            equal(found.parent, self.ours(made.parent) if made.parent else bytes(32))
            equal(chain.spent(id), made.spent if is_active else None)
        kept = [name for name in tree.blocks if chain.header(self.ours(name))]
        branches = {name: tree.branch(name) for name in kept}
        for _ in range(300):
            one, other = self.dice.choice(kept), self.dice.choice(kept)
            shared = [a for a, b in zip(branches[one], branches[other]) if a == b]
            equal(self.named(0, chain.fork(self.ours(one), self.ours(other))), shared[-1])
            height = self.dice.randrange(tree.blocks[one].height + 3)
            found = chain.ancestor(self.ours(one), height)
            expected = dict(enumerate(branches[one])).get(height)
            equal(found and self.named(0, found), expected)

    # ---- beside the peer

    def compare(self):
        """All blocks, by what the peer says of them."""
        equal, chain, tree = self.test.assertEqual, self.chain, self.tree
        height = self.peer.call("getblockcount")
        equal(height, chain.height())
        for at in range(height + 1):
            equal(self.named(0, chain.id_at(at)), self.named(1, read_id(self.peer.call("getblockhash", at))))
        equal(self.peer.call("getblockhash", height + 1), "error -8")
        for name in tree.blocks:
            self.compare_block(name)
        self.compare_tips()

    def compare_block(self, name):
        equal, digits = self.test.assertEqual, show(self.tree.ids[name][1])
        found, theirs = self.chain.header(self.ours(name)), self.peer.call("getblockheader", digits)
        if found is None:
            return equal(theirs, "error -5")
        equal((found.height, found.confirmations), (theirs["height"], theirs["confirmations"]))
        if name == "genesis":
            return None
        header = read_block(self.tree.blocks[name].data[0]).header
        root, time = read_id(theirs["merkleroot"]), theirs["time"]
        equal(found.header, write_header(header._replace(root=root, time=time, version=theirs["version"])))
        equal(self.named(0, found.parent), self.named(1, read_id(theirs["previousblockhash"])))
        stats, spent = self.peer.call("getblockstats", digits), self.chain.spent(self.ours(name))
        if found.confirmations < 0:
            return equal((stats, spent), ("error -8", None))
        outputs = [output for tx in self.tree.blocks[name].transactions[1:] for output in tx.outputs]
        made = outputs + self.tree.blocks[name].transactions[0].outputs
        paid = sum(output.value for output in outputs)
        equal((stats["ins"], stats["total_out"]), (len(spent), paid))
        equal(stats["totalfee"], sum(coin.value for coin in spent) - paid)
        sizes = [8 + 1 + len(it.script) + OVERHEAD for it in made], [8 + 1 + len(it.script) + OVERHEAD for it in spent]
        equal(stats["utxo_size_inc"], sum(sizes[0]) - sum(sizes[1]))
        return None

    def compare_tips(self):
        """Each tip's branch leaves the active one where the peer says."""
        best = self.chain.best()
        for tip in self.peer.call("getchaintips"):
            name = self.named(1, read_id(tip["hash"]))
            fork = self.chain.fork(self.ours(name), best)
            self.test.assertEqual(self.chain.header(fork).height, tip["height"] - tip["branchlen"])
            self.test.assertEqual(fork, self.chain.ancestor(self.ours(name), tip["height"] - tip["branchlen"]))
            self.tries["fork"] += tip["branchlen"] > 0


class TreeTest(unittest.TestCase):
    """By the rules alone."""

    def test_a_tree(self):
        with Chainstate() as chain:
            beside = Beside(self, chain, random.Random(7))
            beside.grow()
            beside.check()
            spent = [beside.tree.blocks[beside.named(0, id)].spent for id in beside.active]
            self.assertGreater(sum(map(len, spent)), 100)
            self.assertGreater(beside.tries["disconnected"], 1)
            self.assertGreater(len({coin.height for coins in spent for coin in coins}), 20)
            self.assertGreater(len(beside.tree.blocks), BASE + 300)
            # A copy says the same.
            beside.chain = chain.copy()
            beside.check()
            beside.chain.close()


@unittest.skipUnless(peers.IS_THERE, "litecoind isn't installed")
class LitecoindTest(unittest.TestCase):
    def test_a_tree(self):
        with peers.Litecoind() as peer:
            forks = peer.call("getblockchaininfo")["softforks"]
            peer.call("setmocktime", GENESIS.time)
            with Chainstate([forks[fork]["height"] for fork in ("bip34", "bip65", "bip66", "csv")]) as chain:
                beside = Beside(self, chain, random.Random(11), peer, peer.call("getblockhash", 0))
                beside.grow()
                beside.compare()
                beside.check()
                self.assertGreater(beside.tries["disconnected"], 1)
                self.assertGreater(beside.tries["fork"], 5)


class LookupsTest(unittest.TestCase):
    """Each kind of block: genesis, active, beside, never looked at, invalid, not kept."""

    def setUp(self):
        self.maker, self.chain = Maker(), Chainstate()
        self.addCleanup(self.chain.close)
        self.b1, self.b2, self.b3 = self.maker.chain(3, extra=b"b")
        self.c1, self.c2 = self.maker.chain(2, extra=b"c")
        self.bad = self.maker.block(block_id(self.b1), extra=b"x", more=1)
        self.late = self.maker.block(block_id(self.b2), extra=b"l", more=1)
        for block in (self.b1, self.b2, self.b3, self.c1, self.c2, self.late):
            self.chain.submit(block, NOW)

    def shown(self, block):
        found = self.chain.header(block_id(block))
        return found and (found.header == block[:80], found.height, found.confirmations, self.chain.spent(block_id(block)))

    def test_genesis(self):
        self.assertEqual(self.chain.header(GENESIS.id), (GENESIS_BLOCK[:80], 0, 4))
        self.assertEqual(self.chain.header(GENESIS.id).parent, bytes(32))
        self.assertEqual(self.chain.id_at(0), GENESIS.id)
        self.assertEqual(self.chain.spent(GENESIS.id), [])
        self.assertEqual(self.chain.ancestor(GENESIS.id, 0), GENESIS.id)
        self.assertEqual(self.chain.fork(GENESIS.id, block_id(self.b3)), GENESIS.id)
        self.assertIsNone(self.chain.ancestor(GENESIS.id, 1))

    def test_active_and_others(self):
        self.assertEqual([self.shown(it) for it in (self.b1, self.b3)], [(True, 1, 3, []), (True, 3, 1, [])])
        # A fork, and a block that was never looked at whole, which is too dear.
        self.assertEqual([self.shown(it) for it in (self.c2, self.late)], [(True, 2, -1, None), (True, 3, -1, None)])
        with self.assertRaises(errors.BadCbAmount):
            other = self.maker.block(block_id(self.b3), extra=b"y", more=1)
            self.chain.submit(other, NOW)
        self.assertEqual(self.shown(other), (True, 4, -1, None))
        self.assertEqual(self.chain.ancestor(block_id(other), 3), block_id(self.b3))
        self.chain.invalidate(block_id(self.b2))
        found = [self.shown(it) for it in (self.b2, self.b1, self.c2)]
        self.assertEqual(found, [(True, 2, -1, None), (True, 1, -1, None), (True, 2, 1, [])])

    def test_what_is_not_kept(self):
        orphan = self.maker.block(block_id(self.bad), extra=b"o")
        for id in (bytes(32), block_id(self.bad), block_id(orphan)):
            self.assertIsNone(self.chain.header(id))
            self.assertIsNone(self.chain.ancestor(id, 0))
            self.assertIsNone(self.chain.spent(id))
            self.assertIsNone(self.chain.fork(id, GENESIS.id))
            self.assertIsNone(self.chain.fork(GENESIS.id, id))
            with self.assertRaises(errors.NotFound):
                self.chain.moved(id)

    def test_heights_above(self):
        found = [self.chain.id_at(height) for height in (3, 4, 2**63, 2**64 - 1)]
        self.assertEqual(found, [block_id(self.b3), None, None, None])
        found = [self.chain.ancestor(block_id(self.c2), height) for height in (0, 1, 2, 3, 2**64 - 1)]
        self.assertEqual(found, [GENESIS.id, block_id(self.c1), block_id(self.c2), None, None])
        for height in (-1, 2**64):
            with self.assertRaises(ValueError):
                self.chain.id_at(height)
            with self.assertRaises(ValueError):
                self.chain.ancestor(GENESIS.id, height)

    def test_what_moved(self):
        before = self.chain.best()
        self.chain.precious(block_id(self.c2))
        self.assertEqual(self.chain.moved(before), (before, [], []))
        c3, c4 = self.maker.chain(2, block_id(self.c2), extra=b"c")
        self.chain.submit(c3, NOW)
        self.chain.submit(c4, NOW)
        gone, come = list(map(block_id, [self.b3, self.b2, self.b1])), list(map(block_id, [self.c1, self.c2, c3, c4]))
        self.assertEqual(self.chain.moved(before), (GENESIS.id, gone, come))
        # To a lower block, and from one that is no tip.
        self.chain.invalidate(block_id(c3))
        self.assertEqual(self.chain.moved(block_id(c4)), (GENESIS.id, come[::-1], gone[::-1]))
        self.assertEqual(self.chain.moved(gone[2]), (gone[2], [], [gone[1], gone[0]]))

    def test_many_coins(self):
        """More than there is room for at first, with long scripts."""
        maker, scripts = Maker(), [b"\x51" + b"\x61" * (40 + n) for n in range(60)]
        with Chainstate() as chain:
            blocks = maker.chain(101)
            for block in blocks:
                chain.submit(block, NOW)
            first = maker.coinbases[block_id(blocks[0])]
            outputs = [Output(n, script) for n, script in enumerate(scripts)]
            fanned = Transaction(1, [Input(first.id, 0, b"", 0xFFFFFFFF)], outputs, 0)
            inputs = [Input(fanned.id, n, b"", 0xFFFFFFFF) for n in reversed(range(60))]
            joined = Transaction(1, inputs, [Output(0, b"\x51")], 0)
            block = maker.block(block_id(blocks[-1]), [fanned])
            chain.submit(block, NOW)
            last = maker.block(block_id(block), [joined])
            chain.submit(last, NOW)
            self.assertEqual(chain.spent(block_id(block)), [(5000000000, b"\x51", 1, True)])
            expected = [(n, scripts[n], 102, False) for n in reversed(range(60))]
            self.assertEqual(chain.spent(block_id(last)), expected)

    def test_a_bench_says_the_same(self):
        with Bench() as bench:
            before = bench.best()
            for block in (self.b1, self.b2, self.b3, self.c1, self.c2):
                bench.submit(block, NOW)
            c2 = block_id(self.c2)
            self.assertEqual(bench.id_at(3), self.chain.id_at(3))
            self.assertEqual(bench.header(c2), self.chain.header(c2))
            self.assertEqual(bench.ancestor(c2, 1), self.chain.ancestor(c2, 1))
            self.assertEqual(bench.fork(c2, bench.best()), GENESIS.id)
            self.assertEqual((bench.spent(bench.best()), bench.spent(c2)), ([], None))
            self.assertEqual(bench.moved(before), self.chain.moved(before))

    def test_arguments(self):
        for call in (self.chain.header, self.chain.spent, self.chain.moved):
            for wrong in (b"short", bytes(33)):
                with self.assertRaises(ValueError):
                    call(wrong)
            with self.assertRaises(TypeError):
                call("text")
        with self.assertRaises(TypeError):
            self.chain.id_at("1")
        with self.assertRaises(ValueError):
            self.chain.fork(GENESIS.id, b"")
        self.chain.close()
        for call in (self.chain.header, self.chain.spent, self.chain.moved):
            with self.assertRaises(errors.Closed):
                call(GENESIS.id)
        with self.assertRaises(errors.Closed):
            self.chain.id_at(0)

    def test_the_examples(self):
        """Those of docs/CHAINSTATE.md."""
        path = os.path.join(os.path.dirname(os.path.abspath(__file__)), "../../../docs/CHAINSTATE.md")
        given = {"b1": self.b1, "b2": self.b2, "c1": self.c1, "NOW": NOW}
        failed, tried = doctest.testfile(path, module_relative=False, globs=given)
        self.assertEqual(failed, 0)
        self.assertGreater(tried, 8)


class KeptTest(unittest.TestCase):
    """Each block that is kept is found at each door: one that was refused over the coins, and what is on it, too."""

    def setUp(self):
        maker = Maker()
        self.b1 = maker.block(GENESIS.id)
        self.x = maker.block(block_id(self.b1), more=1)
        self.y = maker.block(block_id(self.x))
        b2 = maker.block(block_id(self.b1))
        self.b3 = maker.block(block_id(b2))
        self.steps = [(self.b1, "accepted"), (self.x, "bad-cb-amount"), (b2, "accepted"), (self.b3, "accepted")]

    def play(self, submit, reconsider):
        for block, answer in self.steps:
            self.assertEqual(submit(block), answer)
        reconsider(block_id(self.x))
        self.assertEqual(submit(self.y), "inconclusive")

    def expect(self, tips, block, header, ancestor, fork):
        x, y, b1, b3 = map(block_id, (self.x, self.y, self.b1, self.b3))
        self.assertEqual([(tip.id, tip.status) for tip in tips if tip.id != b3], [(y, "valid-headers")])
        for id, data, height in ((x, self.x, 2), (y, self.y, 3)):
            self.assertEqual(block(id), data)
            self.assertEqual(header(id), (data[:80], height, -1))
            self.assertEqual([ancestor(id, at) for at in range(height + 2)], [GENESIS.id, b1, x, y][: height + 1] + [None])
            self.assertEqual((fork(id, b3), fork(b3, id), fork(x, id)), (b1, b1, x))

    def test_a_chainstate_and_a_bench(self):
        for kind in (Chainstate, Bench):
            with self.subTest(kind.__name__), kind() as own:
                self.play(lambda block: own.try_submit(block, NOW).text, own.reconsider)
                self.expect(own.tips(), own.block, own.header, own.ancestor, own.fork)

    # A served node's tree is made of the replies, which don't say whether a refused block is kept (tests/serve/test_lookups.py).
    @unittest.expectedFailure
    def test_a_node(self):
        with Node(program=PROGRAM) as node:
            seat = node.seats[0]
            self.play(lambda block: seat.try_submit(block, NOW).value.text, seat.reconsider)
            calls = (seat.getblock, seat.getblockheader, seat.getancestor, seat.getfork)
            self.expect(seat.getchaintips().value, *(lambda *words, call=call: call(*words).value for call in calls))

    def test_the_server(self):
        running = Running()
        self.addCleanup(running.stop)
        call = running.call
        self.play(lambda block: call("submitblock", block.hex()) or "accepted", lambda id: call("reconsiderblock", show(id)))
        x, y = show(block_id(self.x)), show(block_id(self.y))
        self.assertIn({"height": 3, "hash": y, "branchlen": 2, "status": "valid-headers"}, call("getchaintips"))
        for id, data, height, parent in ((x, self.x, 2, show(block_id(self.b1))), (y, self.y, 3, x)):
            self.assertEqual(call("getblock", id, 0), data.hex())
            shown = call("getblockheader", id)
            self.assertEqual((shown["height"], shown["confirmations"], shown["previousblockhash"]), (height, -1, parent))
            self.assertEqual(call("getblock", id)["nTx"], 1)


if __name__ == "__main__":
    unittest.main()
