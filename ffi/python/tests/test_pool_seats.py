"""`Pool` at the seats of a node: the cases of `Pool` over a `Bench`, and steps that other threads take meanwhile."""

import threading
import unittest

import test_pool
from blocks import NOW, Maker, block_id
from servers import seats
from test_pool import spends
from wakotehu import Pool
from wakotehu.encoding import write_transaction


class Seats:
    """What the cases ask of a `Bench`, over seats."""

    journal = ()

    def __init__(self, own):
        self.own = own

    @property
    def index(self):
        return self.own.index

    def close(self):
        self.own.close()

    def submit(self, block, now):
        with self.own.turn:
            return self.own.try_submit(block, now).check()

    def mark(self, command, id):
        with self.own.turn:
            return self.own.try_mark(command, id).check()

    def invalidate(self, id):
        self.mark("invalidate", id)

    def reconsider(self, id):
        self.mark("reconsider", id)

    def precious(self, id):
        self.mark("precious", id)

    def best(self):
        return self.own.best()

    def block(self, id):
        return self.own.block(id)

    def parent(self, id):
        return self.own.index.blocks[id].header.parent

    def height(self):
        return len(self.own.index.active) - 1

    def tips(self):
        with self.own.turn:
            return self.own.tips()

    def coins(self):
        with self.own.turn:
            return sorted(self.own.coins()[1])

    def coin(self, id, index):
        with self.own.turn:
            return self.own.coins_at([(id, index)])[0]


class AtSeats(test_pool.Waiting):
    opened = staticmethod(seats)

    def setUp(self):
        self.bench, self.maker = Seats(self.opened(self.heights)), Maker()
        self.addCleanup(self.bench.close)
        self.blocks = self.maker.chain(110)
        for block in self.blocks:
            self.bench.submit(block, NOW)
        self.coins = [self.maker.coinbases[block_id(block)].id for block in self.blocks]
        self.tip = block_id(self.blocks[-1])
        self.pool = self.pooled()

    def pooled(self, **more):
        return Pool(self.bench.own, **more)


class OthersTest(AtSeats):
    def test_threads_step_meanwhile(self):
        """Blocks of other threads, some with what waits, some that leave: in the end what no active block has waits, and no more."""
        txs = [spends(coin) for coin in self.coins[:10]]

        def step(number):
            parent = self.tip
            for height in range(4):
                parent = self.block(parent, [txs[number]] if height == 0 else [], bytes([number, height]))

        threads = [threading.Thread(target=step, args=(number,)) for number in range(4)]
        for thread in threads:
            thread.start()
        for tx in txs[4:]:
            self.add(tx)
        for thread in threads:
            thread.join()
        active = [number for number in range(4) if self.bench.coin(self.coins[number], 0) is None]
        self.assertEqual(len(active), 1)
        # Blocks on other branches never were active, or left again: what these had waits where its block was active.
        self.assertLessEqual({tx.id for tx in txs[4:]}, set(self.waiting()))
        self.assertNotIn(txs[active[0]].id, self.waiting())
        mined = self.pool.mine()
        self.assertEqual(mined, [self.bench.best()])
        self.assertEqual(len(self.pool), 0)

    def test_two_pools(self):
        """Each hears of each step."""
        other, tx = self.pooled(), write_transaction(spends(self.coins[0]))
        self.pool.add(tx)
        other.add(tx)
        self.block(self.tip, [spends(self.coins[0])])
        self.assertEqual((len(self.pool), len(other)), (0, 0))
        self.bench.invalidate(self.bench.best())
        self.assertEqual((len(self.pool), len(other)), (1, 1))


CASES = (
    test_pool.RulesTest, test_pool.ReplacedTest, test_pool.ChosenTest, test_pool.BranchTest, test_pool.ForksTest, test_pool.GraphTest,
)  # fmt: skip
#: Those that copy a bench.
ONLY_OF_BENCHES = {"test_several_pools_and_copies"}


def over(kind, name):
    """The cases of `Pool` over a `Bench` with another `setUp`."""
    found = {}
    for case in CASES:
        own = {it: None for it in ONLY_OF_BENCHES if it in vars(case)}
        own.update(setUp=kind.setUp, pooled=kind.pooled, opened=staticmethod(kind.opened))
        found[case.__name__ + name] = type(case.__name__ + name, (case,), own)
    return found


globals().update(over(AtSeats, "AtSeats"))


if __name__ == "__main__":
    unittest.main()
