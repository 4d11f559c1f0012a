"""The steps of Bitcoin Core's functional test feature_block, written anew, by the names that its blocks have there.

What differs: outputs are spent by the script 51, so no block needs a signature; there is no mempool, so of the steps
about it what the chain shows is tested; and there are no peers, so blocks come by `submitblock`, which tells what is found
of the block itself: where one below it fails it is `inconclusive`, there as here.
"""

import unittest

from servers import Running, seats
from wakotehu import show
from wakotehu.encoding import (
    GENESIS, Block, Header, Input, Output, Transaction, coinbase, double_sha, hash160, merkle_root, mine, push, push_number,
    read_block, subsidy, write_block,
)  # fmt: skip

COIN = 100_000_000
MAX_SIGOPS = 20_000
MAX_SIZE = 1_000_000

TRUE, RETURN, IF, ELSE, ENDIF, EQUAL, HASH160 = b"\x51", b"\x6a", b"\x63", b"\x67", b"\x68", b"\x87", b"\xa9"
CHECKSIG, CHECKSIGVERIFY, CHECKMULTISIG, CHECKMULTISIGVERIFY = b"\xac", b"\xad", b"\xae", b"\xaf"
PUSHDATA4 = b"\x4e"

#: How long after its parent a block is, in seconds.
PAUSE = 600


def spend(tx, index=0, value=1, script=TRUE, unlock=b""):
    """A transaction that spends an output, by default to one of a satoshi."""
    return Transaction(1, [Input(tx.id, index, unlock, 0xFFFFFFFF)], [Output(value, script)], 0)


def sealed(header):
    """The header with the lowest nonce that meets the target."""
    for nonce in range(1000):
        tried = header._replace(nonce=nonce)
        if int.from_bytes(tried.id, "little") <= 0x7FFFFF << 232:
            return tried
    raise ValueError(header)


class Chain(unittest.TestCase):
    """A server, and blocks by name."""

    heights = (1, 1, 1, 1)
    #: How many coinbases can be spent by the blocks that follow.
    ready = 33

    def setUp(self):
        self.running = Running(seats(self.heights))
        self.addCleanup(self.running.stop)
        self.call = self.running.call
        self.call("setmocktime", GENESIS.time + PAUSE * 5000)
        #: Each block by its name, and each name's height and id.
        self.blocks, self.places = {}, {"genesis": (0, GENESIS.id)}
        self.times = {GENESIS.id: GENESIS.time}
        self.tip = "genesis"
        #: The coinbases that can be spent, in order.
        self.out = []

    def grow(self):
        """The blocks whose coinbases the steps spend: a hundred lie above the last of them."""
        for number in range(self.ready + 99):
            self.accept(self.next(f"start{number}"))
            if number < self.ready:
                self.out.append(self.blocks[f"start{number}"].transactions[0])

    def move_tip(self, name):
        """The next block stands on this one."""
        self.tip = name

    def next(self, name, spent=None, *more, script=TRUE, extra=0, base=None, time=None):
        """Makes the block of a name on the last one. It spends an output (a transaction, or one with an index) to one of a
        satoshi with that script, so the rest is fees, and has more transactions behind; its coinbase takes the fees, and
        `extra` satoshis."""
        height, parent = self.places[self.tip]
        transactions, fees = [], 0
        if spent is not None:
            tx, index = (spent, 0) if isinstance(spent, Transaction) else spent
            transactions.append(spend(tx, index, 1, script))
            fees = tx.outputs[index].value - 1
        made = base or coinbase(height + 1, subsidy(height + 1) + fees + extra, TRUE, name.encode())
        when = self.times[parent] + PAUSE if time is None else time
        data = mine(parent, when, [made, *transactions, *more])
        return self.put(name, height + 1, data)

    def put(self, name, height, data):
        """Notes the bytes of a block as those of a name, which the next block stands on."""
        block = read_block(data)
        self.blocks[name], self.places[name] = block, (height, block.header.id)
        self.times[block.header.id] = block.header.time
        self.tip = name
        return data

    def again(self, name, transactions=None, **header):
        """The block of a name with other transactions, or fields of its header; the root is that of its transactions, and
        the nonce meets the target, where they aren't said."""
        old = self.blocks[name]
        transactions = old.transactions if transactions is None else transactions
        fields = {"root": merkle_root([tx.id for tx in transactions]), **header}
        return self.put(name, self.places[name][0], write_block(Block(sealed(old.header._replace(**fields)), transactions)))

    def submit(self, data):
        return self.call("submitblock", data.hex())

    def best(self):
        return self.call("getbestblockhash")

    def accept(self, data):
        """The block is the active one then."""
        self.assertIsNone(self.submit(data))
        self.assertEqual(self.best(), show(read_block(data).header.id))

    def fork(self, data):
        """The block is kept, and another stays the active one."""
        best = self.best()
        self.assertEqual(self.submit(data), "inconclusive")
        self.assertEqual(self.best(), best)

    def refuse(self, data, reason, best=None):
        """The block breaks a rule, and the active block stays, or is that of a name."""
        best = self.best() if best is None else show(self.places[best][1])
        self.assertEqual(self.submit(data), reason)
        self.assertEqual(self.best(), best)

    def expect_tip(self, name):
        self.assertEqual(self.best(), show(self.places[name][1]))

    def is_coin(self, tx, index=0):
        # By blocks alone: what they had may wait again.
        return self.call("gettxout", show(tx.id), index, False) is not None


class ForksTest(Chain):
    """b1 to b22: forks, double spends, coinbases that take too much, signature operations, immature coinbases."""

    def test_b1_to_b22(self):
        self.grow()
        out, start = self.out, self.tip
        self.accept(self.next("b1", out[0]))
        self.accept(self.next("b2", out[1]))
        # A fork of the same height: the first that came stays.
        self.move_tip("b1")
        of_b3 = spend(out[1], 0, 2)
        self.fork(self.next("b3", None, of_b3))
        # It becomes the longer one.
        self.accept(self.next("b4", out[2]))
        # And back.
        self.move_tip("b2")
        self.fork(self.next("b5", out[2]))
        self.accept(self.next("b6", out[3]))
        # A fork that spends out[2] twice, which is seen when it would be the longest.
        self.move_tip("b5")
        self.fork(self.next("b7", out[2]))
        self.refuse(self.next("b8", out[4]), "inconclusive")
        self.assertEqual(self.submit(self.bytes_of("b7")), "duplicate-invalid")
        # A coinbase that takes a satoshi too much.
        self.move_tip("b6")
        self.refuse(self.next("b9", out[4], extra=1), "bad-cb-amount")
        # The same in the block that would make a fork the longest.
        self.move_tip("b5")
        self.fork(self.next("b10", out[3]))
        self.refuse(self.next("b11", out[4], extra=1), "bad-cb-amount", "b6")
        # The same above a fork that is the longest without it.
        self.move_tip("b5")
        self.fork(self.next("b12", out[3]))
        self.accept(self.next("b13", out[4]))
        self.refuse(self.next("b14", out[5], extra=1), "bad-cb-amount", "b13")
        # As many signature operations as a block may have, and one more.
        self.move_tip("b13")
        self.accept(self.next("b15", out[5], script=CHECKSIG * MAX_SIGOPS))
        self.refuse(self.next("b16", out[6], script=CHECKSIG * (MAX_SIGOPS + 1)), "bad-blk-sigops")
        # A transaction that was made on another fork.
        self.move_tip("b15")
        self.refuse(self.next("b17", of_b3), "bad-txns-inputs-missingorspent")
        # The same on a fork: it is seen when that would be the longest.
        self.move_tip("b13")
        self.fork(self.next("b18", of_b3))
        self.refuse(self.next("b19", out[6]), "inconclusive", "b15")
        self.assertEqual(self.submit(self.bytes_of("b18")), "duplicate-invalid")
        # A coinbase 99 blocks below: one too few.
        self.move_tip("b15")
        height = self.places["b15"][0] + 1
        young = self.coinbase_at(height - 99)
        self.refuse(self.next("b20", young), "bad-txns-premature-spend-of-coinbase")
        # The same on a fork.
        self.move_tip("b13")
        self.fork(self.next("b21", out[6]))
        young = self.coinbase_at(self.places["b21"][0] + 1 - 99)
        self.refuse(self.next("b22", young), "bad-txns-premature-spend-of-coinbase", "b15")
        # A hundred blocks below is enough.
        self.move_tip("b15")
        self.accept(self.next("b23a", self.coinbase_at(height - 100)))
        self.assertNotEqual(start, self.tip)

    def bytes_of(self, name):
        return write_block(self.blocks[name])

    def coinbase_at(self, height):
        """The coinbase of this height on the active branch."""
        block = self.call("getblock", self.call("getblockhash", height), 0)
        return read_block(bytes.fromhex(block)).transactions[0]


class SizesTest(Chain):
    """b23 to b38: sizes of blocks and of coinbases' scripts, and what counts as a signature operation."""

    def padded(self, name, spent, size):
        """The block with an output whose script makes it as long."""
        self.next(name, spent, script=b"\x00" * 60_000)
        block = self.blocks[name]
        # The count of the script's length takes two bytes more from 65,536 on.
        lacks = size - len(write_block(block)) - 2
        longer = block.transactions[1]._replace(outputs=[Output(1, b"\x00" * (60_000 + lacks))])
        data = self.again(name, [block.transactions[0], longer])
        self.assertEqual(len(data), size)
        return data

    def test_b23_to_b30(self):
        self.grow()
        out = self.out
        self.accept(self.next("b15"))
        # Exactly as long as a block may be, and one byte longer.
        self.accept(self.padded("b23", out[6], MAX_SIZE))
        self.move_tip("b15")
        self.refuse(self.padded("b24", out[6], MAX_SIZE + 1), "bad-blk-length")
        self.refuse(self.next("b25", out[7]), "prev-blk-not-found")
        # A coinbase's script of a byte. Its height's push alone has two here, so that it is too short comes first.
        self.move_tip("b15")
        self.refuse(self.with_script("b26", b"\x00"), "bad-cb-length")
        self.refuse(self.next("b27", out[7]), "prev-blk-not-found")
        # Of 101 bytes.
        self.move_tip("b15")
        self.refuse(self.with_script("b28", b"\x00" * 101), "bad-cb-length")
        self.refuse(self.next("b29", out[7]), "prev-blk-not-found")
        # Of 100 bytes.
        self.move_tip("b23")
        height = push_number(self.places["b23"][0] + 1)
        self.accept(self.with_script("b30", height + b"\x00" * (100 - len(height))))

    def with_script(self, name, script):
        """A block whose coinbase's input has this script."""
        height = self.places[self.tip][0] + 1
        made = coinbase(height, subsidy(height))
        return self.next(name, base=made._replace(inputs=[made.inputs[0]._replace(script=script)]))

    def test_b31_to_b36(self):
        self.grow()
        many = (MAX_SIGOPS - 1) // 20
        lots = [
            ("b31", CHECKMULTISIG * many + CHECKSIG * 20, CHECKMULTISIG * (many + 1) + CHECKSIG),
            ("b33", CHECKMULTISIGVERIFY * many + CHECKSIG * 20, CHECKMULTISIGVERIFY * (many + 1) + CHECKSIG),
            ("b35", CHECKSIGVERIFY * MAX_SIGOPS, CHECKSIGVERIFY * (MAX_SIGOPS + 1)),
        ]
        for place, (name, most, too_many) in enumerate(lots):
            self.accept(self.next(name, self.out[place], script=most))
            self.refuse(self.next(f"after{name}", self.out[place + 5], script=too_many), "bad-blk-sigops")
            self.move_tip(name)

    def test_b37_and_b38(self):
        """What a block made that failed to connect can't be spent, in its stead or above it."""
        self.grow()
        self.accept(self.next("b35"))
        twice = spend(self.out[11], 0, 2)
        self.refuse(self.next("b37", self.out[11], twice), "bad-txns-inputs-missingorspent")
        made = self.blocks["b37"].transactions[1]
        self.refuse(self.next("b37a"), "bad-prevblk")
        self.move_tip("b35")
        self.refuse(self.next("b38", made), "bad-txns-inputs-missingorspent")

    def test_b39_to_b43(self):
        """Signature operations of pay-to-script-hash: a thousand in each inner script, which aren't run."""
        self.grow()
        inner = b"\x00" + IF + CHECKMULTISIG * 50 + ENDIF + TRUE
        script = HASH160 + push(hash160(inner)) + EQUAL
        count = MAX_SIGOPS // 1000 - 1
        payer = self.out[0]
        many = Transaction(1, [Input(payer.id, 0, b"", 0xFFFFFFFF)], [Output(1, script)] * (count + 1), 0)
        self.accept(self.next("b39", None, many))
        inputs = [Input(many.id, index, push(inner), 0xFFFFFFFF) for index in range(count)]
        spender = Transaction(1, inputs, [Output(1, TRUE)], 0)
        left = MAX_SIGOPS - 1000 * count
        over = spend(self.out[1], 0, 1, CHECKSIG * (left + 1))
        self.refuse(self.next("b40", None, spender, over), "bad-blk-sigops")
        self.move_tip("b39")
        just = spend(self.out[1], 0, 1, CHECKSIG * left)
        self.accept(self.next("b41", None, spender, just))
        # A new fork from b39 on.
        self.move_tip("b39")
        self.fork(self.next("b42", self.out[12]))
        self.accept(self.next("b43", self.out[13]))


class InvalidTest(Chain):
    """b44 to b60: headers and lists of transactions that can't be."""

    def test_b44_to_b52(self):
        self.grow()
        out = self.out
        self.accept(self.next("b43"))
        # Made by hand.
        height, parent = self.places["b43"]
        made = coinbase(height + 1, subsidy(height + 1), TRUE, b"by hand")
        header = sealed(Header(4, parent, merkle_root([made.id]), self.times[parent] + 1, 0x207FFFFF, 0))
        self.accept(self.put("b44", height + 1, write_block(Block(header, [made]))))
        # No coinbase first: the call tells that of itself.
        self.next("b45")
        error = self.submit(self.again("b45", [spend(out[15])]))
        self.assertEqual((error["code"], error["message"]), (-22, "Block does not start with a coinbase"))
        # No transaction at all.
        self.move_tip("b44")
        self.next("b46")
        error = self.submit(self.again("b46", [], root=bytes(32)))
        self.assertEqual((error["code"], error["message"]), (-22, "Block does not start with a coinbase"))
        # A nonce that misses the target.
        self.move_tip("b44")
        header = read_block(self.next("b47")).header
        while int.from_bytes(header.id, "little") <= 0x7FFFFF << 232:
            header = header._replace(nonce=header.nonce + 1)
        self.refuse(write_block(Block(header, self.blocks["b47"].transactions)), "high-hash")
        # Three hours ahead of the clock.
        self.move_tip("b44")
        self.refuse(self.next("b48", time=GENESIS.time + PAUSE * 5000 + 3 * 3600), "time-too-new")
        # Another Merkle root.
        self.move_tip("b44")
        self.next("b49")
        root = self.blocks["b49"].header.root
        self.refuse(self.again("b49", root=bytes([root[0] ^ 1]) + root[1:]), "bad-txnmrklroot")
        # Another target.
        self.move_tip("b44")
        self.next("b50")
        self.refuse(self.again("b50", bits=0x207FFFFE), "bad-diffbits")
        # A second coinbase.
        self.move_tip("b44")
        self.refuse(self.next("b51", None, coinbase(1, 1, TRUE, b"second")), "bad-cb-multiple")
        # A transaction twice.
        self.move_tip("b44")
        twice = spend(out[15])
        self.refuse(self.next("b52", None, twice, twice), "bad-txns-inputs-missingorspent")

    def test_b53_to_b55(self):
        """A block's time has to be above the median of the eleven before it."""
        self.grow()
        names = [f"t{number}" for number in range(11)]
        for name in names:
            self.accept(self.next(name))
        median = self.times[self.places[names[5]][1]]
        self.refuse(self.next("b54", time=median), "time-too-old")
        self.move_tip(names[-1])
        self.accept(self.next("b55", time=median + 1))

    def test_b56_and_b57(self):
        """The last transactions are repeated, and the Merkle root is the same (CVE-2012-2459)."""
        self.grow()
        self.accept(self.next("b55"))
        first = spend(self.out[16], 0, 50 * COIN - 1)
        second = spend(first)
        self.next("b57", None, first, second)
        block = self.blocks["b57"]
        b56 = write_block(block._replace(transactions=[*block.transactions, second]))
        self.assertEqual(read_block(b56).header, block.header)
        self.assertEqual(merkle_root([tx.id for tx in read_block(b56).transactions]), block.header.root)
        self.refuse(b56, "bad-txns-duplicate")
        # Two of six, one level above.
        self.move_tip("b55")
        chained = [first]
        for value in (6, 5, 4, 3):
            chained.append(spend(chained[-1], 0, value))
        self.next("b57p2", None, *chained)
        other = self.blocks["b57p2"]
        b56p2 = write_block(other._replace(transactions=[*other.transactions, *other.transactions[-2:]]))
        self.assertEqual(merkle_root([tx.id for tx in read_block(b56p2).transactions]), other.header.root)
        self.refuse(b56p2, "bad-txns-duplicate")
        # The right blocks of these ids are accepted all the same.
        self.accept(write_block(other))
        self.fork(write_block(block))

    def test_b58_to_b60(self):
        self.grow()
        self.accept(self.next("b57"))
        absent = Transaction(1, [Input(self.out[17].id, 42, b"", 0xFFFFFFFF)], [Output(0, TRUE)], 0)
        self.refuse(self.next("b58", None, absent), "bad-txns-inputs-missingorspent")
        self.move_tip("b57")
        self.refuse(self.next("b59", None, spend(self.out[17], 0, 51 * COIN)), "bad-txns-in-belowout")
        self.move_tip("b57")
        self.accept(self.next("b60"))


class Bip30Test(Chain):
    """b61 and what follows it: a coinbase that stands already. Before BIP 34 two blocks can have the same."""

    heights = (100_000, 1, 1, 1)

    def test_b61(self):
        twin = Transaction(1, [Input(bytes(32), 0xFFFFFFFF, b"\x02\x00\x00", 0xFFFFFFFF)], [Output(1, TRUE)], 0)
        self.accept(self.next("dup_cb", base=twin))
        self.refuse(self.next("b61", base=twin), "bad-txns-BIP30")
        # Once it is spent it may come again.
        self.move_tip("dup_cb")
        for number in range(99):
            self.accept(self.next(f"between{number}"))
        self.refuse(self.next("b_again", base=twin), "bad-txns-BIP30")
        self.move_tip("between98")
        self.accept(self.next("b_spend_dup_cb", (twin, 0)))
        self.assertFalse(self.is_coin(twin))
        self.accept(self.next("b_dup_2", base=twin))
        self.assertTrue(self.is_coin(twin))


class TransactionsTest(Chain):
    """b62 to b70: finality, spends within a block, fees."""

    def setUp(self):
        super().setUp()
        self.grow()
        self.accept(self.next("b60"))

    def test_b62_and_b63(self):
        tx = spend(self.out[18])
        open_end = tx._replace(lock_time=0xFFFFFFFF, inputs=[tx.inputs[0]._replace(sequence=0)])
        self.refuse(self.next("b62", None, open_end), "bad-txns-nonfinal")
        self.move_tip("b60")
        height = self.places["b60"][0] + 1
        made = coinbase(height, subsidy(height))
        made = made._replace(lock_time=0xFFFFFFFF, inputs=[made.inputs[0]._replace(sequence=0xDEADBEEF)])
        self.refuse(self.next("b63", base=made), "bad-txns-nonfinal")

    def test_b64(self):
        """A count that isn't spelled shortest makes a block too long, or no block; the right one is accepted then."""
        data = self.next("b64", self.out[18])
        count = len(self.blocks["b64"].transactions)
        b64a = data[:80] + b"\xff" + count.to_bytes(8, "little") + data[81:]
        error = self.submit(b64a)
        self.assertEqual((error["code"], error["message"]), (-22, "Block decode failed"))
        self.accept(data)

    def test_b65_to_b67(self):
        first = spend(self.out[19], 0, 50 * COIN)
        second = spend(first, 0, 0)
        # An output of the block itself.
        self.accept(self.next("b65", None, first, second))
        # One that stands later in the block.
        first = spend(self.out[20], 0, 50 * COIN)
        second = spend(first, 0, 1)
        self.refuse(self.next("b66", None, second, first), "bad-txns-inputs-missingorspent")
        # Spent twice within the block.
        self.move_tip("b65")
        third = spend(first, 0, 2)
        self.refuse(self.next("b67", None, first, second, third), "bad-txns-inputs-missingorspent")

    def test_b68_and_b69(self):
        """A coinbase that takes ten satoshis, of nine and of ten that are fees."""
        nine = spend(self.out[20], 0, 50 * COIN - 9)
        self.refuse(self.next("b68", None, nine, extra=10), "bad-cb-amount")
        self.move_tip("b60")
        ten = spend(self.out[20], 0, 50 * COIN - 10)
        self.accept(self.next("b69", None, ten, extra=10))

    def test_b70(self):
        absent = Transaction(1, [Input(b"\x5a" * 32, 0, b"", 0xFFFFFFFF)], [Output(1, TRUE)], 0)
        self.refuse(self.next("b70", self.out[21], absent), "bad-txns-inputs-missingorspent")

    def test_b71_and_b72(self):
        """A block that is refused has the id of one that is right, which is accepted then."""
        first = spend(self.out[21], 0, 2)
        second = spend(first, 0, 1)
        b72 = self.next("b72", None, first, second)
        block = self.blocks["b72"]
        b71 = write_block(block._replace(transactions=[*block.transactions, second]))
        self.assertEqual(double_sha(b71[:80]), double_sha(b72[:80]))
        self.refuse(b71, "bad-txns-duplicate")
        self.accept(b72)


class ScriptsTest(Chain):
    """b73 to b76 and b83: where the counting of signature operations stops, and opcodes that aren't executed."""

    def setUp(self):
        super().setUp()
        self.grow()
        self.accept(self.next("b72"))

    def test_b73_to_b76(self):
        long_push = PUSHDATA4 + (521).to_bytes(4, "little")
        endless = PUSHDATA4 + (0xFFFFFFFF).to_bytes(4, "little")
        almost = PUSHDATA4 + (0xFFFFFFFE).to_bytes(4, "little")
        # Behind a push that is too long to be run operations count.
        script = CHECKSIG * MAX_SIGOPS + long_push + CHECKSIG * 521 + CHECKSIG
        self.refuse(self.next("b73", self.out[22], script=script), "bad-blk-sigops")
        # Behind one that is cut short they don't, whose bytes are none, but those before it do.
        self.move_tip("b72")
        script = CHECKSIG * (MAX_SIGOPS + 1) + almost + CHECKSIG * 521
        self.refuse(self.next("b74", self.out[22], script=script), "bad-blk-sigops")
        self.move_tip("b72")
        self.accept(self.next("b75", self.out[22], script=CHECKSIG * (MAX_SIGOPS - 1) + endless + CHECKSIG * 521))
        # What is pushed isn't counted.
        script = CHECKSIG * (MAX_SIGOPS - 1) + PUSHDATA4 + (520).to_bytes(4, "little") + CHECKSIG * 520
        self.accept(self.next("b76", self.out[23], script=script))

    def test_b83(self):
        """An opcode that there isn't, in a branch that isn't taken."""
        script = IF + b"\xff" + ELSE + TRUE + ENDIF
        first = spend(self.out[28], 0, 2, script)
        second = spend(first, 0, 1, TRUE, unlock=b"\x00")
        self.accept(self.next("b83", None, first, second))
        taken = spend(self.out[29], 0, 2, script)
        refused = spend(taken, 0, 1, TRUE, unlock=TRUE)
        self.refuse(self.next("b83a", None, taken, refused), "blk-bad-inputs")


class ReorganisationsTest(Chain):
    """b77 to b82 and b84 to b89: what comes back when blocks are taken back, and a long reorganisation."""

    def test_b77_to_b82(self):
        self.grow()
        self.accept(self.next("b76"))
        tx77 = spend(self.out[24], 0, 10 * COIN)
        self.accept(self.next("b77", None, tx77))
        tx78 = spend(tx77, 0, 9 * COIN)
        self.accept(self.next("b78", None, tx78))
        tx79 = spend(tx78, 0, 8 * COIN)
        self.accept(self.next("b79", None, tx79))
        self.assertEqual([self.is_coin(tx) for tx in (tx77, tx78, tx79)], [False, False, True])
        # Three blocks from b77 on take the place of b78 and b79, and their spends are undone.
        self.move_tip("b77")
        self.fork(self.next("b80", self.out[25]))
        self.fork(self.next("b81", self.out[26]))
        self.accept(self.next("b82", self.out[27]))
        self.assertEqual([self.is_coin(tx) for tx in (tx77, tx78, tx79)], [True, False, False])
        # They can be made again.
        self.accept(self.next("b82a", None, tx78, tx79))
        self.assertEqual([self.is_coin(tx) for tx in (tx77, tx78, tx79)], [False, False, True])

    def test_b84_to_b89(self):
        """Outputs that can't be spent come and go with their blocks, and never are coins."""
        self.grow()
        self.accept(self.next("b83"))
        outputs = [Output(0, RETURN), Output(0, RETURN), Output(10, TRUE), Output(0, RETURN), Output(20, TRUE)]
        tx84 = Transaction(1, [Input(self.out[29].id, 0, b"", 0xFFFFFFFF)], outputs, 0)
        tx85 = spend(tx84, 2, 10)
        self.accept(self.next("b84", None, tx84, tx85))
        self.assertEqual([self.is_coin(tx84, index) for index in range(5)], [False, False, False, False, True])
        self.move_tip("b83")
        self.fork(self.next("b85"))
        self.accept(self.next("b86"))
        self.assertFalse(self.is_coin(tx84, 4))
        self.move_tip("b84")
        self.fork(self.next("b87"))
        self.accept(self.next("b88"))
        self.assertEqual([self.is_coin(tx84, index) for index in range(5)], [False, False, False, False, True])
        self.refuse(self.next("b89a", None, spend(tx84, 0, 0)), "bad-txns-inputs-missingorspent")

    def test_a_long_reorganisation(self):
        """1,088 blocks, as many as a week has and some more, are taken back, and put back again."""
        self.accept(self.next("b88"))
        count = 1088
        for number in range(count):
            self.accept(self.next(f"long{number}"))
        first = self.blocks["long0"].transactions[0]
        self.move_tip("b88")
        for number in range(count):
            self.fork(self.next(f"other{number}"))
        self.accept(self.next(f"other{count}"))
        self.assertEqual(self.call("getblockcount"), count + 2)
        self.assertFalse(self.is_coin(first))
        self.move_tip(f"long{count - 1}")
        self.fork(self.next(f"long{count}"))
        self.accept(self.next(f"long{count + 1}"))
        self.assertTrue(self.is_coin(first))
        self.assertFalse(self.is_coin(self.blocks["other0"].transactions[0]))


if __name__ == "__main__":
    unittest.main()
