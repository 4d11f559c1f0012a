"""What `wakotehu.explain` says of lines of saved runs. The names are Bitcoin Core's for these scripts."""

import os
import subprocess
import sys
import tempfile
import unittest

from blocks import NOW, Maker, block_id, spend
from servers import PROGRAM, ROOT
from test_node_by_need import Mined, then
from wakotehu import Node, secp256k1
from wakotehu.consensus import ScriptError
from wakotehu.encoding import read_block, write_block
from wakotehu.explain import NotExplained, explain

#: A script, and what spends it.
FAILING = {
    ScriptError.NUMEQUALVERIFY: (b"\x93\x54\x9d\x51", b"\x51\x52"),
    ScriptError.EVAL_FALSE: (b"\x87", b"\x51\x52"),
    ScriptError.OP_RETURN: (b"\x51\x63\x6a\x68", b""),
    ScriptError.NEGATIVE_LOCKTIME: (b"\xb1", b"\x4f"),
    ScriptError.INVALID_STACK_OPERATION: (b"\x93", b"\x51"),
}


class ExplainTest(unittest.TestCase):
    def setUp(self):
        room = tempfile.TemporaryDirectory()
        self.addCleanup(room.cleanup)
        self.folder = os.path.join(room.name, "saved")

    def submitted(self, seat, block):
        """The number of the step, and why the block is refused."""
        answer = seat.try_submit(block, NOW)
        return answer.at, answer.value.reason

    def test_scripts_that_fail(self):
        for kind in ("save", "datadir"):
            for error, (script, own) in FAILING.items():
                with self.subTest(kind=kind, error=error), tempfile.TemporaryDirectory() as room:
                    folder = os.path.join(room, "saved")
                    maker = Maker(script)
                    chain = maker.chain(101)
                    paid = maker.coinbases[block_id(chain[0])]
                    bad = maker.block(block_id(chain[-1]), [spend(paid.id, 0, 50, own)])
                    with Node(1, program=PROGRAM, **{kind: folder}) as node:
                        seat = node.seat(0)
                        for block in chain:
                            seat.submit(block, NOW)
                        at, reason = self.submitted(seat, bad)
                        self.assertEqual(reason, "blk-bad-inputs")
                        seat.invalidate(block_id(chain[-1]))
                    found = explain(folder, at)
                    self.assertEqual(found, ("blk-bad-inputs", 1, 0, error))
                    self.assertEqual(str(found), f"blk-bad-inputs: transaction 1, input 0: {error.name} ({error.text})")
                    self.assertEqual(explain(folder, 1), ("", 0, 0, None))
                    with self.assertRaises(NotExplained):
                        explain(folder, at + 1)
                    with self.assertRaises(NotExplained):
                        explain(folder, at + 2)

    def test_a_signature_that_is_not_valid(self):
        """The second spends an output of the first in the same block."""
        for kind in ("save", "datadir"):
            with self.subTest(kind=kind), tempfile.TemporaryDirectory() as room:
                folder = os.path.join(room, "saved")
                mined = Mined(101)
                first = mined.spend(0)
                bad = mined.block(mined.tip, [first, then(first, right=False)])
                with Node(1, program=PROGRAM, verify=secp256k1, **{kind: folder}) as node:
                    seat = node.seat(0)
                    for block in mined.chain:
                        seat.submit(block, NOW)
                    self.assertEqual(self.submitted(seat, bad)[1], "blk-bad-inputs")
                    steps = [it.command for it in seat.journal(1, seat.note()).value]
                lines = [it for it in steps if kind == "datadir" or it not in ("valid", "invalid")]
                found = explain(folder, len(lines))
                self.assertEqual(found, ("blk-bad-inputs", 2, 0, ScriptError.EVAL_FALSE))

    def saved(self, blocks, kind="save", **more):
        """A folder in which these were submitted, with the reason of each."""
        with Node(1, program=PROGRAM, **{kind: self.folder}, **more) as node:
            return [node.seat(0).try_submit(block, NOW).value.reason for block in blocks]

    def test_which_block_a_branch_has(self):
        """Of two under one header the one that is kept; on a branch beside the active one; and one without its parent."""
        maker = Maker(FAILING[ScriptError.OP_RETURN][0])
        chain = maker.chain(101)
        paid, other = (maker.coinbases[block_id(chain[place])] for place in (0, 1))
        bad = [spend(it.id, 0, 50, b"") for it in (paid, other)]
        beside = maker.chain(2, block_id(chain[98]), b"\x01")
        # Its last transaction twice: the same root, so the same header, and another block.
        twin = maker.block(block_id(beside[-1]), [bad[0], bad[1]], b"\x02")
        read = read_block(twin)
        mutated = write_block(read._replace(transactions=[*read.transactions, read.transactions[-1]]))
        self.assertEqual(block_id(mutated), block_id(twin))
        reasons = self.saved([*chain, *beside, mutated, twin])
        self.assertEqual(reasons[-2:], ["bad-txns-duplicate", "blk-bad-inputs"])
        self.assertEqual(explain(self.folder, 105), ("blk-bad-inputs", 1, 0, ScriptError.OP_RETURN))
        self.assertEqual(explain(self.folder, 104).reason, "bad-txns-duplicate")
        with open(os.path.join(self.folder, "blocks.blk"), "rb") as file:
            data = file.read()
        with open(os.path.join(self.folder, "blocks.blk"), "wb") as file:
            file.write(data[: -len(twin) - 8])
        with self.assertRaisesRegex(NotExplained, "fewer blocks"):
            explain(self.folder, 105)

    def test_a_block_without_its_parent(self):
        maker = Maker()
        chain = maker.chain(3)
        self.assertEqual(self.saved([chain[0], chain[2]])[-1], "prev-blk-not-found")
        with self.assertRaisesRegex(NotExplained, "isn't there"):
            explain(self.folder, 2)

    def test_the_heights_of_a_run(self):
        """Before its height CHECKLOCKTIMEVERIFY does nothing, and the script is cut short of its element."""
        maker = Maker(b"\xb1\x75")
        chain = maker.chain(101)
        bad = maker.block(block_id(chain[-1]), [spend(maker.coinbases[block_id(chain[0])].id, 0, 50, b"\x4f")])
        for bip65, error in ((102, ScriptError.NEGATIVE_LOCKTIME), (103, ScriptError.EVAL_FALSE)):
            with self.subTest(bip65):
                reasons = self.saved([*chain, bad], heights=(1, bip65, 1, 1))
                self.assertEqual(reasons[-1], "blk-bad-inputs")
                self.assertEqual(explain(self.folder, 102), ("blk-bad-inputs", 1, 0, error))

    def test_a_signature_without_a_verdict(self):
        """By need, of a block that was never tried; with a table such a signature isn't valid."""
        mined = Mined(102)
        late = mined.maker.block(block_id(mined.chain[100]), [mined.spend(0)], b"\x01")
        for more, says in (({"verify": secp256k1}, None), ({}, ("blk-bad-inputs", 1, 0, ScriptError.EVAL_FALSE))):
            with self.subTest(says=says), tempfile.TemporaryDirectory() as room:
                self.folder = os.path.join(room, "saved")
                self.saved([*mined.chain, late], "datadir", **more)
                if says:
                    self.assertEqual(explain(self.folder, 103), says)
                else:
                    with self.assertRaisesRegex(NotExplained, "no verdict"):
                        explain(self.folder, 103)

    def test_a_save_that_was_cut_off(self):
        """The journal was renamed, and the blocks weren't yet."""
        maker = Maker(FAILING[ScriptError.OP_RETURN][0])
        chain = maker.chain(101)
        bad = maker.block(block_id(chain[-1]), [spend(maker.coinbases[block_id(chain[0])].id, 0, 50, b"")])
        self.saved([*chain, bad])
        blocks = os.path.join(self.folder, "blocks.blk")
        os.rename(blocks, f"{blocks}.new")
        with open(blocks, "wb") as file:
            file.write(b"")
        self.assertEqual(explain(self.folder, 102), ("blk-bad-inputs", 1, 0, ScriptError.OP_RETURN))

    def test_as_a_command(self):
        maker = Maker()
        with Node(1, program=PROGRAM, save=self.folder) as node:
            node.seat(0).try_submit(maker.block(maker_tip(maker), more=1), NOW)
        words = [sys.executable, "-m", "wakotehu.explain", self.folder]
        place = {**os.environ, "PYTHONPATH": f"{ROOT}/ffi/python"}
        done = [subprocess.run([*words, at], capture_output=True, text=True, timeout=60, env=place) for at in ("1", "2")]
        self.assertEqual([it.returncode for it in done], [0, 1])
        self.assertEqual(done[0].stdout, "line 1: bad-cb-amount\n")
        self.assertEqual(done[1].stderr, "python3 -m wakotehu.explain: there is no line 2\n")


def maker_tip(maker):
    return next(iter(maker.heights))


if __name__ == "__main__":
    unittest.main()
