"""The script ffi/audit_verdicts, on folders that a node by need saved or keeps: with right verdicts, and with wrong ones."""

import os
import subprocess
import sys
import tempfile
import unittest

from blocks import NOW, block_id
from servers import PROGRAM, ROOT
from test_node_by_need import Mined, then
from wakotehu import Node, secp256k1


class AuditTest(unittest.TestCase):
    def setUp(self):
        room = tempfile.TemporaryDirectory()
        self.addCleanup(room.cleanup)
        self.folder = os.path.join(room.name, "saved")

    def saved(self, verify=secp256k1, kind="save"):
        """A folder with two signatures that are valid and two that aren't."""
        with Node(1, program=PROGRAM, verify=verify, **{kind: self.folder}) as node:
            seat, mined = node.seat(0), Mined(103)
            for block in mined.chain:
                seat.submit(block, NOW)
            first = mined.spend(0)
            tip = mined.tip
            for number, tx in enumerate((mined.spend(1, secret=1), first, then(first, right=False), then(first))):
                block = mined.block(tip, [tx], bytes([number]))
                if seat.try_submit(block, NOW).value.reply == "accepted":
                    tip = block_id(block)

    def audited(self):
        """The status, and what is printed."""
        script = f"{ROOT}/ffi/audit_verdicts"
        done = subprocess.run([sys.executable, script, self.folder], capture_output=True, text=True, timeout=60)
        return done.returncode, done.stdout.splitlines(), done.stderr

    def lines(self, name):
        with open(os.path.join(self.folder, name), "rb") as file:
            return file.read().splitlines()

    def write(self, name, lines):
        with open(os.path.join(self.folder, name), "wb") as file:
            file.write(b"".join(line + b"\n" for line in lines))

    def test_right_verdicts(self):
        self.saved()
        self.assertEqual((len(self.lines("table.txt")), len(self.lines("invalid.txt"))), (2, 2))
        self.assertEqual(self.audited(), (0, ["4 verdicts, none of them wrong"], ""))

    def test_a_verdict_that_was_wrong(self):
        """The node is told that the second wrong signature is valid, and takes it."""
        asked = []

        def verify(lines):
            asked.extend(lines)
            return [True] * len(lines) if len(asked) == 3 else secp256k1(lines)

        self.saved(verify)
        wrong = asked[2]
        [at] = [at for at, line in enumerate(self.lines("table.txt"), 1) if line == wrong]
        status, printed, _ = self.audited()
        self.assertEqual(status, 1)
        self.assertEqual(printed[0], f"table.txt line {at}: libsecp256k1 says invalid, not valid: {wrong.decode()}")
        self.assertEqual(len(printed), 2)
        self.assertIn(" 1 of them wrong", printed[1])
        # The history is legal under it.
        done = subprocess.run([PROGRAM, "audit", "--saved", self.folder], capture_output=True, text=True)
        self.assertEqual(done.stdout, "agrees\n")

    def test_a_valid_signature_among_the_others(self):
        self.saved()
        valid, invalid = self.lines("table.txt"), self.lines("invalid.txt")
        self.write("table.txt", [b"# ours", b"", valid[0]])
        self.write("invalid.txt", [*invalid, valid[1]])
        line = f"invalid.txt line 3: libsecp256k1 says valid, not invalid: {valid[1].decode()}"
        self.assertEqual(self.audited(), (1, [line, "4 verdicts, 1 of them wrong"], ""))

    def test_a_table_alone(self):
        self.saved()
        os.remove(os.path.join(self.folder, "invalid.txt"))
        self.assertEqual(self.audited(), (0, ["2 verdicts, none of them wrong"], ""))

    def test_a_log(self):
        """Of a history that is kept."""
        self.saved(kind="datadir")
        self.assertEqual(self.audited(), (0, ["4 verdicts, none of them wrong"], ""))
        lines = self.lines("history.log")
        [at] = [at for at, line in enumerate(lines) if line.split()[2] == b"valid"][:1]
        self.write("history.log", [*lines[:at], lines[at].replace(b" valid ", b" invalid "), *lines[at + 1 :]])
        signature = lines[at].partition(b"\t")[2].decode()
        line = f"history.log line {at + 1}: libsecp256k1 says valid, not invalid: {signature}"
        self.assertEqual(self.audited(), (1, [line, "4 verdicts, 1 of them wrong"], ""))
        self.write("history.log", [*lines, b"x"])
        status, _, told = self.audited()
        place = f"{self.folder}/history.log line {len(lines) + 1}"
        self.assertEqual((status, told), (2, f"ffi/audit_verdicts: {place} can't be read\n"))

    def test_what_cannot_be_read(self):
        status, _, told = self.audited()
        self.assertEqual(status, 2)
        self.assertIn("No such file", told)
        self.saved()
        self.write("table.txt", [*self.lines("table.txt"), b"02 30"])
        status, _, told = self.audited()
        self.assertEqual((status, told), (2, f"ffi/audit_verdicts: {self.folder}/table.txt line 3 can't be read\n"))

    def test_help(self):
        done = subprocess.run([sys.executable, f"{ROOT}/ffi/audit_verdicts", "--help"], capture_output=True, text=True)
        self.assertEqual(done.returncode, 0)
        self.assertIn("invalid.txt", done.stdout)


if __name__ == "__main__":
    unittest.main()
