"""Blk files that are so large that several threads decode and hash their blocks ahead: answers are as with one."""
from __future__ import annotations

import struct

from blocks import GENESIS, double_sha
from running import Played, ProgramTest

SIGN = bytes.fromhex("fabfb5da")
# More than is read ahead at once, in bytes (4,000,000) and in blocks (64).
BLOCKS, ZEROS = 90, 60_000
WORKERS = ("1", "2", "4", "16")
CLIENT = "client a\n"


def block(parent: bytes, height: int, zeros: int) -> bytes:
    """A block without payments on a parent's header, whose output has a script of so many zero bytes."""
    script = b"\x02" + struct.pack("<H", height)
    length = b"\xfd" + struct.pack("<H", zeros)
    coinbase = b"".join((
        struct.pack("<i", 1), b"\x01", bytes(32), b"\xff" * 4, bytes([len(script)]), script, b"\xff" * 4,
        b"\x01", struct.pack("<q", 50 * 10**8), length, bytes(zeros), bytes(4)))
    (time,) = struct.unpack("<I", parent[68:72])
    front = struct.pack("<i", 4) + double_sha(parent[:80]) + double_sha(coinbase) + struct.pack("<II", time + 1, 0x207FFFFF)
    nonce = next(it for it in range(1000) if double_sha(front + struct.pack("<I", it))[31] <= 0x7F)
    return front + struct.pack("<I", nonce) + b"\x01" + coinbase


def record(data: bytes) -> bytes:
    return SIGN + struct.pack("<I", len(data)) + data


class BlocksAhead(ProgramTest):
    def setUp(self) -> None:
        super().setUp()
        self.blocks, parent = [], bytes.fromhex(GENESIS)
        for height in range(1, BLOCKS + 1):
            parent = block(parent, height, ZEROS)
            self.blocks.append(parent)

    def expect_answers(self, records: list[bytes], replies: list[str], tail: bytes, fault: str) -> None:
        """The answers in order, whatever the number of workers; behind them the fault of the file, if it has one."""
        self.write_bytes("f.blk", b"".join(map(record, records)) + tail)
        told = "".join(f"record {number} = {reply}\n" for number, reply in enumerate(replies, 1))
        for workers in WORKERS:
            played = self.play(["run", "--scenario", "-", "--blk", "f.blk", "--workers", workers, "--heights", "500,500,500,500"], CLIENT)
            with self.subTest(workers=workers):
                self.assertEqual(played.out.partition(CLIENT)[0], f"client blk\n{told}")
                self.assertEqual((played.err.partition("\n")[0], played.status), (fault, 1 if fault else 0))

    def test_in_their_order(self) -> None:
        """A block that comes again, one that is no block, one with another root, and one whose parent comes later."""
        first, second, third, *others = self.blocks
        faulty = second[:36] + bytes(32) + second[68:]
        nonce = next(it for it in range(1000) if double_sha(faulty[:76] + struct.pack("<I", it))[31] <= 0x7F)
        faulty = faulty[:76] + struct.pack("<I", nonce) + faulty[80:]
        records = [first, third, first, first[:-1], faulty, second, third, *others]
        early = ["accepted @1", "prev-blk-not-found @2", "duplicate @3", "decode-failed @3", "bad-txnmrklroot @4"]
        late = [f"accepted @{step}" for step in range(5, 5 + BLOCKS - 1)]
        self.expect_answers(records, early + late, b"", "")

    def test_a_fault_comes_behind_the_answers_before_it(self) -> None:
        replies = [f"accepted @{step}" for step in range(1, BLOCKS)]
        offset = sum(len(record(it)) for it in self.blocks[:-1])
        self.expect_answers(self.blocks[:-1], replies, record(self.blocks[-1])[:-1], f"regchain: blk stopped at {offset}")

    def test_a_saved_run_is_loaded(self) -> None:
        """A served node plays it again ahead too, and goes on from it."""
        self.make_folder("saved")
        self.write_bytes("f.blk", b"".join(map(record, self.blocks)))
        words = ["run", "--scenario", "-", "--blk", "f.blk", "--save", "saved", "--heights", "500,500,500,500"]
        self.assertEqual(self.play(words, CLIENT).status, 0)
        best = double_sha(self.blocks[-1][:80])[::-1].hex()
        ask = '{"jsonrpc":"2.0","id":1,"method":"getbestblockhash","params":{"seat":0}}\n'
        answer = f'{{"jsonrpc":"2.0","id":1,"result":{{"at":{BLOCKS},"answer":{{"hash":"{best}"}}}}}}\n'
        for workers in WORKERS:
            self.expect(["serve", "--load", "saved", "--workers", workers], ask, Played(0, answer, ""))
            self.expect(["serve", "--blk", "f.blk", "--workers", workers, "--heights", "500,500,500,500"], ask, Played(0, answer, ""))
