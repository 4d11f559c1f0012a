"""A log whose last batch is cut anywhere, has lost bytes, or is followed by zeros."""
from __future__ import annotations

import json
import os
import random
import shutil

import blocks
import running
from keeping import GENESIS, LOG, NOW, KeepingTest, whole_lines

COMMANDS: list[tuple[str, dict[str, object]]] = [
    ("submit", {"block": blocks.FIRST, "now": NOW}),
    ("invalidate", {"id": GENESIS}),
    ("invalidate", {"id": blocks.FIRST_ID}),
    ("reconsider", {"id": blocks.FIRST_ID}),
]


def batch(commands: list[tuple[str, dict[str, object]]]) -> bytes:
    return b"".join(
        json.dumps({"jsonrpc": "2.0", "id": place, "method": method, "params": {"seat": 0, **params}}).encode() + b"\n"
        for place, (method, params) in enumerate(commands)
    )


def has_line_behind(data: bytes) -> bool:
    """Whether a whole line stands behind the first zero byte, or the next line but one ends whose number begins right there."""
    front, _, behind = data.partition(b"\0")
    lines = behind.split(b"\n")
    next_line = f"{front.count(10) + 2} ".encode()
    return any(b"\0" not in line for line in lines[1:-1]) or (behind.startswith(next_line) and len(lines) > 1)


class TornEnds(KeepingTest):
    def make(self) -> tuple[bytes, int]:
        """A log, and where its last batch begins."""
        self.assertEqual(self.serve(batch(COMMANDS)).returncode, 0)
        synced = len(self.read_bytes(LOG))
        self.assertEqual(self.serve(batch(COMMANDS)).returncode, 0)
        whole = self.read_bytes(LOG)
        self.assertEqual(whole.count(b"\n"), 8)
        return whole, synced

    def expect_recovered(self, data: bytes, synced: int, whole: bytes) -> None:
        """The log is opened, and stands for its whole lines, which are the first of the history; what follows is cut off, kept
        beside, and told of. Only where whole lines follow a zero byte that has to be asked for."""
        self.write_bytes(LOG, data)
        cuts = ["--cut"] if has_line_behind(data) else []
        if cuts:
            self.assertEqual((self.serve(b"").returncode, self.read_bytes(LOG)), (1, data))
        ended = self.serve(b"", *cuts)
        lines = whole_lines(data)
        left = whole[: sum(len(line) + 1 for line in whole.split(b"\n")[:lines])]
        self.assertEqual((ended.returncode, self.read_bytes(LOG)), (0, left), data[synced:])
        self.assertGreaterEqual(len(left), synced)
        cut = len(data) - len(left)
        if not cut:
            self.assertEqual((ended.stderr, self.exists("data/torn-1")), (b"", False))
            return
        self.assertRegex(ended.stderr.decode(), rf"\Aregchain: history.log: {cut} bytes .* were cut off: .*, kept in data/torn-1\n\Z")
        self.assertEqual(self.read_bytes("data/torn-1"), data[len(left) :])
        os.remove(self.path("data/torn-1"))

    def places(self, begin: int, end: int, few: int) -> list[int]:
        every = list(range(begin, end + 1))
        return every if running.LONG else sorted(random.Random(1).sample(every, few))

    def test_cut_anywhere(self) -> None:
        whole, synced = self.make()
        for end in self.places(synced, len(whole), 60):
            self.expect_recovered(whole[:end], synced, whole)

    def test_zeros_behind(self) -> None:
        whole, synced = self.make()
        for end in self.places(synced, len(whole), 20):
            self.expect_recovered(whole[:end] + bytes(1 + end % 5000), synced, whole)

    def test_bytes_lost(self) -> None:
        """Bytes of the last batch that the disk doesn't have are zeros, and a crash may leave any of them."""
        whole, synced = self.make()
        draw = random.Random(2)
        for _ in range(1_000 if running.LONG else 40):
            data = bytearray(whole[: draw.randint(synced, len(whole))])
            for _ in range(draw.randint(1, 40)):
                if len(data) > synced:
                    data[draw.randrange(synced, len(data))] = 0
            self.expect_recovered(bytes(data), synced, whole)

    def test_a_foreign_line_is_refused(self) -> None:
        """What no crash leaves is told by its line, and the log stays as it is."""
        whole, _ = self.make()
        for wrong in (whole.replace(b"\n3 ", b"\n4 "), whole + b"hello\n", whole.replace(b"= genesis", b"= done", 1)):
            self.write_bytes(LOG, wrong)
            ended = self.serve(b"")
            self.assertEqual(ended.returncode, 1)
            self.assertIn(b"regchain: journal line ", ended.stderr)
            self.assertEqual(self.read_bytes(LOG), wrong)

    def test_export_and_audit(self) -> None:
        """The saved files of a log, and its audit."""
        self.make()
        self.expect(["audit", "--datadir", "data"], "", running.Played(0, "agrees\n", ""))
        self.expect(["audit", "--datadir", "data", "--quick"], "", running.Played(0, "agrees\n", ""))
        self.make_folder("saved")
        self.expect(["export", "--datadir", "data", "--save", "saved"], "", running.Played(0, "", ""))
        self.expect(["audit", "--saved", "saved"], "", running.Played(0, "agrees\n", ""))
        record = bytes.fromhex(blocks.FIRST_HEAD + blocks.FIRST)
        self.assertEqual(self.read_bytes("saved/blocks.blk"), 2 * record)
        lines = [line.split(b"\t")[0] for line in self.read_bytes(LOG).splitlines()]
        self.assertEqual(self.read_bytes("saved/journal.txt").splitlines(), lines)
        shutil.rmtree(self.path("saved"))
