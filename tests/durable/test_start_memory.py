"""How much memory a start takes: the log is read a batch at a time."""
from __future__ import annotations

import json

import blocks
from keeping import LOG, NOW, KeepingTest
from serving import Served

BLOCKS, SIZE = 12, 2_000_000


def large_block(number: int) -> str:
    """One that decodes and is refused, with a coinbase of so many bytes: a node keeps it in its history."""
    script = number.to_bytes(4, "little") + bytes(SIZE - 4)
    inputs = "01" + "00" * 32 + "ffffffff" + "fe" + SIZE.to_bytes(4, "little").hex() + script.hex() + "ffffffff"
    return blocks.FIRST[:160] + "01" + "01000000" + inputs + "01" + "00" * 8 + "0151" + "00000000"


class StartMemory(KeepingTest):
    def test_blocks_are_held_once(self) -> None:
        """A start takes less than three times the blocks' bytes, of which the log has two: not the log, their records, and a
        list of these beside one another."""
        lines = [
            json.dumps({"jsonrpc": "2.0", "id": number, "method": "submit", "params": {"seat": 0, "block": large_block(number), "now": NOW}})
            for number in range(BLOCKS)
        ]
        ended = self.serve("\n".join(lines).encode() + b"\n")
        self.assertEqual((ended.returncode, len(self.read_bytes(LOG).splitlines())), (0, BLOCKS), ended.stderr)
        served = Served(self.folder, "--datadir", "data")
        self.addCleanup(served.kill)
        self.assertEqual(served.ask("note", seat=0)["at"], BLOCKS)
        with open(f"/proc/{served.process.pid}/status", encoding="ascii") as file:
            most = next(int(line.split()[1]) for line in file if line.startswith("VmHWM:"))
        self.assertLess(most * 1024, 3 * BLOCKS * SIZE)
        self.assertEqual(served.end(), (0, ""))
