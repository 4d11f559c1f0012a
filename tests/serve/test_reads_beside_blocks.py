"""A reader beside a writer of large blocks: reads are answered while a block is being submitted."""
from __future__ import annotations

import sys
import threading
import time

import running
from running import ProgramTest
from serving import Names, Served

NOW = 1_300_000_000
PAYMENTS = 2_000
SUBSIDY = 5_000_000_000


def definitions(blocks: int) -> str:
    """A chain of 100, a block whose transaction fans out into 2,000 outputs, and blocks that spend each of them once."""
    lines = ["chain c 100 genesis", "tx f 2 0", "in c1.cb:0 -"]
    lines += [f"out {SUBSIDY // PAYMENTS} 51"] * PAYMENTS + ["block fan c100 f"]
    below = "fan"
    for block in range(blocks):
        names = []
        for place in range(PAYMENTS):
            spent = f"f:{place}" if block == 0 else f"t{block - 1}_{place}:0"
            names.append(f"t{block}_{place}")
            lines += [f"tx {names[-1]} 2 0", f"in {spent} -", f"out {SUBSIDY // PAYMENTS} 51"]
        lines.append(f"block p{block} {below} {' '.join(names)}")
        below = f"p{block}"
    return "\n".join(lines) + "\n"


class Reads(ProgramTest):
    def test_reads_beside_large_blocks(self) -> None:
        reads, blocks = (100_000, 40) if running.LONG else (10_000, 6)
        names = Names(self.folder, definitions(blocks))
        served = Served(self.folder, "--seats", "2")
        self.addCleanup(served.kill)
        for name in [*(f"c{height}" for height in range(1, 101)), "fan"]:
            self.submit(served, names, name)
        spans: list[tuple[float, float]] = []
        writer = threading.Thread(target=self.submit_all, args=(served, names, blocks, spans))
        writer.start()
        txid, last = names.ids["f"], 0
        read: list[tuple[float, float]] = []
        for number in range(reads):
            begun = time.perf_counter()
            result = served.ask("gettxout", seat=1, txid=txid, n=number % PAYMENTS)
            read.append((begun, time.perf_counter()))
            self.assertGreaterEqual(result["at"], last)
            last = result["at"]
            # Each output is there until the first block of payments spends it.
            self.assertEqual(result["answer"] is None, last > 101)
        writer.join(running.SECONDS)
        self.assertEqual(len(spans), blocks)
        beside = sum(any(first <= begun and ended <= end for first, end in spans) for begun, ended in read)
        self.assertGreater(beside, 0)
        slowest, longest = (max(end - begun for begun, end in each) * 1e3 for each in (read, spans))
        told = f"{reads} reads, {beside} while one of {blocks} blocks of {PAYMENTS} payments was submitted"
        print(f"{told}: the slowest read took {slowest:.1f} ms, the slowest block {longest:.1f}", file=sys.__stderr__)
        self.assertEqual(served.ask("gettxout", seat=1, txid=names.ids[f"t{blocks - 1}_0"], n=0)["answer"]["confirmations"], 1)
        self.assertEqual(served.end(), (0, ""))

    def submit(self, served: Served, names: Names, name: str) -> None:
        result = served.ask("submit", seat=0, block=names.data[name].hex(), now=NOW)
        self.assertEqual(result["answer"], "accepted")

    def submit_all(self, served: Served, names: Names, blocks: int, spans: list[tuple[float, float]]) -> None:
        for number in range(blocks):
            begun = time.perf_counter()
            self.submit(served, names, f"p{number}")
            spans.append((begun, time.perf_counter()))
