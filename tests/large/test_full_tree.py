"""A tree that is full: with genesis 1,000,000 blocks are kept, and no more."""
from running import ProgramTest
from writing import blocks_on_genesis, id_of, record

# With genesis so many blocks are kept.
MOST = 1_000_000


class FullTree(ProgramTest):
    def write_files(self) -> None:
        """A journal of blocks on genesis, and their blk file. By the rules the first of them is accepted, those after it
        are inconclusive, and from the MOST-th on there is no room; blocks that are kept are known as before."""
        blocks = blocks_on_genesis()
        with open(self.path("full.blk"), "wb") as blk, open(self.path("full.txt"), "w", encoding="ascii") as journal:

            def submit(place: int, block: bytes, reply: str) -> None:
                blk.write(record(block))
                journal.write(f"{place} a submit {id_of(block)} 1296688602 = {reply}\n")

            first, second = next(blocks), next(blocks)
            submit(1, first, "accepted")
            submit(2, second, "inconclusive")
            for place, block in zip(range(3, MOST), blocks):
                submit(place, block, "inconclusive")
            late = next(blocks)
            submit(MOST, late, "tree-full")
            submit(MOST + 1, first, "duplicate")
            submit(MOST + 2, second, "duplicate-inconclusive")
            submit(MOST + 3, next(blocks), "tree-full")
            # Of a block that breaks a rule by itself the tree is told first. This reply is wrong.
            submit(MOST + 4, late[:80] + b"\x00", "inconclusive")

    def test_a_million_blocks(self) -> None:
        """All replies but the last one agree, and in its place the program gives the right one."""
        self.write_files()
        played = self.play(["audit", "--quick", "--explain", "--journal", "full.txt", "--blk", "full.blk"])
        self.assertEqual((played.status, played.out), (1, f"line {MOST + 4}\n"))
        self.assertIn(" gives tree-full\n", played.err)
