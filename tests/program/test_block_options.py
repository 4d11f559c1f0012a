"""Blocks with options and transactions."""
from running import ProgramTest, lines

# A block on genesis, built by another program: version -7, time 1296688700, bits 207ffffe and nonce 5, by which it
# misses the target; a coinbase with the script 51aabb that pays 7 to 6a52; and two transactions, of which the second
# spends the first.
BLOCK = (
    "f9ffffff06226e46111a0b59caaf126043eb5bbf28c34f3a5e332a1fc7b2b73cf188910f81d862d97acd2dfae35d62d42c40e23495b22048"
    "01e38819d1ca304aaa7f3ed03ce6494dfeff7f20050000000301000000010000000000000000000000000000000000000000000000000000"
    "000000000000ffffffff0351aabbffffffff010700000000000000026a5200000000feffffff023ba3edfd7a7b12b27ac72c3e67768f617f"
    "c81bc3888a51323a9fb8aa4b1e5e4a0000000002015103000000000000000000000000000000000000000000000000000000000000000000"
    "0000ffffffff00ffffffff02fbffffffffffffff016affffffffffffff7f00070000000100000001a2ceecb091a9da9c6c8689255ec120b1"
    "e04de699f7b0198fcea8587b43b07c860100000000ffffffff010100000000000000015100000000"
)

# Its definition. Inputs and outputs come in any order, and options between the transactions.
DEFINITION = """\
tx T -2 7
out -5 6a
in genesis.cb:0 0151 3
out 9223372036854775807 -
in null -
tx U 1 0
in T:1 -
out 1 51
block x genesis bits=207ffffe cb=51aabb T nonce=5 pay=6a52 U reward=7 time=1296688700 version=-7
"""


class BlockOptions(ProgramTest):
    def test_a_block_that_another_program_built(self) -> None:
        self.expect_output(
            DEFINITION + lines("client a", f"raw {BLOCK}", "submit x", "cut x 80"),
            lines(
                "client a",
                f"raw {BLOCK} = high-hash @1",
                "submit x = high-hash @2",
                "cut x 80 = decode-failed @2",
                "journal",
                "1 a submit x 1296688602 = high-hash",
                "2 a submit x 1296688602 = high-hash",
            ),
        )

    def test_a_root_that_is_said(self) -> None:
        """The root that is said is read in reverse, as ids are printed. Here it is the one of `b1`, so the block has
        the header of `b1`, and its id, but another coinbase."""
        self.expect_output(
            lines(
                "block b1 genesis",
                "block c1 genesis root=96f90225b9cca865ed836750b78ecf031011922543c14729b83e2e5f0e06c94b",
                "client a",
                "submit c1",
                "submit b1",
            ),
            lines(
                "client a",
                "submit c1 = bad-txnmrklroot @1",
                "submit b1 = accepted @2",
                "journal",
                "1 a submit b1 1296688602 = bad-txnmrklroot",
                "2 a submit b1 1296688602 = accepted",
            ),
        )

    def test_blocks_of_a_coinbase_alone(self) -> None:
        """A block pays at most the subsidy. It may pay less, to any script, and have a later version, a later time and
        any script of its coinbase that begins with the height."""
        self.expect_output(
            lines(
                "block b1 genesis reward=4999999999 pay=6a",
                "block b2 b1 version=5 time=1296695802 cb=5252 pay=-",
                "block b3 b2 cb=none b1.cb b2.cb",
                "block b4 b2 time=1296695802 reward=5000000001",
                "client a",
                "each b 1 2",
                "submit b3",
                "submit b4",
                "best",
            ),
            lines(
                "client a",
                "submit b1 = accepted @1",
                "submit b2 = accepted @2",
                "submit b3 = bad-cb-multiple @3",
                "submit b4 = bad-cb-amount @4",
                "best = b2 @4",
                "journal",
                "1 a submit b1 1296688602 = accepted",
                "2 a submit b2 1296688602 = accepted",
                "3 a submit b3 1296688602 = bad-cb-multiple",
                "4 a submit b4 1296688602 = bad-cb-amount",
            ),
        )
