"""Blocks as large as they may be, and a little larger."""
from running import Played, ProgramTest, lines

# How many zero bytes the output script of a block of 1,000,000 bytes has. The rest is its 150 other bytes: the header's
# 80, the count of the transactions, and 69 of the coinbase (4 of the version, 1 count, 36 of the outpoint, 1 and 5 of
# the script, 4 of the sequence, 1 count, 8 of the value, 5 of the script's length, 4 of the lock time).
ZEROS = 999_850

# So many signature operations has the coinbase of the block with an inner script: 999 times CHECKMULTISIG (ae), each
# of 20, and 19 times CHECKSIG (ac), so 19,999.
MOST_BUT_ONE = "ae" * 999 + "ac" * 19

# Inner scripts, each with its HASH160, which OpenSSL made, and the answer to the block.
INNER_SCRIPTS = [
    ("0063ac6851", "2c93496b19af9ee138c38a1ac362a8de4a91e356", "accepted @101"),
    ("0063acac6851", "15b1744144e169c410a103bdcbdee8eb81625f8d", "bad-blk-sigops @101"),
]


class LargeBlocks(ProgramTest):
    def test_a_million_bytes_and_one_more(self) -> None:
        zeros = "00" * ZEROS
        self.expect_output(
            lines(
                f"block one genesis pay={zeros}",
                f"block two genesis pay={zeros}00",
                "client a",
                "submit two",
                "submit one",
            ),
            lines(
                "client a",
                "submit two = bad-blk-length @1",
                "submit one = accepted @2",
                "journal",
                "1 a submit two 1296688602 = bad-blk-length",
                "2 a submit one 1296688602 = accepted",
            ),
        )

    def test_operations_of_inner_scripts(self) -> None:
        """The operations of an inner script count too: 20,000 in all, and 20,001."""
        for inner, key_hash, answer in INNER_SCRIPTS:
            played = self.with_inner_script(inner, key_hash)
            self.assertEqual(played.out.split("submit d = ")[1].split("\n")[0], answer)

    def with_inner_script(self, inner: str, key_hash: str) -> Played:
        """A block on a chain of 100 with this inner script, paid to its hash and spent in the same block."""
        return self.play(
            [],
            lines(
                "chain c 100 genesis",
                "tx P 1 0",
                "in c1.cb:0 -",
                f"out 5000000000 a914{key_hash}87",
                "tx S 1 0",
                f"in P:0 {len(inner) // 2:02x}{inner}",
                "out 5000000000 51",
                f"block d c100 P S pay={MOST_BUT_ONE}",
                "client a",
                "each c 1 100",
                "submit d",
            ),
        )
