"""Blocks that break a rule by themselves: each is rejected by the first that it breaks, and isn't kept."""
from running import ProgramTest, lines

# Blocks on `b1`, each with the reason in the answer, in the order of the reasons.
SCENARIO = """\
block b1 genesis
tx A 1 0
in b1.cb:0 -
out 1 51
tx B 1 0
in A:0 -
out 1 51
tx coinbase 1 0
in null 0000
out 1 51
tx no_input 1 0
out 1 51
tx no_output 1 0
in b1.cb:0 -
tx negative 1 0
in b1.cb:0 -
out -1 51
tx large 1 0
in b1.cb:0 -
out 2100000000000001 51
tx large_sum 1 0
in b1.cb:0 -
out 2100000000000000 51
out 1 51
tx twice 1 0
in b1.cb:0 -
in b1.cb:0 -
out 1 51
tx null_input 1 0
in b1.cb:0 -
in null -
out 1 51
block r2 b1 root=0000000000000000000000000000000000000000000000000000000000000000
block r3 b1 A B B
block r4 b1 cb=none
block r5 b1 cb=none A
block r6 b1 coinbase
block r7 b1 no_input
block r8 b1 no_output
block r9 b1 negative
block r10 b1 large
block r11 b1 large_sum
block r12 b1 twice
block r13 b1 cb=51
block r14 b1 null_input
client a
submit b1
each r 2 14
best
"""

# The block without transactions has the header of the one with a root of zeros, and so its id: the journal gives its
# first name.
OUTPUT = """\
client a
submit b1 = accepted @1
submit r2 = bad-txnmrklroot @2
submit r3 = bad-txns-duplicate @3
submit r4 = bad-blk-length @4
submit r5 = bad-cb-missing @5
submit r6 = bad-cb-multiple @6
submit r7 = bad-txns-vin-empty @7
submit r8 = bad-txns-vout-empty @8
submit r9 = bad-txns-vout-negative @9
submit r10 = bad-txns-vout-toolarge @10
submit r11 = bad-txns-txouttotal-toolarge @11
submit r12 = bad-txns-inputs-duplicate @12
submit r13 = bad-cb-length @13
submit r14 = bad-txns-prevout-null @14
best = b1 @14
journal
1 a submit b1 1296688602 = accepted
2 a submit r2 1296688602 = bad-txnmrklroot
3 a submit r3 1296688602 = bad-txns-duplicate
4 a submit r2 1296688602 = bad-blk-length
5 a submit r5 1296688602 = bad-cb-missing
6 a submit r6 1296688602 = bad-cb-multiple
7 a submit r7 1296688602 = bad-txns-vin-empty
8 a submit r8 1296688602 = bad-txns-vout-empty
9 a submit r9 1296688602 = bad-txns-vout-negative
10 a submit r10 1296688602 = bad-txns-vout-toolarge
11 a submit r11 1296688602 = bad-txns-txouttotal-toolarge
12 a submit r12 1296688602 = bad-txns-inputs-duplicate
13 a submit r13 1296688602 = bad-cb-length
14 a submit r14 1296688602 = bad-txns-prevout-null
"""


class ContextFree(ProgramTest):
    def test_each_reason(self) -> None:
        self.expect_output(SCENARIO, OUTPUT)

    def test_work_is_missed(self) -> None:
        """A header that misses the target: that is looked at before its transactions. Another program found the nonces
        of `b1` and `b2` that meet the target; 3 is none of them."""
        self.expect_output(
            lines(
                "block b1 genesis nonce=3",
                "block b2 genesis nonce=3 cb=none",
                "client a",
                "submit b1",
                "submit b2",
                "best",
            ),
            lines(
                "client a",
                "submit b1 = high-hash @1",
                "submit b2 = high-hash @2",
                "best = genesis @2",
                "journal",
                "1 a submit b1 1296688602 = high-hash",
                "2 a submit b2 1296688602 = high-hash",
            ),
        )

    def test_signature_operations(self) -> None:
        """So many signature operations as a block may have, and one more. Each opcode of CHECKMULTISIG (ae) counts 20,
        and CHECKSIG (ac) 1."""
        most = "ae" * 1000
        self.expect_output(
            lines(f"block s genesis pay={most}", f"block t s pay={most}ac", "client a", "submit s", "submit t"),
            lines(
                "client a",
                "submit s = accepted @1",
                "submit t = bad-blk-sigops @2",
                "journal",
                "1 a submit s 1296688602 = accepted",
                "2 a submit t 1296688602 = bad-blk-sigops",
            ),
        )
