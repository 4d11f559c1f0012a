"""Worked scenarios, word for word, by each number of workers."""
from playing import ScenarioTest
from scenarios import REGTEST, Scenario

# Each row: its name, what it defines, and what is told.
ROWS = [
    (
        "genesis alone",
        "",
        """best = genesis @0
tips = genesis 0 0 active @0
txout genesis.cb:0 = none @0""",
    ),
    (
        "bytes that are cut",
        "",
        """cut genesis 284 = decode-failed @0
submit genesis = duplicate @1""",
    ),
    (
        "a block",
        "block b1 genesis",
        """submit b1 = accepted @1
best = b1 @1""",
    ),
    (
        "a block from the future",
        """block b1 genesis
block b2 b1 time=1296695803""",
        """submit b1 = accepted @1
submit b1 = duplicate @2
submit b2 = time-too-new @3
now 1296688603
submit b2 = accepted @4
best = b2 @4""",
    ),
    (
        "a coinbase that is spent early",
        """chain c 100 genesis
tx A 1 0
in c1.cb:0 -
out 5000000000 51
block early c99 A
block right c100 A""",
        """each c 1 99 = accepted @1
submit early = bad-txns-premature-spend-of-coinbase @100
submit c100 = accepted @101
submit right = accepted @102
txout c1.cb:0 = none @102
txout A:0 = 5000000000 51 height 101 conf 1 @102
tips = right 101 0 active; early 100 1 invalid @102""",
    ),
    (
        "the height in a coinbase",
        """chain c 15 genesis
block e16 c15 cb=0110
block d16 c15
block e17 d16 cb=021100
block d17 d16""",
        """each c 1 15 = accepted @1
submit e16 = bad-cb-height @16
submit d16 = accepted @17
submit e17 = bad-cb-height @18
submit d17 = accepted @19""",
    ),
    (
        "transactions that stand twice",
        """chain c 100 genesis
tx A 1 0
in c1.cb:0 -
out 5000000000 51
tx B 1 0
in A:0 -
out 5000000000 51
tx C 1 0
in B:0 -
out 5000000000 51
tx D 1 0
in C:0 -
out 5000000000 51
tx E 1 0
in D:0 -
out 5000000000 51
block m1 c100 A A
block m2 c100 A B B
block m3 c100 A B C D E D E
block m0 c100 A B""",
        """each c 1 100 = accepted @1
submit m1 = bad-txns-inputs-missingorspent @101
submit m2 = bad-txns-duplicate @102
submit m3 = bad-txns-duplicate @103
submit m0 = accepted @104""",
    ),
    (
        "a higher branch",
        """block b1 genesis
block p2 b1
block q2 b1
block q3 q2""",
        """submit b1 = accepted @1
submit p2 = accepted @2
submit q2 = inconclusive @3
tips = p2 2 0 active; q2 2 1 valid-headers @3
submit q3 = accepted @4
tips = q3 3 0 active; p2 2 1 valid-fork @4""",
    ),
    (
        "a higher branch that fails",
        """block b1 genesis
block b2 b1
block x1 genesis
block x2 x1 reward=5000000001
block x3 x2
block x4 x3""",
        """submit b1 = accepted @1
submit b2 = accepted @2
submit x1 = inconclusive @3
submit x2 = inconclusive @4
submit x3 = inconclusive @5
best = b2 @5
tips = x3 3 3 invalid; b2 2 0 active @5
txout b2.cb:0 = 5000000000 51 height 2 coinbase conf 1 @5
submit x2 = duplicate-invalid @6
submit x3 = duplicate-invalid @7
submit x1 = duplicate @8
submit x4 = bad-prevblk @9""",
    ),
    (
        "a mark on the active block",
        """block b1 genesis
block p2 b1
block q2 b1
block z1 genesis""",
        """submit b1 = accepted @1
submit p2 = accepted @2
submit q2 = inconclusive @3
invalidate p2 = done @4
best = q2 @4
reconsider p2 = done @5
best = p2 @5
invalidate genesis = genesis @6
invalidate z1 = not-found @7
tips = p2 2 0 active; q2 2 1 valid-fork @7""",
    ),
    (
        "outputs that can't be spent",
        """chain c 100 genesis
tx U 1 0
in c1.cb:0 -
out 1000 6a
out 4999999000 51
tx V 1 0
in U:1 -
out 4999999000 51
block d c100 U V""",
        """each c 1 100 = accepted @1
submit d = accepted @101
txout U:0 = none @101
txout U:1 = none @101
txout c1.cb:0 = none @101
txout V:0 = 4999999000 51 height 101 conf 1 @101
invalidate d = done @102
txout V:0 = none @102
txout c1.cb:0 = 5000000000 51 height 1 coinbase conf 100 @102
best = c100 @102""",
    ),
    (
        "signatures of a multisig",
        """block f1 genesis pay=5201aa01bb01cc53ae
chain c 99 f1
tx G 1 0
in f1.cb:0 000930060201010201010109300602010102010201
out 5000000000 51
tx W 1 0
in f1.cb:0 000930060201010201020109300602010102010101
out 5000000000 51
verdict aa 3006020101020101 G 0 5201aa01bb01cc53ae 1
verdict cc 3006020101020102 G 0 5201aa01bb01cc53ae 1
block w c99 W
block g c99 G""",
        """submit f1 = accepted @1
each c 1 99 = accepted @2
submit w = blk-bad-inputs 1:0 @101
submit g = accepted @102""",
    ),
    (
        "a relative lock by height",
        """chain c 100 genesis
tx A 1 0
in c1.cb:0 -
out 5000000000 51
tx R 2 0
in A:0 - 3
out 5000000000 51
block d c100 A
block e102 d
block r103 e102 R
block e103 e102
block r104 e103 R""",
        """each c 1 100 = accepted @1
submit d = accepted @101
submit e102 = accepted @102
submit r103 = bad-txns-nonfinal @103
submit e103 = accepted @104
submit r104 = accepted @105""",
    ),
    (
        "a relative lock by time",
        """chain c 100 genesis
tx A 1 0
in c1.cb:0 -
out 5000000000 51
tx S 2 0
in A:0 - 4194305
out 5000000000 51
block d c100 A
block e1 d time=1296689209
chain f 5 e1
block s107 f4 S
block s108 f5 S""",
        """each c 1 100 = accepted @1
submit d = accepted @101
submit e1 = accepted @102
each f 1 4 = accepted @103
submit s107 = bad-txns-nonfinal @107
submit f5 = accepted @108
submit s108 = accepted @109""",
    ),
    (
        "a relative lock by time, a second less",
        """chain c 100 genesis
tx A 1 0
in c1.cb:0 -
out 5000000000 51
tx S 2 0
in A:0 - 4194305
out 5000000000 51
block d c100 A
block e1 d time=1296689208
chain f 5 e1
block s107 f4 S
block s108 f5 S""",
        """each c 1 100 = accepted @1
submit d = accepted @101
submit e1 = accepted @102
each f 1 4 = accepted @103
submit s107 = bad-txns-nonfinal @107
submit f5 = accepted @108
submit s108 = bad-txns-nonfinal @109""",
    ),
]


class WorkedRows(ScenarioTest):
    def test_by_each_number_of_workers(self) -> None:
        for name, definitions, told in ROWS:
            scenario = Scenario(name, REGTEST, definitions, told)
            for workers in ["1", "2", "8", "16"]:
                self.expect_scenario(scenario, ["--workers", workers])
