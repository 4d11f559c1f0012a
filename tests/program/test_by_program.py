"""The table of scenarios through the program, with its whole output; and one more with a file of valid signatures."""
from playing import ScenarioTest
from scenarios import BRANCHES, NAMED, REGTEST, SPENDS, Scenario

# The hash type SINGLE, without an output of the input's number, signs the number 1.
BY_TABLE = Scenario(
    name="by a table",
    heights=REGTEST,
    definitions="""block f1 genesis pay=01aaac
chain c 100 f1
tx H 1 0
in c1.cb:0 -
in f1.cb:0 09300602010102010103
out 10000000000 51
block g c100 H""",
    told="""submit f1 = accepted @1
each c 1 100 = accepted @2
submit g = accepted @102""",
)

# The same without a valid signature.
WITHOUT_TABLE = BY_TABLE._replace(
    told="""submit f1 = accepted @1
each c 1 100 = accepted @2
submit g = blk-bad-inputs 1:1 @102"""
)

TABLE = "aa 3006020101020101 0100000000000000000000000000000000000000000000000000000000000000\n"


class ByProgram(ScenarioTest):
    def test_all_scenarios_are_read(self) -> None:
        """The table has 29 scenarios, of which one is in no list."""
        self.assertEqual((len(BRANCHES), len(SPENDS), len(NAMED)), (17, 11, 29))
        alone = NAMED["A_LONG_BRANCH_TAKEN_BACK"]
        self.assertEqual(sorted(NAMED.values()), sorted([*BRANCHES, *SPENDS, alone]))

    def test_branches(self) -> None:
        for scenario in BRANCHES:
            self.expect_scenario(scenario, [])

    def test_spends(self) -> None:
        for scenario in SPENDS:
            self.expect_scenario(scenario, [])

    def test_a_long_branch_that_is_taken_back(self) -> None:
        self.expect_scenario(NAMED["A_LONG_BRANCH_TAKEN_BACK"], [])

    def test_any_number_of_workers(self) -> None:
        """Whoever looks first, the first of two bad inputs is named."""
        for workers in ["1", "2", "8", "16"]:
            self.expect_scenario(NAMED["TWO_BAD_INPUTS"], ["--workers", workers])

    def test_a_signature_of_a_table_file(self) -> None:
        self.write("one_signature.txt", TABLE)
        self.expect_scenario(BY_TABLE, ["--table", "one_signature.txt"])
        self.expect_scenario(WITHOUT_TABLE, [])
