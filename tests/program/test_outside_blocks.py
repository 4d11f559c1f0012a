"""Blocks that another program built by the same rules: what a scenario defines has the same bytes."""
from blocks import FIRST, FIRST_ID, GENESIS, LATER
from running import ProgramTest, lines


class OutsideBlocks(ProgramTest):
    def test_a_block_that_has_no_name(self) -> None:
        self.expect_output(
            lines("client a", f"raw {FIRST}", "best"),
            lines(
                "client a",
                f"raw {FIRST} = accepted @1",
                f"best = {FIRST_ID} @1",
                "journal",
                f"1 a submit {FIRST_ID} 1296688602 = accepted",
            ),
        )

    def test_a_block_that_the_scenario_defines(self) -> None:
        self.expect_output(
            lines("block b1 genesis", "client a", f"raw {FIRST}", "best", "submit b1"),
            lines(
                "client a",
                f"raw {FIRST} = accepted @1",
                "best = b1 @1",
                "submit b1 = duplicate @2",
                "journal",
                "1 a submit b1 1296688602 = accepted",
                "2 a submit b1 1296688602 = duplicate",
            ),
        )

    def test_a_block_on_a_long_chain(self) -> None:
        """The other program's block goes on the scenario's chain of 127 blocks, through the heights that have an opcode
        of their own and those whose push has one byte, and is the scenario's next block."""
        self.expect_output(
            lines("chain c 128 genesis", "client a", "each c 1 127", f"raw {LATER}", "best"),
            lines(
                "client a",
                *[f"submit c{place} = accepted @{place}" for place in range(1, 128)],
                f"raw {LATER} = accepted @128",
                "best = c128 @128",
                "journal",
                *[f"{place} a submit c{place} 1296688602 = accepted" for place in range(1, 129)],
            ),
        )

    def test_genesis_and_one_byte_more(self) -> None:
        """The genesis block and one byte more: a row that would show a fault of the bytes told as want of memory."""
        self.expect_output(
            lines("client a", f"raw {GENESIS}00", f"raw {GENESIS}"),
            lines(
                "client a",
                f"raw {GENESIS}00 = decode-failed @0",
                f"raw {GENESIS} = duplicate @1",
                "journal",
                "1 a submit genesis 1296688602 = duplicate",
            ),
        )
