"""Scenarios and what their clients are answered."""
from running import ProgramTest, lines

HEADER_AND_COUNT = "00" * 80 + "fe00000002"


class Answers(ProgramTest):
    def test_the_best_block_before_any_step(self) -> None:
        self.expect_output(lines("client a", "best"), lines("client a", "best = genesis @0", "journal"))

    def test_the_genesis_block_cut_and_whole(self) -> None:
        self.expect_output(
            lines("client a", "cut genesis 284", "submit genesis"),
            lines(
                "client a",
                "cut genesis 284 = decode-failed @0",
                "submit genesis = duplicate @1",
                "journal",
                "1 a submit genesis 1296688602 = duplicate",
            ),
        )

    def test_the_first_block(self) -> None:
        self.expect_output(
            lines("block b1 genesis", "client a", "submit b1", "best"),
            lines(
                "client a",
                "submit b1 = accepted @1",
                "best = b1 @1",
                "journal",
                "1 a submit b1 1296688602 = accepted",
            ),
        )

    def test_a_header_and_a_count_without_transactions(self) -> None:
        self.expect_output(
            lines("client a", f"raw {HEADER_AND_COUNT}"),
            lines("client a", f"raw {HEADER_AND_COUNT} = decode-failed @0", "journal"),
        )

    def test_lines_that_say_nothing(self) -> None:
        """Lines that say nothing, and spaces: a command repeats its words with one space between them."""
        self.expect_output(
            "\n#\xff\n  # chain\nchain c 3 genesis\n  client   a\n\nnow 1296688700\neach c 1 2\neach c 2 1\n"
            "cut  c3   00145 \n best",
            lines(
                "client a",
                "submit c1 = accepted @1",
                "submit c2 = accepted @2",
                "cut c3 00145 = decode-failed @2",
                "best = c2 @2",
                "journal",
                "1 a submit c1 1296688700 = accepted",
                "2 a submit c2 1296688700 = accepted",
            ),
        )

    def test_a_second_block_on_genesis(self) -> None:
        """Two blocks on genesis, of which the first came first; a cut that cuts nothing, and no bytes."""
        self.expect_output(
            lines(
                "block b1 genesis",
                "block b2 genesis",
                "block b3 b1",
                "client a",
                "submit b1",
                "submit b2",
                "now 1296688700",
                "each b 3 3",
                "cut b1 1000",
                "raw -",
                "best",
            ),
            lines(
                "client a",
                "submit b1 = accepted @1",
                "submit b2 = inconclusive @2",
                "submit b3 = accepted @3",
                "cut b1 1000 = duplicate @4",
                "raw - = decode-failed @4",
                "best = b3 @4",
                "journal",
                "1 a submit b1 1296688602 = accepted",
                "2 a submit b2 1296688602 = inconclusive",
                "3 a submit b3 1296688700 = accepted",
                "4 a submit b1 1296688700 = duplicate",
            ),
        )
