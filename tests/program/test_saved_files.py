"""What a run saves, and the audit of it."""
from blocks import FIRST, FIRST_HEAD
from playing import SavedTest
from running import lines
from scenarios import NAMED, REGTEST, Scenario

# The journal of the first block: its id in digits. Another program made the id and the block.
FIRST_BLOCK = Scenario(
    name="the first block",
    heights=REGTEST,
    definitions="block b1 genesis\nverdict aa 3006 genesis.cb 0 51 1",
    told="submit b1 = accepted @1\ninvalidate b1 = done @2\nbest = genesis @2",
)

FIRST_JOURNAL = lines(
    "1 a submit 2405fee2b5db4a6c607abb4c3cde55d59d28f53158f341cc789bacc929f29a52 1296688602 = accepted",
    "2 a invalidate 2405fee2b5db4a6c607abb4c3cde55d59d28f53158f341cc789bacc929f29a52 = done",
)

# The digest that another program made of the signed genesis coinbase.
SIGNATURE = "aa 3006 374150f20af8f2f093efe1978dab4c889cd2369bdd1583ad7bc444528c485a76\n"


class SavedFiles(SavedTest):
    def test_a_higher_branch_that_fails(self) -> None:
        self.save(NAMED["FAILING_BRANCH"])
        self.expect_each_line_counts()

    def test_preferences(self) -> None:
        self.save(NAMED["PREFERENCES"])
        self.expect_each_line_counts()

    def test_locks_by_height(self) -> None:
        """The journal agrees as it is, and with any one of its replies changed that line is named."""
        self.save(NAMED["LOCKED_BY_HEIGHT"])
        self.assertEqual(len(self.journal.splitlines()), 105)
        self.expect_finding(self.journal, self.blocks, "agrees\n")
        for place in range(105):
            self.expect_line_counts(place)

    def test_what_is_saved(self) -> None:
        self.save(FIRST_BLOCK)
        self.assertEqual(self.journal, FIRST_JOURNAL)
        self.assertEqual(self.blocks.hex(), FIRST_HEAD + FIRST)
        self.assertEqual(self.read("saved/table.txt"), SIGNATURE)
        self.expect_each_line_counts()
