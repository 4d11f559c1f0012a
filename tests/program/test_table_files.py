"""Tables of valid signatures, and their place among the files of a run."""
from running import Played, ProgramTest

# A table of one triple. Comments and lines that say nothing stand in it.
TABLE = (
    "# key signature digest\n\n"
    "aa 3006020101020101 0100000000000000000000000000000000000000000000000000000000000000\n"
)

# A table whose third line has a digit too few.
BAD = (
    "# key signature digest\n\n"
    "aa 3006020101020101 010000000000000000000000000000000000000000000000000000000000000\n"
)

# Lines in another order and spelling, and how they are saved.
LOOSE = TABLE + "  00ff   -  " + "0" * 62 + "ff "
SORTED = "00ff - " + "0" * 62 + "ff\naa 3006020101020101 01" + "0" * 62 + "\n"


class TableFiles(ProgramTest):
    def test_a_table_that_is_read(self) -> None:
        self.write("table.txt", TABLE)
        words = ["run", "--table", "table.txt", "--scenario", "-"]
        self.expect(words, "client a\n", Played(0, "client a\njournal\n", ""))

    def test_a_table_that_is_saved(self) -> None:
        """Triples are sorted, each a line of three words; what is saved is read again and saved as it is."""
        self.make_folder("saved")
        for text in (LOOSE, SORTED):
            self.write("table.txt", text)
            words = ["run", "--table", "table.txt", "--save", "saved", "--scenario", "-"]
            self.expect(words, "client a\n", Played(0, "client a\njournal\n", ""))
            self.assertEqual(self.read("saved/table.txt"), SORTED)

    def test_a_table_that_is_not_read(self) -> None:
        """A table's line is named before a scenario's."""
        self.write("bad_table.txt", BAD)
        words = ["run", "--scenario", "-", "--table", "bad_table.txt"]
        self.expect_fault(words, "bogus\n", "regchain: table line 3\n")

    def test_files_that_are_not_there(self) -> None:
        """A file that isn't there is named before a line of the scenario; the scenario's is the first of two."""
        words = ["run", "--scenario", "-", "--table", "no/table.txt"]
        self.expect_fault(words, "bogus\n", "regchain: cannot read no/table.txt\n")
        words = ["run", "--table", "no/table.txt", "--scenario", "no/scenario.txt"]
        self.expect_fault(words, "", "regchain: cannot read no/scenario.txt\n")


# A transaction of two inputs and one output, and the signature of its lines, without its hash type.
TRANSACTION = "tx H 1 0\nin null -\nin genesis.cb:0 -\nout 10000000000 51\n"
SIGNATURE = "3006020101020101"

# The code and the hash type of a `verdict` line for the second input, and the digest of which it makes the signature valid. Of
# SINGLE, for an input that has no output of its number, the number 1 is signed. Of ALL, the code is signed without its
# CODESEPARATOR, but with the byte of one that a push carries; those digests were computed by a Python script from the rules of
# the digest.
VERDICTS = [
    ("01abaaac", 3, "0100000000000000000000000000000000000000000000000000000000000000"),
    ("ab01abaaac", 1, "d95edc432a22987cdca1e915fe304049878d53b83c6a41610a7ae9d7430eb9bb"),
    ("-", 1, "ae5b0c338cce5b8683729c24a5084c30fd55e7c141874813540adfc8cd123b95"),
]


class VerdictLines(ProgramTest):
    def test_signatures_that_a_line_makes_valid(self) -> None:
        """The table that is saved has that one alone."""
        self.make_folder("saved")
        for code, kind, digest in VERDICTS:
            with self.subTest(code=code):
                scenario = f"{TRANSACTION}verdict aa {SIGNATURE} H 1 {code} {kind}\nclient a\n"
                words = ["run", "--scenario", "-", "--save", "saved"]
                self.assertEqual(self.play(words, scenario), Played(0, "client a\njournal\n", ""))
                self.assertEqual(self.read("saved/table.txt"), f"aa {SIGNATURE} {digest}\n")
