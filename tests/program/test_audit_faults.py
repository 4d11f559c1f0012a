"""Journals and blk files that aren't those of one run."""
from blocks import FIRST_ID
from playing import SavedTest, with_reply
from running import Played
from scenarios import NAMED

# How many bytes each record of the run has: a head of 8, and a block of 146.
RECORD = 154

# Where in a record its nonce stands: after the head and 76 bytes of the header.
NONCE = 84

# Where in a record the count of its transactions stands.
COUNT = 88

# What stands before an id and after it in a line that can't be read.
UNREADABLE = [
    # the place
    ("2 a submit ", " 5 = accepted"),
    ("01 a submit ", " 5 = accepted"),
    ("a submit ", " 5 = accepted"),
    # spaces
    ("1  a submit ", " 5 = accepted"),
    (" 1 a submit ", " 5 = accepted"),
    ("1 a submit ", " 5 = accepted "),
    ("1 a submit ", " 5  = accepted"),
    ("1 a submit ", " 5 =  accepted"),
    ("1\ta submit ", " 5 = accepted"),
    ("1 a submit ", " 5 = accepted\r"),
    ("\n1 a submit ", " 5 = accepted"),
    # the client
    ("1 submit ", " 5 = accepted"),
    ("1 a.b submit ", " 5 = accepted"),
    # the word
    ("1 a cut ", " 5 = accepted"),
    ("1 a submit ", " 5 6 = accepted"),
    ("1 a Submit ", " 5 = accepted"),
    # the id
    ("1 a submit b1", " 5 = accepted"),
    ("1 a submit 0", " 5 = accepted"),
    # the moment
    ("1 a submit ", " = accepted"),
    ("1 a submit ", " +5 = accepted"),
    ("1 a submit ", " 05 = accepted"),
    ("1 a submit ", " 18446744073709551616 = accepted"),
    ("1 a invalidate ", " 5 = done"),
    # the reply
    ("1 a submit ", " 5"),
    ("1 a submit ", " 5 ="),
    ("1 a submit ", " 5 = accept"),
    ("1 a submit ", " 5 = done"),
    ("1 a submit ", " 5 = blk-bad-inputs"),
    ("1 a submit ", " 5 = blk-bad-inputs 01:0"),
    ("1 a submit ", " 5 = bad-cb 1:0"),
    ("1 a invalidate ", " = accepted"),
    ("1 a precious ", " = OWED"),
    ("1 a reconsider ", " = done @1"),
]

# Lines that can be read: the blk file is looked at after them.
READABLE = [
    ("1 a submit ", " 5 = decode-failed"),
    ("1 blk submit ", " 4294967295 = duplicate-inconclusive"),
    ("1 a submit ", " 5 = blk-bad-inputs 1:0"),
    ("1 a submit ", " 5 = owed"),
    ("1 a submit ", " 18446744073709551615 = tree-full"),
    ("1 a submit ", " 5 = bad-txns-premature-spend-of-coinbase"),
    ("1 a submit ", " 5 = bad-version"),
]

# Every reply to a submission by its text: each is read back.
REPLIES = """\
accepted inconclusive duplicate duplicate-invalid duplicate-inconclusive decode-failed tree-full high-hash bad-txnmrklroot
bad-txns-duplicate bad-blk-length bad-cb-missing bad-cb-multiple bad-txns-vin-empty bad-txns-vout-empty
bad-txns-vout-negative bad-txns-vout-toolarge bad-txns-txouttotal-toolarge bad-txns-inputs-duplicate bad-cb-length
bad-txns-prevout-null bad-blk-sigops prev-blk-not-found bad-prevblk bad-diffbits time-too-old time-too-new bad-version
bad-txns-nonfinal bad-cb-height bad-txns-BIP30 bad-txns-inputs-missingorspent bad-txns-premature-spend-of-coinbase
bad-txns-in-belowout bad-cb-amount owed""".split()
READABLE += [("1 a submit ", f" 5 = {reply}") for reply in REPLIES]
READABLE += [("1 a submit ", f" 5 = blk-bad-inputs {place}") for place in ("0:0", "2:7", "18446744073709551615:1000")]

# Files that hold nothing that can be read.
GARBAGE = [
    ("order_journal.txt", "garbage\n"),
    ("order_blocks.blk", "garbage"),
    ("order_table.txt", "garbage\n"),
]

# Command lines with several faults each, and the one that is told: heights, files that can't be read, the table's
# lines, the journal's lines, in this order.
ORDER = [
    ("audit --journal no --blk no --heights 1", "regchain: heights\n"),
    ("audit --table no_table --blk no_blk --journal no_journal", "regchain: cannot read no_journal\n"),
    ("audit --table no_table --blk no_blk --journal order_journal.txt", "regchain: cannot read no_blk\n"),
    ("audit --table no_table --blk order_blocks.blk --journal order_journal.txt", "regchain: cannot read no_table\n"),
    ("audit --table order_table.txt --blk order_blocks.blk --journal order_journal.txt", "regchain: table line 1\n"),
    ("audit --blk order_blocks.blk --journal order_journal.txt", "regchain: journal line 1\n"),
]


def changed(data: bytes, place: int, byte: int) -> bytes:
    """These bytes, of which one is another."""
    return data[:place] + bytes([byte]) + data[place + 1 :]


class AuditFaults(SavedTest):
    def expect_of(self, blocks: bytes, line: str) -> None:
        """Audits the run's journal with other blocks."""
        self.expect_audit_fault(self.journal, blocks, line)

    def test_records_left_out_doubled_and_changed(self) -> None:
        self.save(NAMED["FAILING_BRANCH"])
        blocks = self.blocks
        self.assertEqual(len(blocks), 1386)
        first, second, others = blocks[:RECORD], blocks[RECORD : 2 * RECORD], blocks[2 * RECORD :]
        # one left out, all left out, one doubled
        self.expect_of(second + others, "regchain: blk records\n")
        self.expect_of(b"", "regchain: blk records\n")
        self.expect_of(first + blocks, "regchain: blk records\n")
        # two exchanged
        self.expect_of(second + first + others, "regchain: journal line 1\n")
        # another nonce, and no block: a count that is cut short by the end
        self.expect_of(changed(blocks, RECORD + NONCE, 99), "regchain: journal line 2\n")
        self.expect_of(changed(blocks, COUNT, 0xFF), "regchain: journal line 1\n")

    def test_blk_files_that_are_not_read_on(self) -> None:
        self.save(NAMED["FAILING_BRANCH"])
        blocks = self.blocks
        # the end of the last record is missing, or something stands behind it
        self.expect_of(blocks[:-1], "regchain: blk stopped at 1232\n")
        self.expect_of(blocks + b"\x00\xfa", "regchain: blk stopped at 1386\n")
        self.expect_finding(self.journal, blocks + b"\x00\x00\x00", "agrees\n")
        # a record that is too long, and one that isn't there at all
        self.expect_of(changed(blocks, RECORD + 7, 2), "regchain: blk stopped at 154\n")
        self.expect_of(changed(blocks, 0, 0), "regchain: blk stopped at 0\n")

    def expect_lines(self, cases: list[tuple[str, str]], fault: str) -> None:
        """Audits journals of one line each, with a blk file that has no record."""
        self.save(NAMED["FAILING_BRANCH"])
        for front, rest in cases:
            self.expect_audit_fault(f"{front}{FIRST_ID}{rest}\n", b"", fault)

    def test_journal_lines_that_are_not_read(self) -> None:
        self.expect_lines(UNREADABLE, "regchain: journal line 1\n")

    def test_journal_lines_that_are_read(self) -> None:
        self.expect_lines(READABLE, "regchain: blk records\n")

    def test_journals_without_submissions(self) -> None:
        """Texts of journals, each with the line on either stream that it gives beside a blk file without records."""
        self.save(NAMED["FAILING_BRANCH"])
        self.expect_finding("", b"", "agrees\n")
        self.expect_audit_fault("\n", b"", "regchain: journal line 1\n")
        self.expect_audit_fault("\xff\n", b"", "regchain: journal line 1\n")
        first = f"1 x invalidate {FIRST_ID} = not-found\n"
        self.expect_finding(f"{first}2 y precious {FIRST_ID} = not-found", b"", "agrees\n")
        self.expect_finding(f"{first}2 y precious {FIRST_ID} = genesis\n", b"", "line 2\n")
        self.expect_audit_fault(f"{first}\n", b"", "regchain: journal line 2\n")

    def test_a_line_at_each_place(self) -> None:
        """The place of a line that can't be read is reported."""
        self.save(NAMED["FAILING_BRANCH"])
        lines = self.journal.splitlines()
        for place, line in enumerate(lines):
            garbled = [*lines[:place], line.upper(), *lines[place + 1 :]]
            self.expect_audit_fault("\n".join(garbled), self.blocks, f"regchain: journal line {place + 1}\n")

    def test_a_step_of_no_block(self) -> None:
        """A journal in which bytes that are no block took a step differs, for no replay answers so."""
        self.save(NAMED["FAILING_BRANCH"])
        self.expect_finding(with_reply(self.journal, 3, "decode-failed"), self.blocks, "line 4\n")

    def test_an_audit_with_other_heights(self) -> None:
        """Heights that a run was made with are those that its audit is made with."""
        self.save(NAMED["BIP_66_BY_HEIGHT"])
        for heights, line, status in [
            ("1,9,5,1", "agrees\n", 0),
            ("1,9,4,1", "line 4\n", 1),
            ("1,9,6,1", "line 5\n", 1),
            ("1,5,5,1", "line 6\n", 1),
        ]:
            words = ["audit", "--heights", heights, "--blk", "saved/blocks.blk", "--journal", "saved/journal.txt"]
            self.expect(words, "", Played(status, line, ""))

    def test_the_order_of_faults(self) -> None:
        for name, text in GARBAGE:
            self.write(name, text)
        for words, fault in ORDER:
            self.expect_fault(words.split(" "), "", fault)

    def test_a_blk_file_without_records(self) -> None:
        """The blk file's own fault comes before the count of its records."""
        self.save(NAMED["FAILING_BRANCH"])
        self.expect_of(b"garbage", "regchain: blk stopped at 0\n")
