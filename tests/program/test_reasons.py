"""The second line of a fault, which says why: what is wrong with which word, or what the system says of a file."""
from blocks import FIRST, FIRST_HEAD, FIRST_ID
from running import ProgramTest

# Scenarios, the line that is named, and what is said of it.
SCENARIOS = [
    # words that begin no line, or none here, and lines of another spelling
    ("blok b1 genesis\nclient a\n", 1, '"blok" begins no line here'),
    ("client a\nbestt\n", 2, '"bestt" begins no line here'),
    ("best\nclient a\n", 1, '"best" stands below a client'),
    ("client a\ntx A 1 0\n", 2, '"tx" stands above the first client'),
    ("block b1 genesis\nin null -\nclient a\n", 2, '"in" stands right after the lines of a tx'),
    ("tx A 1\nclient a\n", 1, '"tx" is spelled tx NAME VERSION LOCKTIME'),
    ("tx A 1 0\nout 1\nclient a\n", 2, '"out" is spelled out VALUE BYTES'),
    ("client\n", 1, '"client" is spelled client NAME'),
    ("client a\ntips genesis\n", 2, '"tips" is spelled tips'),
    # bytes that part no words
    ("block\tb1 genesis\nclient a\n", 1, r'"block\tb1" holds a tab or a carriage return; spaces alone part words'),
    ("client a\nbest\r\n", 2, r'"best\r" holds a tab or a carriage return; spaces alone part words'),
    ("block \xff genesis\nclient a\n", 1, "the line is no text"),
    # names
    ("block b1 genesis\nblock b1 genesis\nclient a\n", 2, '"b1" was given before, and each name is given once'),
    ("block c2 genesis\nchain c 2 genesis\nclient a\n", 2, '"c2" was given before, and each name is given once'),
    ("client a\nclient a\n", 2, '"a" was given before, and each name is given once'),
    ("block null genesis\nclient a\n", 1, '"null" is reserved'),
    ("block b-1 genesis\nclient a\n", 1, '"b-1" is no name: 1 to 32 letters, digits or _'),
    ("client blk\n", 1, '"blk" is the client of a blk file, and no other'),
    ("".join(f"client c{number}\n" for number in range(16)), 16, "there are more than 15 clients"),
    ("block b1 genesis\n", 2, "there is no client"),
    # what isn't there
    ("block b2 b1\nclient a\n", 1, '"b1" is no block that was defined above'),
    ("chain c 2 genesis\nclient a\neach c 1 3\n", 3, '"c3" is no block that was defined above'),
    ("block b1 genesis A\nclient a\n", 1, '"A" is no transaction that was defined above'),
    ("client a\ntxout null\n", 2, '"null" is no output, TRANSACTION:N'),
    ("verdict aa 00 genesis.cb 1 51 1\nclient a\n", 1, '"1" is no input of the transaction, counted from 0'),
    # numbers out of their range
    ("tx A 2147483648 0\nclient a\n", 1, '"2147483648" is no number from -2147483648 to 2147483647'),
    ("tx A 1 -1\nclient a\n", 1, '"-1" is no number from 0 to 4294967295'),
    (
        "tx A 1 0\nout 9223372036854775808 -\nclient a\n",
        2,
        '"9223372036854775808" is no number from -9223372036854775808 to 9223372036854775807',
    ),
    ("block b1 genesis reward=-1\nclient a\n", 1, '"-1" is no number from 0 to 9223372036854775807'),
    ("chain c 1001 genesis\nclient a\n", 1, '"1001" is no number from 1 to 1000'),
    ("verdict aa 00 genesis.cb 0 51 256\nclient a\n", 1, '"256" is no number from 0 to 255'),
    ("client a\nnow +1\n", 2, '"+1" is no number from 0 to 18446744073709551615'),
    # bytes and digits
    ("client a\nraw AA\n", 2, '"AA" isn\'t bytes in lower-case hexadecimal digits, or -'),
    ("block b1 genesis bits=207FFFFF\nclient a\n", 1, '"207FFFFF" isn\'t 8 lower-case hexadecimal digits'),
    ("block b1 genesis root=00\nclient a\n", 1, '"00" isn\'t 64 lower-case hexadecimal digits'),
    # options
    ("block b1 genesis size=5\nclient a\n", 1, '"size" is no option of a block'),
    ("block b1 genesis time=5 time=5\nclient a\n", 1, '"time" is given a second time'),
    ("block b1 genesis cb=none cb=51\nclient a\n", 1, '"cb" is given a second time'),
    # blocks that there can't be
    ("block b1 genesis time=4294967295\nblock b2 b1\nclient a\n", 2, "the parent has the last time that a header can have"),
    # of a long word the front is told
    (f"client a\nraw {'0' * 99}g\n", 2, f'"{"0" * 72}" isn\'t bytes in lower-case hexadecimal digits, or -'),
]

RECORD = bytes.fromhex(FIRST_HEAD + FIRST)

# Words, the first line, and what is said there.
COMMANDS = [
    ("run --scenario not/there", "cannot read not/there", "No such file or directory"),
    ("run --scenario folder", "cannot read folder", "Is a directory"),
    ("run --scenario - --save not/there", "cannot write not/there/journal.txt", "No such file or directory"),
    ("run --scenario - --heights 1", "heights", "they are four numbers from 0 to 4294967295, parted by commas"),
    ("audit --saved folder", "cannot read folder/journal.txt", "No such file or directory"),
    (
        "run --scenario - --table bad",
        "table line 1",
        "it is no key, signature and digest of 64 digits, in lower-case hexadecimal digits or -",
    ),
    ("audit --journal bad --blk empty", "journal line 1", "it isn't what is printed for a step of this number"),
    ("audit --journal one --blk empty", "blk records", "there isn't one for each submit line"),
    ("audit --journal one --blk other", "journal line 1", "its record isn't the block of its id"),
    (
        "audit --journal verdict --blk empty",
        "journal line 1",
        "it is a verdict, and has neither the key nor the signature",
    ),
    ("audit --journal one --blk bad", "blk stopped at 0", "there is neither a record nor a rest of zero bytes"),
    ("audit --journal one --blk cut", "blk stopped at 0", "the record ends early"),
    ("audit --journal one --blk long", "blk stopped at 0", "the record is longer than 33554432 bytes"),
]


class Reasons(ProgramTest):
    def expect_reason(self, words: list[str], text: str, line: str, reason: str) -> None:
        self.expect_fault(words, text, f"regchain: {line}\n{line}: {reason}\n")

    def test_lines_of_a_scenario(self) -> None:
        for text, number, reason in SCENARIOS:
            self.expect_reason([], text, f"scenario line {number}", reason)

    def test_files(self) -> None:
        self.make_folder("folder")
        self.write("bad", "garbage\n")
        self.write("empty", "")
        self.write("one", f"1 a submit {FIRST_ID} 5 = accepted\n")
        self.write("verdict", f"1 a valid {FIRST_ID} = done\n")
        self.write_bytes("other", RECORD[:84] + b"\x07" + RECORD[85:])
        self.write_bytes("cut", RECORD[:-1])
        self.write_bytes("long", RECORD[:7] + b"\x7f" + RECORD[8:])
        for words, line, reason in COMMANDS:
            self.expect_reason(words.split(" "), "client a\n", line, reason)

    def test_streams(self) -> None:
        with open("/dev/full", "wb") as full:
            played = self.play_on([], input=b"client a\n", stdout=full, stderr=-1)
        self.assertEqual(played.err, "regchain: cannot write -\ncannot write -: No space left on device\n")

    def test_faults_that_say_it_themselves(self) -> None:
        self.expect_fault(["show", "--scenario", "-", "x"], "client a\n", "regchain: no name x\n")
