"""Lines of a scenario that can't stand where they do: the first of them is named, and nothing is run."""
from running import ProgramTest

# Below are scenarios, each with the number of the line that is named.

# What a definition can't be.
DEFINITIONS = [
    # a word that isn't known, or hasn't come yet
    ("blok b1 genesis\nclient a\n", 1),
    ("transaction A 1 0\nclient a\n", 1),
    # too few words, and too many
    ("block b1\nclient a\n", 1),
    ("tx A 1\nclient a\n", 1),
    ("chain c 2\nclient a\n", 1),
    # names that are taken, reserved, or no names
    ("block b1 genesis\nblock b1 genesis\nclient a\n", 2),
    ("block genesis genesis\nclient a\n", 1),
    ("block null genesis\nclient a\n", 1),
    ("block b-1 genesis\nclient a\n", 1),
    ("block b1 genesis\n\n# more\nblock abcdefghijklmnopqrstuvwxyz0123456 genesis\n", 4),
    ("block c2 genesis\nchain c 2 genesis\nclient a\n", 2),
    ("chain abcdefghijklmnopqrstuvwxyz01234 10 genesis\nclient a\n", 1),
    # parents that come later, or never
    ("block b2 b1\nblock b1 genesis\nclient a\n", 1),
    ("chain c 2 null\nclient a\n", 1),
    # lengths of a chain
    ("chain c 0 genesis\nclient a\n", 1),
    ("chain c 1001 genesis\nclient a\n", 1),
    ("chain c -1 genesis\nclient a\n", 1),
    # bytes that are part of a word, and bytes that are no text
    ("block b1 genesis\r\nclient a\n", 1),
    ("block\tb1 genesis\nclient a\n", 1),
    ("block b1 genesis\n# \xff\nblock \xff b1\nclient a\n", 3),
    # the first of two
    ("block b1 nowhere\nbogus\n", 1),
]

# What a transaction can't be.
TRANSACTIONS = [
    # lines of no transaction
    ("in null -\nclient a\n", 1),
    ("tx A 1 0\nblock b1 genesis\nout 1 51\nclient a\n", 3),
    # names
    ("tx null 1 0\nclient a\n", 1),
    ("tx genesis 1 0\nclient a\n", 1),
    ("tx A.cb 1 0\nclient a\n", 1),
    ("tx A 1 0\ntx A 1 0\nclient a\n", 2),
    ("tx A 1 0\nblock A genesis\nclient a\n", 2),
    ("chain c 2 genesis\ntx c2 1 0\nclient a\n", 2),
    # outputs that are spent
    ("tx A 1 0\nin A:0 -\nclient a\n", 2),
    ("tx A 1 0\nin B:0 -\nclient a\n", 2),
    ("tx A 1 0\nin genesis:0 -\nclient a\n", 2),
    ("tx A 1 0\nin genesis.cb -\nclient a\n", 2),
    ("tx A 1 0\nin genesis.cb:4294967296 -\nclient a\n", 2),
    # numbers and bytes
    ("tx A 2147483648 0\nclient a\n", 1),
    ("tx A 1 -1\nclient a\n", 1),
    ("tx A +1 0\nclient a\n", 1),
    ("tx A 1 0\nin null - 4294967296\nclient a\n", 2),
    ("tx A 1 0\nin null 5\nclient a\n", 2),
    ("tx A 1 0\nout 9223372036854775808 -\nclient a\n", 2),
    ("tx A 1 0\nout --1 -\nclient a\n", 2),
    ("tx A 1 0\nout 1\nclient a\n", 2),
    # a transaction that its lines don't begin
    ("tx A 1 0\nclient a\nout 1 51\n", 3),
]

# What is no option of a block, and what is no transaction of it.
OPTIONS = [
    ("block b1 genesis size=5\nclient a\n", 1),
    ("block b1 genesis time\nclient a\n", 1),
    ("block b1 genesis time=\nclient a\n", 1),
    ("block b1 genesis time=4294967296\nclient a\n", 1),
    ("block b1 genesis time=5 time=5\nclient a\n", 1),
    ("block b1 genesis nonce=-1\nclient a\n", 1),
    ("block b1 genesis reward=-1\nclient a\n", 1),
    ("block b1 genesis bits=207FFFFF\nclient a\n", 1),
    ("block b1 genesis bits=207fff\nclient a\n", 1),
    ("block b1 genesis root=00\nclient a\n", 1),
    ("block b1 genesis cb=none cb=51\nclient a\n", 1),
    ("block b1 genesis cb=51 cb=none\nclient a\n", 1),
    ("block b1 genesis cb=none cb=none\nclient a\n", 1),
    ("block b1 genesis pay=none\nclient a\n", 1),
    ("block b1 genesis pay=\nclient a\n", 1),
    ("block b1 genesis cb=\nclient a\n", 1),
    ("block b1 genesis A\ntx A 1 0\nclient a\n", 1),
    ("block b1 genesis cb=none\nblock b2 b1 b1.cb\nclient a\n", 2),
    ("block b1 genesis null\nclient a\n", 1),
    # a second after the last there is
    ("block b1 genesis time=4294967295\nblock b2 b1 time=5\nblock b3 b1\nclient a\n", 3),
]

# What a verdict can't be.
VERDICTS = [
    ("verdict aa 00 A 0 51 1\nclient a\n", 1),
    ("verdict aa 00 genesis.cb 1 51 1\nclient a\n", 1),
    ("verdict aa 00 genesis.cb 0 51 256\nclient a\n", 1),
    ("verdict aa 00 genesis.cb 0 51 -1\nclient a\n", 1),
    ("verdict AA 00 genesis.cb 0 51 1\nclient a\n", 1),
    ("verdict aa 00 genesis.cb 0 51\nclient a\n", 1),
    ("verdict aa 00 genesis 0 51 1\nclient a\n", 1),
]

# What a client and its commands can't be.
COMMANDS = [
    # a command without a client, and a definition after one
    ("best\nclient a\n", 1),
    ("block b1 genesis\nsubmit b1\nclient a\n", 2),
    ("client a\nblock b1 genesis\n", 2),
    # names of clients
    ("client\n", 1),
    ("client blk\n", 1),
    ("client a.b\n", 1),
    ("client a\nclient a\n", 2),
    # words that aren't known, or haven't come yet
    ("client a\nbest\nbestt\n", 3),
    ("client a\ntips genesis\n", 2),
    ("client a\nbest genesis\n", 2),
    # blocks that aren't defined
    ("client a\nsubmit b1\n", 2),
    ("client a\ncut b1 5\n", 2),
    ("chain c 2 genesis\nclient a\neach c 1 3\n", 3),
    ("chain c 2 genesis\nclient a\neach c- 2 1\n", 3),
    ("client a\ninvalidate b1\n", 2),
    ("client a\nreconsider b1\n", 2),
    ("client a\nprecious b1\n", 2),
    ("client a\ninvalidate\n", 2),
    ("client a\nprecious genesis genesis\n", 2),
    ("tx A 1 0\nclient a\nreconsider A\n", 3),
    # outputs of transactions that aren't defined, and what is no output
    ("client a\ntxout\n", 2),
    ("client a\ntxout null\n", 2),
    ("client a\ntxout A:0\n", 2),
    ("client a\ntxout genesis.cb\n", 2),
    ("client a\ntxout genesis:0\n", 2),
    ("client a\ntxout genesis.cb:4294967296\n", 2),
    # numbers
    ("client a\nnow +1\n", 2),
    ("client a\nnow -1\n", 2),
    ("client a\nnow 18446744073709551616\n", 2),
    ("client a\ncut genesis 0x10\n", 2),
    # bytes
    ("client a\nraw AA\n", 2),
    ("client a\nraw aaa\n", 2),
    ("client a\nraw 0g\n", 2),
    ("client a\nraw -- \n", 2),
]

# Without a client the line after the last is named.
WITHOUT_CLIENT = [
    ("", 1),
    ("\n", 2),
    ("block b1 genesis", 2),
    ("block b1 genesis\n", 2),
    ("block b1 genesis\n# client a\n\n", 4),
]


class ScenarioFaults(ProgramTest):
    def expect_lines(self, cases: list[tuple[str, int]]) -> None:
        for text, number in cases:
            with self.subTest(text=text):
                self.expect_fault([], text, f"regchain: scenario line {number}\n")

    def test_definitions(self) -> None:
        self.expect_lines(DEFINITIONS)

    def test_transactions(self) -> None:
        self.expect_lines(TRANSACTIONS)

    def test_options_of_blocks(self) -> None:
        self.expect_lines(OPTIONS)

    def test_verdicts(self) -> None:
        self.expect_lines(VERDICTS)

    def test_commands(self) -> None:
        self.expect_lines(COMMANDS)

    def test_no_client(self) -> None:
        self.expect_lines(WITHOUT_CLIENT)
