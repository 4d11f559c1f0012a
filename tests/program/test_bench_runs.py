"""The program as a test bench needs it, by tables of runs: blk files, ids, what is expected, objects, audits."""
from __future__ import annotations

from typing import NamedTuple

from blocks import FIRST, FIRST_COINBASE_ID, FIRST_HEAD, FIRST_ID, GENESIS, GENESIS_HEAD, child_of_genesis
from running import Played, ProgramTest, lines


class Run(NamedTuple):
    """A run: its words, the standard input, and what is written."""

    words: list[str]
    text: str
    out: str
    err: str

    def wanted(self) -> Played:
        """With a fault, and with a line that differs, the status is 1."""
        status = 0 if self.err == "" and "line " not in self.out else 1
        return Played(status, self.out, self.err)


# An id that nothing has.
NO_ID = "f" * 64

FIFTEEN = [f"client {letter}" for letter in "abcdefghijklmno"]

# Runs whose output is the same by each number of workers.
RUNS = [
    Run(
        words=["run", "--scenario", "-", "--blk", "bench_genesis.blk"],
        text=lines("client a"),
        out=lines(
            "client blk",
            "record 1 = duplicate @1",
            "client a",
            "journal",
            "1 blk submit genesis 4294967295 = duplicate",
        ),
        err="",
    ),
    Run(
        words=["run", "--scenario", "-", "--blk", "bench_cut.blk"],
        text=lines("client a", "best"),
        out=lines("client blk", "record 1 = duplicate @1"),
        err=lines("regchain: blk stopped at 293"),
    ),
    Run(
        words=["run", "--scenario", "-", "--blk", "bench_empty.blk"],
        text=lines("client a", "best"),
        out=lines("client blk", "client a", "best = genesis @0", "journal"),
        err="",
    ),
    Run(
        words=["run", "--scenario", "-", "--blk", "bench_other.blk"],
        text=lines("client a"),
        out=lines("client blk"),
        err=lines("regchain: blk stopped at 0"),
    ),
    Run(
        words=["run", "--scenario", "-", "--blk", "bench_genesis.blk"],
        text=lines("client a", "best", "cut genesis 3", "submit genesis"),
        out=lines(
            "client blk",
            "record 1 = duplicate @1",
            "client a",
            "best = genesis @1",
            "cut genesis 3 = decode-failed @1",
            "submit genesis = duplicate @2",
            "journal",
            "1 blk submit genesis 4294967295 = duplicate",
            "2 a submit genesis 1296688602 = duplicate",
        ),
        err="",
    ),
    # several clients that change nothing, one of them without a command
    Run(
        words=["run", "--scenario", "-"],
        text=lines("client b", "best", "client a", "client c", "tips", "txout genesis.cb:0"),
        out=lines(
            "client b",
            "best = genesis @0",
            "client a",
            "client c",
            "tips = genesis 0 0 active @0",
            "txout genesis.cb:0 = none @0",
            "journal",
        ),
        err="",
    ),
    # a name twice, of a block and of a client, and the client of blk files
    Run(
        words=["run", "--scenario", "-"],
        text=lines("block b1 genesis", "block b1 genesis", "client a"),
        out="",
        err=lines("regchain: scenario line 2"),
    ),
    Run(
        words=["run", "--scenario", "-"],
        text=lines("client a", "client b", "client a"),
        out="",
        err=lines("regchain: scenario line 3"),
    ),
    Run(
        words=["run", "--scenario", "-"],
        text=lines("client a", "client blk"),
        out="",
        err=lines("regchain: scenario line 2"),
    ),
    # fifteen clients there may be, and sixteen not
    Run(
        words=["run", "--scenario", "-"],
        text=lines(*FIFTEEN),
        out=lines(*FIFTEEN, "journal"),
        err="",
    ),
    Run(
        words=["run", "--scenario", "-"],
        text=lines(*FIFTEEN, "client p"),
        out="",
        err=lines("regchain: scenario line 16"),
    ),
    # ids in the place of names
    Run(
        words=["run", "--scenario", "-"],
        text=lines(
            "block b1 genesis",
            "client a",
            "submit b1",
            f"invalidate {FIRST_ID}",
            f"reconsider {FIRST_ID}",
            f"precious {NO_ID}",
            f"txout {FIRST_COINBASE_ID}:0",
        ),
        out=lines(
            "client a",
            "submit b1 = accepted @1",
            f"invalidate {FIRST_ID} = done @2",
            f"reconsider {FIRST_ID} = done @3",
            f"precious {NO_ID} = not-found @4",
            f"txout {FIRST_COINBASE_ID}:0 = 5000000000 51 height 1 coinbase conf 1 @4",
            "journal",
            "1 a submit b1 1296688602 = accepted",
            "2 a invalidate b1 = done",
            "3 a reconsider b1 = done",
            f"4 a precious {NO_ID} = not-found",
        ),
        err="",
    ),
]

# What a scenario defines; the bytes and ids were made by another program.
DEFINED = lines(
    "block b1 genesis",
    "tx A 1 0",
    f"in {FIRST_COINBASE_ID}:0 -",
    "out 5000000000 51",
)

# The bytes of `b1.cb`.
FIRST_COINBASE = (
    "01000000010000000000000000000000000000000000000000000000000000000000000000ffffffff0451026231ffffffff0100f2052a01"
    "000000015100000000"
)

A_ID = "67bf2c55b55213e5e6c586fc33f17c9c89ff15274915caeb988e483cb48a56b1"

A = (
    "01000000014bc9060e5f2e3eb82947c1432592111003cf8eb7506783ed65a8ccb92502f9960000000000ffffffff0100f2052a0100000001"
    "5100000000"
)

OTHER_ID, _ = child_of_genesis("o1")

GENESIS_OBJECT = '{"hash":"0f9188f13cb7b2c71f2a335e3a4fc328bf5beb436012afca590b1a11466e2206","name":"genesis"}'

# Runs without workers: what is shown, what is expected, and objects.
OTHERS = [
    Run(
        words=["show", "--scenario", "-", "b1"],
        text=DEFINED,
        out=lines(f"b1 {FIRST_ID} {FIRST}"),
        err="",
    ),
    Run(
        words=["show", "--scenario", "-"],
        text=DEFINED,
        out=lines(
            f"b1 {FIRST_ID} {FIRST}",
            f"A {A_ID} {A}",
        ),
        err="",
    ),
    Run(
        words=["show", "--scenario", "-", "b1.cb", "x"],
        text=DEFINED,
        out=lines(
            f"b1.cb {FIRST_COINBASE_ID} {FIRST_COINBASE}",
        ),
        err=lines("regchain: no name x"),
    ),
    Run(
        words=["run", "--scenario", "-", "--expect", "bench_same.txt"],
        text=lines("client a", "best"),
        out=lines("client a", "best = genesis @0", "journal"),
        err="",
    ),
    Run(
        words=["run", "--scenario", "-", "--expect", "bench_else.txt"],
        text=lines("client a", "best"),
        out=lines("client a", "best = genesis @0", "journal"),
        err=lines("regchain: line 2 differs", "expected: best = b1 @0", "written: best = genesis @0"),
    ),
    Run(
        words=["run", "--scenario", "-", "--expect", "not/there"],
        text=lines("client a"),
        out="",
        err=lines("regchain: cannot read not/there"),
    ),
    Run(
        words=["run", "--scenario", "-", "--json"],
        text=lines("client a", "submit genesis", "best"),
        out=lines(
            '{"client":"a","command":"submit genesis","answer":"duplicate","at":1}',
            f'{{"client":"a","command":"best","answer":{GENESIS_OBJECT},"text":"genesis","at":1}}',
            '{"step":1,"client":"a","command":"submit","block":"genesis","now":1296688602,"reply":"duplicate"}',
        ),
        err="",
    ),
    # Answers of more than a word, by parts and as a text.
    Run(
        words=["run", "--scenario", "-", "--json", "--blk", "bench_first.blk"],
        text=lines(
            "block o1 genesis",
            "client a",
            "best",
            "submit o1",
            "tips",
            f"txout {FIRST_COINBASE_ID}:0",
            "txout genesis.cb:0",
        ),
        out=lines(
            '{"client":"blk","command":"record 1","answer":"accepted","at":1}',
            f'{{"client":"a","command":"best","answer":{{"hash":"{FIRST_ID}","name":null}},"text":"{FIRST_ID}","at":1}}',
            '{"client":"a","command":"submit o1","answer":"inconclusive","at":2}',
            '{"client":"a","command":"tips","answer":['
            f'{{"hash":"{FIRST_ID}","name":null,"height":1,"branchlen":0,"status":"active"}},'
            f'{{"hash":"{OTHER_ID}","name":"o1","height":1,"branchlen":1,"status":"valid-headers"}}],'
            f'"text":"{FIRST_ID} 1 0 active; o1 1 1 valid-headers","at":2}}',
            f'{{"client":"a","command":"txout {FIRST_COINBASE_ID}:0","answer":'
            '{"value":5000000000,"script":"51","height":1,"coinbase":true,"confirmations":1},'
            '"text":"5000000000 51 height 1 coinbase conf 1","at":2}',
            '{"client":"a","command":"txout genesis.cb:0","answer":null,"text":"none","at":2}',
            f'{{"step":1,"client":"blk","command":"submit","block":"{FIRST_ID}","now":4294967295,"reply":"accepted"}}',
            '{"step":2,"client":"a","command":"submit","block":"o1","now":1296688602,"reply":"inconclusive"}',
        ),
        err="",
    ),
    Run(
        words=["run", "--scenario", "-", "--json"],
        text=lines("block"),
        out="",
        err=lines(
            '{"fault":"scenario line 1",'
            '"why":"\\"block\\" is spelled block NAME PARENT [OPTION ..] [TRANSACTION ..]"}'
        ),
    ),
    # An empty name is no folder.
    Run(
        words=["run", "--scenario", "-", "--save", ""],
        text=lines("client a"),
        out="",
        err=lines("regchain: cannot write /journal.txt"),
    ),
]

# A journal whose second line should say `done`.
WRONG = lines(
    f"1 a submit {FIRST_ID} 1296688602 = accepted",
    f"2 a invalidate {FIRST_ID} = not-found",
)

# Runs over the folder of a saved run.
AUDITS = [
    Run(
        words=["run", "--scenario", "-", "--save", "bench_saved"],
        text=lines("block b1 genesis", "client a", "submit b1", "invalidate b1"),
        out=lines(
            "client a",
            "submit b1 = accepted @1",
            "invalidate b1 = done @2",
            "journal",
            "1 a submit b1 1296688602 = accepted",
            "2 a invalidate b1 = done",
        ),
        err="",
    ),
    Run(
        words=["audit", "--saved", "bench_saved"],
        text="",
        out=lines("agrees"),
        err="",
    ),
    Run(
        words=["audit", "--saved", "bench_saved", "--quick"],
        text="",
        out=lines("agrees"),
        err="",
    ),
    Run(
        words=["audit", "--saved", "bench_saved", "--json"],
        text="",
        out=lines('{"audit":"agrees"}'),
        err="",
    ),
    Run(
        words=["audit", "--saved", "bench_none"],
        text="",
        out="",
        err=lines("regchain: cannot read bench_none/journal.txt"),
    ),
    Run(
        words=["audit", "--journal", "bench_wrong.txt", "--blk", "bench_saved/blocks.blk"],
        text="",
        out=lines("line 2"),
        err="",
    ),
    Run(
        words=["audit", "--journal", "bench_wrong.txt", "--blk", "bench_saved/blocks.blk", "--explain"],
        text="",
        out=lines("line 2"),
        err=lines("regchain: line 2: the definition gives done"),
    ),
    Run(
        words=["audit", "--journal", "bench_wrong.txt", "--blk", "bench_saved/blocks.blk", "--quick", "--explain"],
        text="",
        out=lines("line 2"),
        err=lines("regchain: line 2: the definition gives done"),
    ),
    Run(
        words=["audit", "--journal", "bench_wrong.txt", "--blk", "bench_saved/blocks.blk", "--explain", "--json"],
        text="",
        out=lines('{"audit":"differs","line":2}'),
        err=lines('{"line":2,"definition":"done"}'),
    ),
    # Behind the first N lines nothing is looked at: neither a line that can't be read nor a record of it.
    Run(
        words=["audit", "--journal", "bench_broken.txt", "--blk", "bench_broken.blk", "--to", "1"],
        text="",
        out=lines("agrees"),
        err="",
    ),
    Run(
        words=["audit", "--journal", "bench_broken.txt", "--blk", "bench_broken.blk", "--to", "0"],
        text="",
        out=lines("agrees"),
        err="",
    ),
    Run(
        words=["audit", "--journal", "bench_broken.txt", "--blk", "bench_broken.blk", "--to", "2"],
        text="",
        out="",
        err=lines("regchain: journal line 2"),
    ),
    Run(
        words=["audit", "--journal", "bench_broken.txt", "--blk", "bench_empty.blk", "--to", "1"],
        text="",
        out="",
        err=lines("regchain: blk records"),
    ),
    # Where there are no more lines, there are no more records.
    Run(
        words=["audit", "--journal", "bench_one.txt", "--blk", "bench_broken.blk", "--to", "1"],
        text="",
        out="",
        err=lines("regchain: blk stopped at 154"),
    ),
    Run(
        words=["audit", "--journal", "bench_wrong.txt", "--blk", "bench_saved/blocks.blk", "--to", "1"],
        text="",
        out=lines("agrees"),
        err="",
    ),
    Run(
        words=["audit", "--journal", "bench_wrong.txt", "--blk", "bench_saved/blocks.blk", "--to", "2"],
        text="",
        out=lines("line 2"),
        err="",
    ),
]


class BenchRuns(ProgramTest):
    def expect_run(self, run: Run, more: list[str]) -> None:
        """Plays a run, with more words behind its own."""
        self.expect([*run.words, *more], run.text, run.wanted())

    def write_blk_files(self) -> None:
        """The file with the record of genesis, and the same with two bytes behind it that are no record."""
        record = bytes.fromhex(GENESIS_HEAD + GENESIS)
        self.write_bytes("bench_genesis.blk", record)
        self.write_bytes("bench_cut.blk", record + b"\x00\xfa")
        self.write_bytes("bench_empty.blk", b"")
        self.write_bytes("bench_other.blk", b"\x00\xfa")

    def test_by_each_number_of_workers(self) -> None:
        self.write_blk_files()
        for run in RUNS:
            for workers in ["1", "2", "8", "16"]:
                self.expect_run(run, ["--workers", workers])

    def test_what_is_shown_expected_and_written_as_objects(self) -> None:
        self.write("bench_same.txt", "client a\nbest = genesis @0\njournal\n")
        self.write_bytes("bench_first.blk", bytes.fromhex(FIRST_HEAD + FIRST))
        self.write("bench_else.txt", "client a\nbest = b1 @0\njournal\n")
        for run in OTHERS:
            self.expect_run(run, [])

    def test_audits(self) -> None:
        self.make_folder("bench_saved")
        self.write("bench_wrong.txt", WRONG)
        self.write("bench_one.txt", WRONG.split("\n")[0] + "\n")
        self.write("bench_broken.txt", WRONG.split("\n")[0] + "\nno line\n")
        self.write_bytes("bench_broken.blk", bytes.fromhex(FIRST_HEAD + FIRST) + b"no record")
        self.write_bytes("bench_empty.blk", b"")
        for run in AUDITS:
            self.expect_run(run, [])
        self.assertEqual(self.read("bench_saved/heights.txt"), "1,1,1,1\n")
        self.assertFalse(self.exists("bench_saved/journal.txt.new"))
