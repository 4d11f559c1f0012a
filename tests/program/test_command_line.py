"""The command line."""
from subprocess import DEVNULL, PIPE

from running import Played, ProgramTest

# Command lines with `clap`'s texts for them.
TEXTS = [
    (
        "frobnicate",
        """\
error: unrecognized subcommand 'frobnicate'

Usage: regchain <COMMAND>

For more information, try '--help'.
""",
    ),
    (
        "run",
        """\
error: the following required arguments were not provided:
  --scenario <F>

Usage: regchain run --scenario <F>

For more information, try '--help'.
""",
    ),
    (
        "run --scenario - --signet f",
        """\
error: unexpected argument '--signet' found

Usage: regchain run --scenario <F>

For more information, try '--help'.
""",
    ),
    (
        "run --scenario - --workers 17",
        """\
error: invalid value '17' for '--workers <N>': 17 is not in 1..=16

For more information, try '--help'.
""",
    ),
    (
        "--version",
        """\
regchain 0.2 (rattle-kit-13f logic dac8208d650f15bf)
""",
    ),
    (
        "--help",
        """\
The chainstate of a Bitcoin node on regtest. Without words it runs the scenario on the standard input

Usage: regchain <COMMAND>

Commands:
  run      Runs a scenario, and prints what its clients are answered
  audit    Replays a journal by the definition, and compares the replies
  tree     Shows the block tree that a scenario or a saved journal leads to
  show     Shows the id and the bytes of each block and transaction that a scenario defines
  serve    Answers requests, a JSON object a line, from the standard input
  export   Writes the files of a run from the log of a served node
  version  Prints the version
  help     Print this message or the help of the given subcommand(s)

Options:
  -h, --help     Print help
  -V, --version  Print version
""",
    ),
    (
        "run --help",
        """\
Runs a scenario, and prints what its clients are answered

Usage: regchain run [OPTIONS] --scenario <F>

Options:
      --scenario <F>       The scenario; - is the standard input
      --blk <F>            Blocks that are submitted first, as a blk file of Bitcoin Core has them
      --table <F>          The signatures that are valid
      --workers <N>        At most so many threads check scripts, 1 to 16 [default: 2]
      --heights <A,B,C,D>  From which heights the rules of BIP 34, 65, 66, and of BIPs \
68, 112 and 113 are in force, and others by name, as 1,1,1,1,nulldummy@0 [default: 1,1,1,1]
      --save <D>           The folder for journal.txt, blocks.blk, table.txt and heights.txt
      --expect <F>         The output that it has to have
      --json               Writes a JSON object a line
      --tree               Shows the block tree after the journal
      --svg <F>            The file for a picture of the block tree
      --from <HEIGHT>      The block tree from this height on
      --last <N>           The last N heights of the block tree
      --fold <WHEN>        When a branch beside the active one is drawn as one shape; auto: in a large picture [possible values: auto, always, never]
      --color <WHEN>       When the block tree has colours; auto: on a terminal [possible values: auto, always, never]
      --legend             Explains the shapes and colours behind the block tree
  -h, --help               Print help
""",
    ),
    (
        "audit --help",
        """\
Replays a journal by the definition, and compares the replies

Usage: regchain audit [OPTIONS]

Options:
      --saved <D>          The folder of a run's --save
      --datadir <D>        The folder of a served node's --datadir
      --journal <F>        The journal.txt of a run
      --blk <F>            Its blocks.blk
      --table <F>          The signatures that are valid
      --heights <A,B,C,D>  From which heights the rules of BIP 34, 65, 66, and of BIPs \
68, 112 and 113 are in force, and others by name, as 1,1,1,1,nulldummy@0 [default: 1,1,1,1]
      --quick              By the chainstate of one thread in place of the definition
      --explain            Tells the reply that the first line which differs should have
      --to <N>             Looks at the first N lines
      --json               Writes a JSON object a line
  -h, --help               Print help
""",
    ),
    (
        "tree --help",
        """\
Shows the block tree that a scenario or a saved journal leads to

Usage: regchain tree [OPTIONS]

Options:
      --scenario <F>       The scenario that is run; of --saved, the one that gives names; - is the standard input
      --saved <D>          The folder of a run's --save
      --blk <F>            Blocks that are submitted first, as a blk file of Bitcoin Core has them
      --table <F>          The signatures that are valid
      --heights <A,B,C,D>  From which heights the rules of BIP 34, 65, 66, and of BIPs \
68, 112 and 113 are in force, and others by name, as 1,1,1,1,nulldummy@0 [default: 1,1,1,1]
      --svg <F>            The file for a picture of the block tree
      --from <HEIGHT>      The block tree from this height on
      --last <N>           The last N heights of the block tree
      --fold <WHEN>        When a branch beside the active one is drawn as one shape; auto: in a large picture [possible values: auto, always, never]
      --color <WHEN>       When the block tree has colours; auto: on a terminal [possible values: auto, always, never]
      --legend             Explains the shapes and colours behind the block tree
  -h, --help               Print help
""",
    ),
    (
        "show --help",
        """\
Shows the id and the bytes of each block and transaction that a scenario defines

Usage: regchain show --scenario <F> [NAME]...

Arguments:
  [NAME]...  These names alone

Options:
      --scenario <F>  The scenario; - is the standard input
  -h, --help          Print help
""",
    ),
    (
        "serve --help",
        """\
Answers requests, a JSON object a line, from the standard input

Usage: regchain serve [OPTIONS]

Options:
      --seats <N>            How many callers the node has places for, 1 to 16 [default: 4]
      --workers <N>          At most so many threads check scripts, 1 to 16 [default: 2]
      --heights <A,B,C,D>    From which heights the rules of BIP 34, 65, 66, and of BIPs 68, 112 and 113 are in force, \
and others by name, as 1,1,1,1,nulldummy@0 [default: 1,1,1,1]
      --table <F>            The signatures that are valid
      --blk <F>              Blocks that are submitted first, as a blk file of Bitcoin Core has them
      --load <D>             The folder of an earlier --save, which is played again first, with its table and heights
      --save <D>             The folder for journal.txt, blocks.blk, table.txt and heights.txt
      --datadir <D>          The folder in which the history is kept: an answer goes out when its steps are on the disk there
      --no-sync              With --datadir: answers without waiting for the disk; a crash of the machine may lose what was answered
      --cut                  With --datadir: cuts a log off at a zero byte, though whole lines follow; they are kept beside
      --by-need              Has callers tell which signatures are valid, as blocks ask for them
      --busy                 Refuses a request where 64 wait for its seat, and reads on
      --history-memory <MB>  Refuses submissions that aren't kept, once such ones have taken so many megabytes
  -h, --help                 Print help
""",
    ),
    (
        "version --help",
        """\
Prints the version

Usage: regchain version

Options:
  -h, --help  Print help
""",
    ),
]

# What is asked for by a subcommand, and the words of the fault that has the same text.
ASKED = [("help", "--help"), ("version", "--version")]
ASKED += [(f"help {it}", f"{it} --help") for it in ("run", "audit", "tree", "show", "serve", "version")]

# Words with which a scenario is read from the standard input, and words with which none is.
READ: list[tuple[list[str], bool]] = [
    ([], True), (["run", "--scenario", "-"], True), (["run", "--scenario", "f"], False), (["--version"], False),
]

WAITING = "regchain: waits for a scenario, which ends with Ctrl-D\n"


class CommandLine(ProgramTest):
    def test_words_that_are_not_ours(self) -> None:
        for words, text in TEXTS:
            self.expect_fault(words.split(" "), "client a\n", text)

    def test_help_and_version_as_subcommands(self) -> None:
        """They print what --help and --version do, on the standard output, with the status 0."""
        texts = dict(TEXTS)
        for words, fault in ASKED:
            self.expect(words.split(" "), "client a\n", Played(0, texts[fault], ""))
        for words in ("help frobnicate", "version frobnicate", "help run frobnicate"):
            played = self.play(words.split(" "))
            self.assertEqual((played.status, played.out), (1, ""), words)
            self.assertTrue(played.err.startswith("error: "), words)
        closed = self.play_on(["help"], stdin=DEVNULL, stdout=open("/dev/full", "wb"), stderr=PIPE)
        self.assertEqual((closed.status, closed.err), (1, "regchain: cannot write -\ncannot write -: No space left on device\n"))

    def test_a_scenario_in_a_file(self) -> None:
        self.write("scenario.txt", "client in_a_file\n")
        words = ["run", "--scenario", "scenario.txt"]
        self.expect(words, "client standard\n", Played(0, "client in_a_file\njournal\n", ""))

    def test_a_scenario_on_the_standard_input(self) -> None:
        words = ["run", "--scenario", "-"]
        self.expect(words, "client standard\n", Played(0, "client standard\njournal\n", ""))

    def test_a_file_that_is_not_there(self) -> None:
        words = ["run", "--scenario", "not/there.txt"]
        self.expect_fault(words, "client a\n", "regchain: cannot read not/there.txt\n")

    def test_a_scenario_that_is_waited_for(self) -> None:
        """Who has to type a scenario is told so, on a terminal alone."""
        for words, is_read in READ:
            for is_terminal in [False, True]:
                with self.subTest(words=words, is_terminal=is_terminal):
                    played = self.play_typed(words, "client a\n") if is_terminal else self.play(words, "client a\n")
                    self.assertEqual(played.err.startswith(WAITING), is_read and is_terminal)
                    if is_read:
                        told = WAITING if is_terminal else ""
                        self.assertEqual(played, Played(0, "client a\njournal\n", told))
