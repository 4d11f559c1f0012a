"""The program of the command line with a gate round each script, and with streams of its own (`player program`)."""
from __future__ import annotations

import os
import tempfile
import unittest
from typing import Any

from playing_lists import in_parallel, play

# A script long enough that it is worth starting a thread for one that spends it: eight pushes of 520 bytes, each dropped.
LONG = ("4d0802" + "00" * 520 + "75") * 8 + "51"
PAYS = f"out 5000000000 {LONG}\n"

# A chain of 100, and three payments.
PAYMENTS = f"chain c 100 genesis\ntx A 1 0\nin c1.cb:0 -\n{PAYS}tx B 1 0\nin A:0 -\n{PAYS}tx C 1 0\nin B:0 -\n{PAYS}"

# A block of three inputs whose scripts are run. Its parent is the best block, so they are run before the lock.
BEFORE_THE_LOCK = f"{PAYMENTS}block m0 c100 A B C\nclient a\neach c 1 100\nsubmit m0\n"

# The same block comes where another one is active, and is connected when a block on it comes: by a reorganisation, so under
# the lock.
BY_A_REORGANISATION = (
    f"{PAYMENTS}block k c100\nblock m0 c100 A B C\nblock m1 m0\nclient a\neach c 1 100\nsubmit k\nsubmit m0\nsubmit m1\n"
)

# Its parent isn't the best block. It becomes active, so its scripts are run under the lock.
ON_ANOTHER_BLOCK = (
    f"{PAYMENTS}block k c100\nblock l c100\nblock m0 l A B C\nclient a\neach c 1 100\nsubmit k\nsubmit l\nsubmit m0\n"
)

RUN = ["run", "--scenario", "-"]

# How often a worker looks whether others have come that are not to come.
FEW = 10_000


class Run:
    """A run of the program: each write to its streams, its status, and what was seen at the gate."""

    def __init__(self, printed: str) -> None:
        self.out: list[str] = []
        self.err: list[str] = []
        while printed.startswith(("out ", "err ")):
            head, _, rest = printed.partition("\n")
            length = int(head[4:])
            (self.out if head.startswith("out ") else self.err).append(rest[:length])
            printed = rest[length:]
        status, _, self.gate = printed.partition("\n")
        self.status = int(status.removeprefix("status "))


def run(words: list[str], text: str, folder: str | None = None, **settings: Any) -> Run:
    return Run(play("program", text, words, folder, **settings))


class Workers(unittest.TestCase):
    """Workers that meet: each waits in the gate until three have come."""

    def expect(self, words: list[str], scenario: str, meet: bool) -> None:
        with self.subTest(words=words, meet=meet):
            looks: dict[str, Any] = {} if meet else {"looks": FEW}
            given = run([*RUN, *words], scenario, wanted=3, **looks)
            self.assertEqual((given.status, given.err), (0, []))
            self.assertEqual(given.gate, f"gate = {'met' if meet else 'not met'}, 3 begun, 3 ended\n")

    def test_workers_of_the_command_line(self) -> None:
        """Three workers run three scripts at once; two don't, and two there are by default."""
        self.expect(["--workers", "3"], BEFORE_THE_LOCK, True)
        self.expect(["--workers", "2"], BEFORE_THE_LOCK, False)
        self.expect([], BEFORE_THE_LOCK, False)

    def test_workers_under_the_lock(self) -> None:
        """So they do where a block is connected under the lock, and one worker doesn't."""
        for scenario in (BY_A_REORGANISATION, ON_ANOTHER_BLOCK):
            self.expect(["--workers", "3"], scenario, True)
            self.expect(["--workers", "1"], scenario, False)

    def test_from_2_to_16_workers(self) -> None:
        """As many scripts as there are workers are run at once, before the lock and under it."""

        def met(case: tuple[int, bool]) -> str:
            workers, beside = case
            names = [f"P{number}" for number in range(workers)]
            spent = ["c1.cb:0", *(f"{name}:0" for name in names)]
            payments = "".join(f"tx {name} 1 0\nin {prev} -\n{PAYS}" for name, prev in zip(names, spent))
            blocks = ["k", "m0", "m1"] if beside else ["m0"]
            scenario = (
                f"chain c 100 genesis\n{payments}block k c100\nblock m0 c100 {' '.join(names)}\nblock m1 m0\n"
                f"client a\neach c 1 100\n{''.join(f'submit {name}{chr(10)}' for name in blocks)}"
            )
            return run([*RUN, "--workers", str(workers)], scenario, wanted=workers).gate

        cases = [(workers, beside) for workers in range(2, 17) for beside in (False, True)]
        for (workers, beside), gate in zip(cases, in_parallel(met, cases)):
            with self.subTest(workers=workers, beside=beside):
                self.assertEqual(gate, f"gate = met, {workers} begun, {workers} ended\n")


class Streams(unittest.TestCase):
    def test_an_output_that_closes(self) -> None:
        """The run ends with its fault, after what happened was saved, and an audit agrees with that."""
        scenario = "block b1 genesis\nclient a\nsubmit b1\nbest\ninvalidate b1\n"
        statuses = []
        for writes in range(7):
            with self.subTest(writes=writes), tempfile.TemporaryDirectory() as folder:
                os.mkdir(f"{folder}/saved")
                given = run([*RUN, "--save", "saved"], scenario, folder, writes=writes)
                fault = "regchain: cannot write -\ncannot write -: broken pipe\n" if given.status else ""
                self.assertEqual("".join(given.err), fault)
                statuses.append(given.status)
                audited = run(["audit", "--saved", "saved"], "", folder)
                self.assertEqual((audited.out, audited.err), (["agrees\n"], []))
        self.assertIn(1, statuses)

    def test_the_first_client_is_written_as_it_comes(self) -> None:
        """Each answer of the first client is written by itself; the second's all at once, behind them."""
        scenario = "block b1 genesis\nclient a\nsubmit b1\nbest\ntips\nclient b\nbest\ntips\n"
        given = run(RUN, scenario)
        fronts = ["client a\n", "submit b1 = ", "best = ", "tips = ", "client b\n", "best = ", "journal\n"]
        self.assertEqual(len(given.out), 8)
        for text, front in zip(given.out, fronts):
            self.assertTrue(text.startswith(front), text)

    def test_both_streams_fail(self) -> None:
        """Each call of standard output and standard error fails, the latter a terminal."""
        given = run([], "client a\n", writes=0, errors=0)
        self.assertEqual((given.status, given.out, given.err), (1, [], []))
