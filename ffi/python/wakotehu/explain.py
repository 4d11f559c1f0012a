"""Says which script of a block failed, and how: `python3 -m wakotehu.explain FOLDER LINE`, for a submission that is answered
`blk-bad-inputs`. LINE is the step's number in the folder's journal or log, as `regchain audit` prints it.

The block's branch is connected to a set of coins of its own, so this asks neither the chainstate nor the definition.
"""

import argparse
import os
import sys
from binascii import unhexlify
from itertools import takewhile
from typing import Dict, Iterator, List, NamedTuple, Optional, Sequence, Set

from . import consensus
from .coinset import CoinSet, Fault
from .consensus import ScriptError, Triple
from .encoding import GENESIS, double_sha, read_block, read_header, write_transaction
from .deployments import SoftForks, read_word
from .errors import Error, Wants
from .history import LOG, VERDICTS, regular, steps_of

#: Of so many blocks the median time past is the median.
SPAN = 11
#: The replies to blocks that are kept.
KEPT = ("accepted", "inconclusive")
#: The files of verdicts.
TABLES = {"invalid.txt": False, "table.txt": True}


class NotExplained(Error):
    """There is no such line, or it isn't a submission of a block whose branch is there."""


class Explained(NamedTuple):
    """The first rule that a block breaks by itself or over the coins, in Bitcoin Core's word, "" where there is none; of
    "blk-bad-inputs" the transaction, the input, and why its scripts fail."""

    reason: str
    transaction: int
    input: int
    error: Optional[ScriptError]

    def __str__(self) -> str:
        if self.error is None:
            return self.reason or "no rule by itself or over the coins"
        return f"{self.reason}: transaction {self.transaction}, input {self.input}: {self.error.name} ({self.error.text})"


class Submission(NamedTuple):
    """A block, and whether its submission's reply says that it is kept."""

    block: bytes
    is_kept: bool


class SavedRun:
    """What a folder has, that `--save` or `--datadir` named: the submission of each line, if it is one, the heights of soft
    forks, and the verdicts on signatures. `docs/PROGRAM.md` says what its files have.

    Where the run had a table, each signature that this doesn't have is invalid (`has_table`); by need there are verdicts.
    """

    def __init__(self, folder: str) -> None:
        self.folder = folder
        self.verdicts = {line: is_valid for name, is_valid in TABLES.items() for line in self._table(name)}
        is_log = os.path.exists(os.path.join(folder, LOG))
        self.has_table = not self._exists("invalid.txt") and (not is_log or self._exists("table.txt"))
        self.heights = read_word((self._read("heights.txt") or b"1,1,1,1").decode("ascii").strip())
        self.lines = list(self._log() if is_log else self._journal())

    def _path(self, name: str) -> str:
        """A file's path. Once the journal is renamed, a file that was saved with it may still end in `.new`."""
        new = os.path.join(self.folder, f"{name}.new")
        is_saved = not os.path.exists(os.path.join(self.folder, "journal.txt.new")) and os.path.exists(new)
        return new if is_saved else os.path.join(self.folder, name)

    def _exists(self, name: str) -> bool:
        return os.path.exists(self._path(name))

    def _read(self, name: str) -> bytes:
        if not self._exists(name):
            return b""
        with open(self._path(name), "rb", opener=regular) as file:
            return file.read()

    def _lines(self, name: str) -> List[bytes]:
        return self._read(name).splitlines()

    def _table(self, name: str) -> List[bytes]:
        return [Triple.of_line(it).line for it in self._lines(name) if it.split() and not it.startswith(b"#")]

    def verdict(self, triple: Triple) -> Optional[bool]:
        """Whether a signature is valid, None where the run has no verdict on it."""
        return self.verdicts.get(triple.line, False if self.has_table else None)

    def _log(self) -> Iterator[Optional[Submission]]:
        for step in steps_of(os.path.join(self.folder, LOG)):
            if step.command in VERDICTS:
                self.verdicts[Triple.of_line(step.rest).line] = step.command == "valid"
            yield Submission(unhexlify(step.rest), step.reply in KEPT) if step.command == "submit" else None

    def _journal(self) -> Iterator[Optional[Submission]]:
        records = consensus.records(self._read("blocks.blk"))
        for line in self._lines("journal.txt"):
            words = line.decode("ascii", "replace").split()
            if len(words) < 3 or words[2] != "submit":
                yield None
                continue
            block = next(records, None)
            if block is None:
                raise NotExplained("blocks.blk has fewer blocks than the journal")
            yield Submission(block, words[-1] in KEPT)

    def kept_before(self, line: int) -> Dict[bytes, bytes]:
        """The blocks that lines before this one submitted, by id. Of several under one header it is the one that is kept."""
        found: Dict[bytes, bytes] = {}
        for it in self.lines[: line - 1]:
            if it is not None:
                id = double_sha(it.block[:80])
                found[id] = it.block if it.is_kept else found.get(id, it.block)
        return found


def branch_of(block: bytes, known: Dict[bytes, bytes]) -> List[bytes]:
    """The blocks from the one above genesis to this one."""
    found = [block]
    while True:
        parent = read_header(found[-1][:80]).parent
        if parent == GENESIS.id:
            return found[::-1]
        if parent not in known or len(found) > len(known):
            raise NotExplained("the block's branch isn't there")
        found.append(known[parent])


#: Rules of scripts by the soft forks that brought them.
FLAGS = {"CLTV": "bip65", "DERSIG": "bip66", "CSV": "csv", "NULLDUMMY": "nulldummy"}


def flags_at(height: int, heights: SoftForks) -> Set[str]:
    """The rules for scripts that are in force in a block of this height."""
    return {"P2SH", *(flag for flag, name in FLAGS.items() if height >= heights.height(name))}


class Connecting:
    """A branch that is connected to coins of its own, from genesis on."""

    def __init__(self, run: SavedRun) -> None:
        self.run, self.times, self.medians = run, [GENESIS.time], [GENESIS.time]
        self.coins = CoinSet()

    def connect(self, block: bytes) -> Optional[Fault]:
        """The first rule that the next block breaks by itself or over the coins."""
        while True:
            try:
                height = len(self.times)
                fault = self.coins.connect(block, height, self.medians[-1], self.medians, self.run.heights)
                break
            except Wants as wants:
                self._learn(wants.triples)
        if fault is None:
            self.times.append(read_header(block[:80]).time)
            self.medians.append(consensus.median(self.times[-SPAN:]))
        return fault

    def _learn(self, triples: Sequence[Triple]) -> None:
        """Takes the run's verdicts. On some it may have none, behind an input that is refused."""
        verdicts = [(triple, self.run.verdict(triple)) for triple in triples]
        known = [(triple, is_valid) for triple, is_valid in verdicts if is_valid is not None]
        if not known:
            raise NotExplained("the run has no verdict on a signature of this branch")
        for triple, is_valid in known:
            self.coins.learn(triple, is_valid)

    def failure(self, block: bytes, fault: Fault) -> Optional[ScriptError]:
        """Why the scripts of the input fail that a fault names."""
        txs = read_block(block).transactions
        tx = txs[fault.transaction]
        spends = tx.inputs[fault.input]
        made = [it for it in txs[: fault.transaction] if it.id == spends.id]
        coin = self.coins.coin(spends.id, spends.index)
        spent = made[-1].outputs[spends.index].script if made else coin.script if coin else b""
        flags = flags_at(len(self.times), self.run.heights)
        with consensus.ParsedTransaction(write_transaction(tx)) as parsed:
            found = self.coins.verify_input(parsed, fault.input, spent, flags)
        return found if isinstance(found, ScriptError) else None


def explain(folder: str, line: int) -> Explained:
    """What the block breaks that a line, from 1, submits: by itself and over the coins of its own branch."""
    run = SavedRun(folder)
    if not 1 <= line <= len(run.lines):
        raise NotExplained(f"there is no line {line}")
    asked = run.lines[line - 1]
    if asked is None:
        raise NotExplained(f"line {line} is no submission")
    block = asked.block
    branch, connecting = branch_of(block, run.kept_before(line)), Connecting(run)
    with connecting.coins:
        below = list(takewhile(lambda it: connecting.connect(it) is None, branch[:-1]))
        if len(below) < len(branch) - 1:
            raise NotExplained("an earlier block of its branch breaks a rule")
        fault = connecting.connect(block)
        if fault is None:
            return Explained("", 0, 0, None)
        error = connecting.failure(block, fault) if fault.reason == "blk-bad-inputs" else None
        return Explained(*fault, error)


def main(words: Optional[List[str]] = None) -> int:
    parser = argparse.ArgumentParser(
        prog="python3 -m wakotehu.explain", allow_abbrev=False,
        description="Says which rule the block of a line breaks by itself or over the coins of its branch, and of blk-bad-inputs"
        " which script fails, and how.",
        epilog="Status 1: there is no such line or block, or a file can't be read.",
    )  # fmt: skip
    parser.add_argument("folder", metavar="FOLDER", help="a folder that --save or --datadir named")
    parser.add_argument("line", metavar="LINE", type=int, help="a line of its journal, from 1, that submits a block")
    given = parser.parse_args(words)
    try:
        print(f"line {given.line}: {explain(given.folder, given.line)}")
        return 0
    except (Error, OSError, ValueError) as error:
        print(f"python3 -m wakotehu.explain: {error}", file=sys.stderr)
        return 1


if __name__ == "__main__":
    sys.exit(main())
