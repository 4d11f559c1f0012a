"""How many small changes of a reading of scripts the pairs find.

The reading is tests/vectors/making/reading.py, and the changes are those that tests/vectors/changes tries: a comparison, an
operation, a number, a bound of a slice or a condition is another, or a statement or a part of a condition is left out. A change
is found where it answers a pair otherwise than the peer did, where it ends by an error, and where it doesn't end.
"""

import ast
import random
import resource
import signal
import sys
import types
from collections import Counter
from multiprocessing import get_context
from typing import Any, Dict, FrozenSet, Iterator, List, NamedTuple, Optional, Sequence, Set, Tuple

from making import reading
from making.changing import Change, changes
from wakotehu.consensus import Triple
from wakotehu.encoding import write_transaction
from wakotehu.signatures import Secp256k1

from .scripts import OTHERS, Pairs, flags_at

#: What no script comes to: the reading of transactions, their own rules, locks of transactions.
LEFT_OUT = {"Reader", "read", "fault", "median", "is_final", "are_met"}

#: The parts of the reading, for the table.
PARTS: Dict[str, Tuple[str, ...]] = {
    "digests": ("count", "spell", "digest"), "opcodes in bytes": ("opcodes", "push", "without"),
    "script hashes, pushes alone": ("is_push_only", "is_script_hash", "accepts"), "numbers and truth": ("is_true", "value", "number"),
    "strict encoding": ("is_strict", "is_integer"), "CHECKSIG, CHECKMULTISIG": ("checks", "many"),
    "CLTV": ("look_at_lock_time",), "CSV": ("look_at_sequence",), "conditions, counts, limits": ("run", "branch", "take"),
    "opcodes": ("step", "rest"), "tables of opcodes": ("",),
}  # fmt: skip


class Row(NamedTuple):
    """A pair as the reading is asked about it, and what the peer said."""

    tx: reading.Tx
    input: int
    spent: bytes
    flags: FrozenSet[str]
    is_accepted: bool


class Candidate(NamedTuple):
    """A change, the part of the module that has it, and the statement, by the line at which it begins (0 for a table)."""

    change: Change
    part: int
    statement: int


class Found(NamedTuple):
    """A change, the part that it is of, and how it is found: "" where it isn't."""

    part: str
    line: int
    what: str
    how: str


def rows_of(played: Sequence[Pairs], most: int) -> List[Row]:
    """Of so many pairs of each base those that are a matter of scripts."""
    found = []
    for pairs in played:
        flags = frozenset(flags_at(pairs.height))
        for pair, said in pairs.played[:most]:
            if said not in OTHERS:
                tx = reading.read(write_transaction(pair.tx))
                found.append(Row(tx, pair.input, pair.spent, flags, said == "accepted"))
    return found


class _Endless(BaseException):
    """A change doesn't end."""


def _end(*_: object) -> None:
    raise _Endless


class Measure:
    """The reading, rows that it answers as the peer did, and which of its changes they find."""

    #: Seconds of a processor after which a row counts as one that doesn't end.
    MOST = 2.0

    def __init__(self, rows: Sequence[Row]) -> None:
        self.path = reading.__file__ or ""
        with open(self.path, encoding="utf-8") as file:
            self.tree = ast.parse(file.read())
        self.secp, self.known = Secp256k1(), {}  # type: Secp256k1, Dict[Tuple[bytes, bytes, bytes], bool]
        self.rows = list(rows)
        random.Random(1).shuffle(self.rows)
        self.candidates = list(self._candidates())
        self.module = self._load(self.tree.body)
        self.by_statement = self._run_all()
        self.tables = list(range(len(self.rows)))

    def _load(self, body: Sequence[ast.stmt]) -> Any:
        module: Any = types.ModuleType("changed_reading")
        sys.modules["changed_reading"] = module
        self._put(module, body)
        return module

    def _put(self, module: Any, body: Sequence[ast.stmt]) -> None:
        """Defines parts of a module anew."""
        exec(compile(ast.fix_missing_locations(ast.Module(list(body), [])), self.path, "exec"), vars(module))

    def _candidates(self) -> Iterator[Candidate]:
        for number, part in enumerate(self.tree.body):
            if getattr(part, "name", "") not in LEFT_OUT:
                starts = statements_of(part)
                for change in changes(ast.Module([part], [])):
                    yield Candidate(change, number, starts.get(change.line, 0))

    def _is_valid(self, *triple: bytes) -> bool:
        if triple not in self.known:
            self.known[triple] = self.secp.valid(Triple(*triple))  # type: ignore[index]
        return self.known[triple]  # type: ignore[index]

    def _says(self, module: Any, row: Row) -> bool:
        job = module.Job(row.tx, row.input, row.flags, self._is_valid)
        return bool(module.accepts(job, row.tx.inputs[row.input].script, row.spent))

    def _run_all(self) -> Dict[int, List[int]]:
        """Runs all rows by a reading that tells which statements it comes to: the rows of each statement."""
        with open(self.path, encoding="utf-8") as file:
            told = _Telling().visit(ast.parse(file.read()))
        module, lines = self._load(told.body), set()  # type: Any, Set[int]
        vars(module)["tell_line"] = lines.add
        found: Dict[int, List[int]] = {}
        for number, row in enumerate(self.rows):
            lines.clear()
            if self._says(module, row) != row.is_accepted:
                raise RuntimeError(f"tests/vectors/making/reading.py says {not row.is_accepted} of {row}")
            for line in lines:
                found.setdefault(line, []).append(number)
        return found

    def try_all(self, jobs: int) -> List[Found]:
        """Tries each change."""
        global _measure
        _measure = self
        # The children have the rows without a copy.
        with get_context("fork").Pool(jobs, _begin) as pool:
            how = pool.map(_try, range(len(self.candidates)), chunksize=8)
        return [Found(self._part(it), it.change.line, it.change.what, how_) for it, how_ in zip(self.candidates, how)]

    def _part(self, it: Candidate) -> str:
        name = getattr(self.tree.body[it.part], "name", "")
        return next(part for part, names in PARTS.items() if name in names)

    def how_found(self, number: int) -> str:
        """How a change is found. Rows that found one before are tried first."""
        it = self.candidates[number]
        numbers = self.by_statement.get(it.statement, []) if it.statement else self.tables
        before = dict(vars(self.module))
        it.change.make()
        try:
            self._put(self.module, [self.tree.body[it.part]])
            return self._first(numbers)
        except Exception:
            return "by an error"
        finally:
            it.change.undo()
            vars(self.module).update(before)

    def _first(self, numbers: List[int]) -> str:
        for place, number in enumerate(numbers):
            signal.setitimer(signal.ITIMER_VIRTUAL, self.MOST)
            try:
                how = "" if self._says(self.module, self.rows[number]) == self.rows[number].is_accepted else "by another answer"
            except _Endless:
                how = "without an end"
            except Exception:
                how = "by an error"
            finally:
                signal.setitimer(signal.ITIMER_VIRTUAL, 0)
            if how:
                numbers.insert(0, numbers.pop(place))
                return how
        return ""


def statements_of(part: ast.stmt) -> Dict[int, int]:
    """Of each line of a function, the line at which its innermost statement begins."""
    found: Dict[int, int] = {}
    for function in (node for node in ast.walk(part) if isinstance(node, ast.FunctionDef)):
        for node in ast.walk(function):
            if isinstance(node, ast.stmt) and node is not function:
                # Statements come after those around them.
                found.update((line, node.lineno) for line in range(node.lineno, (node.end_lineno or node.lineno) + 1))
    return found


class _Telling(ast.NodeTransformer):
    """Has each statement of a function tell its line before it runs."""

    def generic_visit(self, node: ast.AST) -> ast.AST:
        super().generic_visit(node)
        if isinstance(node, (ast.FunctionDef, ast.If, ast.For, ast.While, ast.Try, ast.ExceptHandler)):
            for field in ("body", "orelse", "finalbody"):
                inner = getattr(node, field, None)
                if inner:
                    setattr(node, field, [it for statement in inner for it in (self._tell(statement), statement)])
        return node

    @staticmethod
    def _tell(statement: ast.stmt) -> ast.stmt:
        call = ast.Call(ast.Name("tell_line", ast.Load()), [ast.Constant(statement.lineno)], [])
        return ast.copy_location(ast.Expr(call), statement)


_measure: Optional[Measure] = None


def _begin() -> None:
    resource.setrlimit(resource.RLIMIT_AS, (3 << 30, 3 << 30))
    sys.setrecursionlimit(2000)
    signal.signal(signal.SIGVTALRM, _end)


def _try(number: int) -> str:
    assert _measure is not None
    return _measure.how_found(number)


def print_table(found: Sequence[Found], rows: int, is_each_told: bool) -> float:
    """Prints the share by part, and on request each change that no pair finds; the whole share in per cent."""
    of, by = Counter(it.part for it in found), Counter(it.part for it in found if it.how)
    for part in PARTS:
        print(f"  {part:<28} {by[part]:>4} of {of[part]:>4} {100 * by[part] / of[part]:6.1f} %")
    share = 100 * sum(by.values()) / len(found)
    how = ", ".join(f"{count} {how}" for how, count in Counter(it.how for it in found if it.how).most_common())
    print(f"{sum(by.values())} of {len(found)} small changes of a reading of scripts are found by {rows} pairs, {share:.1f} % ({how})")
    with open(reading.__file__ or "", encoding="utf-8") as file:
        lines = file.read().split("\n")
    for it in found if is_each_told else ():
        if not it.how:
            print(f"  found by no pair: reading.py:{it.line}: {it.what}: {lines[it.line - 1].strip()}")
    return share
