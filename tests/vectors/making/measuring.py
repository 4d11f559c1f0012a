"""Which small changes of a program the rows of this folder refuse."""

import ast
import importlib
import json
import os
import resource
import signal
import sys
import types
from collections import Counter
from multiprocessing import Pool
from typing import Any, Callable, Dict, List, NamedTuple, Optional, Set, Tuple

from . import reading
from .changing import Change, changes

HERE = os.path.dirname(os.path.dirname(os.path.abspath(__file__)))


class Row(NamedTuple):
    """A question, and what is answered: by the functions of a program."""

    kind: str
    given: Tuple[Any, ...]
    expected: Any


def data(text: str) -> bytes:
    parts = (part.partition("*") for part in text.removeprefix("0x").split())
    return b"".join(bytes.fromhex(digits) * int(times or 1) for digits, _, times in parts)


def load(name: str) -> List[Any]:
    with open(os.path.join(HERE, name), encoding="utf-8") as file:
        return list(json.load(file))[1:]


def pair_of(row: List[Any]) -> Row:
    setting = row.pop(0) if isinstance(row[0], dict) else {}
    own, spent, flags, said = row[:4]
    script = data(own)
    if "tx" in setting:
        front, back = map(data, setting["tx"])
        tx, at = reading.read(front + reading.count(len(script)) + script + back), setting.get("input", 0)
    else:
        ends, at = setting.get("sequence", 0), 1
        inputs = [reading.Input(b"\7" * 32, 0, s, ends) for s in (b"", script)]
        tx = reading.Tx(setting.get("version", 1), inputs, [reading.Output(1, b"")], setting.get("lock_time", 0))
    lines = (line.split() for line in setting.get("table", "").split("\n") if line)
    table = {tuple(b"" if word == "-" else bytes.fromhex(word) for word in line) for line in lines}
    return Row("pair", (tx, at, script, data(spent), frozenset(filter(None, flags.split(","))), table), said == "OK")


def rows() -> List[Row]:
    found = [pair_of(row) for row in load("script_tests.json")]
    for raw, code, at, kind, said, *_ in load("sighash.json"):
        found.append(Row("digest", (reading.read(data(raw)), at, data(code), kind), bytes.fromhex(said)))
    for raw, said, *_ in load("transactions.json"):
        found.append(Row("transaction", (data(raw),), said))
    found += [Row("number", (data(b), most), n) for b, most, n, _ in load("numbers.json")]
    found += [Row("spelling", (n,), data(b)) for b, _, n, is_shortest in load("numbers.json") if is_shortest]
    found += [Row("strict", (data(s),), yes) for s, yes, _ in load("signatures.json") if s]
    found += [Row(name, tuple(given), said) for name, given, said, _ in load("locks.json")]
    found += [Row(name, (data(given[0]),), bool(said)) for name, given, said in load("scripts.json") if name in ("push_only", "p2sh")]
    return found


# ---- what a program answers


def by_reading(m: Any, row: Row) -> Any:
    """The answer of making/reading.py, or of a change of it."""
    if row.kind == "pair":
        tx, at, own, spent, flags, table = row.given
        return m.accepts(m.Job(tx, at, flags, lambda *triple: triple in table), own, spent)
    if row.kind == "digest":
        return m.digest(*row.given)
    if row.kind == "transaction":
        return _transaction(m, row.given[0], row.expected)
    if row.kind in CALLS:
        return getattr(m, CALLS[row.kind])(*row.given)
    try:
        return m.value(*row.given) if row.kind == "number" else m.number(*row.given)
    except m.Fails:
        return None


#: Rows that are one call of the reading each.
CALLS = {
    "strict": "is_strict", "push_only": "is_push_only", "p2sh": "is_script_hash", "median": "median", "final": "is_final",
    "relative": "are_met",
}  # fmt: skip


def _transaction(m: Any, raw: bytes, said: Any) -> Any:
    """What is said where all is as said."""
    try:
        tx = m.read(raw)
    except m.Fails as fails:
        return str(fails)
    if isinstance(said, str):
        return tx
    found = {
        "id": m.double_sha(m.spell(tx))[::-1].hex(), "inputs": len(tx.inputs), "outputs": len(tx.outputs), "version": tx.version,
        "lock_time": tx.lock_time, "reason": m.fault(tx),
        "inputs_are": [[i.id.hex(), i.place, i.script.hex(), i.sequence] for i in tx.inputs],
        "outputs_are": [[o.value, o.script.hex()] for o in tx.outputs],
    }  # fmt: skip
    if "size" in said and m.spell(tx) != raw[: said["size"]]:
        return tx
    return {**said, **{name: value for name, value in found.items() if name in said}}


def by_lib(m: Any, row: Row) -> Any:
    """The answer of python3-bitcoinlib, or of a change of it; signatures by the row's table."""
    core = m["core"]
    if row.kind == "pair":
        tx, at, own, spent, flags, table = row.given
        m["table"].clear()
        m["table"].update(table)
        theirs = core.CTransaction.deserialize(reading.spell(tx))
        script, evaluation = m["script"], m["eval"]
        try:
            evaluation.VerifyScript(script.CScript(own), script.CScript(spent), theirs, at, {evaluation.SCRIPT_VERIFY_P2SH})
            return True
        except core.ValidationError:
            return False
    if row.kind == "digest":
        tx, at, code, kind = row.given
        theirs = core.CTransaction.deserialize(reading.spell(tx))
        return m["script"].RawSignatureHash(m["script"].CScript(code), theirs, at, kind - (1 << 32) if kind >> 31 else kind)[0]
    if row.kind == "transaction" and isinstance(row.expected, dict):
        try:
            m["check"](core.CTransaction.deserialize(row.given[0]))
            return {**row.expected, "reason": ""}
        except core.CheckTransactionError as error:
            return {**row.expected, "reason": REASONS[str(error).partition("() : ")[2]]}
    if row.kind == "number":
        return m["bignum"].vch2bn(row.given[0])
    if row.kind == "spelling":
        return m["bignum"].bn2vch(row.given[0])
    if row.kind in ("push_only", "p2sh"):
        script = m["script"].CScript(row.given[0])
        return script.is_push_only() if row.kind == "push_only" else script.is_p2sh()
    raise NotImplementedError


REASONS = {
    "vin empty": "bad-txns-vin-empty", "vout empty": "bad-txns-vout-empty", "txout.nValue negative": "bad-txns-vout-negative",
    "txout.nValue too high": "bad-txns-vout-toolarge", "txout total out of range": "bad-txns-txouttotal-toolarge",
    "duplicate inputs": "bad-txns-inputs-duplicate", "coinbase script size": "bad-cb-length",
    "prevout is null": "bad-txns-prevout-null",
}  # fmt: skip


# ---- the programs


class Program:
    """Files with functions that are changed, and how they are run."""

    def __init__(self, name: str) -> None:
        self.name = name
        self.files: Dict[str, Optional[Set[str]]] = {}
        self.answer: Callable[[Any, Row], Any]
        if name == "reading":
            self.files = {os.path.join(HERE, "making", "reading.py"): None}
            self.answer = by_reading
        else:
            folder = os.path.dirname(importlib.import_module("bitcoin.core").__file__ or "")
            self.files = {os.path.join(folder, file): names for file, names in LIB.items()}
            self.answer = by_lib
        self.trees = {path: ast.parse(_text(path)) for path in self.files}
        self.changes = [(path, change) for path, tree in self.trees.items() for change in changes(tree, self.files[path])]

    def load(self) -> Any:
        """The program as its trees are now."""
        if self.name == "reading":
            return _module("changed_reading", *self.trees.items())
        core = importlib.import_module("bitcoin.core")
        byte = {os.path.basename(path): tree for path, tree in self.trees.items()}
        bignum = _put("bitcoin.core._bignum", byte["_bignum.py"])
        script = _put("bitcoin.core.script", byte["script.py"])
        table: Set[Tuple[bytes, ...]] = set()
        evaluation = _module("bitcoin.core.scripteval", ("scripteval.py", byte["scripteval.py"]))
        key = types.SimpleNamespace(CECKey=lambda: _Key(table))
        evaluation.bitcoin = _Bitcoin(core, key, bignum)
        whole = byte["__init__.py"]
        only = ast.Module([n for n in whole.body if getattr(n, "name", "") in ("CheckTransaction", "MoneyRange")], [])
        place = dict(vars(core))
        exec(compile(ast.fix_missing_locations(only), "__init__.py", "exec"), place)
        return {
            "core": core, "script": script, "eval": evaluation, "bignum": bignum, "table": table, "check": place["CheckTransaction"],
        }  # fmt: skip


#: The files of python3-bitcoinlib, and the functions in them that are changed.
LIB: Dict[str, Optional[Set[str]]] = {
    "scripteval.py": {
        "_CastToBigNum", "_CastToBool", "_CheckSig", "_CheckMultiSig", "_UnaryOp", "_BinOp", "_CheckExec", "_EvalScript", "VerifyScript",
    },
    "script.py": {"raw_iter", "is_p2sh", "is_push_only", "FindAndDelete", "RawSignatureHash", "encode_op_pushdata"},
    "_bignum.py": {"bn_bytes", "bn2bin", "bin2bn", "bn2mpi", "mpi2bn", "mpi2vch", "bn2vch", "vch2mpi", "vch2bn"},
    "__init__.py": {"CheckTransaction", "MoneyRange"},
}  # fmt: skip


class _Key:
    """A key whose valid signatures are those of a table."""

    def __init__(self, table: Set[Tuple[bytes, ...]]) -> None:
        self.table, self.key = table, b""

    def set_pubkey(self, key: bytes) -> None:
        self.key = bytes(key)

    def verify(self, digest: bytes, signature: bytes) -> bool:
        return (self.key, bytes(signature), digest) in self.table


class _Bitcoin:
    """The package `bitcoin` with other parts."""

    def __init__(self, core: Any, key: Any, bignum: Any) -> None:
        self.core = types.SimpleNamespace(**{**vars(core), "key": key, "_bignum": bignum})


def _text(path: str) -> str:
    with open(path, encoding="utf-8") as file:
        return file.read()


def _module(name: str, *parts: Tuple[str, ast.Module]) -> Any:
    module: Any = types.ModuleType(name)
    module.__package__ = name.rpartition(".")[0]
    sys.modules["changed_reading"] = module
    for path, tree in parts:
        exec(compile(ast.fix_missing_locations(tree), path, "exec"), vars(module))
    return module


def _put(name: str, tree: ast.Module) -> Any:
    """A module in its place, so that others import it."""
    package, _, last = name.rpartition(".")
    module = _module(name, (last, tree))
    sys.modules[name] = module
    setattr(sys.modules[package], last, module)
    return module


# ---- measuring


class _Endless(BaseException):
    """A change doesn't end."""


def _end(*_: Any) -> None:
    raise _Endless


class Measure:
    """Rows that the unchanged program answers as expected, and which changes they refuse."""

    def __init__(self, name: str) -> None:
        resource.setrlimit(resource.RLIMIT_AS, (3 << 30, 3 << 30))
        sys.setrecursionlimit(2000)
        self.program = Program(name)
        whole = self.program.load()
        every = rows()
        self.rows = [row for row in every if not self._fault(whole, row)]
        self.left_out = len(every) - len(self.rows)
        signal.signal(signal.SIGVTALRM, _end)

    def _fault(self, program: Any, row: Row) -> str:
        try:
            found = self.program.answer(program, row)
        except Exception:
            return "by an error"
        return "" if type(found) is type(row.expected) and found == row.expected else "by another answer"

    def refusal(self, number: int) -> str:
        """How a change is refused, "" where it isn't. Rows that refused one before are tried first."""
        _, change = self.program.changes[number]
        change.make()
        signal.setitimer(signal.ITIMER_VIRTUAL, 30)
        try:
            program = self.program.load()
            for place, row in enumerate(self.rows):
                found = self._fault(program, row)
                if found:
                    self.rows.insert(0, self.rows.pop(place))
                    return found
            return ""
        except _Endless:
            return "without an end"
        except Exception:
            return "by an error"
        finally:
            signal.setitimer(signal.ITIMER_VIRTUAL, 0)
            change.undo()


_measure: Optional[Measure] = None


def _begin(name: str) -> None:
    global _measure
    _measure = Measure(name)


def _try(number: int) -> str:
    assert _measure is not None
    return _measure.refusal(number)


def measure(name: str, jobs: int) -> None:
    """Prints how many changes of a program the rows refuse, and the others."""
    program = Program(name)
    known = Measure(name)
    with Pool(jobs, _begin, (name,)) as pool:
        refused = pool.map(_try, range(len(program.changes)), chunksize=16)
    total, count = len(refused), len([how for how in refused if how])
    how_often = ", ".join(f"{often} {how}" for how, often in Counter(filter(None, refused)).most_common())
    print(f"{name}: {count} of {total} changes are refused, {100 * count / total:.1f} % ({how_often}), by {len(known.rows)} rows")
    print(f"  {known.left_out} rows have no say")
    for (path, change), how in zip(program.changes, refused):
        if not how:
            print(f"  {os.path.basename(path)}:{change.line}: {change.what}: {_line(path, change)}")


#: What an opcode is taken for, to see whether a row hangs on what it does: nothing, a constant, one or two elements dropped,
#: a failure, a failure wherever it stands; and the opcodes beside it.
INSTEAD: Tuple[Tuple[int, ...], ...] = (
    (), (0x51,), (0x00,), (0x75,), (0x75, 0x51), (0x75, 0x00), (0x6D,), (0x6D, 0x51), (0x6D, 0x00), (0x76,), (0x8B,), (0x8C,),
    (0x6A,), (0x7E,),
)  # fmt: skip


def _taken_for(m: Any, number: int, others: Tuple[int, ...], whole: Callable[[bytes], Any]) -> None:
    """Has a reading take an opcode for others; a push for one of a byte more, where there are none."""

    def opcodes(script: bytes) -> Any:
        for op in whole(script):
            if op.number != number:
                yield op
            elif 0 < number <= 0x4E and not others:
                yield op._replace(data=op.data + b"\7")
            else:
                yield from (m.Op(other, b"", op.start, op.end) for other in others)

    m.opcodes = opcodes


def measure_opcodes() -> bool:
    """Prints the opcodes that lack an accepted pair that would be refused if they did something else, or a refused pair that
    would be accepted. Those that fail wherever they stand have no accepted one."""
    m = Program("reading").load()
    whole, pairs_of, lacking = m.opcodes, _by_opcodes(), []
    for number in range(256):
        sides = set()
        beside = ((number - 1,), (number + 1,)) if 0x4F < number < 0xFF else ()
        for others in INSTEAD + beside:
            _taken_for(m, number, others, whole)
            sides |= {row.expected for row in pairs_of[number] if by_reading(m, row) != row.expected}
        wanted = {False} if number in reading.NEVER else {True, False}
        lacking += [(number, side) for side in wanted - sides]
    print(f"opcodes: {256 - len({number for number, _ in lacking})} of 256 have a pair on each side")
    for number, side in lacking:
        print(f"  {number:02x} has no {'accepted' if side else 'refused'} pair that hangs on it")
    return not lacking


def _by_opcodes() -> List[List[Row]]:
    """The pairs in which each opcode is, an inner script's too."""
    found: List[List[Row]] = [[] for _ in range(256)]
    for row in rows():
        if row.kind == "pair":
            numbers: Set[int] = set()
            scripts = [row.given[2], row.given[3]]
            try:
                for op in reading.opcodes(row.given[2]):
                    scripts[2:] = [op.data]
            except reading.Fails:
                pass
            for script in scripts:
                try:
                    for op in reading.opcodes(script):
                        numbers.add(op.number)
                except reading.Fails:
                    pass
            for number in numbers:
                found[number].append(row)
    return found


def _line(path: str, change: Change) -> str:
    return _text(path).split("\n")[change.line - 1].strip()
