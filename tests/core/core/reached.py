"""How often the pairs come to the edges of the rules of scripts, as the rules are asked about them (interpreter.py)."""

from collections import Counter
from typing import Iterable, Iterator, List, Tuple

from . import interpreter
from .families import NOT_RUN, TAKES
from .interpreter import Op, Run
from .scripts import OTHERS, Pairs, flags_at, valid_by

KINDS = (1, 2, 3, 0x81, 0x82, 0x83)
#: The rules of the strict shape by themselves, of a signature with its hash type.
SHAPE = ("length", "tag", "rest", "first tag", "second tag", "second place", "lengths", "empty", "negative", "padded")


def broken(s: bytes) -> List[str]:
    """The rules of the strict shape that a signature breaks, each by itself as far as the others leave it a meaning."""
    if len(s) < 9 or len(s) > 73 + 40:
        return ["length"] if 0 < len(s) else []
    first = s[3]
    found = [
        name
        for name, is_broken in (("length", len(s) > 73), ("tag", s[0] != 0x30), ("rest", s[1] != len(s) - 3), ("first tag", s[2] != 2))
        if is_broken
    ]  # fmt: skip
    if 5 + first >= len(s):
        return [*found, "second place"]
    second = s[5 + first]
    found += ["second tag"] * (s[4 + first] != 2) + ["lengths"] * (first + second + 7 != len(s))
    for part in (s[4 : 4 + first], s[6 + first : 6 + first + second]):
        found += ["empty"] * (not part) + ["negative"] * (part[:1] >= b"\x80")
        found += ["padded"] * (len(part) > 1 and part[0] == 0 and part[1] < 0x80)
    return found


class Reached(Run):
    """A run that counts what it comes to."""

    counted: "Counter[object]" = Counter()

    def run(self, script: bytes, stack: List[bytes]) -> List[bytes]:
        self._tell(f"{len(script):,} bytes", len(script) in (10000, 10001))
        return super().run(script, stack)

    def run_inner(self, stack: List[bytes]) -> List[bytes]:
        self._tell("an inner script")
        return super().run_inner(stack)

    def _tell(self, what: object, does: bool = True) -> None:
        if does:
            self.counted[what] += 1

    def _step(self, op: Op) -> None:
        if op.data is not None:
            self._tell(f"a push of {len(op.data)} bytes", len(op.data) in (520, 521))
        elif not all(self.open):
            self._tell(("not run", op.code))
        elif op.code in TAKES:
            over = len(self.stack) - TAKES[op.code]
            self._tell(("one element too few", op.code), over == -1)
            self._tell(("just enough elements", op.code), over == 0)
        if op.code in (0x79, 0x7A) and all(self.open) and len(self.stack) > 1 and len(self.stack[-1]) < 5:
            deep, most = interpreter.number(self.stack[-1]), len(self.stack) - 2
            names = {-1: "-1", 0: "0", most: "the last", most + 1: "one more"}
            self._tell(f"{'PICK' if op.code == 0x79 else 'ROLL'} of {names.get(deep)}", deep in names)
        before = len(self.stack) + len(self.other)
        super()._step(op)
        after = len(self.stack) + len(self.other)
        self._tell(f"{after:,} elements", after > before and after in (1000, 1001))

    def _tally(self, more: int) -> None:
        self._tell(f"{self.count + more} opcodes", more > 0 and self.count < 202 <= self.count + more + 1 and self.count + more < 203)
        super()._tally(more)

    def _some(self, most: int) -> List[bytes]:
        if self.stack and len(self.stack[-1]) < 5:
            count = interpreter.number(self.stack[-1])
            kind = "keys" if most == self.MOST_KEYS else "signatures"
            edges = {-1: "-1", 0: "0", most: "as many as may be", most + 1: "one more"}
            self._tell(f"{kind}: {edges.get(count)}", count in edges)
        return super()._some(most)

    def _shape(self, signature: bytes) -> None:
        if "DERSIG" in self.flags:
            rules = broken(signature)
            self._tell(("a shape that breaks one rule", rules[0] if rules else ""), len(set(rules)) == 1)
        super()._shape(signature)

    def _digest(self, code: bytes, kind: int) -> bytes:
        inputs, outputs = len(self.tx.inputs), len(self.tx.outputs)
        self._tell(("signed", kind, inputs, outputs), kind in KINDS)
        self._tell(("a hash type", kind))
        self._tell("SINGLE without an output", kind & 31 == 3 and self.input >= outputs)
        return super()._digest(code, kind)


def count(every: Iterable[Pairs], most: int) -> "Counter[object]":
    """What so many pairs of each base come to."""
    Reached.counted = Counter()
    for pairs in every:
        flags, is_valid = frozenset(flags_at(pairs.height)), valid_by(pairs.author.secp)
        for pair, said in pairs.played[:most]:
            if said not in OTHERS:
                interpreter.accepts(pair.tx, pair.input, pair.spent, flags, is_valid, Reached)
    return Reached.counted


#: What has to come at least once, beside the tables below.
EDGES = (
    "10,000 bytes", "10,001 bytes", "a push of 520 bytes", "a push of 521 bytes", "201 opcodes", "202 opcodes", "1,000 elements",
    "1,001 elements", *(f"{kind}: {edge}" for kind in ("keys", "signatures") for edge in ("-1", "0", "as many as may be", "one more")),
    *(f"{name} of {edge}" for name in ("PICK", "ROLL") for edge in ("-1", "0", "the last", "one more")), "an inner script",
    "SINGLE without an output",
)  # fmt: skip


def lacking(counted: "Counter[object]") -> Iterator[str]:
    """Prints how often each edge came, and gives those that never did."""
    print("  edges of scripts, as often as the pairs came to them:")
    print("    " + "; ".join(f"{edge} {counted[edge]}" for edge in EDGES))
    tables: Tuple[Tuple[str, List[object]], ...] = (
        ("each opcode with one element too few", [("one element too few", code) for code in TAKES]),
        ("each opcode with just enough elements", [("just enough elements", code) for code in TAKES]),
        ("each opcode where it isn't run", [("not run", code) for code in NOT_RUN]),
        ("each rule of the strict shape broken alone", [("a shape that breaks one rule", rule) for rule in SHAPE]),
        ("six hash types with 1 to 4 inputs and outputs", [("signed", k, i, o) for k in KINDS for i in range(1, 5) for o in range(1, 5)]),
    )
    for name, keys in tables:
        print(f"    {name}: {min(counted[key] for key in keys)} times or more, {sum(counted[key] for key in keys)} in all")
        yield from (f"{name}: never {key}" for key in keys if not counted[key])
    print(f"    hash types: {sum(1 for kind in range(256) if counted[('a hash type', kind)])} of 256")
    yield from (f"never {edge}" for edge in EDGES if not counted[edge])
