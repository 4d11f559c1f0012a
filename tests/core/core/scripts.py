"""Random pairs of input and output scripts, put to both: does the one spend the other?"""

import random
import struct
from collections import Counter
from dataclasses import dataclass
from typing import Callable, Dict, Iterator, List, NamedTuple, Optional, Sequence, Set, Tuple, Type

from wakotehu import consensus
from wakotehu.encoding import (
    Block, Header, Input, Output, Transaction, coinbase, double_sha, hash160, merkle_root, push, push_number, signature_digest, subsidy,
    write_block, write_transaction,
)  # fmt: skip
from wakotehu.signatures import Secp256k1

from . import interpreter
from .compare import Bench
from .families import Families, Plan
from .peer import has_work
from .spelling import BITS, Logical
from .trees import FINAL, TRUE

#: Which rules are in force in blocks of a height, by the peer's heights.
def flags_at(height: int) -> Set[str]:
    return {name for name, first in (("CSV", 432), ("DERSIG", 1251), ("CLTV", 1351)) if height >= first}


class Pair(NamedTuple):
    """A spend: what is spent, the transaction that spends it, and by which input; the others spend what anyone may."""

    spent: bytes
    tx: Transaction
    input: int


#: Numbers round the edges of script numbers and of locks.
EDGES = (
    0, 1, -1, 2, 16, 17, 75, 76, 127, 128, -127, -128, 255, 256, 32767, 32768, -32768, 65535, 499999999, 500000000,
    2**31 - 1, -(2**31 - 1), 2**31, -(2**31), 2**32, 2**39 - 1, 2**40,
)  # fmt: skip

SECRETS = [n.to_bytes(32, "big") for n in (3, 5, 7)]


def number(value: int) -> bytes:
    """A script number, spelled shortest."""
    if value == 0:
        return b""
    size = abs(value)
    out = bytearray(size.to_bytes((size.bit_length() + 7) // 8, "little"))
    if out[-1] & 128:
        out.append(0)
    if value < 0:
        out[-1] |= 128
    return bytes(out)


@dataclass
class Author:
    """Writes script pairs at random."""

    chance: random.Random

    def __post_init__(self) -> None:
        self.secp = Secp256k1()
        self.keys = [self.secp.public_key(s, compressed) for s in SECRETS for compressed in (True, False)]
        #: The inner scripts of outputs that pay to a script hash.
        self.inner: Dict[bytes, bytes] = {}

    # ---- pieces

    def data(self) -> bytes:
        kind = self.chance.random()
        if kind < 0.5:
            value = number(self.chance.choice(EDGES))
            return value + b"\0" if kind < 0.03 else value
        if kind < 0.6:
            return self.chance.choice((b"\x80", b"\x00", b"\x00\x80", b"\x01\x00", b"\x00\x00\x80"))
        if kind < 0.97:
            return self.chance.randbytes(self.chance.choice((1, 2, 4, 5, 20, 32, 33)))
        return self.chance.randbytes(self.chance.choice((75, 76, 255, 256, 519, 520, 521)))

    def pushed(self) -> bytes:
        data = self.data()
        if data and len(data) < 5 and self.chance.random() < 0.1:
            wide = self.chance.choice((1, 2, 4))
            return bytes([{1: 0x4C, 2: 0x4D, 4: 0x4E}[wide]]) + len(data).to_bytes(wide, "little") + data
        if len(data) == 1 and 1 <= data[0] <= 16 and self.chance.random() < 0.7:
            return bytes([0x50 + data[0]])
        return push(data) if data else b"\x00"

    def any_code(self) -> bytes:
        """Any opcodes."""
        out = b""
        for _ in range(self.chance.randrange(1, 14)):
            out += self.pushed() if self.chance.random() < 0.5 else bytes([self.chance.randrange(0x4F, 0xBC)])
        return out

    def counted_code(self) -> bytes:
        """Operations with as many elements as they take, most often."""
        out = b""
        for _ in range(self.chance.randrange(1, 5)):
            takes, code = self.chance.choice(OPERATIONS)
            takes += self.chance.choice((0, 0, 0, 0, -1, 1))
            out += b"".join(self.pushed() for _ in range(max(takes, 0))) + bytes([code])
        return out

    def branching_code(self) -> bytes:
        out, depth = b"", 0
        for _ in range(self.chance.randrange(2, 16)):
            draw = self.chance.random()
            if draw < 0.3:
                out += self.pushed() + self.chance.choice((b"\x63", b"\x64"))
                depth += 1
            elif draw < 0.5:
                out += b"\x67"
            elif draw < 0.65 and depth:
                out += b"\x68"
                depth -= 1
            elif draw < 0.75:
                out += bytes([self.chance.choice((0x50, 0x62, 0x65, 0x66, 0x7E, 0x89, 0x6A, 0xBA, 0xFF, 0xAB))])
            else:
                out += self.pushed()
        return out + b"\x68" * (depth if self.chance.random() < 0.9 else depth - 1)

    def long_code(self) -> bytes:
        """At the limits: operations, elements, bytes."""
        kind = self.chance.randrange(5)
        if kind == 0:
            return b"\x61" * self.chance.choice((200, 201, 202)) + b"\x51"
        if kind == 1:
            return b"\x51" * self.chance.choice((999, 1000, 1001))
        if kind == 2:
            return push(bytes(self.chance.choice((519, 520, 521)))) + b"\x75\x51"
        if kind == 3:
            count = self.chance.choice((998, 999, 1000))
            return b"\x51" * count + b"\x6b" * self.chance.choice((0, 1, 2)) + b"\x76"
        rest = self.chance.choice((9999, 10000, 10001)) - 1
        return (push(bytes(500)) + b"\x75") * (rest // 504) + push(bytes(rest % 504 - 4)) + b"\x75\x51"

    def edge_code(self) -> bytes:
        """Numbers that opcodes take, at their edges."""
        kind = self.chance.randrange(5)
        if kind == 4:
            condition = self.chance.choice((b"\x00", b"\x51", b"\x01\x80", b"\x01\x00", b"\x02\x00\x80", b"\x02\x80\x00"))
            return condition + self.chance.choice((b"\x63", b"\x64")) + b"\x51\x67\x00" * self.chance.choice((1, 1, 2)) + b"\x68"
        if kind < 2:
            count = self.chance.randrange(1, 5)
            n = self.chance.choice((0, count - 1, count - 1, count, -1))
            code = b"\x79" if kind else b"\x7a"
            values = b"".join(bytes([0x51 + k]) for k in range(count))
            return values + (push(number(n)) if n else b"\x00") + code + bytes([0x51 + self.chance.randrange(count)]) + b"\x87"
        keys, wanted = self.chance.choice(((20, 0), (20, 1), (21, 0), (21, 0), (1, 2), (2, 3), (0, 1), (0, 0), (3, 0), (3, 3)))
        spelled = [push(number(n)) if n else b"\x00" for n in (wanted, keys)]
        many = b"\x00" * (1 + wanted) + spelled[0] + b"\x51" * keys + spelled[1] + b"\xae"
        fill = 0 if kind == 2 else self.chance.choice((200 - keys, 201 - keys, 199 - keys))
        # Signatures of no bytes aren't valid.
        return b"\x61" * max(fill - (wanted > 0), 0) + many + b"\x91" * (wanted > 0)

    def lock_code(self) -> bytes:
        value = self.chance.choice(EDGES + (100, 1296688602, 1 << 22, (1 << 22) | 5, 1 << 31))
        return (push(number(value)) if value else b"\x00") + self.chance.choice((b"\xb1", b"\xb2")) + b"\x75\x51"

    def code(self) -> bytes:
        writers: Sequence[Callable[[], bytes]] = (
            self.any_code, self.any_code, self.counted_code, self.counted_code, self.branching_code, self.lock_code,
        )  # fmt: skip
        draw = self.chance.random()
        if draw < 0.1:
            return self.long_code()
        if draw < 0.22:
            return self.edge_code()
        code = self.chance.choice(writers)()
        if self.chance.random() < 0.5:
            code += b"\x51"
        return code[: self.chance.randrange(len(code) + 1)] if self.chance.random() < 0.05 else code

    # ---- outputs

    def output(self) -> bytes:
        """What is spent."""
        draw = self.chance.random()
        if draw < 0.35:
            return self.signed_output()
        code = self.signed_output() if 0.45 < draw < 0.55 else self.code()
        if draw < 0.55:
            script = b"\xa9\x14" + hash160(code) + b"\x87"
            self.inner[script] = code
            return script
        return code[:10000]

    def signed_output(self) -> bytes:
        kind = self.chance.randrange(5)
        key = self.key()
        if kind == 0:
            return push(key) + b"\xac"
        if kind == 1:
            return b"\x76\xa9\x14" + hash160(key) + b"\x88\xac"
        if kind == 2:
            return push(key) + b"\xad" + self.chance.choice((b"\xab", b"")) + push(self.key()) + b"\xac"
        if kind == 3:
            return push(key) + self.chance.choice((b"\xab\xac", b"\x00\x63\xab\x68\xac", b"\xac\x91", b"\xac\xab"))
        keys = [self.key() for _ in range(self.chance.choice((1, 2, 3, 3, 5)))]
        wanted = self.chance.randrange(len(keys) + 1)
        count = len(keys) + self.chance.choice((0, 0, 0, 0, 0, 0, 1, -1))
        return push_number(wanted) + b"".join(map(push, keys)) + push_number(max(count, 0)) + self.chance.choice((b"\xae", b"\xaf\x51"))

    def key(self) -> bytes:
        key = self.chance.choice(self.keys)
        draw = self.chance.random()
        if draw < 0.03:
            return b"\x06" + key[1:] if len(key) == 65 else b"\x05" + key[1:]
        return key[:-1] if draw < 0.05 else key

    # ---- inputs

    def plan(self) -> Plan:
        """An output at random, and inputs at random for it."""
        spent = self.output()
        return Plan(spent, lambda tx, at: self.input(spent, tx, at))

    def spend(
        self, plan: Plan, outpoint: Tuple[bytes, int], others: Sequence[Tuple[bytes, int]], value: int, height: int, time: int
    ) -> Pair:
        """A transaction that spends an output, and up to three others, and is final at a height."""
        version = self.chance.choice((1, 2, 2, 3, -1)) if plan.version is None else plan.version
        sequence, lock = plan.sequence, plan.lock_time
        if sequence is None:
            sequence = self.chance.choice((FINAL, FINAL - 1, 0, 1, 5, 1 << 22, (1 << 22) | 5, 1 << 31, 65535))
            if height >= 432 and not 0 <= version < 2 and not sequence & 1 << 31:
                # The lock of BIP 68 has to be met by a coin of the block below.
                sequence &= 1 if self.chance.random() < 0.9 else FINAL & ~(1 << 22)
        if lock is None:
            locks = (0, 0, 1, 100, height - 1, time - 100000) if sequence != FINAL else (0, 2**32 - 1, 600000000)
            lock = self.chance.choice(locks)
        outputs = [Output(value // 4, TRUE), Output(0, b"\x52"), Output(1, TRUE), Output(2, TRUE)]
        outputs = outputs[: self.chance.choice((1, 2, 3, 4))]
        of = (FINAL,) if sequence == FINAL else (FINAL, FINAL - 1, 0, 1, (1 << 31) | 5)
        more = self.chance.sample(others, self.chance.choice((0, 1, 2, 3)))
        inputs = [Input(*other, b"", self.chance.choice(of)) for other in more]
        at = self.chance.randrange(len(inputs) + 1)
        inputs.insert(at, Input(*outpoint, b"", sequence))
        tx = Transaction(version, inputs, outputs, lock)
        inputs[at] = inputs[at]._replace(script=plan.own(tx, at))
        return Pair(plan.spent, tx, at)

    def input(self, spent: bytes, tx: Transaction, at: int) -> bytes:
        if spent in self.inner and self.chance.random() < 0.95:
            inner = self.inner[spent]
            own = self.input(inner, tx, at)
            return own + (push(inner) if inner else b"\x00") if self.chance.random() < 0.97 else own + self.pushed()
        if b"\xac" in spent[-3:] or spent[-1:] == b"\xae" or spent[-2:-1] in (b"\xaf", b"\xac"):
            if self.chance.random() < 0.95:
                return self.signatures(spent, tx, at)
        draw = self.chance.random()
        if draw < 0.4:
            return b""
        if draw < 0.9:
            return b"".join(self.pushed() for _ in range(self.chance.randrange(4)))
        return self.code()

    def signatures(self, spent: bytes, tx: Transaction, at: int) -> bytes:
        count = 1
        out = b""
        if spent[-1:] == b"\xae" or spent[-2:-1] == b"\xaf":
            count = spent[0] - 0x50 if 0x51 <= spent[0] <= 0x60 else 0
            out = self.chance.choice((b"\x00", b"\x00", b"\x00", b"\x51", b""))
        if b"\xad" in spent:
            count = 2
        count += self.chance.choice((0,) * 12 + (1, -1))
        secrets = sorted(self.chance.choices(SECRETS, k=max(count, 0)))
        for secret in secrets:
            out += self.signature(spent, tx, at, secret)
        if spent[:1] == b"\x76":
            out += push(self.chance.choice(self.keys))
        return out

    def signature(self, spent: bytes, tx: Transaction, at: int, secret: bytes) -> bytes:
        kind = self.chance.choice((1, 1, 2, 3, 0x81, 0x82, 0x83, self.chance.randrange(256)))
        code = spent
        if b"\xab" in spent and self.chance.random() < 0.5:
            code = spent[spent.index(b"\xab") + 1 :]
        signature = self.secp.sign(secret, signature_digest(tx, at, code, kind))
        draw = self.chance.random()
        if draw < 0.25:
            signature = self.altered(signature)
        full = signature + bytes([kind])
        if draw > 0.97:
            full = self.chance.choice((b"", full[:-1], full + b"\0", b"\x30"))
        return push(full) if full else b"\x00"

    def altered(self, signature: bytes) -> bytes:
        """Another spelling, or another signature."""
        data = bytearray(signature)
        kind = self.chance.randrange(6)
        if kind == 0:
            data[self.chance.randrange(len(data))] ^= 1 << self.chance.randrange(8)
        elif kind == 1:
            data.append(0)
        elif kind == 2:
            length = data[3]
            data[3] += 1
            data[1] += 1
            data[4:4] = b"\0"
            if self.chance.random() < 0.3:
                data[3] = length
        elif kind == 3:
            data[1:2] = b"\x81" + data[1:2]
        elif kind == 4:
            length = data[3]
            order = 0xFFFFFFFFFFFFFFFFFFFFFFFFFFFFFFFEBAAEDCE6AF48A03BBFD25E8CD0364141
            low = int.from_bytes(data[6 + length :], "big")
            high = number(order - low)[::-1]
            data[5 + length :] = bytes([len(high)]) + high
            data[1] = len(data) - 2
        else:
            data[0] ^= 1
        return bytes(data)


#: Operations, each with how many elements it takes.
OPERATIONS: Tuple[Tuple[int, int], ...] = (
    (1, 0x69), (0, 0x6A), (1, 0x6B), (0, 0x6C), (2, 0x6D), (2, 0x6E), (3, 0x6F), (4, 0x70), (6, 0x71), (4, 0x72), (1, 0x73),
    (0, 0x74), (1, 0x75), (1, 0x76), (2, 0x77), (2, 0x78), (3, 0x79), (3, 0x7A), (3, 0x7B), (2, 0x7C), (2, 0x7D), (1, 0x82),
    (2, 0x87), (2, 0x88), (1, 0x8B), (1, 0x8C), (1, 0x8F), (1, 0x90), (1, 0x91), (1, 0x92), (2, 0x93), (2, 0x94), (2, 0x9A),
    (2, 0x9B), (2, 0x9C), (2, 0x9D), (2, 0x9E), (2, 0x9F), (2, 0xA0), (2, 0xA1), (2, 0xA2), (2, 0xA3), (2, 0xA4), (3, 0xA5),
    (1, 0xA6), (1, 0xA7), (1, 0xA8), (1, 0xA9), (1, 0xAA), (2, 0xAC), (2, 0xAD), (0, 0x61), (0, 0xB0), (0, 0xB3),
)  # fmt: skip


def accepts(pair: Pair, flags: Set[str], secp: Secp256k1) -> bool:
    """Whether ours accepts the spend by some rules: libsecp256k1 is asked about each signature that the scripts come to."""
    data, valid, invalid = write_transaction(pair.tx), b"", b""
    while True:
        answer = consensus.verify_known(data, pair.input, pair.spent, flags, valid, invalid)
        if isinstance(answer, bool):
            return answer
        if secp.valid(answer):
            valid += answer.line
        else:
            invalid += answer.line


#: By one thread the peer answers why a script fails, in words; by several only that one does.
TELLING = ("-par=1",)


def failure(pair: Pair, flags: Set[str], secp: Secp256k1) -> Optional[consensus.ScriptError]:
    """Why ours refuses the spend by some rules and BIP 16, as `accepts`."""
    data, valid, invalid = write_transaction(pair.tx), b"", b""
    while True:
        answer = consensus.verify_script(data, pair.input, pair.spent, flags | {"P2SH"}, valid, invalid)
        if not isinstance(answer, consensus.Triple):
            return answer
        if secp.valid(answer):
            valid += answer.line
        else:
            invalid += answer.line


def ours(pair: Pair, height: int, secp: Secp256k1) -> bool:
    """Whether ours accepts the spend in a block of a height."""
    return accepts(pair, flags_at(height), secp)


def proposal(pair: Pair, value: int, height: int, time: int, parent: bytes) -> bytes:
    """A block with the spend on the peer's best block, without work."""
    fees = value * len(pair.tx.inputs) - sum(out.value for out in pair.tx.outputs)
    txs = [coinbase(height, subsidy(height) + fees), pair.tx]
    return write_block(Block(Header(4, parent, merkle_root([tx.id for tx in txs]), time, BITS, 0), txs))


class Disagreement(NamedTuple):
    """A pair that one accepts and the other doesn't."""

    height: int
    pair: Pair
    ours: bool
    theirs: str

    def __str__(self) -> str:
        tx = self.pair.tx
        return (
            f"at height {self.height} ours {'accepts' if self.ours else 'refuses'}, Core says {self.theirs}\n"
            f"  spent {self.pair.spent.hex()}\n  transaction {write_transaction(tx).hex()}"
        )


#: How many coins there are for other inputs.
OTHER_COINS = 8

#: How many outputs a block has, how often each is spent, and the share of pairs that are of no family.
OUTPUTS, SPENDS, AT_RANDOM = 500, 2, 0.2

#: Answers that aren't about scripts: the coin isn't there (it can't be spent at all), or a lock of BIP 68 isn't met.
OTHERS = ("bad-txns-inputs-missingorspent", "bad-txns-nonfinal")


@dataclass
class Pairs:
    """Pairs over outputs that stand in a block on a bench's base, and what the peer says of each: of families mostly."""

    bench: Bench
    seed: int

    def __post_init__(self) -> None:
        chance = random.Random(self.seed)
        self.author = Author(chance)
        self.height = self.bench.height + 2
        self.time = self.bench.maker.base[-1].time + 600
        self.families = Families(chance, self.height, self.time)
        self.played: List[Tuple[Pair, str]] = []
        self._value = 0

    def play(self, count: int) -> None:
        """So many pairs, over half as many outputs."""
        plans = [self._plan() for _ in range(max(1, count // SPENDS))]
        for first in range(0, len(plans), OUTPUTS):
            self._play_over(plans[first : first + OUTPUTS])

    def _plan(self) -> Plan:
        return self.author.plan() if self.author.chance.random() < AT_RANDOM else self.families.plan()

    def _play_over(self, plans: List[Plan]) -> None:
        bench = self.bench
        coin = next(c for c in bench.maker.coins if c.kind == "true")
        value = self._value = coin.value // (len(plans) + OTHER_COINS)
        made = [Output(value, script) for script in (*(plan.spent for plan in plans), *[TRUE] * OTHER_COINS)]
        funding = Transaction(1, [Input(coin.id, coin.index, b"", FINAL)], made, 0)
        others = [(funding.id, n) for n in range(len(plans), len(made))]
        above = self.time
        # A coinbase of its own, so that no two blocks are equal.
        self.seed += 1
        top = coinbase(bench.height + 1, subsidy(bench.height + 1), TRUE, struct.pack("<Q", self.seed % 2**64))
        blocks = [*bench.maker.base, Logical(bench.height - 1, above, [top, funding])]
        id, data = bench.base.theirs.copy(0).spell(blocks, bench.height)
        if bench.peer.submit(data) != "accepted":
            raise RuntimeError("the block with the outputs is refused")
        pairs = [
            self.author.spend(plan, (funding.id, n), others, value, self.height, above)
            for _ in range(SPENDS)
            for n, plan in enumerate(plans)
        ]
        for first in range(0, len(pairs), 200):
            part = pairs[first : first + 200]
            answers = bench.peer.propose([proposal(p, value, self.height, above + 600, id) for p in part])
            self.played += zip(part, answers)
        for pair, said in self.played[-len(pairs) :: max(1, len(pairs) // 4)]:
            self._submit(blocks, id, pair, said)
        bench.peer.mark("invalidate", id)

    def _submit(self, blocks: List[Logical], parent: bytes, pair: Pair, said: str) -> None:
        """Submits a pair's block with work, which has to be answered as its proposal was."""
        bench = self.bench
        bare = proposal(pair, self._value, self.height, blocks[-1].time + 600, parent)
        header = bytearray(bare[:80])
        while not has_work(bytes(header)):
            header[76:80] = struct.pack("<I", struct.unpack("<I", header[76:80])[0] + 1)
        answer = bench.peer.submit(bytes(header) + bare[80:])
        if (answer == "accepted") != (said == "accepted"):
            raise RuntimeError(f"a block is answered {answer}, and its proposal {said}")
        bench.peer.mark("invalidate", double_sha(bytes(header)))

    def misnamed(self, names: "Counter[str]") -> Iterator[str]:
        """The pairs whose failure has another text than the peer's; the names of failures are counted."""
        for pair, said in self.played:
            if said in OTHERS:
                continue
            found = failure(pair, flags_at(self.height), self.author.secp)
            text = "accepted" if found is None else found.text
            if found is not None:
                names[found.name] += 1
            if text != said.partition("(")[2][:-1] and text != said:
                yield f"ours says {text}, Core says {said}\n  spent {pair.spent.hex()}\n  transaction {write_transaction(pair.tx).hex()}"

    def differing(self, accepts: Callable[[Pair], bool]) -> Iterator[Disagreement]:
        """The pairs of which something else is said."""
        for pair, said in self.played:
            if said in OTHERS:
                continue
            yes = accepts(pair)
            if yes != (said == "accepted"):
                yield Disagreement(self.height, pair, yes, said)


def valid_by(secp: Secp256k1) -> interpreter.IsValid:
    """Whether a signature is valid, asked once."""
    known: Dict[Tuple[bytes, bytes, bytes], bool] = {}

    def is_valid(*triple: bytes) -> bool:
        if triple not in known:
            known[triple] = secp.valid(consensus.Triple(*triple))  # type: ignore[index]
        return known[triple]  # type: ignore[index]

    return is_valid


def by_rules(height: int, secp: Secp256k1, run: Type[interpreter.Run] = interpreter.Run) -> Callable[[Pair], bool]:
    """What the rules say, as they are written in Python, or a wrong reading of them."""
    flags, is_valid = frozenset(flags_at(height)), valid_by(secp)
    return lambda pair: interpreter.accepts(pair.tx, pair.input, pair.spent, flags, is_valid, run)


def right(height: int, secp: Secp256k1) -> Callable[[Pair], bool]:
    """What ours says at a height."""
    return lambda pair: ours(pair, height, secp)


def wrong(height: int, secp: Secp256k1) -> Dict[str, Callable[[Pair], bool]]:
    """What ours would say by wrong rules, each of which has to be found."""

    def by(flags: Set[str]) -> Callable[[Pair], bool]:
        return lambda pair: accepts(pair, flags, secp)

    known = flags_at(height)
    rules = {f"{name} isn't in force": by(known - {name}) for name in sorted(known)}
    rules.update({f"{name} is in force": by(known | {name}) for name in sorted(consensus.ALL - known)})
    rules["no signature is valid"] = lambda pair: consensus.verify(write_transaction(pair.tx), pair.input, pair.spent, known, b"")
    return rules
