"""Lists of blocks and commands on a base: cases of each rule, dealt in turn (cases.py), and then blocks, spends and marks at
random."""

import random
import struct
from dataclasses import dataclass
from typing import Dict, FrozenSet, Iterable, List, NamedTuple, Optional, Sequence, Set, Tuple

from wakotehu.encoding import GENESIS, Input, Output, Transaction, coinbase, hash160, push, push_number, signature_digest, subsidy
from wakotehu.signatures import Secp256k1

from . import cases
from .spelling import ROOT, Logical

FINAL = 0xFFFFFFFF
TRUE = b"\x51"
SECRET = (7).to_bytes(32, "big")


class Command(NamedTuple):
    """A command of a list: "submit" at a moment, or a mark; of the block of this number."""

    word: str
    block: int
    now: int = 0


class Made(NamedTuple):
    """An output, with how it is spent."""

    id: bytes
    index: int  # type: ignore[assignment]  # tuples have a method of this name, which no one asks of a coin
    value: int
    script: bytes
    height: int
    coinbase: bool
    kind: str


class List_(NamedTuple):
    """A list: blocks by number, the first of them the base, and what is asked."""

    blocks: List[Logical]
    base: int
    commands: List[Command]
    table: List[str]
    outpoints: List[Tuple[bytes, int]]
    seed: int = 0
    salt: int = 0


class Scripts:
    """Outputs of each kind, and the scripts that spend them."""

    def __init__(self) -> None:
        self.secp = Secp256k1()
        self.key = self.secp.public_key(SECRET)
        self.lines: Dict[str, None] = {}
        self.kinds: Dict[bytes, str] = {}
        self.inner: Dict[bytes, bytes] = {}

    def make(self, kind: str, height: int) -> bytes:
        script = self._make(kind, height)
        self.kinds[script] = kind
        return script

    def hashed(self, inner: bytes) -> bytes:
        """An output of this inner script."""
        script = b"\xa9\x14" + hash160(inner) + b"\x87"
        self.kinds[script], self.inner[script] = "hash", inner
        return script

    def _make(self, kind: str, height: int) -> bytes:
        if kind == "true":
            return TRUE
        if kind == "hash":
            return self.hashed(TRUE)
        if kind == "key":
            return push(self.key) + b"\xac"
        if kind == "key-hash":
            return b"\x76\xa9\x14" + hash160(self.key) + b"\x88\xac"
        if kind == "two-of-three":
            keys = (push(self.key) for _ in range(3))
            return b"\x52" + b"".join(keys) + b"\x53\xae"
        if kind == "height-lock":
            return push_number(max(height, 1)) + b"\xb1\x75\x51"
        if kind == "age-lock":
            return push_number(2) + b"\xb2\x75\x51"
        if kind == "false":
            return b"\x00"
        raise ValueError(kind)

    def spend(self, tx: Transaction, input: int, made: Made) -> bytes:
        """The input's script, with its signatures in the table."""
        if made.kind == "hash":
            return push(self.inner[made.script])
        if made.kind not in ("key", "key-hash", "two-of-three"):
            return b""
        digest = signature_digest(tx, input, made.script, 1)
        signature = self.secp.sign(SECRET, digest)
        self.lines[f"{self.key.hex()} {signature.hex()} {digest.hex()}"] = None
        signed = push(signature + b"\1")
        if made.kind == "key":
            return signed
        return signed + push(self.key) if made.kind == "key-hash" else b"\x00" + signed + signed


#: Kinds of outputs that are spent without a lock.
SIMPLE = ("true", "hash", "key", "key-hash", "two-of-three")
KINDS = ("true", "true", "true", "hash", "key", "key-hash", "two-of-three", "height-lock", "age-lock", "false")


def made_by(tx: Transaction, height: int, scripts: Scripts) -> List[Made]:
    """The outputs of a transaction in a block of a height."""
    is_first, id = tx.is_coinbase, tx.id
    return [
        Made(id, n, out.value, out.script, height, is_first, scripts.kinds.get(out.script, "false"))
        for n, out in enumerate(tx.outputs)
    ]


class Maker:
    """Makes a base once, and lists on it by seed."""

    def __init__(self, height: int) -> None:
        self.height = height
        self.scripts = Scripts()
        self.base: List[Logical] = []
        self.coins: List[Made] = []
        for h in range(1, height + 1):
            kind = KINDS[h % 7]
            tx = coinbase(h, subsidy(h), self.scripts.make(kind, h))
            if h % 3 == 0:
                first = tx.outputs[0]
                tx = tx._replace(outputs=[first._replace(value=first.value - 1000), Output(1000, self.scripts.make("true", h))])
            self.base.append(Logical(h - 2 if h > 1 else ROOT, GENESIS.time + 600 * h, [tx]))
            self.coins += made_by(tx, h, self.scripts)

    def list(self, seed: int, salt: int = 0, size: int = 8) -> List_:
        """The list of a seed. With another salt it is the same list of other blocks."""
        return Making(self, seed, salt, size).make()


@dataclass
class Branch:
    """What a branch has at a block: its coins that this list made, those of the base that it spent, its times."""

    height: int
    made: Dict[Tuple[bytes, int], Made]
    spent: FrozenSet[Tuple[bytes, int]]
    times: Tuple[int, ...]

    @property
    def median(self) -> int:
        return sorted(self.times)[len(self.times) // 2]


class Making:
    """A list as it is made."""

    def __init__(self, maker: Maker, seed: int, salt: int, size: int) -> None:
        self.maker, self.chance, self.size = maker, random.Random(seed), size
        self.seed, self.salt = seed, salt
        self.scripts = maker.scripts
        self.blocks = list(maker.base)
        self.first = len(self.blocks)
        self.branches: Dict[int, Branch] = {}
        times = tuple(block.time for block in maker.base[-11:])
        self.root = len(self.blocks) - 1 if self.blocks else ROOT
        self.branches[self.root] = Branch(maker.height, {}, frozenset(), (GENESIS.time, *times)[-11:])
        #: The best block so far, as long as nothing is marked.
        self.tip = self.root
        #: Blocks on which the answers are mostly the same.
        self.refused: Set[int] = set()
        self.commands: List[Command] = []
        self.outpoints: List[Tuple[bytes, int]] = []
        # So that no two coinbases are equal.
        self.extra = 0

    def make(self) -> List_:
        self.scripts.lines = {}
        if self.seed % 16 == 0:
            self._deep()
        else:
            cases.deal(self)
        for _ in range(self.size):
            draw = self.chance.random()
            if draw < 0.7 or len(self.blocks) == self.first:
                self._block()
            elif draw < 0.8:
                self.again(self.chance.randrange(self.first, len(self.blocks)))
            else:
                word = self.chance.choice(("invalidate", "reconsider", "precious", "precious"))
                self.mark(word, self.chance.randrange(self.first, len(self.blocks)))
        return List_(
            self.blocks, self.first, self.commands, list(self.scripts.lines), self.outpoints[-40:], self.seed, self.salt
        )

    def _deep(self) -> None:
        """Two branches of some 60 blocks: the second takes the first back, or has a block in it that fails."""
        lengths = self.chance.choice(((60, 61), (59, 61), (61, 61)))
        for length, spoils in zip(lengths, (False, self.chance.random() < 0.5)):
            above = self.root
            fails = self.chance.randrange(length)
            for number in range(length):
                above = self.lay(self.template(above, fee=int(spoils and number == fails)))

    def again(self, number: int) -> None:
        """Submits a block again."""
        self.commands.append(Command("submit", number, self._now(self.blocks[number])))

    def mark(self, word: str, number: int) -> None:
        """`invalidate`, `reconsider` or `precious`. A mark of the base would undo the lists before it in the peer."""
        if number >= self.first:
            self.commands.append(Command(word, number))

    def _now(self, block: Logical) -> int:
        """A moment at which a block isn't too new, by the least there is now and then."""
        return block.time - 7200 if self.chance.random() < 0.1 else block.time

    # ---- blocks

    def template(self, parent: int, txs: Sequence[Transaction] = (), fee: int = 0) -> Logical:
        """A block on another, by all rules, whose coinbase takes this fee."""
        branch = self.branches[parent]
        height = branch.height + 1
        last = branch.times[-1]
        time = self.chance.choice((branch.median + 1, last + 600, last + 1, branch.median + 600))
        self.extra += 1
        extra = struct.pack("<QHH", self.seed % 2**64, self.salt % 2**16, self.extra)
        script = self.scripts.make(self.chance.choice(KINDS), height)
        return Logical(parent, max(time, branch.median + 1), [coinbase(height, subsidy(height) + fee, script, extra), *txs])

    def lay(self, block: Logical, is_valid: bool = True, now: Optional[int] = None) -> int:
        """Puts a block into the list and submits it. Only on one that is (or may be) kept others come."""
        number = len(self.blocks)
        self.blocks.append(block)
        self.commands.append(Command("submit", number, self._now(block) if now is None else now))
        self.branches[number] = self._after(self.branches[block.parent], block)
        if not is_valid or block.parent in self.refused:
            self.refused.add(number)
        if is_valid and self.branches[number].height > self.branches[self.tip].height:
            self.tip = number
        return number

    def _after(self, branch: Branch, block: Logical) -> Branch:
        height, made, spent = branch.height + 1, dict(branch.made), set(branch.spent)
        for tx in block.transactions:
            spent |= {(i.id, i.index) for i in tx.inputs}
            for coin in made_by(tx, height, self.scripts):
                made[(coin.id, coin.index)] = coin
                self.outpoints.append((coin.id, coin.index))
        return Branch(height, made, frozenset(spent), (*branch.times, block.time)[-11:])

    def _block(self) -> None:
        """A block on some other, with spends at random."""
        parents = list(self.branches)
        weights = [0.2 if n in self.refused else 5 + 8 * (n == self.tip) for n in parents]
        parent = self.chance.choices(parents, weights)[0]
        branch = self.branches[parent]
        txs: List[Transaction] = []
        spent, made, fees = set(branch.spent), dict(branch.made), 0
        for _ in range(self.chance.choice((0, 0, 1, 1, 2, 3))):
            tx = self._spend(branch, branch.height + 1, branch.median, spent, made)
            if tx is not None:
                txs.append(tx[0])
                fees += tx[1]
        self.lay(self.template(parent, txs, fees))

    # ---- spends

    def coins(self, parent: int) -> List[Made]:
        """The coins of a branch that a transaction on it may spend without more ado."""
        branch = self.branches[parent]
        return [
            coin
            for coin in (*self.maker.coins, *branch.made.values())
            if (coin.id, coin.index) not in branch.spent
            and (not coin.coinbase or coin.height <= branch.height - 99)
            and coin.kind in SIMPLE
            and coin.value >= 100
        ]

    def pay(
        self,
        coins: Sequence[Made],
        outputs: Optional[List[Output]] = None,
        version: int = 1,
        lock: int = 0,
        sequences: Iterable[int] = (),
    ) -> Transaction:
        """A signed transaction that spends coins; by default to one output."""
        of = [*sequences] or [FINAL] * len(coins)
        inputs = [Input(c.id, c.index, b"", s) for c, s in zip(coins, of)]
        total = sum(coin.value for coin in coins)
        tx = Transaction(version, inputs, [Output(total, TRUE)] if outputs is None else outputs, lock)
        signed = [self.scripts.spend(tx, n, coin) for n, coin in enumerate(coins)]
        return tx._replace(inputs=[i._replace(script=s) for i, s in zip(tx.inputs, signed)])

    def _coins(self, branch: Branch, height: int, spent: Set[Tuple[bytes, int]], made: Dict[Tuple[bytes, int], Made]) -> List[Made]:
        ripe = height - 100 if self.chance.random() < 0.97 else height - 99
        ready = [coin for coin in self.maker.coins if coin.height <= ripe]
        old = self.chance.choices(ready, k=3) if ready else []
        new = [coin for coin in made.values() if not coin.coinbase or coin.height <= ripe]
        found = [coin for coin in old + new if (coin.id, coin.index) not in spent]
        return [coin for coin in found if coin.kind != "false" or self.chance.random() < 0.1]

    def _spend(
        self, branch: Branch, height: int, median: int, spent: Set[Tuple[bytes, int]], made: Dict[Tuple[bytes, int], Made]
    ) -> Optional[Tuple[Transaction, int]]:
        """A transaction that spends coins of the branch, most often by its rules; and its fee."""
        coins = self._coins(branch, height, spent, made)
        if not coins:
            return None
        chosen = {(c.id, c.index): c for c in self.chance.choices(coins, k=self.chance.choice((1, 1, 2, 3)))}
        total = sum(coin.value for coin in chosen.values())
        fee = self.chance.choice((0, 0, 1, 1000)) if total > 1000 else 0
        if self.chance.random() < 0.02:
            fee = -1
        locked = any(coin.kind == "height-lock" for coin in chosen.values())
        lock = height - 1 if locked or self.chance.random() < 0.2 else 0
        if self.chance.random() < 0.03:
            lock = height
        if self.chance.random() < 0.05:
            lock = self.chance.choice((median - 1, median, median + 1, branch.times[-1]))
        sequences = [self._sequence(coin, height) for coin in chosen.values()]
        count = self.chance.choice((1, 1, 2, 3))
        values = [(total - fee) // count] * count
        values[0] += total - fee - sum(values)
        kinds = [self.chance.choice(KINDS) for _ in range(count)]
        tx = Transaction(
            self.chance.choice((1, 2, 2)),
            [Input(c.id, c.index, b"", s) for c, s in zip(chosen.values(), sequences)],
            [Output(v, self.scripts.make(k, height)) for v, k in zip(values, kinds)],
            lock,
        )
        signed = [self.scripts.spend(tx, n, coin) for n, coin in enumerate(chosen.values())]
        if self.chance.random() < 0.03:
            signed[-1] = self.chance.choice((b"", b"\x00", b"\x51", signed[-1] + b"\x61"))
        tx = tx._replace(inputs=[i._replace(script=s) for i, s in zip(tx.inputs, signed)])
        # A coin that is spent stays to be spent again, now and then.
        if self.chance.random() < 0.95:
            spent.update(chosen)
        for index, (value, kind) in enumerate(zip(values, kinds)):
            made[(tx.id, index)] = Made(tx.id, index, value, tx.outputs[index].script, height, False, kind)
        return tx, fee

    def _sequence(self, coin: Made, height: int) -> int:
        age = height - coin.height
        if coin.kind == "age-lock":
            return self.chance.choice((2, 2, 3, min(age, 65535)))
        return self.chance.choice((FINAL, FINAL - 1, 0, min(age, 65535), min(age + 1, 65535), 1 << 22, 1 << 31))
