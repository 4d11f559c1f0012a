"""Blocks with real signatures: outputs of each kind that asks for some, spent with each hash type, rightly and wrongly; on
branches that fork, of four writers."""

import random
from typing import Dict, List, NamedTuple, Tuple

from wakotehu.encoding import GENESIS, Input, Output, Transaction, coinbase, hash160, push, signature_digest, subsidy
from wakotehu.signatures import Secp256k1

from .rules import Point
from .spelling import ROOT, Logical

#: How many writers there are, how often they wait for one another, and how many blocks each submits between.
WRITERS, ROUNDS, AT_ONCE = 4, 15, 5
#: A base's blocks: those that make coinbases, and those that split some.
COINBASES, SPLITS, PARTS = 110, 6, 80
KINDS = ("key", "long key", "key hash", "two of three")
#: Hash types: all that are defined, and two that aren't and count as ALL.
TYPES = (1, 2, 3, 129, 130, 131, 0, 80)
#: How many of a hundred blocks have a wrong signature.
WRONG = 20


class Owned(NamedTuple):
    """An output: its value, and how it is spent."""

    value: int
    kind: str
    is_hashed: bool


class Signer:
    """Outputs of each kind, and signatures that spend them."""

    def __init__(self) -> None:
        self.secp = Secp256k1()
        self.secrets = [bytes([number]) * 32 for number in (11, 12, 13)]
        self.keys = [self.secp.public_key(secret) for secret in self.secrets]
        self.long = self.secp.public_key(self.secrets[0], compressed=False)
        #: The right signatures, as lines of a table.
        self.lines: Dict[str, None] = {}
        #: Which kinds were signed with which hash types.
        self.signed: Dict[Tuple[str, bool, int], int] = {}

    def inner(self, kind: str) -> bytes:
        """What a signature signs of an output, and for its hash the inner script."""
        if kind == "two of three":
            return b"\x52" + b"".join(map(push, self.keys)) + b"\x53\xae"
        if kind == "key hash":
            return b"\x76\xa9" + push(hash160(self.keys[0])) + b"\x88\xac"
        return push(self.long if kind == "long key" else self.keys[0]) + b"\xac"

    def script(self, owned: Owned) -> bytes:
        inner = self.inner(owned.kind)
        return b"\xa9" + push(hash160(inner)) + b"\x87" if owned.is_hashed else inner

    def unlock(self, tx: Transaction, input: int, owned: Owned, types: List[int], is_right: bool) -> bytes:
        """The script of an input, with a hash type for each signature."""
        inner = self.inner(owned.kind)
        several = owned.kind == "two of three"
        owners = [0, 2] if several else [0]
        pushed = [b""] if several else []
        for place, (owner, kind) in enumerate(zip(owners, types)):
            is_wrong = not is_right and place == 0
            pushed.append(self._signature(tx, input, inner, self._key(owned, owner), owner, kind, is_wrong))
            self.signed[owned.kind, owned.is_hashed, kind] = self.signed.get((owned.kind, owned.is_hashed, kind), 0) + 1
        pushed += [self.keys[0]] if owned.kind == "key hash" else []
        pushed += [inner] if owned.is_hashed else []
        return b"".join(map(push, pushed))

    def _key(self, owned: Owned, owner: int) -> bytes:
        return self.long if owned.kind == "long key" else self.keys[owner]

    def _signature(
        self, tx: Transaction, input: int, code: bytes, key: bytes, owner: int, kind: int, is_wrong: bool
    ) -> bytes:
        digest = signature_digest(tx, input, code, kind)
        if is_wrong:
            # Another's signature, which is well formed.
            return self.secp.sign(bytes([99]) * 32, digest) + bytes([kind])
        signature = self.secp.sign(self.secrets[owner], digest)
        self.lines[f"{key.hex()} {signature.hex()} {digest.hex()}"] = None
        return signature + bytes([kind])


class Plan:
    """A base and the blocks of the writers on it."""

    def __init__(self, seed: int) -> None:
        self.chance = random.Random(seed)
        self.signer = Signer()
        self.blocks: List[Logical] = []
        self._heights: Dict[int, int] = {ROOT: 0}
        self._coins: Dict[int, Dict[Point, Owned]] = {ROOT: {}}
        #: Whether no signature of a block and of those below it is wrong.
        self._right: Dict[int, bool] = {ROOT: True}
        self._kinds = 0
        self._lay_base()
        self.base = len(self.blocks)
        #: The numbers of the blocks of each round, by writer.
        self.rounds = [self._round() for _ in range(ROUNDS)]

    @property
    def outpoints(self) -> List[Point]:
        """Outputs of the base and of some blocks."""
        found = list(self._coins[self.base - 1])[:40]
        return found + [(tx.id, 0) for block in self.blocks[self.base :: 5] for tx in block.transactions]

    def _lay_base(self) -> None:
        firsts: List[Transaction] = []
        for height in range(1, COINBASES + 1):
            made = coinbase(height, subsidy(height), self.signer.script(Owned(0, "key", False)), b"b")
            firsts.append(made)
            self._lay(height - 2 if height > 1 else ROOT, [made], {})
        for number in range(SPLITS):
            owned = Owned(subsidy(1), "key", False)
            parts = [self._owned(owned.value // PARTS - 100) for _ in range(PARTS)]
            split = self._pay([((firsts[number].id, 0), owned)], parts, True)
            parent = len(self.blocks) - 1
            made = coinbase(COINBASES + 1 + number, subsidy(COINBASES + 1 + number), b"\x51", b"b")
            self._lay(parent, [made, split], {(split.id, n): part for n, part in enumerate(parts)})

    def _lay(self, parent: int, transactions: List[Transaction], made: Dict[Point, Owned], is_right: bool = True) -> int:
        """Lays a block on another one: its number."""
        number, height = len(self.blocks), self._heights[parent] + 1
        self.blocks.append(Logical(parent, GENESIS.time + 600 * height, transactions))
        spent = {(it.id, it.index) for tx in transactions for it in tx.inputs}
        self._coins[number] = {at: own for at, own in {**self._coins[parent], **made}.items() if at not in spent}
        self._heights[number] = height
        self._right[number] = is_right and self._right[parent]
        return number

    def _owned(self, value: int) -> Owned:
        """An output of the next kind."""
        self._kinds += 1
        return Owned(value, KINDS[self._kinds % len(KINDS)], self._kinds // len(KINDS) % 2 == 1)

    def _pay(self, spent: List[Tuple[Point, Owned]], made: List[Owned], is_right: bool) -> Transaction:
        """A transaction with its signatures; where it isn't right, one of them is wrong."""
        outputs = [Output(own.value, self.signer.script(own)) for own in made]
        tx = Transaction(1, [Input(*at, b"", 0xFFFFFFFF) for at, _ in spent], outputs, 0)
        wrong = None if is_right else self.chance.randrange(len(spent))
        scripts = [
            self.signer.unlock(tx, n, own, [self.chance.choice(TYPES) for _ in range(2)], n != wrong)
            for n, (_, own) in enumerate(spent)
        ]
        return tx._replace(inputs=[it._replace(script=script) for it, script in zip(tx.inputs, scripts)])

    # ---- the writers' blocks

    def _round(self) -> List[List[int]]:
        """Blocks of each writer on one another and on those of earlier rounds."""
        known = range(self.base - 1, len(self.blocks))
        return [self._of_writer(list(known)) for _ in range(WRITERS)]

    def _of_writer(self, known: List[int]) -> List[int]:
        own: List[int] = []
        for _ in range(AT_ONCE):
            own.append(self._block(self._parent(known + own)))
        return own

    def _parent(self, known: List[int]) -> int:
        """Most often one of the highest; sometimes one a bit lower, or any."""
        right = [number for number in known if self._right[number]]
        top = max(self._heights[number] for number in right)
        dice = self.chance.random()
        below = 0 if dice < 0.6 else 3 if dice < 0.92 else None
        if below is None:
            return self.chance.choice(known)
        return self.chance.choice([number for number in right if self._heights[number] >= top - below])

    def _block(self, parent: int) -> int:
        """A block of one to three payments."""
        coins = dict(self._coins[parent])
        is_right = self.chance.randrange(100) >= WRONG
        transactions: List[Transaction] = []
        count = self.chance.choice((1, 2, 3))
        for number in range(count):
            spent = self.chance.sample(sorted(coins.items()), self.chance.choice((1, 2, 3)))
            total = sum(own.value for _, own in spent) - 100
            parts = self.chance.choice((1, 2, 3))
            made = [self._owned(total // parts) for _ in range(parts)]
            transactions.append(self._pay(spent, made, is_right or number < count - 1))
            for at, _ in spent:
                del coins[at]
            coins.update({(transactions[-1].id, n): own for n, own in enumerate(made)})
        height = self._heights[parent] + 1
        first = coinbase(height, subsidy(height), b"\x51", len(self.blocks).to_bytes(3, "little"))
        # What it makes and spends again is taken away by `_lay`.
        return self._lay(parent, [first, *transactions], coins, is_right)
