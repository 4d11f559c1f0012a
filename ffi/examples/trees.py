"""Block trees for the example of a fuzzer: each block is made as the lines of a scenario make it (docs/PROGRAM.md), and once more
under a header for a peer, whose chain may begin with another genesis block."""

import hashlib
import random
from typing import Dict, FrozenSet, List, NamedTuple, Tuple

from wakotehu import show
from wakotehu.encoding import (
    GENESIS, Block, Header, Input, Output, Transaction, coinbase, double_sha, hash160, merkle_root, push, subsidy, write_block,
    write_header,
)  # fmt: skip

#: What of a header is compared with the target, by the genesis block: Bitcoin's, or Litecoin's.
WORK = {
    show(GENESIS.id): double_sha,
    "530827f38f93b43ed12af0b3ad25a288dc02ed74d6d7857862df51fc56c416f9":
        lambda header: hashlib.scrypt(header, salt=header, n=1024, r=1, p=1, dklen=32),
}  # fmt: skip
TARGET = 0x7FFFFF << 232
#: Scripts that are paid to, with what spends them; and a script that spends none.
SCRIPTS = {b"\x51": b"", b"\x55\x87": b"\x55", b"\xa9\x14" + hash160(b"\x51") + b"\x87": push(b"\x51")}
SPENDS_NONE = b"\x6a"
#: How a block is broken; most aren't.
FAULTS = ("", "", "", "", "", "reward", "root", "coin", "script")


class Coin(NamedTuple):
    """An output, by a scenario's name for it."""

    name: str
    value: int
    script: bytes


class Made(NamedTuple):
    """A block: its bytes for the bench and for the peer, its lines in a scenario, the ids of transactions whose first output
    may be spent on it, and whether it is broken."""

    data: Tuple[bytes, bytes]
    lines: List[str]
    parent: str
    height: int
    coins: FrozenSet[bytes]
    is_broken: bool


class Tree:
    """Blocks by their names, each as the lines of a scenario make it."""

    def __init__(self, genesis: str) -> None:
        self.work = double_sha, WORK[genesis]
        self.ids = {"genesis": (GENESIS.id, bytes.fromhex(genesis)[::-1])}
        self.blocks = {"genesis": Made((b"", b""), [], "", 0, frozenset(), False)}
        self.coins: Dict[bytes, Coin] = {}

    def copy(self) -> "Tree":
        """The same, to which other blocks come."""
        found = Tree.__new__(Tree)
        found.work, found.ids, found.blocks, found.coins = self.work, dict(self.ids), dict(self.blocks), dict(self.coins)
        return found

    def add(self, name: str, parent: str, dice: random.Random, fault: str = "") -> Made:
        """A block on another one; it may spend a coin, where there is one. Faults: "reward", "root", "script", and "coin", which
        isn't there."""
        below, height = self.blocks[parent], self.blocks[parent].height + 1
        reward = subsidy(height) + (fault == "reward")
        first = coinbase(height, reward, extra=name.encode())
        made, lines, words = [first], [], [f"reward={reward}"] if fault == "reward" else []
        known = set(self.coins) - below.coins if fault == "coin" else below.coins
        if known and (fault in ("coin", "script") or dice.random() < 0.6):
            id = dice.choice(sorted(known))
            made.append(self._spend(id, dice.choice(list(SCRIPTS)), fault == "script"))
            lines, words = self._lines(f"t{name}", id, made[1]), [*words, f"t{name}"]
            self.coins[made[1].id] = Coin(f"t{name}:0", *made[1].outputs[0])
        root = b"\x11" * 32 if fault == "root" else merkle_root([tx.id for tx in made])
        words += [f"root={root.hex()}"] if fault == "root" else []
        header = Header(4, b"", root, GENESIS.time + height, 0x207FFFFF, 0)
        data = self._mined(0, parent, header, made), self._mined(1, parent, header, made)
        spent, new = {tx.inputs[0].id for tx in made}, {tx.id for tx in made[1:]}
        self.ids[name] = double_sha(data[0][:80]), double_sha(data[1][:80])
        lines = [*lines, " ".join(["block", name, parent, *words])]
        self.blocks[name] = Made(data, lines, parent, height, below.coins - spent | new, bool(fault))
        self.coins.setdefault(first.id, Coin(f"{name}.cb:0", *first.outputs[0]))
        return self.blocks[name]

    def _spend(self, id: bytes, script: bytes, is_wrong: bool) -> Transaction:
        coin = self.coins[id]
        input = SPENDS_NONE if is_wrong else SCRIPTS[coin.script]
        return Transaction(1, [Input(id, 0, input, 0xFFFFFFFF)], [Output(coin.value, script)], 0)

    def _lines(self, name: str, id: bytes, tx: Transaction) -> List[str]:
        script, output = tx.inputs[0].script.hex() or "-", tx.outputs[0]
        return [f"tx {name} 1 0", f"in {self.coins[id].name} {script}", f"out {output.value} {output.script.hex()}"]

    def _mined(self, side: int, parent: str, header: Header, transactions: List[Transaction]) -> bytes:
        header = header._replace(parent=self.ids[parent][side])
        while int.from_bytes(self.work[side](write_header(header)), "little") > TARGET:
            header = header._replace(nonce=header.nonce + 1)
        return write_block(Block(header, transactions))

    def is_on(self, name: str, other: str) -> bool:
        """Whether a block is another one or above it."""
        while name not in (other, "genesis"):
            name = self.blocks[name].parent
        return name == other
