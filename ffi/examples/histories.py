"""The history of each script, for the example of an Electrum server: it follows the active branch of a `Bench`, and has a `Pool`
of the transactions that wait to be mined."""

import hashlib
from typing import Any, Dict, List, Optional, Set, Tuple

from wakotehu import Bench, Pool, read_id, show
from wakotehu.encoding import GENESIS, GENESIS_BLOCK, Output, Transaction, read_block


def hashed(script: bytes) -> str:
    """A script's name in the protocol."""
    return hashlib.sha256(script).digest()[::-1].hex()


class Scripts:
    """The history of each script on the active branch of a bench, and the transactions that wait to be mined."""

    def __init__(self, bench: Bench) -> None:
        self.bench, self.pool, self.active = bench, Pool(bench), [GENESIS.id]
        self.found: Dict[str, List[Tuple[int, bytes]]] = {}
        self.look()

    def look(self) -> None:
        """Takes up what the active branch has become."""
        active, fork = list(self.bench.index.active), min(len(self.active), len(self.bench.index.active))
        while self.active[fork - 1] != active[fork - 1]:
            fork -= 1
        for id in reversed(self.active[fork:]):
            for name in [name for tx in self.transactions(id) for name in self.names(tx)]:
                self.found[name].pop()
        for height, id in enumerate(active[fork:], fork):
            for tx in self.transactions(id):
                for name in self.names(tx):
                    self.found.setdefault(name, []).append((height, tx.id))
        self.active = active

    def transactions(self, id: bytes) -> List[Transaction]:
        """Those of a block."""
        return read_block(GENESIS_BLOCK if id == GENESIS.id else self.bench.block(id) or b"").transactions

    def transaction(self, id: bytes) -> Optional[Transaction]:
        """One that waits, or of a kept block."""
        return self.pool.entry(id).tx if id in self.pool else self.bench.transaction(id)

    def spent(self, tx: Transaction) -> List[Output]:
        """What a transaction spends; of a coinbase nothing."""
        made = [(self.transaction(it.id), it.index) for it in tx.inputs if not tx.is_coinbase]
        return [found.outputs[index] for found, index in made if found is not None]

    def names(self, tx: Transaction) -> Set[str]:
        """The scripts that a transaction pays to, and from which it spends."""
        return {hashed(it.script) for it in (*tx.outputs, *self.spent(tx))}

    def history(self, name: str) -> List[Dict[str, Any]]:
        """In the order of blocks; then what waits, at height 0, or -1 where it spends what waits."""
        found: List[Dict[str, Any]] = [{"tx_hash": show(id), "height": height} for height, id in self.found.get(name, [])]
        for entry in self.pool:
            if name in self.names(entry.tx):
                depth = -1 if self.pool.parents(entry.id) else 0
                found.append({"tx_hash": show(entry.id), "height": depth, "fee": entry.fee})
        return found

    def status(self, name: str) -> Optional[str]:
        """A digest of the history."""
        text = "".join(f"{it['tx_hash']}:{it['height']}:" for it in self.history(name))
        return hashlib.sha256(text.encode()).hexdigest() if text else None

    def unspent(self, name: str) -> List[Dict[str, Any]]:
        """The coins of a script, without those that a waiting transaction spends."""
        return [it for it in self._coins(name) if self.pool.spender(read_id(it["tx_hash"]), it["tx_pos"]) is None]

    def balance(self, name: str) -> Dict[str, int]:
        """In satoshis; "unconfirmed" is what waiting transactions change."""
        mined = sum(it["value"] for it in self._coins(name) if it["height"])
        return {"confirmed": mined, "unconfirmed": sum(it["value"] for it in self.unspent(name)) - mined}

    def _coins(self, name: str) -> List[Dict[str, Any]]:
        found = []
        for line in self.history(name):
            id, height = read_id(line["tx_hash"]), max(0, line["height"])
            tx = self.transaction(id)
            for number, output in enumerate(tx.outputs if tx else []):
                if hashed(output.script) == name and (id in self.pool or self.bench.coin(id, number)):
                    found.append({"tx_hash": line["tx_hash"], "tx_pos": number, "height": height, "value": output.value})
        return found
