"""A payment service: it watches scripts, credits a payment when it has so many confirmations, and takes it back where a
reorganisation undid it. Its own state is a file of SQLite, which takes each look at the chain as a whole: so a service that is
killed and started again credits nothing twice.

How many confirmations are enough rests on a law of the chainstate: a coin with c confirmations is gone only if it was spent, or
if a branch took over that takes c blocks or more back (`histories::laws`). The node keeps its history on disk, so the law holds
across its restarts too."""

import sqlite3
import tempfile
from contextlib import closing
from typing import List, Tuple

from payments import NOW, Chain, pay_to
from wakotehu import Node, Seat, secp256k1
from wakotehu.encoding import GENESIS, read_block, read_header

TABLES = """
CREATE TABLE IF NOT EXISTS block (height INTEGER PRIMARY KEY, id BLOB NOT NULL);
CREATE TABLE IF NOT EXISTS payment (
    id BLOB, number INTEGER, account TEXT NOT NULL, value INTEGER NOT NULL, height INTEGER NOT NULL,
    is_credited INTEGER NOT NULL DEFAULT 0, PRIMARY KEY (id, number));
CREATE TABLE IF NOT EXISTS event (place INTEGER PRIMARY KEY, what TEXT, account TEXT, value INTEGER, at INTEGER);
"""


class Service:
    """accounts: their names, by the scripts that pay to them."""

    def __init__(self, seat: Seat, path: str, accounts: "dict[bytes, str]", confirmations: int) -> None:
        self.seat, self.accounts, self.confirmations = seat, accounts, confirmations
        self.file = sqlite3.connect(path)
        self.file.executescript(TABLES)

    def look(self) -> None:
        """Takes up what the node's active branch has become: all of it, or nothing."""
        best = self.seat.getbestblockhash()
        with self.file:
            come = self._come(best.value)
            fork = come[-1][0] - 1 if come else self._height()
            self._take_back(fork, best.at)
            for height, id in reversed(come):
                self._add(height, id)
            self._credit(best.at)

    def _height(self) -> int:
        found = self.file.execute("SELECT max(height) FROM block").fetchone()[0]
        return 0 if found is None else int(found)

    def _come(self, best: bytes) -> List[Tuple[int, bytes]]:
        """The blocks of the active branch that weren't on it at the last look, the highest first."""
        found, id = [], best
        while id != GENESIS.id:
            header = self.seat.getblockheader(id).value
            assert header is not None, "blocks of a branch are kept"
            if self.file.execute("SELECT 1 FROM block WHERE height = ? AND id = ?", (header.height, id)).fetchone():
                break
            found.append((header.height, id))
            id = read_header(header.header).parent
        return found

    def _take_back(self, fork: int, at: int) -> None:
        """What stood in blocks above a height is no payment any more."""
        gone = "FROM payment WHERE height > ?"
        for account, value in self.file.execute(f"SELECT account, value {gone} AND is_credited", (fork,)).fetchall():
            self._note("taken back", account, value, at)
        self.file.execute(f"DELETE {gone}", (fork,))
        self.file.execute("DELETE FROM block WHERE height > ?", (fork,))

    def _add(self, height: int, id: bytes) -> None:
        data = self.seat.getblock(id).value
        assert data is not None, "blocks of a branch are kept"
        for tx in read_block(data).transactions:
            for number, output in enumerate(tx.outputs):
                if output.script in self.accounts:
                    row = tx.id, number, self.accounts[output.script], output.value, height
                    self.file.execute("INSERT INTO payment (id, number, account, value, height) VALUES (?, ?, ?, ?, ?)", row)
        self.file.execute("INSERT INTO block VALUES (?, ?)", (height, id))

    def _credit(self, at: int) -> None:
        """A payment in a block of height h has best - h + 1 confirmations."""
        deep = "height <= ? AND NOT is_credited"
        most = self._height() - self.confirmations + 1
        for account, value in self.file.execute(f"SELECT account, value FROM payment WHERE {deep}", (most,)).fetchall():
            self._note("credited", account, value, at)
        self.file.execute(f"UPDATE payment SET is_credited = 1 WHERE {deep}", (most,))

    def _note(self, what: str, account: str, value: int, at: int) -> None:
        self.file.execute("INSERT INTO event (what, account, value, at) VALUES (?, ?, ?, ?)", (what, account, value, at))

    def close(self) -> None:
        self.file.close()

    def events(self) -> List[Tuple[str, str, int]]:
        """What was credited and taken back, in its order."""
        rows = self.file.execute("SELECT what, account, value FROM event ORDER BY place")
        return [(what, account, value) for what, account, value in rows]


def main() -> None:
    accounts = {pay_to(b"anna"): "anna", pay_to(b"ben"): "ben"}
    chain = Chain()
    paid = [chain.payment(0, pay_to(b"anna"), 700), chain.payment(1, pay_to(b"ben"), 900)]
    first, second, third = chain.on(chain.blocks[-1], [[paid[0]], [paid[1]], []])
    with tempfile.TemporaryDirectory() as folder:
        with Node(datadir=f"{folder}/node", verify=secp256k1) as node:
            with closing(Service(node.seats[1], f"{folder}/service", accounts, 2)) as service:
                for block in (*chain.blocks, first):
                    node.seats[0].submit(block, NOW)
                service.look()
                print("one confirmation:", service.events())
                node.seats[0].submit(second, NOW)
                service.look()
                print("two:", service.events())
            node.kill()  # As when the machine ends.
        with Node(datadir=f"{folder}/node", verify=secp256k1) as node:
            with closing(Service(node.seats[1], f"{folder}/service", accounts, 2)) as service:
                service.look()
                print("started again:", service.events())
                node.seats[0].submit(third, NOW)
                service.look()
                print("another block:", service.events())
                for block in chain.on(first, [[], [], []]):
                    node.seats[0].submit(block, NOW)
                service.look()
                print("a branch that takes two blocks back:", service.events())


if __name__ == "__main__":
    main()
