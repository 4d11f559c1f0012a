"""A server of the Electrum protocol (1.4) over a `Bench`: wallets that speak it have a chain of regtest in one process.

    electrum_server.py 50001 ADDRESS                            mines 101 blocks to the address, later one for what waits
    electrum --regtest --oneserver --server 127.0.0.1:50001:t   a wallet with a seed of the type `standard`

A wallet trusts its server with what no header and no Merkle branch shows. Here that is this file and `histories.py`, of which
nothing is proved, and the bench. There is no password: the server listens on the loopback alone."""

import asyncio
import json
import sys
from typing import Any, Callable, Dict, List, Optional, Set

from histories import Scripts
from wakotehu import Bench, DecodeFailed, NotAccepted, read_id, show
from wakotehu.benches import BenchMiner
from wakotehu.encoding import GENESIS, GENESIS_BLOCK, double_sha, write_transaction

VERSION = "1.4"
#: How many headers an answer has at most, and how long a line may be.
MOST_HEADERS, MOST_LINE = 2016, 4_000_000


class Refused(Exception):
    """Why a call is refused."""


def branch(ids: List[bytes], place: int) -> List[str]:
    """The Merkle branch of the id at a place, the lowest level first."""
    found, level = [], list(ids)
    while len(level) > 1:
        level += level[-1:] * (len(level) % 2)
        found.append(show(level[place ^ 1]))
        level, place = [double_sha(a + b) for a, b in zip(level[::2], level[1::2])], place // 2
    return found


class Wallet:
    """A connection, with the scripts that it watches and the status that it knows of each."""

    def __init__(self, writer: asyncio.StreamWriter) -> None:
        self.writer, self.has_headers = writer, False
        self.watched: Dict[str, Optional[str]] = {}

    def send(self, **members: Any) -> None:
        self.writer.write(json.dumps({"jsonrpc": "2.0", **members}).encode() + b"\n")


class Electrum:
    """Answers wallets. Whoever changes the bench calls `changed` then, on the same thread."""

    def __init__(self, bench: Bench) -> None:
        self.scripts = Scripts(bench)
        self.wallets: Set[Wallet] = set()

    def changed(self) -> None:
        """Tells each wallet what is new for it."""
        best = self.scripts.active[-1]
        self.scripts.look()
        for wallet in self.wallets:
            if wallet.has_headers and best != self.scripts.active[-1]:
                wallet.send(method="blockchain.headers.subscribe", params=[self.top(wallet)])
            for name, known in wallet.watched.items():
                wallet.watched[name] = self.scripts.status(name)
                if wallet.watched[name] != known:
                    wallet.send(method="blockchain.scripthash.subscribe", params=[name, wallet.watched[name]])

    async def serve(self, reader: asyncio.StreamReader, writer: asyncio.StreamWriter) -> None:
        """One connection, to its end."""
        wallet = Wallet(writer)
        self.wallets.add(wallet)
        try:
            while line := await reader.readline():
                request = json.loads(line)
                try:
                    call = CALLS.get(request["method"])
                    if call is None:
                        raise Refused("unknown method")
                    wallet.send(id=request.get("id"), result=call(self, wallet, *request.get("params", [])))
                except (Refused, TypeError, ValueError, LookupError) as error:
                    wallet.send(id=request.get("id"), error={"code": 1, "message": str(error)})
                await writer.drain()
        except (OSError, ValueError, TypeError, LookupError):
            pass  # The wallet is gone, or what it sent is no request.
        finally:
            self.wallets.discard(wallet)
            writer.close()

    # ---- calls, by what the wallet gives

    def id_at(self, height: int) -> bytes:
        if not 0 <= height < len(self.scripts.active):
            raise Refused("no such height")
        return self.scripts.active[height]

    def header(self, height: int) -> str:
        return (self.scripts.bench.block(self.id_at(height)) or GENESIS_BLOCK)[:80].hex()

    def headers(self, wallet: Wallet, start: int, count: int, checkpoint: int = 0) -> Dict[str, Any]:
        heights = range(start, min(start + min(count, MOST_HEADERS), len(self.scripts.active)))
        return {"count": len(heights), "hex": "".join(map(self.header, heights)), "max": MOST_HEADERS}

    def top(self, wallet: Wallet) -> Dict[str, Any]:
        wallet.has_headers, height = True, len(self.scripts.active) - 1
        return {"hex": self.header(height), "height": height}

    def watch(self, wallet: Wallet, name: str) -> Optional[str]:
        return wallet.watched.setdefault(name, self.scripts.status(name))

    def get(self, wallet: Wallet, id: str, verbose: bool = False) -> str:
        tx = self.scripts.transaction(read_id(id))
        if tx is None or verbose:
            raise Refused("no such transaction, or verbose")
        return write_transaction(tx).hex()

    def proof(self, wallet: Wallet, id: str, height: int) -> Dict[str, Any]:
        ids = [tx.id for tx in self.scripts.transactions(self.id_at(height))]
        if read_id(id) not in ids:
            raise Refused("the block doesn't have this transaction")
        place = ids.index(read_id(id))
        return {"block_height": height, "merkle": branch(ids, place), "pos": place}

    def broadcast(self, wallet: Wallet, data: str) -> str:
        try:
            id = self.scripts.pool.add(bytes.fromhex(data))
        except DecodeFailed:
            raise Refused("the transaction was rejected: it doesn't decode")
        except NotAccepted as error:
            raise Refused(f"the transaction was rejected: {error.reason}")
        self.changed()
        return show(id)

    def features(self, wallet: Wallet) -> Dict[str, Any]:
        names = {"hosts": {}, "protocol_min": VERSION, "protocol_max": VERSION, "pruning": None, "hash_function": "sha256"}
        return {"genesis_hash": show(GENESIS.id), "server_version": "wakotehu", **names}


CALLS: Dict[str, Callable[..., Any]] = {
    "server.version": lambda self, wallet, *words: ["wakotehu", VERSION],
    "server.features": Electrum.features,
    "server.ping": lambda self, wallet: None,
    "server.banner": lambda self, wallet: "regtest",
    "server.donation_address": lambda self, wallet: "",
    "server.peers.subscribe": lambda self, wallet: [],
    "mempool.get_fee_histogram": lambda self, wallet: [],
    "blockchain.estimatefee": lambda self, wallet, blocks: -1,
    "blockchain.relayfee": lambda self, wallet: 0,
    "blockchain.headers.subscribe": Electrum.top,
    "blockchain.block.header": lambda self, wallet, height, checkpoint=0: self.header(height),
    "blockchain.block.headers": Electrum.headers,
    "blockchain.scripthash.subscribe": Electrum.watch,
    "blockchain.scripthash.unsubscribe": lambda self, wallet, name: wallet.watched.pop(name, "") != "",
    "blockchain.scripthash.get_history": lambda self, wallet, name: self.scripts.history(name),
    "blockchain.scripthash.get_mempool": lambda self, wallet, name: [
        it for it in self.scripts.history(name) if it["height"] <= 0
    ],
    "blockchain.scripthash.listunspent": lambda self, wallet, name: self.scripts.unspent(name),
    "blockchain.scripthash.get_balance": lambda self, wallet, name: self.scripts.balance(name),
    "blockchain.transaction.get": Electrum.get,
    "blockchain.transaction.get_merkle": Electrum.proof,
    "blockchain.transaction.broadcast": Electrum.broadcast,
}


async def main(port: int, address: str) -> None:
    """Serves wallets. Every ten seconds a block is mined, if something waits."""
    with Bench() as bench:
        BenchMiner(bench).mine(101, address)
        electrum = Electrum(bench)
        async with await asyncio.start_server(electrum.serve, "127.0.0.1", port, limit=MOST_LINE):
            while True:
                await asyncio.sleep(10)
                if electrum.scripts.pool:
                    electrum.scripts.pool.mine(to=address)
                    electrum.changed()


if __name__ == "__main__":
    asyncio.run(main(int(sys.argv[1]), sys.argv[2]))
