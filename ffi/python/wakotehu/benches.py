"""Chains that tests mine on: a `Bench`, a `Node` or a server, each with the same helpers."""

import base64
import http.client
import json
import os
import subprocess
import sys
import tempfile
from typing import Any, Callable, List, Optional, Sequence, Tuple, Union

from .arguments import number as number_of
from .arguments import octets
from .bench import Bench
from .chainstate import Tip, read_id, show
from .encoding import GENESIS, GENESIS_BLOCK, Input, Output, Transaction, block_at_front, coinbase, mine, subsidy
from .mempool import MATURITY as MATURITY
from .node import Node
from .pool import ANYONE as ANYONE
from .rpc.errors import RpcError
from .rpc.scripts import address_script

#: So many blocks a chain has at first: the coins of two of them may be spent by the next one.
BASE = 101
#: So many seconds a server may take to answer.
TIMEOUT = 60


class Miner:
    """Helpers of tests on one chain. A block's time is a second behind its parent's, so nothing depends on the clock."""

    def __init__(self) -> None:
        #: A number that each coinbase has of its own.
        self._made = 0
        #: Below this height coinbases are spent.
        self._spent_below = 1

    # ---- what each kind of chain has

    def height(self) -> int:
        """The height of the active block."""
        raise NotImplementedError

    def id_at(self, height: int) -> bytes:
        """The id of the active block of a height."""
        raise NotImplementedError

    def block(self, id: bytes) -> bytes:
        """The bytes of a block."""
        raise NotImplementedError

    def has_coin(self, id: bytes, index: int) -> bool:
        """Whether there is a coin at an outpoint."""
        raise NotImplementedError

    def submit(self, block: bytes) -> None:
        """Submits a block, which has to be right."""
        raise NotImplementedError

    def tips(self) -> List[Tip]:
        """The tips."""
        raise NotImplementedError

    # ---- helpers

    def mine(
        self, count: int = 1, to: Union[bytes, str] = ANYONE, transactions: Sequence[Transaction] = ()
    ) -> List[bytes]:
        """Mines blocks on the active one, which pay to a script or an address; the first has the transactions. Their ids."""
        count, found = number_of(count, "count"), []
        height = self.height()
        at = self.id_at(height)
        for number in range(count):
            found.append(self._mine_on(at, height + 1 + number, _script(to), transactions if number == 0 else ()))
            at = found[-1]
        return found

    def fund(self, to: Union[bytes, str], value: int) -> Tuple[bytes, int]:
        """Mines a block that pays so many satoshis to a script or an address: the outpoint. The coins are those of earlier
        blocks that anyone spends; where too few of them are old enough, more are mined first."""
        script, value = _script(to), number_of(value, "value", 51, least=1)
        inputs, sum = self._coins(value)
        while sum < value:
            self.mine()
            inputs, sum = self._coins(value)
        outputs = [Output(value, script), Output(sum - value, ANYONE)]
        tx = Transaction(2, inputs, outputs if sum > value else outputs[:1], 0)
        self.mine(1, ANYONE, [tx])
        return tx.id, 0

    def reorg(self, depth: int) -> List[bytes]:
        """Takes so many active blocks back: a branch of one more, without transactions, forks below them. The ids of those
        that were taken back, the lowest first."""
        top = self.height()
        if not 1 <= number_of(depth, "depth") <= top:
            raise ValueError(f"depth must be from 1 to {top}")
        gone = [self.id_at(height) for height in range(top - depth + 1, top + 1)]
        at = self.id_at(top - depth)
        for number in range(depth + 1):
            at = self._mine_on(at, top - depth + 1 + number, ANYONE, ())
        self._spent_below = 1
        return gone

    def _mine_on(self, parent: bytes, height: int, script: bytes, transactions: Sequence[Transaction]) -> bytes:
        self._made += 1
        made = coinbase(height, subsidy(height), script, self._made.to_bytes(4, "little"))
        when = block_at_front(self.block(parent)).header.time + 1
        block = mine(parent, when, [made, *transactions])
        self.submit(block)
        return block_at_front(block).header.id

    def _coins(self, value: int) -> Tuple[List[Input], int]:
        """Coins of coinbases that may be spent by the next block and that anyone spends, and their sum; as few as make the
        value."""
        inputs: List[Input] = []
        sum, top = 0, self.height() + 1 - MATURITY
        for height in range(self._spent_below, top + 1):
            made = block_at_front(self.block(self.id_at(height))).transaction(0)
            if made.outputs[0].script == ANYONE and self.has_coin(made.id, 0):
                inputs.append(Input(made.id, 0, b"", 0xFFFFFFFF))
                sum += made.outputs[0].value
            elif not inputs:
                self._spent_below = height + 1
            if sum >= value:
                break
        return inputs, sum

    def tree(self) -> str:
        """The block tree as text: a row for each height from the lowest fork on, the highest first; the active branch is
        the first column, and each other tip has one."""
        tips = [tip for tip in self.tips() if tip.length]
        height = self.height()
        low = max(0, min([tip.height - tip.length for tip in tips] or [height - 5]))
        columns = [(low, [show(self.id_at(it))[:8] for it in range(low, height + 1)], "active")]
        columns += [(tip.height - tip.length + 1, self._beside(tip), tip.status) for tip in tips]
        top = max(first + len(blocks) - 1 for first, blocks, _ in columns)
        rows = [f"{it:>6}  {''.join(_cell(column, it) for column in columns)}".rstrip() for it in range(top, low - 1, -1)]
        return "\n".join([*rows, f"{low - 1:>6}  and below: no fork"] if low else rows)

    def _beside(self, tip: Tip) -> List[str]:
        """The blocks that a tip has beside the active branch, the lowest first."""
        found, at = [], tip.id
        for _ in range(tip.length):
            found.append(show(at)[:8])
            at = self.block(at)[4:36]
        return found[::-1]


def _cell(column: Tuple[int, List[str], str], height: int) -> str:
    """What a column has in a row; beside its tip the tip's status."""
    first, blocks, status = column
    place = height - first
    text = blocks[place] if 0 <= place < len(blocks) else ""
    return f"{text} {status}".ljust(24) if place == len(blocks) - 1 else text.ljust(24)


def _script(to: Union[bytes, str]) -> bytes:
    """A script, or that of an address."""
    found = address_script(to) if isinstance(to, str) else octets(to, "to")
    if found is None:
        raise ValueError(f"{to!r} is no address of regtest")
    return found


# ---- the kinds of chains


class BenchMiner(Miner):
    """Helpers over a `Bench`."""

    def __init__(self, bench: Bench) -> None:
        super().__init__()
        self.bench = bench

    def height(self) -> int:
        return self.bench.height()

    def id_at(self, height: int) -> bytes:
        return self.bench.index.active[height]

    def block(self, id: bytes) -> bytes:
        return _kept(self.bench.block(id), id)

    def has_coin(self, id: bytes, index: int) -> bool:
        return self.bench.coin(id, index) is not None

    def submit(self, block: bytes) -> None:
        _expect_kept(self.bench.submit(block))

    def tips(self) -> List[Tip]:
        return self.bench.tips()


class NodeMiner(Miner):
    """Helpers over the first seat of a `Node`."""

    def __init__(self, node: Node) -> None:
        super().__init__()
        self.seat = node.seat(0)

    def height(self) -> int:
        return max(tip.height for tip in self.tips() if tip.status == "active")

    def id_at(self, height: int) -> bytes:
        found = self.seat.getblockhash(height).value
        assert found is not None, "heights up to the active block's have one"
        return found

    def block(self, id: bytes) -> bytes:
        return _kept(self.seat.getblock(id).value, id)

    def has_coin(self, id: bytes, index: int) -> bool:
        return self.seat.gettxout(id, index).value is not None

    def submit(self, block: bytes) -> None:
        _expect_kept(self.seat.submit(block).value)

    def tips(self) -> List[Tip]:
        return self.seat.getchaintips().value


def _kept(found: Optional[bytes], id: bytes) -> bytes:
    """The bytes of a block that is kept, or of genesis, which no chainstate keeps."""
    if found is None and id == GENESIS.id:
        return GENESIS_BLOCK
    if found is None:
        raise ValueError(f"there is no block {show(id)}")
    return found


def _expect_kept(reply: str) -> None:
    if reply not in ("accepted", "inconclusive"):
        raise ValueError(f"a block that a test mined is refused: {reply}")


class ServerMiner(Miner):
    """Helpers over a server."""

    def __init__(self, server: "Server") -> None:
        super().__init__()
        self.server = server
        # No block of an earlier test comes again.
        self._made = server.made

    def height(self) -> int:
        return int(self.server.call("getblockcount"))

    def id_at(self, height: int) -> bytes:
        return read_id(self.server.call("getblockhash", height))

    def block(self, id: bytes) -> bytes:
        return bytes.fromhex(self.server.call("getblock", show(id), 0))

    def has_coin(self, id: bytes, index: int) -> bool:
        return self.server.call("gettxout", show(id), index) is not None

    def submit(self, block: bytes) -> None:
        self.server.made = self._made
        _expect_kept(self.server.call("submitblock", block.hex()) or "accepted")

    def tips(self) -> List[Tip]:
        told = self.server.call("getchaintips")
        return [Tip(read_id(it["hash"]), it["height"], it["branchlen"], it["status"]) for it in told]


class Server:
    """A `wakotehu-server` on a free port, in a process of its own, and its client.

    `call(METHOD, ..)` answers a call's result, or raises `RpcError` with its code; so does `server.METHOD(..)`. `url`,
    `port` and `cookie`, the file, are for other clients.
    """

    def __init__(self, words: Sequence[str] = ()) -> None:
        self._folder = tempfile.TemporaryDirectory(prefix="wakotehu-")
        self.cookie = os.path.join(self._folder.name, "cookie")
        command = [sys.executable, "-m", "wakotehu.server", "-rpcport=0", f"-rpccookiefile={self.cookie}", *words]
        self._connection: Optional[http.client.HTTPConnection] = None
        self._process = subprocess.Popen(command, stdout=subprocess.PIPE, stderr=subprocess.PIPE, text=True)
        assert self._process.stdout is not None and self._process.stderr is not None
        line = self._process.stdout.readline()
        if not line:
            told = self._process.stderr.read().strip()
            self.stop()
            raise OSError(f"the server didn't start: {told}")
        self.port = int(line.split()[0].rpartition(":")[2])
        with open(self.cookie, encoding="ascii") as file:
            name = file.read().strip()
        self.url = f"http://{name}@127.0.0.1:{self.port}"
        self._headers = {"Authorization": "Basic " + base64.b64encode(name.encode()).decode()}
        #: How many blocks tests mined so far.
        self.made = 0
        self._base: List[str] = []

    def call(self, method: str, *params: Any, **named: Any) -> Any:
        """The result of a call."""
        body = json.dumps({"method": method, "params": named or list(params), "id": 1})
        try:
            reply = self._answered(body)
        except (http.client.RemoteDisconnected, ConnectionError):
            # The server closes a connection that was idle for long.
            self._connection = None
            reply = self._answered(body)
        if reply["error"]:
            raise RpcError(reply["error"]["code"], reply["error"]["message"])
        return reply["result"]

    def _answered(self, body: str) -> Any:
        if self._connection is None:
            self._connection = http.client.HTTPConnection("127.0.0.1", self.port, timeout=TIMEOUT)
        self._connection.request("POST", "/", body, self._headers)
        return json.loads(self._connection.getresponse().read())

    def __getattr__(self, method: str) -> Callable[..., Any]:
        if method.startswith("_"):
            raise AttributeError(method)
        return lambda *params, **named: self.call(method, *params, **named)

    def begin(self) -> None:
        """Takes the active branch as the one to which `set_back` leads."""
        self._base = [self.call("getblockhash", height) for height in range(self.call("getblockcount") + 1)]

    def set_back(self) -> None:
        """Makes the branch of `begin` the active one: each active block that isn't on it is marked as invalid, from the
        lowest one on. All wallets are forgotten."""
        self.call("setmocktime", 0)
        for name in [it["name"] for it in self.call("listwalletdir")["wallets"]]:
            # Where there is no folder, one that is unloaded is forgotten by the second call, which is refused.
            for _ in range(2):
                try:
                    self.call("unloadwallet", name)
                except RpcError:
                    pass
        if self.call("getblockheader", self._base[-1])["confirmations"] < 1:
            for id in self._base[1:]:
                self.call("reconsiderblock", id)
        while self.call("getbestblockhash") != self._base[-1]:
            height = min(len(self._base) - 1, self.call("getblockcount"))
            while self.call("getblockhash", height) != self._base[height]:
                height -= 1
            self.call("invalidateblock", self.call("getblockhash", height + 1))

    def stop(self) -> None:
        """Ends the server."""
        if self._connection is not None:
            self._connection.close()
        self._process.terminate()
        self._process.communicate()
        self._folder.cleanup()
