"""What all calls share: the seats of a node, its clock, and the table of calls."""

import threading
import time
from contextlib import contextmanager
from typing import TYPE_CHECKING, Any, Callable, Dict, Iterable, Iterator, List, Mapping, NamedTuple, Optional, Set, Tuple

from ..chainstate import Reply
from ..encoding import GENESIS, GENESIS_BLOCK, Output, Spelled, Transaction, double_sha, read_transaction
from ..errors import NodeDied, NotSaved, Owed
from ..index import Kept
from ..nodebench import Move, NodeBench
from .errors import INVALID_ADDRESS_OR_KEY, INVALID_PARAMETER, METHOD_NOT_FOUND, MISC_ERROR, RpcError
from .mempool import MOST_BYTES, ServedMempool
from .values import expect

if TYPE_CHECKING:
    from .filters import FilterIndex
    from .notices import Publisher

#: How long the end waits for steps that are under way, in seconds.
SETTLES = 0.3
#: How often a call that waits looks whether its client is there, in seconds.
LOOK = 0.5


class Node:
    """The seats that calls are made on. A call waits for no other one, except for those that make blocks, and those
    that read all coins."""

    def __init__(
        self, bench: NodeBench, most_waiting: int = MOST_BYTES, has_index: bool = False, full_rbf: bool = False
    ) -> None:
        self.bench = bench
        #: What waits to be mined, and the file that keeps it beyond the server's end.
        self.mempool = ServedMempool(self, most_waiting, full_rbf)
        self.saves_to: Optional[str] = None
        #: Whether transactions are found by their ids alone (-txindex).
        self.has_index = has_index
        bench.moved = self._moved
        self.mocked = 0
        self.started = time.time()
        self.stopped = False
        #: How long the server goes on after `stop`, in seconds.
        self.pause = 0.0
        self.broken = ""
        self._is_making = False
        #: The filters of blocks (-blockfilterindex).
        self.filters: Optional["FilterIndex"] = None
        #: What tells of blocks.
        self.publisher: Optional["Publisher"] = None
        #: The wallets, once one is asked for: `rpc.wallets.Wallets`.
        self.wallets: Any = None
        #: The private keys of the addresses that were given, by the hashes of their keys.
        self.keys: Dict[bytes, bytes] = {}
        #: What `setnetworkactive` said last.
        self.is_network_active = True
        #: The categories of the log that are on.
        self.logged: Set[str] = set()
        #: The calls that run, by their threads: the name, and when they began.
        self.running: Dict[int, Tuple[str, float]] = {}
        #: Of each thread that calls: whether its client is gone.
        self._caller = threading.local()
        #: Held by the call that runs; told when the best block changes, and at the end.
        self.turn = bench.turn

    @contextmanager
    def others(self) -> Iterator[None]:
        """Lets other calls run meanwhile."""
        self.turn.release()
        try:
            yield
        finally:
            self.turn.acquire()

    @contextmanager
    def making(self) -> Iterator[None]:
        """One call at a time makes a block, so that each is a child of the one before."""
        while self._is_making:
            self.turn.wait()
        self.expect_running()
        self._is_making = True
        try:
            yield
        finally:
            self._is_making = False
            self.turn.notify_all()

    def expect_running(self) -> None:
        """Ends the call where the server ends."""
        if self.stopped:
            raise RpcError(MISC_ERROR, self.broken or "The server is stopping")

    def called_by(self, is_gone: Callable[[], bool], wallet: Optional[str] = None) -> None:
        """From now on this thread calls for a client that may be gone, at a wallet where it names one."""
        self._caller.is_gone, self._caller.wallet = is_gone, wallet

    @property
    def wallet_name(self) -> Optional[str]:
        """The wallet that this thread's client names by its path."""
        name: Optional[str] = getattr(self._caller, "wallet", None)
        return name

    def expect_client(self) -> None:
        """Ends the call where its client is gone."""
        is_gone: Optional[Callable[[], bool]] = getattr(self._caller, "is_gone", None)
        if is_gone and is_gone():
            raise RpcError(MISC_ERROR, "The client is gone")

    def wait(self, until: Optional[float]) -> None:
        """Waits for a step, or until a moment of the monotonic clock; while the client is there."""
        self.expect_client()
        self.turn.wait(LOOK if until is None else max(0.0, min(LOOK, until - time.monotonic())))

    def leave(self) -> None:
        """This thread makes no more calls."""
        with self.turn:
            self.bench.leave()

    def end(self) -> None:
        """Each call ends soon, and those that come are refused."""
        with self.turn:
            self.stopped = True
            self.turn.notify_all()

    def close(self) -> None:
        """Ends it: what was begun is taken, if it doesn't take long. Of what isn't, nobody was told."""
        self.end()
        with self.turn:
            self.bench.settle(SETTLES)

    def fail(self, why: str) -> RpcError:
        """Ends it for a fault, which is answered from now on."""
        if not self.broken:
            self.broken = f"A fatal internal error occurred: {why}"
        self.stopped = True
        self.turn.notify_all()
        return RpcError(MISC_ERROR, self.broken)

    def now(self) -> int:
        return self.mocked or int(time.time())

    def _moved(self, move: Move) -> None:
        """Another block is the active one."""
        self.mempool.moved(move)
        if self.publisher is not None:
            self.publisher.moved(self, move)

    # ---- commands

    def submit(self, spelled: Spelled) -> Reply:
        """Submits a block."""
        reply = self.bench.try_submit_spelled(spelled, self.now())
        self.mempool.settle()
        return reply

    def judge(self, spelled: Spelled) -> Reply:
        """What a submission of a block would be answered, which isn't kept."""
        return self.bench.judge_spelled(spelled, self.now())

    def mark(self, command: str, id: bytes) -> Reply:
        """Marks a block."""
        reply = self.bench.try_mark(command, id)
        self.mempool.settle()
        return reply

    # ---- reads

    def kept(self, id: bytes, fault: str = "Block not found") -> Kept:
        """A block that is kept."""
        found = self.bench.index.blocks.get(id)
        if found is None:
            raise RpcError(INVALID_ADDRESS_OR_KEY, fault)
        return found

    def data(self, id: bytes) -> bytes:
        """The bytes of a block that is kept."""
        if id == GENESIS.id:
            return GENESIS_BLOCK
        found = self.bench.block(id)
        assert found is not None, "blocks of the index are kept"
        return found

    def is_valid_copy(self, data: bytes) -> bool:
        """Whether bytes begin with a kept block on the branch of a tip that isn't marked as invalid: by the bytes that are
        kept. Each submission of it is a duplicate then."""
        id = double_sha(data[:80])
        kept = self.bench.index.blocks.get(id)
        if kept is None or not data.startswith(self.data(id)):
            return False
        return self.bench.index.is_active(id) or any(
            tip.status != "invalid" and self.bench.index.is_above(tip.id, id) for tip in self.bench.tips()
        )

    def tip(self) -> Kept:
        return self.bench.index.blocks[self.bench.index.active[-1]]

    def spent(self, transactions: Mapping[bytes, Transaction]) -> Dict[Tuple[bytes, int], Output]:
        """What transactions, by their ids, spend, by outpoint, of one another and of kept blocks; those that aren't known aren't
        there. Each block and each transaction is read once. It needs no turn: what blocks made stays as it is."""
        wanted: Dict[bytes, List[int]] = {}
        for tx in transactions.values():
            for spends in tx.inputs:
                wanted.setdefault(spends.id, []).append(spends.index)
        found = {}
        for id, tx in self._makers(wanted, transactions):
            for index in wanted[id]:
                if index < len(tx.outputs):
                    found[id, index] = tx.outputs[index]
        return found

    def _makers(
        self, wanted: Iterable[bytes], made: Mapping[bytes, Transaction]
    ) -> Iterator[Tuple[bytes, Transaction]]:
        """Those that are wanted of some transactions and of kept blocks, one block after the other."""
        yield from ((id, made[id]) for id in wanted if id in made)
        places = self.bench.index.transactions
        block, data = b"", b""
        for id in sorted((id for id in wanted if id not in made and id in places), key=places.__getitem__):
            its, begin, end = places[id]
            if its != block:
                block, data = its, self.data(its)
            yield id, read_transaction(data[begin:end])


# ---- the table of calls


class Call(NamedTuple):
    """A call: the names of its parameters, each with its other names after `|`, how many have to be there, and the types
    of those that Bitcoin Core tests before all else, null not allowed."""

    name: str
    group: str
    names: Tuple[str, ...]
    needed: int
    types: Tuple[str, ...]
    about: str
    run: Callable[..., Any]
    #: Whether it takes None for each parameter that isn't given.
    padded: bool

    @property
    def usage(self) -> str:
        """How it is called, as `help` lists it."""
        names = [name.partition("|")[0] for name in self.names]
        needed, other = names[: self.needed], names[self.needed :]
        return " ".join([self.name, *needed, *(["(", *other, ")"] if other else [])])

    def arguments(self, params: Any) -> List[Any]:
        """The parameters in their order; one that isn't given is None."""
        found: List[Any] = list(params) if isinstance(params, list) else self._in_order(params)
        if not self.needed <= len(found) <= len(self.names):
            raise RpcError(MISC_ERROR, f"{self.usage}\n\n{self.about}\n")
        for value, kind in zip(found, self.types):
            expect(value, kind)
        return found + [None] * (len(self.names) - len(found)) if self.padded else found

    def _in_order(self, params: Dict[str, Any]) -> List[Any]:
        left, found, count = dict(params), [], 0
        for names in self.names:
            # The first of its names; another one is left over.
            name = next((name for name in names.split("|") if name in left), None)
            found.append(None if name is None else left.pop(name))
            count = count if name is None else len(found)
        if left:
            raise RpcError(INVALID_PARAMETER, f"Unknown named parameter {min(left)[:100]}")
        return found[:count]


CALLS: Dict[str, Call] = {}

Run = Callable[..., Any]


def call(
    group: str, *names: str, needed: int = 0, types: Tuple[str, ...] = (), padded: bool = True
) -> Callable[[Run], Run]:
    """Puts a function into the table under its name. It takes the node, and its parameters by place."""

    def put(run: Run) -> Run:
        about = (run.__doc__ or "").strip()
        CALLS[run.__name__] = Call(run.__name__, group, names, needed, types, about, run, padded)
        return run

    return put


def run(node: Node, method: str, params: Any, calls: Optional[Dict[str, Call]] = None) -> Any:
    """The result of a call of a table, by default of bitcoind's, or an `RpcError`."""
    found = (CALLS if calls is None else calls).get(method)
    if found is None:
        raise RpcError(METHOD_NOT_FOUND, "Method not found")
    arguments = found.arguments(params)
    with node.turn:
        node.expect_running()
        node.running[threading.get_ident()] = method, time.monotonic()
        try:
            return found.run(node, *arguments)
        except RpcError:
            raise
        except (NodeDied, NotSaved, Owed) as error:
            raise node.fail(f"{type(error).__name__}: {error}")
        except Exception as error:
            # Whatever goes wrong is answered, as Bitcoin Core does with exceptions of C++.
            raise RpcError(MISC_ERROR, f"{type(error).__name__}: {error}") from error
        finally:
            node.running.pop(threading.get_ident(), None)
