"""Wakotehu: a chainstate with Bitcoin Core's rules on regtest before segregated witness, proved, in a test bench.

`Chainstate` is the proved chainstate, with valid signatures as a table or found out by need; `Bench` finds them out by
libsecp256k1, and `Pool` has the transactions that wait to be mined on it. `Node` is a proved node for many callers, in a
process of its own, with a table or, by `verify=secp256k1`, real signatures; `AsyncNode` the same for asyncio. `Replica` is
one of many such nodes that have one history, over PostgreSQL; `AsyncReplica` the same for asyncio. `ParsedTransaction` is
a transaction that is read once, whose inputs are judged by the rules alone (`wakotehu.consensus`). `CoinSet` has coins of
one's own, over which blocks are connected and transactions checked, apart from any chainstate.
`python3 -m wakotehu.server` answers the calls of bitcoind's JSON-RPC.
"""

from .asyncreplica import AsyncReplica, AsyncReplicaSeat
from .bench import Bench
from .chainstate import REGTEST, Chainstate, Coin, Moved, Reply, Tip, read_id, show
from .coinset import CoinSet
from .consensus import ParsedTransaction
from .errors import (
    BadRequest, BadRow, BadTable, Busy, Closed, Contradiction, DatabaseMissing, DatabaseRefused, DecodeFailed, Error, Genesis,
    HistoryFull, LibraryMissing, Memory, NodeDied, NoHistory, NotAccepted, NotDurable, NotFound, NotSaved, OtherLoop, OtherProcess, Owed, ProgramMissing,
    ReadOnly, Rejected, ReplicaDiffers, TimedOut, TooMany, TreeFull, Unavailable, Undecided, Wants,
)  # fmt: skip
from .node import AsyncNode, AsyncSeat, BlockHeader, Entry, Info, Node, Seat, Stamped, UnspentOutput
from .pool import Pool
from .replica import Placed, Replica, ReplicaSeat, Status
from .signatures import secp256k1
from .version import __version__

__all__ = [
    "REGTEST", "AsyncNode", "AsyncReplica", "AsyncReplicaSeat", "AsyncSeat", "BadRequest", "BadRow", "BadTable",
    "Bench", "BlockHeader", "Busy", "Chainstate", "Closed", "Coin", "CoinSet", "Contradiction", "DatabaseMissing", "DatabaseRefused",
    "DecodeFailed", "Entry", "Error", "Genesis", "HistoryFull", "Info", "LibraryMissing", "Memory", "Moved",
    "NoHistory", "Node", "NodeDied", "NotAccepted", "NotDurable", "NotFound", "NotSaved", "OtherLoop", "OtherProcess", "Owed",
    "ParsedTransaction", "Placed", "Pool",
    "ProgramMissing", "ReadOnly", "Rejected", "Replica", "ReplicaDiffers", "ReplicaSeat", "Reply", "Seat", "Stamped",
    "Status", "TimedOut", "Tip", "TooMany", "TreeFull", "Unavailable", "Undecided", "UnspentOutput", "Wants",
    "__version__", "read_id", "secp256k1", "show",
]  # fmt: skip
