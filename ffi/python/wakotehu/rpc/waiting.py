"""Calls that show the transactions that wait to be mined."""

from typing import Any, List, Tuple

from ..chainstate import show
from ..mempool import Waiting
from .errors import INVALID_ADDRESS_OR_KEY, INVALID_PARAMETER, TYPE_ERROR, RpcError
from .node import Node, call
from .values import Amount, Object, array, boolean, digits, expect, expect_member, integer, object_of

GROUP = "Blockchain"
#: What Bitcoin Core asks for at least, in satoshis for 1,000 bytes. Nothing is asked for here.
NO_FEE = Amount(0)


@call(GROUP)
def getmempoolinfo(node: Node) -> Object:
    """How much waits to be mined. No fee is asked for."""
    with node.mempool.read():
        pool = node.mempool
        sent = sum(entry.is_sent for entry in pool.entries.values())
        return {"loaded": True, "size": len(pool.entries), "bytes": pool.bytes, "usage": pool.bytes, "maxmempool": pool.most,
                "mempoolminfee": NO_FEE, "minrelaytxfee": NO_FEE, "unbroadcastcount": sent}  # fmt: skip


@call(GROUP, "verbose", "mempool_sequence")
def getrawmempool(node: Node, verbose: Any, mempool_sequence: Any) -> Any:
    """The ids of what waits to be mined; with all that is known of each where verbose is true."""
    sequence = mempool_sequence is not None and boolean(mempool_sequence)
    is_verbose = verbose is not None and boolean(verbose)
    if is_verbose and sequence:
        raise RpcError(INVALID_PARAMETER, "Verbose results cannot contain mempool sequence values.")
    with node.mempool.read():
        pool, come = node.mempool.copy(), node.mempool.sequence
    with node.others():
        if is_verbose:
            return _all_fields(pool, list(pool.entries))
        ids = [show(id) for id in _in_order(pool)]
        return {"txids": ids, "mempool_sequence": come} if sequence else ids


def _in_order(pool: Waiting) -> List[bytes]:
    """As Bitcoin Core lists them: those with fewer ancestors first, then by the fee for a byte, then by the id downwards."""

    def key(id: bytes) -> Any:
        entry = pool.entries[id]
        return len(pool.ancestors(id)), -pool.paid(entry) / entry.size, [255 - byte for byte in id[::-1]]

    return sorted(pool.entries, key=key)


def _entry(pool: Waiting, txid: Any) -> bytes:
    id = digits(txid, "parameter 1")
    if id not in pool.entries:
        raise RpcError(INVALID_ADDRESS_OR_KEY, "Transaction not in mempool")
    return id


@call(GROUP, "txid", needed=1)
def getmempoolentry(node: Node, txid: Any) -> Object:
    """What is known of a transaction that waits to be mined."""
    with node.mempool.read():
        return _fields(node.mempool, _entry(node.mempool, txid))


@call(GROUP, "txid", "verbose", needed=1)
def getmempoolancestors(node: Node, txid: Any, verbose: Any) -> Any:
    """Those that have to be mined before one that waits."""
    with node.mempool.read():
        _entry(node.mempool, txid)
        pool = node.mempool.copy()
    with node.others():
        found = pool.ancestors(_entry(pool, txid))
        return _all_fields(pool, found) if verbose is not None and boolean(verbose) else [show(id) for id in found]


@call(GROUP, "txid", "verbose", needed=1)
def getmempooldescendants(node: Node, txid: Any, verbose: Any) -> Any:
    """Those that can't be mined without one that waits."""
    with node.mempool.read():
        _entry(node.mempool, txid)
        pool = node.mempool.copy()
    with node.others():
        found = pool.descendants(_entry(pool, txid))
        return _all_fields(pool, found) if verbose is not None and boolean(verbose) else [show(id) for id in found]


def _all_fields(pool: Waiting, ids: List[bytes]) -> Object:
    return {show(id): _fields(pool, id) for id in ids}


def _fields(pool: Waiting, id: bytes) -> Object:
    """What is known of one, in Bitcoin Core's order."""
    entry = pool.entries[id]
    above = [entry, *(pool.entries[it] for it in pool.ancestors(id))]
    below = [entry, *(pool.entries[it] for it in pool.descendants(id))]
    paid, fees = pool.paid(entry), [sum(map(pool.paid, some)) for some in (above, below)]
    return {
        "fees": {
            "base": Amount(entry.fee), "modified": Amount(paid), "ancestor": Amount(fees[0]), "descendant": Amount(fees[1]),
        },  # fmt: skip
        "vsize": entry.size,
        "weight": 4 * entry.size,
        "fee": Amount(entry.fee),
        "modifiedfee": Amount(paid),
        "time": entry.time,
        "height": entry.height,
        "descendantcount": len(below),
        "descendantsize": sum(it.size for it in below),
        "descendantfees": fees[1],
        "ancestorcount": len(above),
        "ancestorsize": sum(it.size for it in above),
        "ancestorfees": fees[0],
        "wtxid": show(id),
        "depends": [show(it) for it in pool.parents(id)],
        "spentby": [show(it) for it in pool.children(id)],
        "bip125-replaceable": pool.is_replaceable(id),
        "unbroadcast": entry.is_sent,
    }


@call("Mining", "txid", "dummy", "fee_delta", needed=3)
def prioritisetransaction(node: Node, txid: Any, dummy: Any, fee_delta: Any) -> bool:
    """Has blocks that are made here take a transaction as if it paid so many satoshis more, or less."""
    id, delta = digits(txid, "txid"), integer(fee_delta, 64)
    if dummy is not None:
        expect(dummy, "number")
    if dummy is not None and float(dummy) != 0:
        message = "Priority is no longer supported, dummy argument to prioritisetransaction must be 0."
        raise RpcError(INVALID_PARAMETER, message)
    with node.mempool.used():
        node.mempool.prioritise(id, delta)
    return True


@call(GROUP, "outputs", needed=1)
def gettxspendingprevout(node: Node, outputs: Any) -> List[Object]:
    """Which of the transactions that wait spends each of some outputs: {"txid", "vout"}."""
    places = [_place(given) for given in array(outputs)]
    if not places:
        raise RpcError(INVALID_PARAMETER, "Invalid parameter, outputs are missing")
    with node.mempool.read():
        found = [node.mempool.spenders.get(place) for place in places]
    return [
        {"txid": show(id), "vout": index, **({} if spender is None else {"spendingtxid": show(spender)})}
        for (id, index), spender in zip(places, found)
    ]


def _place(given: Any) -> Tuple[bytes, int]:
    """An output that is named."""
    fields = object_of(given)
    for name, kind in (("txid", "string"), ("vout", "number")):
        expect_member(fields, name, kind)
    other = min((name for name in fields if name not in ("txid", "vout")), default=None)
    if other is not None:
        raise RpcError(TYPE_ERROR, f"Unexpected key {other[:100]}")
    id, index = digits(fields["txid"], "txid"), integer(fields["vout"])
    if index < 0:
        raise RpcError(INVALID_PARAMETER, "Invalid parameter, vout cannot be negative")
    return id, index
