"""Calls that show transactions and scripts."""

from typing import Any, Mapping, NamedTuple, Optional, Tuple

from ..chainstate import show
from ..encoding import (
    GENESIS, EncodingError, Output, Transaction, block_at_front, double_sha, hash160, read_transaction,
)  # fmt: skip
from ..index import Kept
from .errors import DESERIALIZATION_ERROR, INVALID_ADDRESS_OR_KEY, INVALID_PARAMETER, RpcError
from .node import Node, call
from ..addresses import spelled as address
from .scripts import SCRIPT_PREFIX, asm, kind_of, shown
from .values import Amount, Object, boolean, digits, hexadecimal, integer, is_number, unhexed

GROUP = "Rawtransactions"
#: A transaction, or a script, of more bytes can't be in a block.
MAX_SIZE = 1_000_000


def transaction_fields(
    data: bytes, spent: Optional[Mapping[Tuple[bytes, int], Output]] = None, with_hex: bool = True
) -> Object:
    """A transaction, by its bytes, as calls show it; with the fee where what it spends is given."""
    tx, id = read_transaction(data), show(double_sha(data))
    fields: Object = {
        "txid": id,
        "hash": id,
        # Without a sign, as Bitcoin Core shows it.
        "version": tx.version & 0xFFFFFFFF,
        "size": len(data),
        "vsize": len(data),
        "weight": 4 * len(data),
        "locktime": tx.lock_time,
        "vin": [_input(tx, place) for place in range(len(tx.inputs))],
        "vout": [
            {"value": Amount(out.value), "n": n, "scriptPubKey": shown(out.script)} for n, out in enumerate(tx.outputs)
        ],
    }
    if spent is not None and not tx.is_coinbase and all((it.id, it.index) in spent for it in tx.inputs):
        value = sum(spent[it.id, it.index].value for it in tx.inputs)
        fields["fee"] = Amount(value - sum(out.value for out in tx.outputs))
    if with_hex:
        fields["hex"] = data.hex()
    return fields


def _input(tx: Transaction, place: int) -> Object:
    spends = tx.inputs[place]
    if tx.is_coinbase:
        return {"coinbase": spends.script.hex(), "sequence": spends.sequence}
    return {
        "txid": show(spends.id),
        "vout": spends.index,
        "scriptSig": {"asm": asm(spends.script, signatures=True), "hex": spends.script.hex()},
        "sequence": spends.sequence,
    }


@call(GROUP, "txid", "verbose", "blockhash", needed=1)
def getrawtransaction(node: Node, txid: Any, verbose: Any, blockhash: Any) -> Any:
    """A transaction, as digits or shown: of the block that is named, or that waits to be mined, or by -txindex of an active
    block."""
    id = digits(txid, "parameter 1")
    if id == GENESIS.root:
        message = "The genesis block coinbase is not considered an ordinary transaction and cannot be retrieved"
        raise RpcError(INVALID_ADDRESS_OR_KEY, message)
    level = 0 if verbose is None else integer(verbose) if is_number(verbose) else int(boolean(verbose))
    data, kept = _found(node, id) if blockhash is None else _of_block(node, id, blockhash)
    if not level:
        return data.hex()
    with node.others():
        fields = transaction_fields(data)
    if kept is None:
        return fields
    active = node.bench.index.is_active(kept.id)
    moments: Object = {"time": kept.header.time, "blocktime": kept.header.time} if active else {}
    return {
        **({} if blockhash is None else {"in_active_chain": active}),
        **fields,
        "blockhash": show(kept.id),
        "confirmations": node.tip().height - kept.height + 1 if active else 0,
        **moments,
    }


def _of_block(node: Node, id: bytes, blockhash: Any) -> Tuple[bytes, Kept]:
    """The bytes of a transaction of the block that is named."""
    kept = node.kept(digits(blockhash, "parameter 3"), "Block hash not found")
    with node.others():
        block = block_at_front(node.data(kept.id))
    if id in block.ids:
        return block.data[slice(*block.places[block.ids.index(id)])], kept
    message = "No such transaction found in the provided block. Use gettransaction for wallet transactions."
    raise RpcError(INVALID_ADDRESS_OR_KEY, message)


def _found(node: Node, id: bytes) -> Tuple[bytes, Optional[Kept]]:
    """The bytes of a transaction that waits, or by -txindex of one of an active block, with that."""
    with node.mempool.read():
        entry = node.mempool.entries.get(id)
    if entry is not None:
        return entry.data, None
    why = "No such mempool transaction. Use -txindex or provide a block hash to enable blockchain transaction queries"
    if node.has_index:
        kept, data = active_block(node, id), node.bench.spelled(id)
        if kept is not None and data is not None:
            return data, kept
        why = "No such mempool or blockchain transaction"
    raise RpcError(INVALID_ADDRESS_OR_KEY, f"{why}. Use gettransaction for wallet transactions.")


def active_block(node: Node, id: bytes) -> Optional[Kept]:
    """The active block that has a transaction. The index names one block of those that have it: another one is looked for among
    the active blocks, which is slow, and only happens where branches share transactions."""
    index = node.bench.index
    if id not in index.transactions:
        return None
    first = index.transactions[id][0]
    if index.is_active(first):
        return index.blocks[first]
    own = (it for it in reversed(index.active) if id in block_at_front(node.data(it)).ids)
    found = next(own, None)
    return None if found is None else index.blocks[found]


@call(GROUP, "hexstring", "iswitness", needed=1, types=("string", "bool"))
def decoderawtransaction(node: Node, hexstring: Any, iswitness: Any) -> Object:
    """A transaction of these digits, shown. Where iswitness is true, one that begins as those with witnesses do isn't one."""
    with node.others():
        return transaction_fields(raw_transaction(hexstring, "TX decode failed", iswitness is True).data, with_hex=False)


class Raw(NamedTuple):
    """A transaction that was given by its bytes."""

    tx: Transaction
    data: bytes

    @property
    def id(self) -> bytes:
        return double_sha(self.data)


def raw_transaction(hexstring: Any, fault: str, with_witness: bool) -> Raw:
    """The transaction of these digits, which is no larger than a block. Outputs without an input are the mark of a
    witness."""
    data = hexadecimal(hexstring, fault, MAX_SIZE)
    try:
        tx = read_transaction(data)
    except EncodingError:
        raise RpcError(DESERIALIZATION_ERROR, fault)
    # A count that isn't spelled shortest is refused.
    if _size_of(tx) != len(data) or (with_witness and tx.outputs and not tx.inputs):
        raise RpcError(DESERIALIZATION_ERROR, fault)
    return Raw(tx, data)


def _size_of(tx: Transaction) -> int:
    """How many bytes `write_transaction` would make."""
    scripts = [len(it.script) for it in tx.inputs] + [len(it.script) for it in tx.outputs]
    counts = [len(tx.inputs), len(tx.outputs), *(length for length in scripts if length > 252)]
    short = len(scripts) + 2 - len(counts)
    return 8 + 40 * len(tx.inputs) + 8 * len(tx.outputs) + sum(scripts) + short + sum(map(_size_of_count, counts))


def _size_of_count(count: int) -> int:
    return 1 if count < 253 else 3 if count < 2**16 else 5 if count < 2**32 else 9


@call(GROUP, "hexstring", needed=1, types=("string",))
def decodescript(node: Node, hexstring: Any) -> Object:
    """A script of these digits, shown, with the address of its hash."""
    if len(hexstring) > 2 * MAX_SIZE:
        raise RpcError(INVALID_PARAMETER, f"argument has more than {MAX_SIZE} bytes, as no block has a script")
    with node.others():
        script = unhexed(hexstring)
        if script is None:
            raise RpcError(INVALID_PARAMETER, f"argument must be hexadecimal string (not '{hexstring[:100]}')")
        found = shown(script, with_hex=False)
        if kind_of(script)[0] != "scripthash":
            found["p2sh"] = address(SCRIPT_PREFIX, hash160(script))
        return found
