"""Calls that submit blocks and make them."""

import re
from typing import Any, List, Optional, Sequence, Tuple

from .. import consensus
from ..chainstate import show
from ..encoding import (
    EncodingError, Spelled, block_at_front, coinbase, double_sha, mine, mine_spelled, subsidy, write_transaction,
)  # fmt: skip
from ..mempool import Room
from ..stage import Spelt
from .chain import hashes_a_second
from .errors import (
    DESERIALIZATION_ERROR, INVALID_ADDRESS_OR_KEY, METHOD_NOT_FOUND, MISC_ERROR, VERIFY_ERROR, RpcError,
)  # fmt: skip
from .node import Node, call
from .descriptors import descriptor_script, output_script
from .scripts import address_script
from .txs import MAX_SIZE, Raw, raw_transaction
from .values import MAX_MONEY, Object, array, boolean, digits, hexadecimal, integer, text

GROUP, GENERATING = "Mining", "Generating"
#: How many blocks one call may make.
MAX_BLOCKS = 100_000
#: How many bytes a coinbase has besides, by which blocks differ.
EXTRA = 4
#: How many nonces one call tries.
MAX_TRIES = 1_000_000
#: Words that Bitcoin Core adds to a reason.
_LATE = {
    "time-too-old": ", block's timestamp is too early", "time-too-new": ", block timestamp too far in the future",
}  # fmt: skip


@call(GROUP, "hexdata", "dummy", needed=1)
def submitblock(node: Node, hexdata: Any, dummy: Any) -> Optional[str]:
    """Submits a block: null where it is the active one then, else a word of BIP 22."""
    with node.others():
        data = hexadecimal(hexdata, "Block decode failed")
    if node.is_valid_copy(data):
        return "duplicate"
    with node.others():
        spelled = _block(data)
    reply = node.submit(spelled)
    if reply.reply == "decode-failed":
        raise RpcError(DESERIALIZATION_ERROR, "Block decode failed")
    if reply.reply == "tree-full":
        raise RpcError(MISC_ERROR, "no more blocks can be kept")
    if reply.reply == "accepted":
        return None
    if reply.reply == "duplicate-inconclusive":
        return "duplicate"
    # Bitcoin Core names no input.
    return reply.reason or reply.reply


def _block(data: bytes) -> Spelled:
    """The block at the front of bytes. As Bitcoin Core does: what is left over isn't looked at."""
    try:
        found = block_at_front(data)
        if found.ids and found.transaction(0).is_coinbase:
            return found
    except EncodingError:
        raise RpcError(DESERIALIZATION_ERROR, "Block decode failed")
    raise RpcError(DESERIALIZATION_ERROR, "Block does not start with a coinbase")


@call(GROUP, "hexdata", needed=1)
def submitheader(node: Node, hexdata: Any) -> None:
    """Not supported: the chainstate takes whole blocks."""
    with node.others():
        data = hexadecimal(hexdata, "Block header decode failed")
    if len(data) < 80:
        raise RpcError(DESERIALIZATION_ERROR, "Block header decode failed")
    if data[4:36] not in node.bench.index.blocks:
        raise RpcError(VERIFY_ERROR, f"Must submit previous header ({show(data[4:36])}) first")
    if double_sha(data[:80]) not in node.bench.index.blocks:
        raise RpcError(MISC_ERROR, "submitheader isn't supported: submit the whole block")


@call(GROUP)
def getmininginfo(node: Node) -> Object:
    """What a miner asks first."""
    return {
        "blocks": node.tip().height,
        "difficulty": 4.656542373906925e-10,
        "networkhashps": hashes_a_second(node, 120, -1),
        "pooledtx": len(node.mempool.entries),
        "chain": "regtest",
        "warnings": "",
    }


# ---- making blocks


def _made(node: Node, script: bytes, transactions: Sequence[Spelt], fees: int) -> Spelled:
    """A block on the active one, that pays to a script; other calls run while it is made."""
    tip, now = node.tip(), node.now()
    height = tip.height + 1
    # What no coinbase before had, so that two blocks of one parent differ.
    extra = node.bench.fresh().to_bytes(EXTRA, "little")
    made = coinbase(height, subsidy(height) + fees, script, extra)
    # Cut to 32 bits, as Bitcoin Core does: a block that is too old then.
    when = max(tip.median + 1, now) & 0xFFFFFFFF
    with node.others():
        data, ids = [write_transaction(made), *(tx.data for tx in transactions)], [made.id, *(tx.id for tx in transactions)]
        block = mine_spelled(tip.id, when, data, ids=ids)
        late = consensus.block_place(mine(tip.id, when, [made]), height, tip.median, now, node.bench.heights)
    if late:
        raise RpcError(MISC_ERROR, f"CreateNewBlock: TestBlockValidity failed: {late}{_LATE.get(late, '')}")
    return block


def _fees(node: Node, transactions: Sequence[Raw]) -> int:
    """What transactions leave to the coinbase; nothing where an output that they spend isn't known."""
    spent = node.spent({raw.id: raw.tx for raw in transactions})
    made = [out.value for raw in transactions for out in raw.tx.outputs]
    values = [spent.get((spends.id, spends.index)) for raw in transactions for spends in raw.tx.inputs]
    if None in values:
        return 0
    return min(max(sum(out.value for out in values if out) - sum(made), 0), MAX_MONEY)


def _tries(maxtries: Any) -> int:
    """How many nonces may be tried. A negative number is a high one, as in Bitcoin Core."""
    return (MAX_TRIES if maxtries is None else integer(maxtries)) % 2**64


def _generate(node: Node, count: int, script: bytes, tries: int) -> List[str]:
    if count > MAX_BLOCKS:
        raise RpcError(MISC_ERROR, f"no more than {MAX_BLOCKS} blocks by one call")
    found: List[str] = []
    # As Bitcoin Core's: the blocks so far are answered where the server ends.
    while len(found) < count and tries and not (found and node.stopped):
        with node.making():
            with node.mempool.read():
                chosen = node.mempool.selection(_room(node, script))
            block = _made(node, script, chosen, sum(entry.fee for entry in chosen))
            # Each nonce that didn't meet the target was a try.
            tries -= min(tries, block.header.nonce)
            if not tries:
                break
            reply = node.submit(block)
        # Beside another call's block it may be kept on a branch of its own, as at Bitcoin Core.
        if reply.reply not in ("accepted", "inconclusive"):
            raise RpcError(MISC_ERROR, f"ProcessNewBlock, block not accepted: {reply.text}")
        found.append(show(block.header.id))
    return found


def _room(node: Node, script: bytes) -> Room:
    """What a block on the active one has room for that pays to a script."""
    return Room.beside(coinbase(node.tip().height + 1, 0, script, bytes(EXTRA)))


@call(GENERATING, "nblocks", "address", "maxtries", needed=2)
def generatetoaddress(node: Node, nblocks: Any, address: Any, maxtries: Any) -> List[str]:
    """Makes blocks that pay to an address, and take in what waits."""
    count, tries = integer(nblocks), _tries(maxtries)
    with node.others():
        script = address_script(text(address))
    if script is None:
        raise RpcError(INVALID_ADDRESS_OR_KEY, "Error: Invalid address")
    return _generate(node, count, script, tries)


@call(GENERATING, "num_blocks", "descriptor", "maxtries", needed=2)
def generatetodescriptor(node: Node, num_blocks: Any, descriptor: Any, maxtries: Any) -> List[str]:
    """Makes blocks that pay to a descriptor."""
    count, tries = integer(num_blocks), _tries(maxtries)
    with node.others():
        script = descriptor_script(text(descriptor))
    return _generate(node, count, script, tries)


@call(GENERATING)
def generate(node: Node) -> None:
    """has been replaced by the -generate cli option. Refer to -help for more information."""
    raise RpcError(METHOD_NOT_FOUND, f"generate\n{generate.__doc__}")


@call(GENERATING, "output", "transactions", "submit", needed=2)
def generateblock(node: Node, output: Any, transactions: Any, submit: Any) -> Object:
    """Makes a block of transactions, raw ones or ids of those that wait, that pays to an address or a descriptor; without
    submitting it where submit is false. One that breaks a rule is never submitted."""
    with node.others():
        script = output_script(text(output))
        made = [_raw_transaction(node, raw) for raw in array(transactions)]
        wanted = True if submit is None else boolean(submit)
        fees = _fees(node, made)
    with node.making():
        block, broken = _tried(node, script, made, fees)
        if not broken and wanted:
            reply = node.submit(block)
            broken = "" if reply.reply in ("accepted", "inconclusive") else reply.text
    if broken:
        raise RpcError(VERIFY_ERROR, f"TestBlockValidity failed: {broken}")
    found = {"hash": show(block.header.id)}
    return found if wanted else {**found, "hex": block.data.hex()}


def _tried(node: Node, script: bytes, transactions: Sequence[Spelt], fees: int) -> Tuple[Spelled, str]:
    """A block on the active one, and the first rule that it breaks. Another call may submit a block meanwhile: then it is
    made anew."""
    while True:
        tip = node.tip()
        block = _made(node, script, transactions, fees)
        reply = node.judge(block)
        if node.tip() is tip:
            return block, "" if reply.reply == "accepted" else reply.text


def _raw_transaction(node: Node, raw: Any) -> Raw:
    given = text(raw)
    if re.fullmatch("[0-9a-fA-F]{64}", given):
        with node.turn, node.mempool.read():
            waiting = node.mempool.entries.get(digits(given, "txid"))
        if waiting is None:
            raise RpcError(INVALID_ADDRESS_OR_KEY, f"Transaction {given} not in mempool.")
        return Raw(waiting.tx, waiting.data)
    if len(given) > 2 * MAX_SIZE:
        raise RpcError(VERIFY_ERROR, "TestBlockValidity failed: bad-blk-length")
    return raw_transaction(
        given, f"Transaction decode failed for {given[:200]}. Make sure the tx has at least one input.", True
    )
