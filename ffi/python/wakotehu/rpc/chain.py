"""Calls about a part of the chain: its transactions, its work in time, and whether its blocks are right."""

from typing import Any

from .. import consensus
from ..chainstate import show
from ..encoding import double_sha
from ..index import Kept
from .errors import INVALID_PARAMETER, RpcError
from .node import Node, call
from .values import Number, Object, digits, integer, text

GROUP = "Blockchain"
#: How many blocks a month has, and how many there are between changes of the difficulty, where it changes.
MONTH, PERIOD = 30 * 24 * 6, 2016
#: How thoroughly blocks are verified, and how many, where nobody says it.
LEVEL, BLOCKS = 3, 6
#: The work of a block.
WORK = 2


def _ratio(many: int, each: int) -> Number:
    """A number as Bitcoin Core writes it, with 16 digits at most."""
    return Number(f"{many / each:.16g}")


@call(GROUP, "nblocks", "blockhash")
def getchaintxstats(node: Node, nblocks: Any, blockhash: Any) -> Object:
    """How many transactions the chain has, and how many a second the last blocks of it."""
    index, last = node.bench.index, node.tip()
    if blockhash is not None:
        last = node.kept(digits(blockhash, "blockhash"))
        if not index.is_active(last.id):
            raise RpcError(INVALID_PARAMETER, "Block is not in main chain")
    many = max(0, min(MONTH, last.height - 1)) if nblocks is None else integer(nblocks)
    if many < 0 or (many > 0 and many >= last.height):
        message = "Invalid block count: should be between 0 and the block's height - 1"
        raise RpcError(INVALID_PARAMETER, message)
    found: Object = {
        "time": last.header.time,
        "txcount": last.branch_transactions,
        "window_final_block_hash": show(last.id),
        "window_final_block_height": last.height,
        "window_block_count": many,
    }
    if many:
        first = index.blocks[index.active[last.height - many]]
        count, seconds = last.branch_transactions - first.branch_transactions, last.median - first.median
        found.update(window_tx_count=count, window_interval=seconds)
        if seconds > 0:
            found["txrate"] = _ratio(count, seconds)
    return found


def hashes_a_second(node: Node, many: int, height: int) -> Any:
    """How many hashes a second were tried for so many blocks below a height, which is the active block's where it is
    negative."""
    index = node.bench.index
    last = index.blocks[index.active[height]] if 0 <= height < node.tip().height else node.tip()
    if not last.height:
        return 0
    many = min(many if many > 0 else last.height % PERIOD + 1, last.height)
    times = [index.blocks[id].header.time for id in index.active[last.height - many : last.height + 1]]
    seconds = max(times) - min(times)
    return _ratio(WORK * many, seconds) if seconds else 0


@call("Mining", "nblocks", "height")
def getnetworkhashps(node: Node, nblocks: Any, height: Any) -> Any:
    """How many hashes a second the last blocks took."""
    many = 120 if nblocks is None else integer(nblocks)
    return hashes_a_second(node, many, -1 if height is None else integer(height))


@call(GROUP, "checklevel", "nblocks")
def verifychain(node: Node, checklevel: Any, nblocks: Any) -> bool:
    """Verifies the last blocks again: that they are kept as they were submitted, and from level 1 on the rules of each by
    itself and by its place."""
    level = LEVEL if checklevel is None else integer(checklevel)
    many, height = BLOCKS if nblocks is None else integer(nblocks), node.tip().height
    many = many if 0 < many <= height else height
    index = node.bench.index
    blocks = [index.blocks[id] for id in index.active[height - many + 1 : height + 1]]
    kept = [(it, index.blocks[it.header.parent], node.data(it.id)) for it in blocks]
    with node.others():
        return all(_is_right(node, *each, level) for each in kept)


def _is_right(node: Node, kept: Kept, parent: Kept, data: bytes, level: int) -> bool:
    """Whether a kept block is what its id says, on its parent."""
    if double_sha(data[:80]) != kept.id or kept.height != parent.height + 1:
        return False
    if level < 1:
        return True
    now = max(node.now(), kept.header.time)
    place = kept.height, parent.median, now, node.bench.heights
    return not consensus.block(data).reason and not consensus.block_place(data, *place)


@call("Util", "index_name")
def getindexinfo(node: Node, index_name: Any) -> Object:
    """The state of indices: of -txindex and -blockfilterindex."""
    there = {"txindex": node.has_index, "basic block filter index": node.filters is not None}
    wanted = there if index_name is None else [text(index_name)]
    state = {"synced": True, "best_block_height": node.tip().height}
    return {name: state for name in wanted if there.get(name)}
