"""getblockstats."""

from typing import Any, Dict, List, Sequence, Tuple

from ..chainstate import show
from ..encoding import subsidy
from ..index import Kept
from .errors import INVALID_PARAMETER, MISC_ERROR, RpcError
from .node import Node, call
from .outlines import Outline, outlines, outputs
from .values import Object, array, digits, integer, is_number, text

#: What an output takes beside its script, in bytes, as Bitcoin Core counts it: value, outpoint, height and mark.
PER_OUTPUT = 8 + 41


@call("Blockchain", "hash_or_height", "stats", needed=1)
def getblockstats(node: Node, hash_or_height: Any, stats: Any) -> Object:
    """Sizes and fees of a block of the active branch, in satoshis; all of them, or those that are named."""
    kept = _asked(node, hash_or_height)
    with node.others():
        wanted = set() if stats is None else {text(name) for name in array(stats)}
        found = _stats(node, kept)
        for name in sorted(wanted - found.keys())[:1]:
            raise RpcError(INVALID_PARAMETER, f"Invalid selected statistic {name[:100]}")
    return {name: value for name, value in found.items() if not wanted or name in wanted}


def _asked(node: Node, given: Any) -> Kept:
    height = node.tip().height
    if is_number(given):
        number = integer(given)
        if number < 0:
            raise RpcError(INVALID_PARAMETER, f"Target block height {number} is negative")
        if number > height:
            raise RpcError(INVALID_PARAMETER, f"Target block height {number} after current tip {height}")
        return node.bench.index.blocks[node.bench.index.active[number]]
    kept = node.kept(digits(given, "hash_or_height"))
    if not node.bench.index.is_active(kept.id):
        raise RpcError(INVALID_PARAMETER, "Block is not in chain regtest")
    return kept


def _stats(node: Node, kept: Kept) -> Object:
    if kept.height == 0:
        raise RpcError(MISC_ERROR, "Can't read undo data from disk")
    txs = outlines(node.data(kept.id))
    others, sizes = txs[1:], [tx.size for tx in txs[1:]]
    spent = _spent(node, others)
    fees = [sum([value for value, _ in outs]) - tx.value for tx, outs in zip(others, spent)]
    made, gone = sum([tx.outputs for tx in txs]), sum(map(len, spent))
    grows = sum([tx.scripts for tx in txs]) - sum([size for outs in spent for _, size in outs])
    found = {
        "blockhash": show(kept.id),
        "height": kept.height,
        "ins": gone,
        "mediantime": kept.median,
        "outs": made,
        "subsidy": subsidy(kept.height),
        "swtotal_size": 0,
        "swtotal_weight": 0,
        "swtxs": 0,
        "time": kept.header.time,
        "total_out": sum([tx.value for tx in others]),
        "txs": len(txs),
        "utxo_increase": made - gone,
        "utxo_size_inc": grows + PER_OUTPUT * (made - gone),
        **_of_fees(fees, sizes),
        **_of_sizes(sizes),
    }
    return dict(sorted(found.items()))


def _of_fees(fees: List[int], sizes: List[int]) -> Object:
    # Without witnesses a byte weighs 4: a rate by virtual bytes is one by bytes.
    rates = [fee // size for fee, size in zip(fees, sizes)]
    return {
        "avgfee": sum(fees) // len(fees) if fees else 0,
        "avgfeerate": sum(fees) // sum(sizes) if sizes else 0,
        "feerate_percentiles": _percentiles(list(zip(rates, (4 * size for size in sizes)))),
        "maxfee": max(fees, default=0),
        "maxfeerate": max(rates, default=0),
        "medianfee": _median(fees),
        "minfee": min(fees, default=0),
        "minfeerate": min(rates, default=0),
        "totalfee": sum(fees),
    }


def _of_sizes(sizes: List[int]) -> Object:
    return {
        "avgtxsize": sum(sizes) // len(sizes) if sizes else 0,
        "maxtxsize": max(sizes, default=0),
        "mediantxsize": _median(sizes),
        "mintxsize": min(sizes, default=0),
        "total_size": sum(sizes),
        "total_weight": 4 * sum(sizes),
    }


def _spent(node: Node, txs: Sequence[Outline]) -> List[List[Tuple[int, int]]]:
    """The outputs that each transaction of a kept block spends."""
    made: Dict[bytes, List[Tuple[int, int]]] = {}

    def output(id: bytes, index: int) -> Tuple[int, int]:
        if id not in made:
            data = node.bench.spelled(id)
            assert data is not None, "blocks of the index are kept"
            made[id] = outputs(data)
        return made[id][index]

    return [[output(*spends) for spends in tx.spends] for tx in txs]


def _median(numbers: Sequence[int]) -> int:
    """Of an even count the two in the middle are halved together."""
    if not numbers:
        return 0
    found, half = sorted(numbers), len(numbers) // 2
    return found[half] if len(found) % 2 else (found[half - 1] + found[half]) // 2


def _percentiles(rates: List[Tuple[int, int]]) -> List[int]:
    """The fee rates at 10, 25, 50, 75 and 90 percent of the weight."""
    if not rates:
        return [0] * 5
    rates.sort()
    total = sum(weight for _, weight in rates)
    marks = [total / 10.0, total / 4.0, total / 2.0, total * 3.0 / 4.0, total * 9.0 / 10.0]
    found: List[int] = []
    passed = 0
    for rate, weight in rates:
        passed += weight
        while len(found) < 5 and passed >= marks[len(found)]:
            found.append(rate)
    return found + [rates[-1][0]] * (5 - len(found))
