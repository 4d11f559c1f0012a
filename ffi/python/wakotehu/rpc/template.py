"""getblocktemplate: what a miner makes a block of (BIPs 22 and 23)."""

from typing import Any, List

from ..chainstate import show
from ..encoding import EncodingError, block_at_front, double_sha, meeting_target, subsidy, write_header
from ..mempool import MAX_BLOCK, MAX_SIGOPS, Entry, Room
from .errors import DESERIALIZATION_ERROR, INVALID_PARAMETER, RpcError
from .mining import GROUP
from .node import Node, call
from .values import Object, hexadecimal, object_of, text

#: Each block of regtest has it.
BITS, TARGET = "207fffff", "7fffff" + "0" * 58


@call(GROUP, "template_request")
def getblocktemplate(node: Node, template_request: Any) -> Any:
    """What a block is made of that takes in what waits; or, with the mode `proposal`, what a block would be answered: null where
    it would be the active one. The block of a proposal isn't kept."""
    asked = {} if template_request is None else object_of(template_request)
    mode = asked.get("mode", "template")
    if not isinstance(mode, str) or mode not in ("template", "proposal"):
        raise RpcError(INVALID_PARAMETER, "Invalid mode")
    if mode == "proposal":
        return _proposed(node, asked.get("data"))
    if "segwit" not in (asked.get("rules") or []):
        message = 'getblocktemplate must be called with the segwit rule set (call with {"rules": ["segwit"]})'
        raise RpcError(INVALID_PARAMETER, message)
    return _template(node)


def _proposed(node: Node, given: Any) -> Any:
    """As a submission is answered, by BIP 23."""
    if not isinstance(given, str):
        raise RpcError(-3, "Missing data String key for proposal")
    with node.others():
        data = hexadecimal(text(given), "Block decode failed")
        try:
            block = block_at_front(data)
        except EncodingError:
            raise RpcError(DESERIALIZATION_ERROR, "Block decode failed")
        id = double_sha(block.data[:80])
        # A proposal needs no proof of work.
        header = meeting_target(block.header)
        block = block._replace(header=header, data=write_header(header) + block.data[80:])
    if id in node.bench.index.blocks:
        active = node.bench.index.is_active(id)
        return "duplicate" if active else "duplicate-inconclusive"
    while True:
        tip = node.tip()
        if header.parent != tip.id:
            return "inconclusive-not-best-prevblk"
        reply = node.judge(block)
        if node.tip() is tip:
            break
    if reply.reply == "decode-failed":
        raise RpcError(DESERIALIZATION_ERROR, "Block decode failed")
    # Bitcoin Core names no input.
    return None if reply.reply == "accepted" else reply.reason or reply.reply


def _template(node: Node) -> Object:
    with node.mempool.read():
        tip, chosen = node.tip(), node.mempool.selection(Room())
        places = {entry.id: place for place, entry in enumerate(chosen, 1)}
        parents = [node.mempool.parents(entry.id) for entry in chosen]
        come = node.mempool.sequence
    with node.others():
        waiting = [_transaction(entry, its, places) for entry, its in zip(chosen, parents)]
    height, least = tip.height + 1, tip.median + 1
    return {
        "capabilities": ["proposal"],
        "version": 0x20000000,
        "rules": ["csv"] if height >= node.bench.heights[3] else [],
        "vbavailable": {},
        "vbrequired": 0,
        "previousblockhash": show(tip.id),
        "transactions": waiting,
        "coinbaseaux": {},
        "coinbasevalue": subsidy(height) + sum(entry.fee for entry in chosen),
        "longpollid": f"{show(tip.id)}{come}",
        "target": TARGET,
        "mintime": least,
        "mutable": ["time", "transactions", "prevblock"],
        "noncerange": "00000000ffffffff",
        "sigoplimit": MAX_SIGOPS,
        "sizelimit": MAX_BLOCK,
        "curtime": max(least, node.now()),
        "bits": BITS,
        "height": height,
    }


def _transaction(entry: Entry, parents: List[bytes], places: "dict[bytes, int]") -> Object:
    return {
        "data": entry.data.hex(),
        "txid": show(entry.id),
        "hash": show(entry.id),
        "depends": sorted(places[it] for it in parents),
        "fee": entry.fee,
        "sigops": entry.sigops,
        "weight": 4 * entry.size,
    }
