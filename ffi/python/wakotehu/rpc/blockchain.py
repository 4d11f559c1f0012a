"""Calls that read and mark the chain."""

import time
from typing import Any, Callable, Dict, Iterator, List, NamedTuple, Optional, Set

from ..chainstate import show
from ..encoding import block_at_front, double_sha, read_transaction, write_header
from ..index import Kept, Unspent
from ..nodebench import Coins
from .errors import INVALID_ADDRESS_OR_KEY, INVALID_PARAMETER, MISC_ERROR, RpcError
from .node import Node, call
from .checksums import checksum
from .descriptors import Script, Underivable, descriptor_range, fixed_descriptor, read_descriptor
from .scripts import compact, shown, without_checksum
from .txs import transaction_fields
from .values import Amount, Object, boolean, digits, integer, is_number, shortened, text

GROUP = "Blockchain"
#: Of each block of regtest, whose work is 2.
DIFFICULTY = 4.656542373906925e-10


def work(height: int) -> str:
    return f"{2 * (height + 1):064x}"


@call(GROUP)
def getbestblockhash(node: Node) -> str:
    """The hash of the active block."""
    return show(node.tip().id)


@call(GROUP)
def getblockcount(node: Node) -> int:
    """The height of the active block."""
    return node.tip().height


@call(GROUP, "height", needed=1)
def getblockhash(node: Node, height: Any) -> str:
    """The hash of the active block of a height."""
    found = node.bench.index.at(integer(height))
    if found is None:
        raise RpcError(INVALID_PARAMETER, "Block height out of range")
    return show(found)


def header_fields(node: Node, kept: Kept) -> Object:
    """A header as calls show it."""
    index, header, height = node.bench.index, kept.header, kept.height
    active = index.is_active(kept.id)
    fields: Object = {
        "hash": show(kept.id),
        "confirmations": node.tip().height - height + 1 if active else -1,
        "height": height,
        "version": header.version,
        "versionHex": f"{header.version & 0xFFFFFFFF:08x}",
        "merkleroot": show(header.root),
        "time": header.time,
        "mediantime": kept.median,
        "nonce": header.nonce,
        "bits": f"{header.bits:08x}",
        "difficulty": DIFFICULTY,
        "chainwork": work(height),
        "nTx": kept.transactions,
    }
    if height:
        fields["previousblockhash"] = show(header.parent)
    after = index.at(height + 1) if active else None
    if after is not None:
        fields["nextblockhash"] = show(after)
    return fields


@call(GROUP, "blockhash", "verbose", needed=1)
def getblockheader(node: Node, blockhash: Any, verbose: Any) -> Any:
    """The header of a kept block; as digits where verbose is false."""
    id, is_shown = digits(blockhash, "hash"), verbose is None or boolean(verbose)
    kept = node.kept(id)
    if is_shown:
        return header_fields(node, kept)
    return write_header(kept.header).hex()


@call(GROUP, "blockhash", "verbosity|verbose", needed=1)
def getblock(node: Node, blockhash: Any, verbosity: Any) -> Any:
    """A kept block: as digits (0), with the ids of its transactions (1), or with all of them (2)."""
    id = digits(blockhash, "blockhash")
    level = 1
    if verbosity is not None:
        level = integer(verbosity) if is_number(verbosity) else int(boolean(verbosity))
    kept = node.kept(id)
    data = node.data(id)
    if level <= 0:
        return data.hex()
    fields = header_fields(node, kept)
    with node.others():
        found: List[Any] = []
        found += _transactions(node, data) if level > 1 else (id[::-1].hex() for id in block_at_front(data).ids)
    # In Bitcoin Core's order.
    sizes = {"strippedsize": len(data), "size": len(data), "weight": 4 * len(data)}
    begin, middle = (
        {name: fields.pop(name) for name in names}
        for names in (("hash", "confirmations"), ("height", "version", "versionHex", "merkleroot"))
    )
    return {**begin, **sizes, **middle, "tx": found, **fields}


def _transactions(node: Node, data: bytes) -> List[Object]:
    """All transactions of a kept block, shown."""
    block = block_at_front(data)
    spelled = [data[begin:end] for begin, end in block.places]
    spent = node.spent(dict(zip(block.ids, map(read_transaction, spelled))))
    return [transaction_fields(tx, spent) for tx in spelled]


@call(GROUP)
def getchaintips(node: Node) -> List[Object]:
    """The tips, by height downwards, then as they came."""
    return [
        {"height": tip.height, "hash": show(tip.id), "branchlen": tip.length, "status": tip.status}
        for tip in node.bench.tips()
    ]


@call(GROUP)
def getdifficulty(node: Node) -> float:
    """The difficulty, which is the same of each block of regtest."""
    return DIFFICULTY


@call(GROUP)
def getblockchaininfo(node: Node) -> Object:
    """The state of the chain."""
    tip, index = node.tip(), node.bench.index
    return {
        "chain": "regtest",
        "blocks": tip.height,
        "headers": index.highest,
        "bestblockhash": show(tip.id),
        "difficulty": DIFFICULTY,
        "time": tip.header.time,
        "mediantime": tip.median,
        "verificationprogress": 1,
        "initialblockdownload": False,
        "chainwork": work(tip.height),
        "size_on_disk": index.active_size,
        "pruned": False,
        "softforks": _deployments(node, tip.height),
        "warnings": "",
    }


def _deployments(node: Node, height: int) -> Object:
    """The soft forks, and whether each is in force in a child of an active block of a height."""
    forks = node.bench.heights.named.items()
    return {name: {"type": "buried", "active": height + 1 >= first, "height": first} for name, first in forks}


@call(GROUP, "blockhash")
def getdeploymentinfo(node: Node, blockhash: Any) -> Object:
    """The soft forks, as they are in force in a child of a kept block, or of the active one."""
    kept = node.tip() if blockhash is None else node.kept(digits(blockhash, "blockhash"))
    return {"hash": show(kept.id), "height": kept.height, "deployments": _deployments(node, kept.height)}


@call(GROUP, "txid", "n", "include_mempool", needed=2)
def gettxout(node: Node, txid: Any, n: Any, include_mempool: Any) -> Optional[Object]:
    """An output that isn't spent, or null; neither by what waits to be mined, where include_mempool isn't false."""
    id, index = digits(txid, "txid"), integer(n)
    if include_mempool is None or boolean(include_mempool):
        with node.mempool.read():
            waiting, is_spent = node.mempool.coin(id, index), (id, index) in node.mempool.spenders
        if is_spent:
            return None
        if waiting is not None:
            return _unspent(Unspent(waiting, node.tip().id, 0))
    found = node.bench.unspent(id, index) if index >= 0 else None
    return None if found is None else _unspent(found)


def _unspent(found: Unspent) -> Object:
    coin = found.coin
    return {
        "bestblock": show(found.best),
        "confirmations": found.confirmations,
        "value": Amount(coin.value),
        "scriptPubKey": shown(coin.script),
        "coinbase": coin.coinbase,
    }


# ---- marks


def _mark(node: Node, command: str, blockhash: Any) -> None:
    reply = node.mark(command, digits(blockhash, "blockhash"))
    if reply.reply == "not-found":
        raise RpcError(INVALID_ADDRESS_OR_KEY, "Block not found")
    if reply.reply == "genesis":
        raise RpcError(MISC_ERROR, "genesis block can't be marked")


@call("Hidden", "blockhash", needed=1)
def invalidateblock(node: Node, blockhash: Any) -> None:
    """Marks a block as invalid."""
    _mark(node, "invalidate", blockhash)


@call("Hidden", "blockhash", needed=1)
def reconsiderblock(node: Node, blockhash: Any) -> None:
    """Takes the marks from a block, its ancestors and its descendants."""
    _mark(node, "reconsider", blockhash)


@call(GROUP, "blockhash", needed=1)
def preciousblock(node: Node, blockhash: Any) -> None:
    """Prefers a block to all that are as high."""
    _mark(node, "precious", blockhash)


# ---- waiting


def _wait(node: Node, timeout: Any, holds: Callable[[], bool]) -> Object:
    """Waits until it holds, so many milliseconds at most; without end where that is 0. Other calls go on meanwhile."""
    limit = 0 if timeout is None else integer(timeout)
    until = time.monotonic() + limit / 1000 if limit else None
    while not holds() and not node.stopped:
        if until is not None and time.monotonic() >= until:
            break
        node.wait(until)
    return {"hash": show(node.tip().id), "height": node.tip().height}


@call("Hidden", "timeout")
def waitfornewblock(node: Node, timeout: Any) -> Object:
    """Waits until another block is the active one, or for so many milliseconds."""
    before = node.tip().id
    return _wait(node, timeout, lambda: node.tip().id != before)


@call("Hidden", "blockhash", "timeout", needed=1)
def waitforblock(node: Node, blockhash: Any, timeout: Any) -> Object:
    """Waits until a block is the active one, or for so many milliseconds."""
    id = digits(blockhash, "blockhash")
    return _wait(node, timeout, lambda: node.tip().id == id)


@call("Hidden", "height", "timeout", needed=1)
def waitforblockheight(node: Node, height: Any, timeout: Any) -> Object:
    """Waits until the active block has at least a height, or for so many milliseconds."""
    wanted = integer(height)
    return _wait(node, timeout, lambda: node.tip().height >= wanted)


# ---- all coins


@call(GROUP, "hash_type")
def gettxoutsetinfo(node: Node, hash_type: Any) -> Object:
    """How many coins there are, their sum, and a hash of them: hash_serialized_2 of Bitcoin Core 0.21, or none."""
    kind = "hash_serialized_2" if hash_type is None else text(hash_type)
    if kind not in ("hash_serialized_2", "none"):
        raise RpcError(INVALID_PARAMETER, f"{shortened(kind)} is not a valid hash_type")
    best, coins = node.bench.coins()
    tip = node.kept(best)
    with node.others():
        return _info(tip, coins, kind != "none")


def _info(tip: Kept, coins: Coins, with_hash: bool) -> Object:
    """What the call answers about all coins."""
    found: Object = {
        "height": tip.height,
        "bestblock": show(tip.id),
        "transactions": len({id for id, _, _ in coins}),
        "txouts": len(coins),
        "bogosize": sum(50 + len(coin.script) for _, _, coin in coins),
    }
    if with_hash:
        found["hash_serialized_2"] = show(coins_hash(tip.id, coins))
    found["disk_size"] = 0
    found["total_amount"] = Amount(sum(coin.value for _, _, coin in coins))
    return found


def coins_hash(best: bytes, coins: Any) -> bytes:
    """SHA-256 of SHA-256 of the best block's id and, for each transaction in the order of ids as bytes: the id, a 1, for
    each coin its number and 1, its script and its value, and a 0; numbers in Bitcoin Core's VARINT. (The 1 is meant to
    be the height and the coinbase's mark; Bitcoin Core 0.21 writes a truth value.)"""
    pieces, last = [best], b""
    for id, number, coin in coins:
        if id != last:
            pieces += [b"\0"] * bool(last) + [id, b"\1"]
            last = id
        pieces += [_varint(number + 1), compact(len(coin.script)), coin.script, _varint(coin.value)]
    return double_sha(b"".join(pieces) + b"\0" * bool(last))


def _varint(number: int) -> bytes:
    """Bitcoin Core's VARINT: digits of base 128, the highest first, of which all but the last are one less."""
    digits = [number & 127]
    while number > 127:
        number = (number >> 7) - 1
        digits.append(number & 127 | 128)
    return bytes(reversed(digits))


class _Wanted(NamedTuple):
    """A descriptor to scan for, and the lowest and highest place of its range."""

    text: str
    low: int = 0
    high: int = 1000


def _described(given: Any) -> _Wanted:
    """An object to scan for."""
    if isinstance(given, str):
        return _Wanted(given)
    if not isinstance(given, dict):
        raise RpcError(INVALID_PARAMETER, "Scan object needs to be either a string or an object")
    if given.get("desc") is None:
        raise RpcError(INVALID_PARAMETER, "Descriptor needs to be provided in scan object")
    described = text(given["desc"])
    return _Wanted(described) if given.get("range") is None else _Wanted(described, *descriptor_range(given["range"]))


@call(GROUP, "action", "scanobjects", needed=1, types=("string", "array"))
def scantxoutset(node: Node, action: Any, scanobjects: Any) -> Any:
    """Finds the coins of descriptors: start with a list of descriptors; status and abort find no scan."""
    if action == "status":
        return None
    if action == "abort":
        return False
    if action != "start":
        raise RpcError(INVALID_PARAMETER, "Invalid command")
    if scanobjects is None:
        raise RpcError(MISC_ERROR, "scanobjects argument is required for the start action")
    with node.others():
        wanted = scanned_scripts(node, scanobjects)
    best, coins = node.bench.coins()
    tip = node.kept(best)
    with node.others():
        return _scanned(tip, coins, wanted)


def scanned_scripts(node: Node, scanobjects: List[Any]) -> Dict[bytes, str]:
    """The scripts to scan for, each with the first descriptor that names it. The turn isn't held."""
    found: Dict[bytes, str] = {}
    known: Set[_Wanted] = set()
    for place, given in enumerate(scanobjects):
        if place % 1000 == 0:
            node.expect_running()
        wanted = _described(given)
        if wanted not in known:
            known.add(wanted)
            fixed = fixed_descriptor(wanted.text)
            for own in _expanded(node, wanted) if fixed is None else (fixed,):
                found.setdefault(own.code, own.text)
    return found


def _expanded(node: Node, wanted: _Wanted) -> Iterator[Script]:
    """All scripts of a descriptor in a range."""
    found = read_descriptor(without_checksum(wanted.text))
    for place in range(wanted.low, wanted.high + 1) if found.is_range else (0,):
        node.expect_running()
        try:
            yield from found.at(place)
        except Underivable:
            message = f"Cannot derive script without private keys: '{wanted.text[:200]}'"
            raise RpcError(INVALID_ADDRESS_OR_KEY, message) from None


def _scanned(tip: Kept, coins: Coins, wanted: Dict[bytes, str]) -> Object:
    """The coins of wanted scripts, each with its descriptor."""
    found = [it for it in coins if it[2].script in wanted]
    return {
        "success": True,
        "txouts": len(coins),
        "height": tip.height,
        "bestblock": show(tip.id),
        "unspents": [
            {
                "txid": show(id),
                "vout": number,
                "scriptPubKey": coin.script.hex(),
                "desc": f"{wanted[coin.script]}#{checksum(wanted[coin.script])}",
                "amount": Amount(coin.value),
                "height": coin.height,
            }
            for id, number, coin in found
        ],
        "total_amount": Amount(sum(coin.value for _, _, coin in found)),
    }
