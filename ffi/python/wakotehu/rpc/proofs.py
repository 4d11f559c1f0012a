"""gettxoutproof and verifytxoutproof: a block's header with the part of its Merkle tree that leads to transactions."""

from typing import Any, Iterator, List, NamedTuple, Optional, Set, Tuple

from ..chainstate import show
from ..encoding import block_at_front, double_sha, write_header
from ..index import Kept
from .errors import INVALID_ADDRESS_OR_KEY, INVALID_PARAMETER, MISC_ERROR, RpcError
from .node import Node, call
from .scripts import compact
from .values import array, digits, hex_text

GROUP = "Blockchain"
#: A transaction has at least 60 bytes, so a block has no more of them.
MOST = 1_000_000 // 60
#: No count is more, in Bitcoin Core's words.
MAX_COUNT = 0x02000000
_END = "CDataStream::read(): end of data"


@call(GROUP, "txids", "blockhash", needed=1)
def gettxoutproof(node: Node, txids: Any, blockhash: Any) -> str:
    """A proof that transactions are in a block, as digits: in the one that is named, or in the active one of an output
    that isn't spent."""
    with node.others():
        wanted = _ids(txids)
    kept = _block_of(node, wanted) if blockhash is None else node.kept(digits(blockhash, "blockhash"))
    if kept is None:
        raise RpcError(INVALID_ADDRESS_OR_KEY, "Transaction not yet in block")
    data = node.data(kept.id)
    with node.others():
        ids = block_at_front(data).ids
        if not wanted <= set(ids):
            message = "Not all transactions found in specified or retrieved block"
            raise RpcError(INVALID_ADDRESS_OR_KEY, message)
        return (write_header(kept.header) + proof(ids, [id in wanted for id in ids])).hex()


def _ids(txids: Any) -> Set[bytes]:
    """Ids, of which no two are the same."""
    found: Set[bytes] = set()
    for given in array(txids):
        id = digits(given, "txid")
        if id in found:
            raise RpcError(INVALID_PARAMETER, f"Invalid parameter, duplicated txid: {given}")
        found.add(id)
    return found


def _block_of(node: Node, wanted: Set[bytes]) -> Optional[Kept]:
    """The active block that made an unspent output of one of these transactions."""
    index = node.bench.index
    for id in wanted & index.transactions.keys():
        tx = node.bench.transaction(id)
        for place in range(len(tx.outputs) if tx else 0):
            found = node.bench.unspent(id, place)
            active = found and index.at(found.coin.height)
            if active:
                return index.blocks[active]
    return None


@call(GROUP, "proof", needed=1)
def verifytxoutproof(node: Node, proof: Any) -> List[str]:
    """The transactions that a proof of gettxoutproof leads to; none where it isn't one."""
    with node.others():
        data = hex_text(proof, "proof")
        count, found = leads_to(data)
    if found is None:
        return []
    kept = node.bench.index.blocks.get(double_sha(data[:80]))
    if kept is None or not node.bench.index.is_active(kept.id):
        raise RpcError(INVALID_ADDRESS_OR_KEY, "Block not found in chain")
    return [show(id) for id in found] if kept.transactions == count else []


def leads_to(data: bytes) -> Tuple[int, Optional[List[bytes]]]:
    """Of how many transactions a proof is, and to which it leads from its header; None where it doesn't."""
    try:
        part = _read(data)
    except ValueError as error:
        raise RpcError(MISC_ERROR, f"{error}: iostream error")
    found = part.matches()
    return part.leaves, found[1] if found is not None and found[0] == data[36:68] else None


# ---- the part of a tree (BIP 37)


def _width(count: int, height: int) -> int:
    return (count + (1 << height) - 1) >> height


def _top(count: int) -> int:
    """The height of the root over so many leaves."""
    height = 0
    while _width(count, height) > 1:
        height += 1
    return height


def proof(ids: List[bytes], marks: List[bool]) -> bytes:
    """How many leaves there are, the hashes, and a bit for each node on the way: whether a marked leaf is below it."""
    levels, below = [ids], [marks]
    while len(levels[-1]) > 1:
        level = levels[-1] + levels[-1][-1:] * (len(levels[-1]) % 2)
        levels.append([double_sha(left + right) for left, right in zip(level[::2], level[1::2])])
        found = below[-1] + [False] * (len(below[-1]) % 2)
        below.append([left or right for left, right in zip(found[::2], found[1::2])])
    bits: List[bool] = []
    hashes: List[bytes] = []
    waiting = [(len(levels) - 1, 0)]
    while waiting:
        height, place = waiting.pop()
        bits.append(below[height][place])
        if height == 0 or not bits[-1]:
            hashes.append(levels[height][place])
            continue
        waiting += [(height - 1, it) for it in (2 * place + 1, 2 * place) if it < len(levels[height - 1])]
    packed = sum(bit << place for place, bit in enumerate(bits)).to_bytes((len(bits) + 7) // 8, "little")
    return b"".join([len(ids).to_bytes(4, "little"), compact(len(hashes)), *hashes, compact(len(packed)), packed])


class _Part(NamedTuple):
    leaves: int
    hashes: List[bytes]
    bits: List[bool]

    def matches(self) -> Optional[Tuple[bytes, List[bytes]]]:
        """The root that it has, and the leaves that are marked; None where it is no part of a tree."""
        if not 0 < self.leaves <= MOST or len(self.hashes) > self.leaves or len(self.bits) < len(self.hashes):
            return None
        hashes, bits = iter(self.hashes), iter(self.bits)
        found: List[bytes] = []
        root = self._hash(_top(self.leaves), 0, hashes, bits, found)
        # All but the bits that fill the last byte have to be used.
        is_whole = root is not None and next(hashes, None) is None and len(list(bits)) < 8
        return (root, found) if root is not None and is_whole else None

    def _hash(
        self, height: int, place: int, hashes: Iterator[bytes], bits: Iterator[bool], found: List[bytes]
    ) -> Optional[bytes]:
        bit = next(bits, None)
        if bit is None:
            return None
        if height == 0 or not bit:
            own = next(hashes, None)
            if own is not None and bit:
                found.append(own)
            return own
        left = self._hash(height - 1, 2 * place, hashes, bits, found)
        right = left
        if left is not None and 2 * place + 1 < _width(self.leaves, height - 1):
            right = self._hash(height - 1, 2 * place + 1, hashes, bits, found)
            # Twins would show one transaction twice (CVE-2012-2459).
            right = None if right == left else right
        return None if left is None or right is None else double_sha(left + right)


def _read(data: bytes) -> _Part:
    """The part of a tree behind a header; what is left over isn't looked at."""
    at = 84
    many, at = _count(data, at)
    hashes = [data[at + 32 * place : at + 32 * place + 32] for place in range(many)] if many <= len(data) // 32 else []
    at += 32 * many
    size, at = _count(data, at)
    packed = data[at : at + size]
    if at + size > len(data):
        raise ValueError(_END)
    # No tree has more, so that it leads to nothing.
    size = size if size <= MOST else 0
    bits = [bool(packed[place // 8] >> place % 8 & 1) for place in range(8 * size)]
    return _Part(int.from_bytes(data[80:84], "little"), hashes, bits)


def _count(data: bytes, at: int) -> Tuple[int, int]:
    """A count, and the place behind it."""
    wide, least = {253: (2, 253), 254: (4, 2**16), 255: (8, 2**32)}.get(data[at] if at < len(data) else 0, (0, 0))
    if at + 1 + wide > len(data):
        raise ValueError(_END)
    found = int.from_bytes(data[at + 1 : at + 1 + wide], "little") if wide else data[at]
    if found < least:
        raise ValueError("non-canonical ReadCompactSize()")
    if found > MAX_COUNT:
        raise ValueError("ReadCompactSize(): size too large")
    return found, at + 1 + wide
