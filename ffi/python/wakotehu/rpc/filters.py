"""Compact filters of blocks (-blockfilterindex; BIPs 157 and 158)."""

from typing import Any, Dict, List, Optional, Sequence, Set, Tuple

from ..chainstate import show
from ..encoding import GENESIS, read_block
from ..filters import NO_HEADER, block_filter, block_scripts, filter_header, may_have
from .blockchain import scanned_scripts
from .errors import INVALID_ADDRESS_OR_KEY, INVALID_PARAMETER, MISC_ERROR, RpcError
from .node import Node, call
from .values import Object, array, boolean, digits, integer, object_of, shortened, text

GROUP = "Blockchain"
#: The one type that there is, and what its index is called.
BASIC, NAME = "basic", "basic block filter index"


class Scan:
    """A scan of `scanblocks`: the active blocks from a height on."""

    def __init__(self, first: int, ids: Sequence[bytes]) -> None:
        self.first = first
        self.ids = ids
        #: How many of them it has looked at.
        self.done = 0
        self.is_aborted = False

    @property
    def height(self) -> int:
        """The last block that it has looked at; at first the lowest one."""
        return self.first + max(0, self.done - 1)


class FilterIndex:
    """The filters of blocks with their headers, by the blocks' ids. They are made when one is asked for the first time, from the
    lowest block on that has none yet; other calls run meanwhile."""

    def __init__(self) -> None:
        self._found: Dict[bytes, Tuple[bytes, bytes]] = {}
        #: The scan that runs.
        self.scan: Optional[Scan] = None

    def of(self, node: Node, id: bytes) -> Tuple[bytes, bytes]:
        """A kept block's filter and its header."""
        blocks, missing = node.bench.index.blocks, [id]
        while missing[-1] != GENESIS.id and missing[-1] not in self._found:
            missing.append(blocks[missing[-1]].header.parent)
        for each in reversed(missing):
            if each not in self._found:
                node.expect_running()
                before = NO_HEADER if each == GENESIS.id else self._found[blocks[each].header.parent][1]
                filter = _filter_of(node, each)
                self._found[each] = filter, filter_header(filter, before)
        return self._found[id]


def _filter_of(node: Node, id: bytes) -> bytes:
    scripts = scripts_of(node, id)
    with node.others():
        return block_filter(id, scripts)


def scripts_of(node: Node, id: bytes) -> Set[bytes]:
    """The scripts that a kept block's filter has."""
    data = node.data(id)
    with node.others():
        txs = read_block(data).transactions
        found = node.spent({tx.id: tx for tx in txs})
        spends = [(it.id, it.index) for tx in txs[1:] for it in tx.inputs]
        if not all(it in found for it in spends):
            raise RpcError(INVALID_ADDRESS_OR_KEY, "Filter not found. Block was not connected to active chain.")
        return block_scripts(txs, (found[it] for it in spends))


def index_of(node: Node, kind: Any) -> FilterIndex:
    """The index of a type of filters."""
    name = BASIC if kind is None else text(kind)
    if name != BASIC:
        raise RpcError(INVALID_ADDRESS_OR_KEY, "Unknown filtertype")
    found: Optional[FilterIndex] = node.filters
    if found is None:
        raise RpcError(MISC_ERROR, f"Index is not enabled for filtertype {name}")
    return found


@call(GROUP, "blockhash", "filtertype", needed=1)
def getblockfilter(node: Node, blockhash: Any, filtertype: Any) -> Object:
    """The basic filter of a kept block and its header (BIP 158); with -blockfilterindex."""
    id = digits(blockhash, "blockhash")
    index = index_of(node, filtertype)
    node.kept(id)
    filter, header = index.of(node, id)
    return {"filter": filter.hex(), "header": show(header)}


@call(GROUP, "action", "scanobjects", "start_height", "stop_height", "filtertype", "options", needed=1, types=("string",))
def scanblocks(
    node: Node, action: Any, scanobjects: Any, start_height: Any, stop_height: Any, filtertype: Any, options: Any
) -> Any:
    """Finds the active blocks whose filters have scripts of descriptors: start with a list of descriptors, by
    {"filter_false_positives": true} only those that have one; status tells of a scan that runs, abort ends it."""
    scan = None if node.filters is None else node.filters.scan
    if action == "status":
        return None if scan is None else {"progress": 100 * scan.done // len(scan.ids), "current_height": scan.height}
    if action == "abort":
        if scan is not None:
            scan.is_aborted = True
        return scan is not None
    if action != "start":
        raise RpcError(INVALID_PARAMETER, f"Invalid action '{shortened(action)}'")
    if scan is not None:
        raise RpcError(INVALID_PARAMETER, 'Scan already in progress, use action "abort" or "status"')
    index = index_of(node, filtertype)
    is_exact = options is not None and boolean(object_of(options).get("filter_false_positives", False))
    index.scan = scan = _scan(node, start_height, stop_height)
    try:
        with node.others():
            wanted = set(scanned_scripts(node, array(scanobjects)))
        found = _scanned(node, index, scan, wanted, is_exact)
    finally:
        index.scan = None
    return {"from_height": scan.first, "to_height": scan.height, "relevant_blocks": found, "completed": not scan.is_aborted}


def _scan(node: Node, start_height: Any, stop_height: Any) -> Scan:
    """A scan of the active blocks of these heights: from genesis to the tip where they aren't given."""
    active = node.bench.index.active
    first = 0 if start_height is None else integer(start_height)
    if not 0 <= first < len(active):
        raise RpcError(MISC_ERROR, "Invalid start_height")
    last = len(active) - 1 if stop_height is None else integer(stop_height)
    if not first <= last < len(active):
        raise RpcError(MISC_ERROR, "Invalid stop_height")
    return Scan(first, active[first : last + 1])


def _scanned(node: Node, index: FilterIndex, scan: Scan, wanted: Set[bytes], is_exact: bool) -> List[str]:
    """The hashes of a scan's blocks that may have a script that is wanted, or do have one."""
    found = []
    for id in scan.ids:
        if scan.is_aborted:
            break
        filter, _ = index.of(node, id)
        with node.others():
            may = may_have(id, filter, wanted)
        if may and (not is_exact or not wanted.isdisjoint(scripts_of(node, id))):
            found.append(show(id))
        scan.done += 1
    return found
