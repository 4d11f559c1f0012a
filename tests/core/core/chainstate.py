"""The chainstate as docs/RULES.md has it ("The chain"), over the rules of blocks; by the switches of docs/CORE.md's kinds it
is Bitcoin Core 0.21's.

A list's base is one block here, with the number -1, which is never marked and below which nothing is tried.
"""

from dataclasses import dataclass, field
from typing import Dict, Iterator, List, NamedTuple, Optional, Set, Tuple

from . import rules
from .rules import Body, Coins, Place, Rules


class Unclear(Exception):
    """The answer hangs on the addresses of blocks in Bitcoin Core's memory."""


class Ground(NamedTuple):
    """A base: the median time past at each of its heights, the times of its last eleven blocks, its coins."""

    medians: List[int]
    times: Tuple[int, ...]
    coins: Coins

    @property
    def height(self) -> int:
        return len(self.medians) - 1


@dataclass(eq=False)
class Node:
    """A kept block. Of the base `block` is None."""

    number: int
    block: Optional[Body]
    parent: Optional["Node"]
    height: int
    times: Tuple[int, ...]
    #: Who came first of blocks of one height: the least.
    sequence: int = 0
    #: Whether the bytes are there, and of its whole branch (headers alone stay in Bitcoin Core).
    has_data: bool = True
    is_whole: bool = True
    was_valid: bool = False
    #: It was marked itself; a mark below it was noted with it (by Bitcoin Core alone).
    is_bad: bool = False
    is_bad_below: bool = False
    #: The rule that it breaks over the coins of its parent's branch, once that was asked, and the coins after it.
    tried: Optional[Tuple[str, Coins]] = None

    @property
    def median(self) -> int:
        return sorted(self.times)[len(self.times) // 2]

    @property
    def rank(self) -> Tuple[int, int]:
        return self.height, -self.sequence

    def branch(self) -> Iterator["Node"]:
        """It and what is below it, down to the base."""
        at: Optional[Node] = self
        while at is not None:
            yield at
            at = at.parent

    def is_on(self, other: "Node") -> bool:
        return self.height >= other.height and next(n for n in self.branch() if n.height == other.height) is other


#: Where a block was refused.
BY_ITSELF, BY_PLACE, ON_BRANCH, REORGANISING = "by itself", "by its place", "on the active block", "in a reorganisation"


class Refusal(NamedTuple):
    """A block that was refused, and where: over its coins, with or without blocks that were taken back for it."""

    reason: str
    where: str


@dataclass
class Chainstate:
    """A chainstate over a base, to which a list's blocks are given by number; `names` has of each the first number of its id."""

    rules: Rules
    ground: Ground
    blocks: Dict[int, Body]
    names: Dict[int, int]
    parents: Dict[int, int]
    nodes: Dict[int, Node] = field(default_factory=dict)
    sequence: int = 1
    #: Bitcoin Core's count of preferences (below 0, so a later one goes first), and the height where it last began.
    reverse: int = -1
    precious_height: int = 0
    refusals: List[Refusal] = field(default_factory=list)

    def __post_init__(self) -> None:
        ground = self.ground
        self.base = Node(-1, None, None, ground.height, ground.times, was_valid=True, tried=("", ground.coins))
        self.nodes[-1] = self.base
        self.active = self.base
        #: In Bitcoin Core: marks that spread, and blocks that aren't looked at although no mark is left on them.
        self.spreading: Set[Node] = set()
        self.left_out: Set[Node] = set()
        self.kinds = self.rules.kinds

    # ---- commands

    def submit(self, number: int, now: int) -> str:
        block = self.blocks[number]
        refused = self._undecoded(block)
        if refused:
            return refused
        name = self.names[number]
        node = self.nodes.get(name)
        if node is not None:
            return self._again(node, block)
        above = self.nodes.get(self.parents[number])
        reason = self.rules.alone(block)
        if reason:
            return self._refuse(reason, BY_ITSELF)
        reason = self._header_fault(block, above, now)
        if reason:
            return self._refuse(reason, BY_PLACE)
        assert above is not None
        node = Node(name, block, above, above.height + 1, (*above.times, block.time)[-11:])
        reason = self.rules.place(block, self.place(node))
        if reason:
            self._keep_header(node, reason)
            return self._refuse(reason, BY_PLACE)
        self.nodes[name] = node
        node.is_whole = above.is_whole
        if node.is_whole:
            node.sequence = self.sequence
            self.sequence += 1
        checked = self._settle()
        return checked.get(node, "inconclusive") or "accepted"

    def _refuse(self, reason: str, where: str) -> str:
        self.refusals.append(Refusal(reason.split(" ")[0], where))
        return reason

    def _undecoded(self, block: Body) -> str:
        has_rest = block.behind > 0 and rules.BEHIND not in self.kinds
        is_other = rules.NO_INPUTS in self.kinds and any(not tx.inputs and tx.outputs for tx in block.txs)
        if has_rest or is_other:
            return "decode-failed"
        begins = bool(block.txs) and self.rules.is_coinbase(block.txs[0])
        return "bad-cb-missing" if rules.NO_COINBASE in self.kinds and not begins else ""

    def _again(self, node: Node, block: Body) -> str:
        if node in self._marked():
            return "duplicate-invalid"
        if node.was_valid:
            return "duplicate"
        is_judged = rules.OTHER_BYTES in self.kinds or not node.has_data
        reason = self.rules.alone(block) if is_judged else ""
        if reason:
            return reason
        if node.has_data:
            return "duplicate" if rules.UNTRIED in self.kinds else "duplicate-inconclusive"
        # Its header stayed, and its mark was taken: it is judged by its place again.
        node.is_bad = True
        return self.rules.place(block, self.place(node))

    def _header_fault(self, block: Body, above: Optional[Node], now: int) -> str:
        if above is None:
            return "prev-blk-not-found"
        if above.is_bad or above.is_bad_below:
            return "bad-prevblk"
        fault = self.rules.header(block, self._place_on(above, block), now)
        if fault and rules.HEADER_FIRST in self.kinds:
            return fault
        return "bad-prevblk" if above in self._marked() or self._spreads_to(above) else fault

    def _spreads_to(self, above: Node) -> bool:
        """In Bitcoin Core a mark further down is noted when a block comes on it, unless that was valid before."""
        bad = next((n for n in above.branch() if n in self.spreading), None)
        if rules.LATE not in self.kinds or above.was_valid or bad is None:
            return False
        self._note(above, bad)
        return True

    def _keep_header(self, node: Node, reason: str) -> None:
        kind = rules.NOT_FINAL if reason == "bad-txns-nonfinal" else rules.NO_HEIGHT
        if kind in self.kinds:
            node.is_bad, node.has_data, node.is_whole = True, False, False
            self.nodes[node.number] = node

    def invalidate(self, number: int) -> str:
        node = self.nodes.get(number)
        if node is None:
            return "not-found"
        if self.active.is_on(node):
            if rules.ABOVE in self.kinds:
                self._note(self.active, node)
            assert node.parent is not None
            self.active = node.parent
        node.is_bad = True
        self.spreading.add(node)
        self.left_out.clear()
        self._settle()
        return "done"

    def reconsider(self, number: int) -> str:
        node = self.nodes.get(number)
        if node is None:
            return "not-found"
        for other in self.nodes.values():
            if other.is_on(node) or node.is_on(other):
                if not node.is_whole and other is not node and (other.is_bad or other.is_bad_below):
                    self.left_out.add(other)
                other.is_bad = other.is_bad_below = False
                self.spreading.discard(other)
            elif rules.ABOVE not in self.kinds:
                other.is_bad_below = False
        self._settle()
        return "done"

    def precious(self, number: int) -> str:
        node = self.nodes.get(number)
        if node is None:
            return "not-found"
        if node.height < self.active.height:
            return "done"
        if self.active.height > self.precious_height and rules.ANEW in self.kinds:
            self.reverse = -1
        self.precious_height = self.active.height
        node.sequence = self.reverse
        self.reverse -= 1
        self.left_out.discard(node)
        self._settle()
        return "done"

    def tips(self) -> List[Tuple[int, int, int, str]]:
        """Number, height, how many blocks off the active branch, status; by height downwards, then as they came."""
        inner = {node.parent for node in self.nodes.values()}
        found = [node for node in self.nodes.values() if node not in inner or node is self.active]
        found.sort(key=lambda node: -node.height)
        below, marked = set(self.active.branch()), self._marked()
        return [(n.number, n.height, sum(b not in below for b in n.branch()), self._status(n, marked)) for n in found]

    def _status(self, node: Node, marked: Set[Optional[Node]]) -> str:
        if node is self.active:
            return "active"
        if node in marked:
            return "invalid"
        if not node.is_whole:
            return "headers-only"
        return "valid-fork" if node.was_valid else "valid-headers"

    def coins(self) -> Coins:
        return self._try(self.active)[1]

    # ---- inside

    def place(self, node: Node) -> Place:
        assert node.block is not None and node.parent is not None
        return self._place_on(node.parent, node.block)

    def _place_on(self, above: Node, block: Body) -> Place:
        return Place(above.height + 1, lambda height: self._median_at(above, height), block.time)

    def _median_at(self, node: Node, height: int) -> int:
        if height <= self.ground.height:
            return self.ground.medians[height]
        return next(n for n in node.branch() if n.height == height).median

    def _marked(self) -> Set[Optional[Node]]:
        """The blocks that aren't usable: with a marked block on their branch; in Bitcoin Core, with which that was noted."""
        found: Set[Optional[Node]] = set()
        for node in self.nodes.values():
            if node.is_bad or node.is_bad_below or (rules.LATE not in self.kinds and node.parent in found):
                found.add(node)
        return found

    def _note(self, node: Node, bad: Node) -> None:
        for other in node.branch():
            if other is bad:
                return
            other.is_bad_below = True

    def _try(self, node: Node) -> Tuple[str, Coins]:
        """The rule that a block breaks over its parent's coins, and the coins after it. Its parent's branch is valid."""
        if node.tried is None:
            assert node.parent is not None and node.block is not None
            node.tried = self.rules.connect(node.block, self.place(node), self._try(node.parent)[1])
        return node.tried

    def _best(self) -> Node:
        """The best block that is usable, not below the active one."""
        for _ in range(len(self.nodes) + 1):
            marked = self._marked()
            usable = [n for n in self.nodes.values() if n not in marked and n.is_whole and n not in self.left_out]
            best = max(usable, key=lambda n: n.rank)
            bad = next((n for n in best.branch() if n in marked), None)
            if bad is not None:
                self._note(best, bad)
            elif sum(n.rank == best.rank for n in usable) > 1:
                raise Unclear
            else:
                return best
        raise AssertionError("each turn notes a mark")

    def _settle(self) -> Dict[Node, str]:
        """The best usable block with a valid branch becomes active; on the way blocks are seen, or marked. What each that
        was connected or refused came to."""
        checked: Dict[Node, str] = {}
        for _ in range(2 * len(self.nodes) + 1):
            best, before = self._best(), self.active
            if best is before:
                return checked
            below = set(before.branch())
            path = [n for n in best.branch() if n not in below]
            fork = path[-1].parent
            for node in reversed(path):
                reason = self._try(node)[0]
                checked[node] = reason
                if reason:
                    self._refuse(reason, ON_BRANCH if fork is before else REORGANISING)
                    node.is_bad = True
                    self.spreading.add(node)
                    break
                node.was_valid = True
                self.left_out.discard(node)
                self.active = node
        raise AssertionError("each turn marks a block or finds the best one")
