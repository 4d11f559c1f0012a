"""Wrong rules: one or more for each branch of the definitions."""

import hashlib
from typing import Callable, List, NamedTuple, Optional, Tuple, Type

from wakotehu.encoding import Input, Output, hash160, signature_digest, without_separators, write_transaction

from . import rules
from .chainstate import Chainstate, Node
from .interpreter import Refused, Run, is_push_only, opcodes, pays_to_script_hash
from .rules import Body, Coins, Place, Rules, Tx, Turn, height_push, tally


class Wrong(NamedTuple):
    """A wrong rule. Some only ours can contradict: a kind of docs/CORE.md hides the rule in the peer, or its reply says less."""

    name: str
    rules: Type[Rules] = Rules
    chainstate: Type[Chainstate] = Chainstate
    is_ours: bool = False


def _rule(name: str, is_ours: bool = False, **changed: object) -> Wrong:
    return Wrong(name, type("Planted", (Rules,), changed), Chainstate, is_ours)


def _tree(name: str, is_ours: bool = False, **changed: object) -> Wrong:
    return Wrong(name, Rules, type("Planted", (Chainstate,), changed), is_ours)


def never(*_: object) -> bool:
    return False


def always(*_: object) -> bool:
    return True


def _swapped(table: rules.Table, first: str, second: str) -> rules.Table:
    """The table with two of its rules in each other's place."""
    names = [name for name, _ in table]
    order = list(table)
    a, b = names.index(first), names.index(second)
    order[a], order[b] = order[b], order[a]
    return tuple(order)


# ---- a block by itself


def _padded_with_zeros(self: Rules, level: List[bytes]) -> List[Tuple[bytes, bytes]]:
    return list(zip(level[::2], level[1::2])) + ([(level[-1], bytes(32))] if len(level) % 2 else [])


def _twin_at_the_bottom(self: Rules, block: Body) -> bool:
    return self.twin_of_level([tx.id for tx in block.txs])


def _twin_after_repeating(self: Rules, level: List[bytes]) -> bool:
    return len(level) % 2 == 1 or any(a == b for a, b in zip(level[::2], level[1::2]))


def _twin_if_last(self: Rules, level: List[bytes]) -> bool:
    return len(level) % 2 == 0 and level[-1] == level[-2]


def _twin_if_first(self: Rules, level: List[bytes]) -> bool:
    return level[0] == level[1]


def _twin_of_neighbours(self: Rules, level: List[bytes]) -> bool:
    return any(a == b for a, b in zip(level, level[1:]))


def _has_null(self: Rules, inputs: List[Input]) -> bool:
    return any(self.is_null(i.id, i.index) for i in inputs)


def _total_at_the_end(self: Rules, tx: Tx) -> str:
    found = next(filter(None, (self.value_fault(o.value, 0) for o in tx.outputs)), "")
    return found or self.value_fault(0, sum(o.value for o in tx.outputs))


def _value_fault(
    negative: Callable[[int], bool] = lambda value: value < 0,
    large: Callable[[int, int], bool] = lambda value, most: value > most,
    total_: Callable[[int, int], bool] = lambda total, most: total > most,
) -> Callable[[Rules, int, int], str]:
    def fault(self: Rules, value: int, total: int) -> str:
        if negative(value):
            return "bad-txns-vout-negative"
        if large(value, self.money):
            return "bad-txns-vout-toolarge"
        return "bad-txns-txouttotal-toolarge" if total_(total, self.money) else ""

    return fault


def _script_length(least: int, most: int) -> Callable[[Rules, Tx], bool]:
    return lambda self, tx: self.is_coinbase(tx) and not least <= len(tx.inputs[0].script) <= most


def _counting(
    one: int = 1, many: int = 20, verify: bool = True, accurate: bool = False, pushes: bool = False
) -> Callable[[Rules, Tx], int]:
    """Plain operations counted otherwise."""

    def count(script: bytes) -> int:
        total, last = 0, 0
        for op in opcodes(script):
            if op.code == 0xAC or (op.code == 0xAD and verify):
                total += one
            elif op.code == 0xAE or (op.code == 0xAF and verify):
                total += last - 0x50 if accurate and 0x51 <= last <= 0x60 else many
            if pushes and op.data:
                total += op.data.count(b"\xac")
            last = op.code
        return total

    def own(self: Rules, tx: Tx) -> int:
        scripts = [i.script for i in tx.inputs] + [o.script for o in tx.outputs]
        return sum(count(s) for s in scripts if b"\xac" in s or b"\xad" in s or b"\xae" in s or b"\xaf" in s)

    return own


def _outputs_alone(self: Rules, tx: Tx) -> int:
    return sum(tally(o.script, False) for o in tx.outputs)


def _inputs_alone(self: Rules, tx: Tx) -> int:
    return sum(tally(i.script, False) for i in tx.inputs)


def _past_a_cut(self: Rules, tx: Tx) -> int:
    """A push that is cut short doesn't end the count."""
    scripts = [i.script for i in tx.inputs] + [o.script for o in tx.outputs]
    return sum(tally(s, False) + 1000 * _is_cut(s) for s in scripts)


def _is_cut(script: bytes) -> bool:
    end = 0
    for op in opcodes(script):
        end = op.end
    return end != len(script)


# ---- by its place


def _final_by_height_at(self: Rules, tx: Tx, height: int, cutoff: int) -> bool:
    return tx.tx.lock_time < 500000000 and tx.tx.lock_time == height or Rules.is_final(self, tx, height, cutoff)


def _final_by_time_at(self: Rules, tx: Tx, height: int, cutoff: int) -> bool:
    return tx.tx.lock_time >= 500000000 and tx.tx.lock_time == cutoff or Rules.is_final(self, tx, height, cutoff)


def _final_by_one_input(self: Rules, tx: Tx, height: int, cutoff: int) -> bool:
    return any(i.sequence == 0xFFFFFFFF for i in tx.inputs) or Rules.is_final(self, tx, height, cutoff)


def _final_whatever_inputs(self: Rules, tx: Tx, height: int, cutoff: int) -> bool:
    lock = tx.tx.lock_time
    return lock < (height if lock < 500000000 else cutoff)


def _times_from_one_later(self: Rules, tx: Tx, height: int, cutoff: int) -> bool:
    lock = tx.tx.lock_time
    has_passed = lock < (height if lock <= 500000000 else cutoff)
    return has_passed or all(i.sequence == 0xFFFFFFFF for i in tx.inputs)


def _final_without_coinbase(self: Rules, block: Body, place: Place) -> bool:
    cutoff = self.final_cutoff(place)
    return not all(self.is_final(tx, place.height, cutoff) for tx in block.txs[1:])


def _unsigned_version(self: Rules, block: Body, place: Place, now: int) -> bool:
    return any(place.height >= getattr(self, fork) and block.version & 0xFFFFFFFF < least for fork, least in self.VERSIONS)


def _height_anywhere(self: Rules, block: Body, place: Place) -> bool:
    return place.height >= self.bip34 and height_push(place.height) not in block.txs[0].inputs[0].script


def _height_of_four_bytes(self: Rules, block: Body, place: Place) -> bool:
    script = block.txs[0].inputs[0].script
    wide = b"\x04" + place.height.to_bytes(4, "little")
    return not script.startswith(wide) and Rules.lacks_height(self, block, place)


def _height_is_least(self: Rules, block: Body, place: Place) -> bool:
    script = block.txs[0].inputs[0].script
    return place.height >= self.bip34 and not any(script.startswith(height_push(h)) for h in (place.height, place.height - 1))


# ---- over the coins


def _made_again_at_first(self: Rules, block: Body, coins: Coins) -> bool:
    return any((tx.id, 0) in coins for tx in block.txs)


def _made_again_at_last(self: Rules, block: Body, coins: Coins) -> bool:
    return any((tx.id, len(tx.outputs) - 1) in coins for tx in block.txs)


def _made_again_wholly(self: Rules, block: Body, coins: Coins) -> bool:
    return any(all((tx.id, n) in coins for n in range(len(tx.outputs))) for tx in block.txs)


def _made_again_but_coinbase(self: Rules, block: Body, coins: Coins) -> bool:
    return any((tx.id, n) in coins for tx in block.txs[1:] for n in range(len(tx.outputs)))


class _ReadsAhead(Rules):
    """Outputs of later transactions of a block are coins by now."""

    def connect(self, block: Body, place: Place, before: Coins) -> Tuple[str, Coins]:
        if self.makes_again(block, before):
            return "bad-txns-BIP30", before
        coins = dict(before)
        for tx in block.txs:
            for n, out in enumerate(tx.outputs):
                coins[(tx.id, n)] = rules.Coin(out.value, out.script, place.height, False)
        return super().connect(block, place, coins)

    def makes_again(self, block: Body, coins: Coins) -> bool:
        return False


def _spends_what_is_gone(self: Rules, tx: Tx, height: int, coins: Coins) -> None:
    coinbase = self.is_coinbase(tx)
    for i in tx.inputs:
        coins.pop((i.id, i.index), None)
    for n, output in enumerate(tx.outputs):
        if not self.is_unspendable(output.script):
            coins[(tx.id, n)] = rules.Coin(output.value, output.script, height, coinbase)


def _coin(**changed: object) -> Callable[[Rules, Tx, int, Coins], None]:
    """Coins that are kept otherwise."""

    def after(self: Rules, tx: Tx, height: int, coins: Coins) -> None:
        Rules.after(self, tx, height, coins)
        for n in range(len(tx.outputs)):
            if (tx.id, n) in coins:
                coins[(tx.id, n)] = coins[(tx.id, n)]._replace(**changed)  # type: ignore[arg-type]

    return after


def _all_unripe(self: Rules, turn: Turn) -> bool:
    return any(turn.place.height - c.height < self.MATURITY for c in turn.spent())


def _not_less(self: Rules, turn: Turn) -> bool:
    return not self.is_coinbase(turn.tx) and self.worth(turn) <= sum(o.value for o in turn.tx.outputs)


def _locks(
    mask: int = 0xFFFF, disabled: int = 31, kind: int = 22, more: int = 0, unit: int = 512
) -> Callable[[Rules, int, int, Place], bool]:
    """Relative locks read otherwise."""

    def is_met(self: Rules, sequence: int, height: int, place: Place) -> bool:
        count = (sequence & mask) + more
        if sequence >> disabled & 1:
            return True
        if sequence >> kind & 1:
            return self.lock_begins(height, place) + unit * count <= self.lock_ends(place)
        return height + count <= place.height

    return is_met


def _locks_of_versions(
    is_locked: Callable[[int], bool], which: Callable[[int], bool] = lambda n: True, first: Optional[int] = None
) -> Callable[[Rules, Turn], bool]:
    def breaks(self: Rules, turn: Turn) -> bool:
        if turn.place.height < (self.csv if first is None else first) or not is_locked(turn.tx.tx.version):
            return False
        pairs = list(zip(turn.tx.inputs, turn.spent()))
        return not all(self.is_lock_met(i.sequence, c.height, turn.place) for n, (i, c) in enumerate(pairs) if which(n))

    return breaks


def _versions(version: int) -> bool:
    return version & 0xFFFFFFFF >= 2


def _inner(
    accurate: bool = True, only_pushes: bool = True, place: int = -1, least: int = 0x51, most: int = 0x60
) -> Callable[[Rules, bytes, bytes], int]:
    """Inner operations counted otherwise."""

    def count(script: bytes) -> int:
        total, last = 0, 0
        for op in opcodes(script):
            if op.code in (0xAC, 0xAD):
                total += 1
            elif op.code in (0xAE, 0xAF):
                total += last - 0x50 if accurate and least <= last <= most else 20
            last = op.code
        return total

    def inner(self: Rules, own: bytes, spent: bytes) -> int:
        if not pays_to_script_hash(spent) or (only_pushes and not is_push_only(own)):
            return 0
        data = [op.data for op in opcodes(own)]
        pushed = data if place == -1 else [d for d in data if d] if place else data[:1]
        return count(pushed[-1] or b"") if pushed else 0

    return inner


def _first_input_alone(self: Rules, turn: Turn) -> int:
    pairs = list(zip(turn.tx.inputs, turn.spent()))[:1]
    return self.own_operations(turn.tx) + sum(self.inner_operations(i.script, coin.script) for i, coin in pairs)


def _each_for_itself(self: Rules, turn: Turn) -> bool:
    return self.all_operations(turn) > self.MOST_OPERATIONS


def _takes(fee: Callable[[int], int], outputs: Optional[int] = None, more: int = 0) -> Callable[[Rules, Body, int, int], bool]:
    def takes(self: Rules, block: Body, height: int, fees: int) -> bool:
        paid = sum(o.value for o in block.txs[0].outputs[:outputs])
        return paid > self.subsidy(height) + fee(fees) + more

    return takes


class _ScriptsFirst(Rules):
    """Scripts are looked at before the coinbase's amount."""

    def takes_too_much(self, block: Body, height: int, fees: int) -> bool:
        self.late = super().takes_too_much(block, height, fees)
        return False

    def connect(self, block: Body, place: Place, before: Coins) -> Tuple[str, Coins]:
        self.late = False
        reason, coins = super().connect(block, place, before)
        return ("bad-cb-amount" if self.late and not reason else reason), coins


class _BIP30Last(Rules):
    """Coins that are made again are looked for behind the other rules."""

    def makes_again(self, block: Body, coins: Coins) -> bool:
        return False

    def connect(self, block: Body, place: Place, before: Coins) -> Tuple[str, Coins]:
        reason, coins = super().connect(block, place, before)
        return (reason or ("bad-txns-BIP30" if Rules.makes_again(self, block, before) else "")), coins


class _LastScript(Rules):
    """Of scripts that aren't accepted the last is told."""

    def connect(self, block: Body, place: Place, before: Coins) -> Tuple[str, Coins]:
        reason, coins = super().connect(block, place, before)
        if not reason.startswith("blk-bad-inputs"):
            return reason, coins
        return f"blk-bad-inputs {len(block.txs) - 1}:{len(block.txs[-1].inputs) - 1}", coins


def _all_accepted(self: Rules, tx: Tx, at: int, script: bytes, flags: object) -> bool:
    return True


def _without(flag: str) -> Callable[[Rules, int], frozenset]:  # type: ignore[type-arg]
    return lambda self, height: Rules.flags(self, height) - {flag}


def _by_hash_alone(self: Rules, tx: Tx, at: int, script: bytes, flags: frozenset) -> bool:  # type: ignore[type-arg]
    """A script hash is met by a script of the hash, whether or not that is run."""
    if not pays_to_script_hash(script):
        return Rules.accepts(self, tx, at, script, flags)
    pushed = [op.data for op in opcodes(tx.inputs[at].script)]
    return bool(pushed) and hash160(pushed[-1] or b"") == script[2:22]


# ---- the tree


class _LaterWins(Chainstate):
    """Of two blocks of one height the later one is active."""

    def _best(self) -> Node:
        for node in self.nodes.values():
            node.sequence = -abs(node.sequence)
        return super()._best()


class _LowerIsPreferred(Chainstate):
    """`precious` makes a lower block active."""

    def precious(self, number: int) -> str:
        node = self.nodes.get(number)
        if node is not None and node.height < self.active.height and node.was_valid and node not in self._marked():
            self.active = node
            return "done"
        return super().precious(number)


class _EarlierPreference(Chainstate):
    """An earlier `precious` goes before a later one."""

    def precious(self, number: int) -> str:
        node = self.nodes.get(number)
        before = self.reverse
        if node is not None and node.height >= self.active.height:
            self.reverse = -(2**20) - before
        reply = super().precious(number)
        self.reverse = before - 1
        return reply


class _PreferenceOnce(Chainstate):
    """`precious` counts till the next block comes."""

    def submit(self, number: int, now: int) -> str:
        for node in self.nodes.values():
            node.sequence = abs(node.sequence)
        return super().submit(number, now)


class _Reconsiders(Chainstate):
    """`reconsider` takes the marks from a block, and from some of the others."""

    def takes_from(self, other: Node, node: Node) -> bool:
        return False

    def reconsider(self, number: int) -> str:
        node = self.nodes.get(number)
        if node is None:
            return "not-found"
        for other in self.nodes.values():
            if other is node or self.takes_from(other, node):
                other.is_bad = other.is_bad_below = False
        self._settle()
        return "done"


class _OwnLineAlone(_Reconsiders):
    """From what is below it."""

    def takes_from(self, other: Node, node: Node) -> bool:
        return node.is_on(other)


class _AboveAlone(_Reconsiders):
    """From what is above it."""

    def takes_from(self, other: Node, node: Node) -> bool:
        return other.is_on(node)


class _MarksNothingAbove(Chainstate):
    """A mark counts for its block alone."""

    def _marked(self) -> "set[Optional[Node]]":
        return {node for node in self.nodes.values() if node.is_bad}

    def _best(self) -> Node:
        marked = self._marked()
        return max((n for n in self.nodes.values() if n not in marked and n.is_whole), key=lambda n: n.rank)


class _TipStays(Chainstate):
    """`invalidate` leaves the active block."""

    def invalidate(self, number: int) -> str:
        active = self.active
        reply = super().invalidate(number)
        self.active = active
        return reply


class _InvalidIsForgotten(Chainstate):
    """A block that is refused over its coins isn't kept."""

    def submit(self, number: int, now: int) -> str:
        is_new = self.names[number] not in self.nodes
        reply = super().submit(number, now)
        node = self.nodes.get(self.names[number])
        if is_new and node is not None and node.is_bad:
            del self.nodes[node.number]
        return reply


class _RefusedIsKept(Chainstate):
    """A block that breaks a rule by itself isn't judged anew."""

    def submit(self, number: int, now: int) -> str:
        if number in self.refused_:
            return "duplicate-invalid"
        reply = super().submit(number, now)
        if self.rules.alone(self.blocks[number]):
            self.refused_.add(number)
        return reply

    def __post_init__(self) -> None:
        super().__post_init__()
        self.refused_: "set[int]" = set()


class _FailedBranchIsActive(Chainstate):
    """Where a branch fails its valid part stays active."""

    def _settle(self) -> "dict[Node, str]":
        before = len(self.nodes)
        checked = super()._settle()
        failed = [n for n, reason in checked.items() if reason and n.parent is not None]
        if failed and before:
            self.active = failed[-1].parent  # type: ignore[assignment]
        return checked


class _Replies(Chainstate):
    """Replies in each other's place."""

    IN_PLACE: "dict[str, str]" = {}

    def submit(self, number: int, now: int) -> str:
        reply = super().submit(number, now)
        return self.IN_PLACE.get(reply, reply)


class _ChildOfMarkedIsKept(Chainstate):
    """A block on a marked one is kept."""

    def _header_fault(self, block: Body, above: Optional[Node], now: int) -> str:
        reason = super()._header_fault(block, above, now)
        return "" if reason == "bad-prevblk" else reason


def _status(wrong: "dict[str, str]") -> "Callable[..., str]":
    return lambda self, node, marked: wrong.get(Chainstate._status(self, node, marked), Chainstate._status(self, node, marked))


def _all_tips(self: Chainstate) -> "List[Tuple[int, int, int, str]]":
    """Every block that isn't active is a tip."""
    below, marked = set(self.active.branch()), self._marked()
    found = [n for n in self.nodes.values() if n not in below or n is self.active]
    return [(n.number, n.height, sum(b not in below for b in n.branch()), self._status(n, marked)) for n in found]


def _lengths(self: Chainstate) -> "List[Tuple[int, int, int, str]]":
    return [(n, h, length + (status != "active"), status) for n, h, length, status in Chainstate.tips(self)]


def _active_left_out(self: Chainstate) -> "List[Tuple[int, int, int, str]]":
    inner = {node.parent for node in self.nodes.values()}
    return [tip for tip in Chainstate.tips(self) if self.nodes[tip[0]] not in inner]


def _replies(**in_place: str) -> "dict[str, dict[str, str]]":
    return {"IN_PLACE": {right.replace("_", "-"): wrong for right, wrong in in_place.items()}}


def _told(name: str, right: str, wrong: str, is_ours: bool = False) -> Wrong:
    return Wrong(name, Rules, type("Planted", (_Replies,), {"IN_PLACE": {right: wrong}}), is_ours)


RULES: List[Wrong] = [
    # A block by itself.
    _rule("any work will do", is_without_work=never),
    _rule("twice as much work is asked", is_without_work=lambda self, block: block.work > self.TARGET // 2),
    _rule("any root will do", has_other_root=never),
    _rule("an odd level is filled up with zeros", pairs=_padded_with_zeros),
    _rule("no twin is looked for", has_twin=never),
    _rule("twins are looked for at the bottom alone", has_twin=_twin_at_the_bottom),
    _rule("an odd level's repetition is a twin", twin_of_level=_twin_after_repeating),
    _rule("of the last pair alone", twin_of_level=_twin_if_last),
    _rule("of the first pair alone", twin_of_level=_twin_if_first),
    _rule("equal neighbours that aren't paired are twins", twin_of_level=_twin_of_neighbours),
    _rule("a block may have any length", has_bad_length=lambda self, block: not block.txs),
    _rule("a block may have a byte less", MOST_BYTES=999999),
    _rule("a block may have a byte more", MOST_BYTES=1000001),
    _rule("a block needs no coinbase", is_ours=True, lacks_coinbase=never),
    _rule("the id makes an outpoint null", is_null=lambda self, id, index: id == bytes(32)),
    _rule("the number makes an outpoint null", is_null=lambda self, id, index: index == 0xFFFFFFFF),
    _rule("a coinbase has a null input, and may have others", is_coinbase=lambda self, tx: _has_null(self, tx.inputs)),
    _rule("there may be two coinbases", has_second_coinbase=never),
    _rule(
        "the second transaction alone may be no coinbase",
        has_second_coinbase=lambda self, block: any(map(self.is_coinbase, block.txs[1:2])),
    ),
    _rule("a transaction needs no inputs", is_ours=True, has_no_input=never),
    _rule("a transaction needs no outputs", has_no_output=never),
    _rule("a value may be negative", value_fault=_value_fault(negative=never)),
    _rule("a value is at least 1", value_fault=_value_fault(negative=lambda value: value < 1)),
    _rule("a value may be of any size", value_fault=_value_fault(large=never)),
    _rule("a value is below the limit", value_fault=_value_fault(large=lambda value, most: value >= most)),
    _rule("the total may be of any size", value_fault=_value_fault(total_=never)),
    _rule("the total is below the limit", value_fault=_value_fault(total_=lambda total, most: total >= most)),
    _rule("the total may be one more", value_fault=_value_fault(total_=lambda total, most: total > most + 1)),
    _rule("the total is looked at behind all values", has_bad_value=_total_at_the_end),
    _rule("an outpoint may be spent twice", spends_twice=never),
    _rule("outpoints are equal by their ids", spends_twice=lambda self, tx: len({i.id for i in tx.inputs}) < len(tx.inputs)),
    _rule("a coinbase's script may be of any length", has_bad_coinbase_script=never),
    _rule("a coinbase's script has at least 1 byte", has_bad_coinbase_script=_script_length(1, 100)),
    _rule("a coinbase's script has at least 3 bytes", has_bad_coinbase_script=_script_length(3, 100)),
    _rule("a coinbase's script has at most 99 bytes", has_bad_coinbase_script=_script_length(2, 99)),
    _rule("a coinbase's script has at most 101 bytes", has_bad_coinbase_script=_script_length(2, 101)),
    _rule("an input may be null", names_null=never),
    _rule(
        "the first input alone mustn't be null",
        names_null=lambda self, tx: not self.is_coinbase(tx) and _has_null(self, tx.inputs[:1]),
    ),
    _rule("any number of operations", has_many_operations=never, goes_over_by_its_own=never, goes_over=never),
    _rule("19,999 operations", MOST_OPERATIONS=19999),
    _rule("20,001 operations", MOST_OPERATIONS=20001),
    _rule("inputs' operations aren't counted", own_operations=_outputs_alone),
    _rule("outputs' operations aren't counted", own_operations=_inputs_alone),
    _rule("CHECKMULTISIG counts 1", own_operations=_counting(many=1)),
    _rule("the VERIFY forms aren't counted", own_operations=_counting(verify=False)),
    _rule("plain operations are counted accurately", own_operations=_counting(accurate=True)),
    _rule("operations in pushes are counted", own_operations=_counting(pushes=True)),
    _rule("a push that is cut short doesn't end the count", own_operations=_past_a_cut),
    # The order.
    _rule("the root comes before the work", ALONE=_swapped(Rules.ALONE, "is_without_work", "has_other_root")),
    _rule("values come before a coinbase's script", TRANSACTION=_swapped(Rules.TRANSACTION, "has_bad_value", "has_bad_coinbase_script")),
    _rule("the time comes before the bits", HEADER=_swapped(Rules.HEADER, "has_other_bits", "is_too_old")),
    _rule("the version comes before the time ahead", AHEAD_OF=Rules.VERSION, VERSION=Rules.AHEAD_OF),
    _rule("the height comes before finality", PLACE=_swapped(Rules.PLACE, "is_not_final", "lacks_height")),
    _rule("unripe coins come before missing ones", TURN=_swapped(Rules.TURN, "misses_a_coin", "spends_unripe")),
    _rule("amounts come before unripe coins", TURN=_swapped(Rules.TURN, "spends_unripe", "spends_more")),
    Wrong("scripts come before the coinbase's amount", _ScriptsFirst),
    Wrong("coins that are made again come last", _BIP30Last),
    # By its place.
    _rule("any bits will do", has_other_bits=never),
    _rule("any time will do", is_too_old=never),
    _rule("the time may be the median", is_too_old=lambda self, block, place, now: block.time < place.cutoff),
    _rule("the time is above the parent's median and 1", is_too_old=lambda self, block, place, now: block.time <= place.cutoff + 1),
    _rule("any time ahead will do", is_too_new=never),
    _rule("7,199 seconds ahead", AHEAD=7199),
    _rule("7,201 seconds ahead", AHEAD=7201),
    _rule("any version will do", has_low_version=never),
    _rule("versions are unsigned", has_low_version=_unsigned_version),
    _rule("version 3 will do for BIP 65", VERSIONS=(("bip34", 2), ("bip66", 3), ("bip65", 3))),
    _rule("every transaction is final", is_not_final=never),
    _rule("a lock passes at its height", is_final=_final_by_height_at),
    _rule("a lock passes at its time", is_final=_final_by_time_at),
    _rule("one final input is enough", is_final=_final_by_one_input),
    _rule("final inputs aren't enough", is_final=_final_whatever_inputs),
    _rule("500,000,000 is a height", is_final=_times_from_one_later),
    _rule("a coinbase is final", is_not_final=_final_without_coinbase),
    _rule("finality by the block's own time", final_cutoff=lambda self, place: place.time),
    _rule("finality by the median at every height", final_cutoff=lambda self, place: place.cutoff),
    _rule("no height is asked", lacks_height=never),
    _rule("the height may stand anywhere", lacks_height=_height_anywhere),
    _rule("the height may have four bytes", lacks_height=_height_of_four_bytes),
    _rule("the parent's height will do", lacks_height=_height_is_least),
    # Over the coins.
    _rule("coins may be made again", makes_again=never),
    _rule("the first output alone isn't made again", makes_again=_made_again_at_first),
    _rule("the last output alone isn't made again", makes_again=_made_again_at_last),
    _rule("all outputs together aren't made again", makes_again=_made_again_wholly),
    _rule("a coinbase may be made again", makes_again=_made_again_but_coinbase),
    _rule("a coin may be missing", misses_a_coin=never, after=_spends_what_is_gone),
    Wrong("outputs of later transactions are coins", _ReadsAhead),
    _rule("outputs with RETURN are coins", is_unspendable=lambda self, script: len(script) > 10000),
    _rule("outputs of more than 10,000 bytes are coins", is_unspendable=lambda self, script: script[:1] == b"\x6a"),
    _rule("outputs of 10,000 bytes are no coins", is_unspendable=lambda self, script: script[:1] == b"\x6a" or len(script) >= 10000),
    _rule("RETURN anywhere makes an output no coin", is_unspendable=lambda self, script: b"\x6a" in script[:3] or len(script) > 10000),
    _rule("coins are ripe at once", spends_unripe=never),
    _rule("coins are ripe after 99 blocks", MATURITY=99),
    _rule("coins are ripe after 101 blocks", MATURITY=101),
    _rule("all coins have to be ripe", spends_unripe=_all_unripe),
    _rule("no coin is known as a coinbase's", after=_coin(coinbase=False)),
    _rule("coins have the height 0", after=_coin(height=0)),
    _rule("a transaction may pay more than it spends", spends_more=never),
    _rule("a transaction pays less than it spends", spends_more=_not_less),
    _rule("no relative locks", breaks_a_lock=never),
    _rule("relative locks at every height", breaks_a_lock=_locks_of_versions(_versions, first=0)),
    _rule("relative locks of version 1 too", breaks_a_lock=_locks_of_versions(lambda version: version >= 1 or version < 0)),
    _rule("no relative locks of negative versions", breaks_a_lock=_locks_of_versions(lambda version: version >= 2)),
    _rule("relative locks of the first input alone", breaks_a_lock=_locks_of_versions(_versions, lambda n: n == 0)),
    _rule("bit 31 is nothing", is_lock_met=_locks(disabled=33)),
    _rule("bit 22 is nothing", is_lock_met=_locks(kind=33)),
    _rule("a lock has 17 bits", is_lock_met=_locks(mask=0x1FFFF)),
    _rule("a lock has 22 bits", is_lock_met=_locks(mask=0x3FFFFF)),
    _rule("a lock is one more", is_lock_met=_locks(more=1)),
    _rule("a lock is one less", is_lock_met=_locks(more=-1)),
    _rule("a lock's unit is 600 seconds", is_lock_met=_locks(unit=600)),
    _rule("a lock begins at the coin's own median", lock_begins=lambda self, height, place: place.median_at(min(height, place.height - 1))),
    _rule("a lock ends at the block's own time", lock_ends=lambda self, place: place.time),
    _rule("inner operations aren't counted", inner_operations=lambda self, own, spent: 0),
    _rule("inner operations are counted plainly", inner_operations=_inner(accurate=False)),
    _rule("OP_1 names no number of keys", inner_operations=_inner(least=0x52)),
    _rule("OP_16 names no number of keys", inner_operations=_inner(most=0x5F)),
    _rule("OP_0 names a number of keys", inner_operations=_inner(least=0)),
    _rule("an input that does more has inner operations", inner_operations=_inner(only_pushes=False)),
    _rule("the first push is the inner script", inner_operations=_inner(place=0)),
    _rule("the last push with bytes is the inner script", inner_operations=_inner(place=1, only_pushes=False)),
    _rule("inner operations of the first input alone", all_operations=_first_input_alone),
    _rule("operations of each transaction for itself", goes_over=_each_for_itself),
    _rule("the coinbase may take anything", takes_too_much=never),
    _rule("the coinbase may take one more", takes_too_much=_takes(lambda fees: fees, more=1)),
    _rule("the coinbase takes less", takes_too_much=_takes(lambda fees: fees, more=-1)),
    _rule("the coinbase takes no fees", takes_too_much=_takes(lambda fees: 0)),
    _rule("the coinbase's first output alone counts", takes_too_much=_takes(lambda fees: fees, 1)),
    _rule("the subsidy is never halved", subsidy=lambda self, height: 5000000000),
    _rule("every script is accepted", accepts=_all_accepted),
    _rule("no inner script is run", accepts=_by_hash_alone),
    _rule("CLTV isn't in force", flags=_without("CLTV")),
    _rule("CSV isn't in force", flags=_without("CSV")),
    _rule("CSV and CLTV are in force at every height", flags=lambda self, height: frozenset(("DERSIG", "CLTV", "CSV"))),
    Wrong("the last script that fails is told", _LastScript, is_ours=True),
    # The tree.
    Wrong("of two blocks of one height the later one is active", chainstate=_LaterWins),
    _tree("precious does nothing", precious=lambda self, number: "done" if number in self.nodes else "not-found"),
    Wrong("precious makes a lower block active", chainstate=_LowerIsPreferred),
    Wrong("an earlier precious goes before a later one", chainstate=_EarlierPreference),
    Wrong("a precious counts till the next block", chainstate=_PreferenceOnce),
    Wrong("reconsider leaves the marks above", chainstate=_OwnLineAlone),
    Wrong("reconsider leaves the marks below", chainstate=_AboveAlone),
    Wrong("reconsider takes one mark", chainstate=_Reconsiders),
    _tree("reconsider does nothing", reconsider=lambda self, number: "done" if number in self.nodes else "not-found"),
    Wrong("a mark counts for its block alone", chainstate=_MarksNothingAbove),
    Wrong("invalidate leaves the active block", chainstate=_TipStays),
    _tree("invalidate does nothing", invalidate=lambda self, number: "done" if number in self.nodes else "not-found"),
    Wrong("a block that is refused over its coins is forgotten", chainstate=_InvalidIsForgotten),
    Wrong("a block that is refused by itself is remembered", chainstate=_RefusedIsKept),
    Wrong("where a branch fails its valid part is active", chainstate=_FailedBranchIsActive),
    Wrong("a block on a marked one is kept", chainstate=_ChildOfMarkedIsKept),
    _told("a marked block that comes again is a duplicate", "duplicate-invalid", "duplicate"),
    _told("a valid block that comes again was never tried", "duplicate", "duplicate-inconclusive"),
    _told("a block that was never tried is a duplicate", "duplicate-inconclusive", "duplicate", True),
    _told("a block without its parent is kept", "prev-blk-not-found", "inconclusive"),
    _tree("each block off the active branch is a tip", tips=_all_tips),
    _tree("the active block is no tip where it has a child", tips=_active_left_out),
    _tree("a tip's length counts the fork", tips=_lengths),
    _tree("a valid fork is told as headers", _status=_status({"valid-fork": "valid-headers"})),
    _tree("an invalid tip is told as headers", _status=_status({"invalid": "valid-headers"})),
    _tree("headers are told as a valid fork", _status=_status({"valid-headers": "valid-fork"})),
]


# ---- scripts


class _SingleIsAll(Run):
    """SINGLE without an output signs as ALL."""

    def _digest(self, code: bytes, kind: int) -> bytes:
        is_bare = kind & 31 == 3 and self.input >= len(self.tx.outputs)
        return signature_digest(self.tx, self.input, code, kind & 0x80 | 1 if is_bare else kind)


class _SequencesStay(Run):
    """With NONE and SINGLE the other inputs' sequences are signed."""

    def _digest(self, code: bytes, kind: int) -> bytes:
        if kind & 31 not in (2, 3) or (kind & 31 == 3 and self.input >= len(self.tx.outputs)):
            return super()._digest(code, kind)
        outputs = [] if kind & 31 == 2 else [Output(-1, b"")] * self.input + [self.tx.outputs[self.input]]
        inputs = [i._replace(script=without_separators(code) if n == self.input else b"") for n, i in enumerate(self.tx.inputs)]
        if kind & 0x80:
            inputs = [inputs[self.input]]
        data = write_transaction(self.tx._replace(inputs=inputs, outputs=outputs))
        return hashlib.sha256(hashlib.sha256(data + kind.to_bytes(4, "little")).digest()).digest()


class _SignsTheFirst(Run):
    """The first input is signed whichever it is."""

    def _digest(self, code: bytes, kind: int) -> bytes:
        return signature_digest(self.tx, 0, code, kind)


class _TypeOfFiveBits(Run):
    """A hash type counts by its low bits."""

    def _digest(self, code: bytes, kind: int) -> bytes:
        return signature_digest(self.tx, self.input, code, kind & 0x9F)


class _InnerIsNotRun(Run):
    def run_inner(self, stack: List[bytes]) -> List[bytes]:
        return [b"\1"]


class _InnerOnNothing(Run):
    def run_inner(self, stack: List[bytes]) -> List[bytes]:
        return self.run(stack[-1], [])


class _InnerOnItself(Run):
    def run_inner(self, stack: List[bytes]) -> List[bytes]:
        return self.run(stack[-1], list(stack))


class _WholeCode(Run):
    """CODESEPARATOR is nothing."""

    def _signed_code(self, signatures: List[bytes]) -> bytes:
        return self.script


class _KeysAreNotCounted(Run):
    """Keys aren't counted among the opcodes."""

    def _check_many(self) -> bool:
        before = self.count
        self.count = 0
        found = super()._check_many()
        self.count = before
        return found


class _MoreSignatures(Run):
    """There may be one signature more than keys."""

    def _some(self, most: int) -> List[bytes]:
        return super()._some(most if most == self.MOST_KEYS else most + 1)


class _NothingMore(Run):
    """CHECKMULTISIG takes no element more."""

    def _check_many(self) -> bool:
        if len(self.stack) < 2:
            raise Refused
        self.stack.insert(0, b"")
        return super()._check_many()


class _NotIfIsIf(Run):
    def _condition(self, code: int, runs: bool) -> None:
        super()._condition(0x63 if code == 0x64 else code, runs)


class _ElseOnce(Run):
    """A condition has one ELSE."""

    def _condition(self, code: int, runs: bool) -> None:
        marks = self.__dict__.setdefault("marks", [])
        if code in (0x63, 0x64):
            marks.append(False)
        elif code == 0x68 and marks:
            marks.pop()
        elif code == 0x67 and marks:
            if marks[-1]:
                raise Refused
            marks[-1] = True
        super()._condition(code, runs)


class _OpenIsFine(Run):
    """A condition may stay open."""

    def run(self, script: bytes, stack: List[bytes]) -> List[bytes]:
        try:
            return super().run(script, stack)
        except Refused:
            if not self.open:
                raise
            return self.stack


def _limit(**changed: int) -> Type[Run]:
    return type("Planted", (Run,), dict(changed))


#: Wrong readings of scripts, each of which some pair of each base has to find.
SCRIPTS: List[Tuple[str, Type[Run]]] = [
    ("SINGLE without an output signs as ALL", _SingleIsAll),
    ("other inputs' sequences are signed with NONE and SINGLE", _SequencesStay),
    ("the first input is signed whichever it is", _SignsTheFirst),
    ("a hash type counts by its low bits", _TypeOfFiveBits),
    ("an inner script isn't run", _InnerIsNotRun),
    ("an inner script runs on an empty stack", _InnerOnNothing),
    ("an inner script stays on the stack", _InnerOnItself),
    ("CODESEPARATOR is nothing", _WholeCode),
    ("CHECKMULTISIG takes no element more", _NothingMore),
    ("the keys of CHECKMULTISIG aren't counted", _KeysAreNotCounted),
    ("there may be a signature more than keys", _MoreSignatures),
    ("19 keys", _limit(MOST_KEYS=19)),
    ("21 keys", _limit(MOST_KEYS=21)),
    ("NOTIF is IF", _NotIfIsIf),
    ("a condition has one ELSE", _ElseOnce),
    ("a condition may stay open", _OpenIsFine),
    ("a push has at most 519 bytes", _limit(MOST_PUSHED=519)),
    ("a push has at most 521 bytes", _limit(MOST_PUSHED=521)),
    ("a script has at most 9,999 bytes", _limit(MOST_BYTES=9999)),
    ("200 opcodes", _limit(MOST_OPCODES=200)),
    ("202 opcodes", _limit(MOST_OPCODES=202)),
    ("999 elements", _limit(MOST_ELEMENTS=999)),
    ("1,001 elements", _limit(MOST_ELEMENTS=1001)),
]
