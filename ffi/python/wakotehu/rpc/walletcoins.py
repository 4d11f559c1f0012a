"""Calls on what a wallet has: its balances, coins and transactions."""

from typing import Any, Dict, Iterator, List, NamedTuple, Optional, Set, Tuple

from ..chainstate import show
from ..encoding import GENESIS, block_at_front
from ..replacing import signals
from ..wallet import Coin, Wallet
from ..wallet.coins import Outpoint, Record
from ..wallet.keys import destination
from .errors import INVALID_ADDRESS_OR_KEY, INVALID_PARAMETER, METHOD_DEPRECATED, TYPE_ERROR, RpcError
from .node import Node, call
from .scripts import address_script
from .txs import transaction_fields
from .values import Amount, Object, amount, array, boolean, digits, expect, integer, kind_name, object_of, text
from .walletkeys import described
from .wallets import GROUP, rescanned, using, wallet_of

#: All depths.
_DEEPEST = 9_999_999
_ANY = "*"


# ---- sums


@call(GROUP, "dummy", "minconf", "include_watchonly", "avoid_reuse")
def getbalance(node: Node, dummy: Any, minconf: Any, include_watchonly: Any, avoid_reuse: Any) -> Amount:
    """What the wallet can pay with, at some depth."""
    with using(node) as wallet:
        if dummy is not None and text(dummy) != _ANY:
            raise RpcError(METHOD_DEPRECATED, 'dummy first argument must be excluded or set to "*".')
        least = 0 if minconf is None else integer(minconf)
        for flag in (include_watchonly, avoid_reuse):
            if flag is not None:
                boolean(flag)
        return Amount(wallet.ledger.balances(least).trusted)


@call(GROUP)
def getbalances(node: Node) -> Object:
    """What is trusted, what waits that others sent, and what coinbases have that aren't deep enough."""
    with using(node) as wallet:
        sums = wallet.ledger.balances()
        return {"mine": {"trusted": Amount(sums.trusted), "untrusted_pending": Amount(sums.pending), "immature": Amount(sums.immature)}}


@call(GROUP)
def getunconfirmedbalance(node: Node) -> Amount:
    """What waits that others sent."""
    with using(node) as wallet:
        return Amount(wallet.ledger.balances().pending)


# ---- coins


class _Query(NamedTuple):
    """Which coins are asked for."""

    least: int
    most: int
    scripts: Optional[Set[bytes]]
    includes_unsafe: bool
    least_value: int = 0
    most_value: int = 1 << 63
    most_count: int = 0
    least_sum: int = 1 << 63


@call(GROUP, "minconf", "maxconf", "addresses", "include_unsafe", "query_options")
def listunspent(
    node: Node, minconf: Any, maxconf: Any, addresses: Any, include_unsafe: Any, query_options: Any
) -> List[Object]:  # fmt: skip
    """The wallet's coins that aren't locked, the oldest first."""
    for value, kind in ((minconf, "number"), (maxconf, "number"), (addresses, "array")):
        if value is not None:
            expect(value, kind)
    least = 1 if minconf is None else integer(minconf)
    most = _DEEPEST if maxconf is None else integer(maxconf)
    with using(node) as wallet:
        scripts = None if addresses is None else _scripts(addresses)
        unsafe = include_unsafe is None or boolean(include_unsafe)
        query = _with_options(_Query(least, most, scripts or None, unsafe), query_options)
        return [_shown_coin(wallet, coin) for coin in _chosen(wallet, query)]


def _scripts(given: List[Any]) -> Set[bytes]:
    found: Set[bytes] = set()
    for it in given:
        script = address_script(text(it))
        if script is None:
            raise RpcError(INVALID_ADDRESS_OR_KEY, f"Invalid Bitcoin address: {it[:100]}")
        if script in found:
            raise RpcError(INVALID_PARAMETER, f"Invalid parameter, duplicated address: {it}")
        found.add(script)
    return found


def _with_options(query: _Query, given: Any) -> _Query:
    options = {} if given is None else object_of(given)
    values = {name: amount(options[name]) for name in ("minimumAmount", "maximumAmount", "minimumSumAmount")
              if options.get(name) is not None}  # fmt: skip
    count = 0 if options.get("maximumCount") is None else integer(options["maximumCount"], 64)
    return query._replace(
        least_value=values.get("minimumAmount", 0), most_value=values.get("maximumAmount", 1 << 63), most_count=count,
        least_sum=values.get("minimumSumAmount", 1 << 63),
    )  # fmt: skip


def _chosen(wallet: Wallet, query: _Query) -> Iterator[Coin]:
    count = total = 0
    for coin in wallet.ledger.available():
        is_there = query.least <= coin.depth <= query.most and (coin.is_safe or query.includes_unsafe)
        is_worth = query.least_value <= coin.output.value <= query.most_value
        is_asked = query.scripts is None or coin.output.script in query.scripts
        if is_there and is_worth and is_asked and coin.outpoint not in wallet.locked:
            yield coin
            count, total = count + 1, total + coin.output.value
            if total >= query.least_sum or 0 < query.most_count <= count:
                return


def _shown_coin(wallet: Wallet, coin: Coin) -> Object:
    script = coin.output.script
    known, address = wallet.key_for(script), destination(script)
    found: Object = {"txid": show(coin.outpoint[0]), "vout": coin.outpoint[1]}
    if address is not None:
        found["address"] = address
        label = label_at(wallet, script)
        found.update({} if label is None else {"label": label})
    if known is not None and known.inner is not None:
        found["redeemScript"] = known.inner.hex()
    found.update(scriptPubKey=script.hex(), amount=Amount(coin.output.value), confirmations=coin.depth, spendable=True)
    is_solvable = known is not None and wallet.is_solvable(script)
    found["solvable"] = is_solvable
    if known is not None and is_solvable:
        found["desc"] = described(known.text)
    found["safe"] = coin.is_safe
    return found


def label_at(wallet: Wallet, script: bytes) -> Optional[str]:
    """The label of what a script pays to, or None: that of a key is its address's."""
    address = destination(script)
    own = None if address is None else address_script(address)
    return wallet.labels[own][0] if own in wallet.labels else None


@call(GROUP, "unlock", "transactions", needed=1, types=("bool",))
def lockunspent(node: Node, unlock: Any, transactions: Any) -> bool:
    """Locks coins, which the wallet spends no more by itself until it is unloaded, or unlocks some, or all."""
    with using(node) as wallet:
        if transactions is None:
            if unlock:
                wallet.locked.clear()
            return True
        expect(transactions, "array")
        places = [_lockable(wallet, object_of(it), unlock) for it in transactions]
        for at in places:
            if unlock:
                wallet.locked.pop(at, None)
            else:
                wallet.locked[at] = None
        return True


def _lockable(wallet: Wallet, given: Object, unlock: bool) -> Outpoint:
    for name in given:
        if name not in ("txid", "vout"):
            raise RpcError(TYPE_ERROR, f"Unexpected key {name[:100]}")
    for name, kind in (("txid", "string"), ("vout", "number")):
        if name not in given:
            raise RpcError(TYPE_ERROR, f"Missing {name}")
        expect_kind(given[name], kind, name)
    at = digits(given["txid"], "txid"), integer(given["vout"])
    if at[1] < 0:
        raise RpcError(INVALID_PARAMETER, "Invalid parameter, vout cannot be negative")
    record = wallet.ledger.records.get(at[0])
    if record is None:
        raise RpcError(INVALID_PARAMETER, "Invalid parameter, unknown transaction")
    if at[1] >= len(record.tx.outputs):
        raise RpcError(INVALID_PARAMETER, "Invalid parameter, vout index out of bounds")
    if wallet.ledger.is_spent(at):
        raise RpcError(INVALID_PARAMETER, "Invalid parameter, expected unspent output")
    if unlock is not (at in wallet.locked):
        raise RpcError(INVALID_PARAMETER, f"Invalid parameter, {'expected locked output' if unlock else 'output already locked'}")
    return at


def expect_kind(value: Any, kind: str, name: str) -> None:
    """That a member has a type (Bitcoin Core's `RPCTypeCheckObj`)."""
    if kind_name(value) != kind:
        raise RpcError(TYPE_ERROR, f"Expected type {kind} for {name}, got {kind_name(value)}")


@call(GROUP)
def listlockunspent(node: Node) -> List[Object]:
    """The coins that are locked."""
    with using(node) as wallet:
        return [{"txid": show(id), "vout": index} for id, index in wallet.locked]


# ---- transactions


@call(GROUP, "txid", "include_watchonly", "verbose", needed=1)
def gettransaction(node: Node, txid: Any, include_watchonly: Any, verbose: Any) -> Object:
    """A transaction of the wallet."""
    with using(node) as wallet:
        id = digits(txid, "txid")
        shows = [it is not None and boolean(it) for it in (include_watchonly, verbose)][1]
        record, ledger = wallet.record(id), wallet.ledger
        debit, made = ledger.debit(record.tx), sum(out.value for out in record.tx.outputs)
        fee = made - debit if debit else 0
        found: Object = {"amount": Amount(ledger.credit(record) - debit - fee)}
        if debit:
            found["fee"] = Amount(fee)
        found.update(about(wallet, record))
        found["details"] = entries(wallet, record, is_long=False)
        found["hex"] = record.data.hex()
        if shows:
            found["decoded"] = transaction_fields(record.data, with_hex=False)
        return found


def about(wallet: Wallet, record: Record) -> Object:
    """What all lists have of a transaction (Bitcoin Core's `WalletTxToJSON`)."""
    ledger = wallet.ledger
    depth = ledger.depth(record)
    found: Object = {"confirmations": depth}
    if record.tx.is_coinbase:
        found["generated"] = True
    if record.place is not None:
        own = record.place
        found.update(blockhash=show(own.block), blockheight=own.height, blockindex=own.number, blocktime=own.time)
    else:
        found["trusted"] = ledger.is_trusted(record)
    found["txid"] = show(record.id)
    found["walletconflicts"] = [show(id) for id in ledger.conflicting(record)]
    found.update({"time": record.time, "timereceived": record.received, "bip125-replaceable": _replaceable(wallet, record)})
    found.update(sorted(record.notes.items()))
    return found


def _replaceable(wallet: Wallet, record: Record) -> str:
    """Whether it, or what it hangs on, says that it may be replaced; as far as the wallet knows that."""
    if record.place is not None:
        return "no"
    left, seen = [record], {record.id}
    while left:
        own = left.pop()
        if signals(own):
            return "yes"
        if own.id not in wallet.ledger.waiting:
            return "unknown"
        for spends in own.tx.inputs:
            above = wallet.ledger.records.get(spends.id)
            if above is not None and above.place is None and above.id not in seen:
                seen.add(above.id)
                left.append(above)
    return "no"


def entries(wallet: Wallet, record: Record, is_long: bool = True, label: Optional[str] = None) -> List[Object]:
    """What lists have of a transaction: what it sent, and then what came (Bitcoin Core's `ListTransactions`); with a label only what
    came to addresses of that."""
    ledger, more = wallet.ledger, about(wallet, record) if is_long else {}
    debit = ledger.debit(record.tx)
    fee = sum(out.value for out in record.tx.outputs) - debit if debit else 0
    sent: List[Object] = []
    came: List[Object] = []
    for index, out in enumerate(record.tx.outputs):
        is_own = (record.id, index) in ledger.coins
        if debit and is_own and wallet.is_change(out.script):
            continue
        address, own = destination(out.script), label_at(wallet, out.script)
        front = {} if address is None else {"address": address}
        named = {} if own is None else {"label": own}
        if debit and label is None:
            sent.append({**front, "category": "send", "amount": Amount(-out.value), **named, "vout": index, "fee": Amount(fee), **more,
                         "abandoned": record.is_abandoned})  # fmt: skip
        if is_own and (label is None or own == label):
            came.append({**front, "category": _category(wallet, record), "amount": Amount(out.value), **named, "vout": index, **more})
    return sent + came


def _category(wallet: Wallet, record: Record) -> str:
    if not record.tx.is_coinbase:
        return "receive"
    if wallet.ledger.depth(record) < 1:
        return "orphan"
    return "generate" if wallet.ledger.is_mature(record) else "immature"


@call(GROUP, "label|dummy", "count", "skip", "include_watchonly")
def listtransactions(node: Node, label: Any, count: Any, skip: Any, include_watchonly: Any) -> List[Object]:
    """The last entries of the wallet's transactions, the newest last."""
    with using(node) as wallet:
        wanted = None if label is None or text(label) == _ANY else label
        if wanted == "":
            raise RpcError(INVALID_PARAMETER, 'Label argument must be a valid label name or "*".')
        many, past = (other if it is None else integer(it) for it, other in ((count, 10), (skip, 0)))
        if include_watchonly is not None:
            boolean(include_watchonly)
        if many < 0:
            raise RpcError(INVALID_PARAMETER, "Negative count")
        if past < 0:
            raise RpcError(INVALID_PARAMETER, "Negative from")
        found: List[Object] = []
        for record in reversed(wallet.ledger.in_order()):
            if len(found) >= many + past:
                break
            found += entries(wallet, record, label=wanted)
        return found[past : past + many][::-1]


@call(GROUP, "blockhash", "target_confirmations", "include_watchonly", "include_removed")
def listsinceblock(
    node: Node, blockhash: Any, target_confirmations: Any, include_watchonly: Any, include_removed: Any
) -> Object:  # fmt: skip
    """What became of the wallet's transactions since a block: those that aren't as deep as it is, and of blocks that left those that
    they had."""
    with using(node) as wallet:
        since, low = _since(wallet, blockhash)
        target = 1 if target_confirmations is None else integer(target_confirmations)
        if target < 1:
            raise RpcError(INVALID_PARAMETER, "Invalid parameter")
        if include_watchonly is not None:
            boolean(include_watchonly)
        shows_removed = include_removed is None or boolean(include_removed)
        ledger = wallet.ledger
        records = [own for own in ledger.in_order() if low is None or ledger.depth(own) < ledger.height + 1 - low]
        found: Object = {"transactions": [it for own in records for it in entries(wallet, own)]}
        if shows_removed:
            found["removed"] = [it for own in _removed(wallet, since) for it in entries(wallet, own)]
        height = max(0, ledger.height + 1 - target)
        found["lastblock"] = show(wallet.host.ids(ledger.best, height, height)[0] if height else GENESIS.id)
        return found


def _since(wallet: Wallet, blockhash: Any) -> Tuple[Optional[bytes], Optional[int]]:
    """The block that is named, and the height up to which it has the wallet's branch; None where none is named."""
    if blockhash is None or blockhash == "":
        return None, None
    id = digits(blockhash, "blockhash")
    way = wallet.host.way(id, wallet.ledger.best)
    if way is None:
        raise RpcError(INVALID_ADDRESS_OR_KEY, "Block not found")
    return id, wallet.ledger.height - len(way.come)


def _removed(wallet: Wallet, since: Optional[bytes]) -> List[Record]:
    """The wallet's transactions of blocks that left, from the one that is named on downwards."""
    way = None if since is None else wallet.host.way(since, wallet.ledger.best)
    found: Dict[bytes, Record] = {}
    for block in () if way is None else way.gone:
        for id in block_at_front(wallet.host.block(block)).ids:
            if id in wallet.ledger.records:
                found[id] = wallet.ledger.records[id]
    return list(found.values())


@call(GROUP, "txid", needed=1)
def abandontransaction(node: Node, txid: Any) -> None:
    """Has a transaction that isn't mined and doesn't wait spend its coins no more."""
    id = digits(txid, "txid")
    with using(node) as wallet:
        wallet.abandon(id)


@call(GROUP, "start_height", "stop_height")
def rescanblockchain(node: Node, start_height: Any, stop_height: Any) -> Object:
    """Looks for the wallet's transactions in active blocks again."""
    with using(node) as wallet:
        top = wallet.ledger.height
        start, stop = 0 if start_height is None else integer(start_height), None
        if not 0 <= start <= top:
            raise RpcError(INVALID_PARAMETER, "Invalid start_height")
        if stop_height is not None:
            stop = integer(stop_height)
            if not 0 <= stop <= top:
                raise RpcError(INVALID_PARAMETER, "Invalid stop_height")
            if stop < start:
                raise RpcError(INVALID_PARAMETER, "stop_height must be greater than start_height")
    with node.others():
        return {"start_height": start, "stop_height": rescanned(node, wallet, start, stop)}


@call(GROUP)
def abortrescan(node: Node) -> bool:
    """Ends the rescan of the wallet that another call waits for: whether there was one."""
    wallet = wallet_of(node)
    with node.others():
        return wallet.abort_rescan()
