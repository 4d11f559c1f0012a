"""Calls that send transactions to the mempool, or ask whether it would take them."""

from typing import Any, Dict, List, Sequence, Union

from .. import consensus
from ..chainstate import show
from ..errors import NotAccepted
from ..mempool import Entry
from ..replacing import rate
from .errors import (
    INVALID_PARAMETER, TRANSACTION_ALREADY_IN_CHAIN, TRANSACTION_ERROR, TRANSACTION_REJECTED, RpcError,
)  # fmt: skip
from .node import Node, call
from .txs import GROUP, Raw, raw_transaction
from .values import Amount, Object, amount, array, text

#: The most that a transaction may pay where a call doesn't say it, in satoshis for 1,000 bytes.
MOST_RATE = 10_000_000
#: The most that come together.
MOST_TOGETHER = 25
MISSING = "bad-txns-inputs-missingorspent"


def _raw(given: Any) -> Raw:
    return raw_transaction(text(given), "TX decode failed. Make sure the tx has at least one input.", True)


def _most_fee(maxfeerate: Any, size: int) -> int:
    """The most that a transaction of a size may pay, by a rate for 1,000 bytes; 0 for no limit."""
    return (MOST_RATE if maxfeerate is None else amount(maxfeerate)) * size // 1000


@call(GROUP, "hexstring", "maxfeerate", needed=1, types=("string",))
def sendrawtransaction(node: Node, hexstring: Any, maxfeerate: Any) -> str:
    """Puts a transaction among those that wait to be mined, by consensus rules alone: its id."""
    with node.others():
        raw = _raw(hexstring)
        id = raw.id
    most = _most_fee(maxfeerate, len(raw.data))
    # Where an output of it is a coin.
    if id in node.bench.index.transactions and node.mempool.has_coin(id, len(raw.tx.outputs)):
        raise RpcError(TRANSACTION_ALREADY_IN_CHAIN, "Transaction already in block chain")
    with node.mempool.used():
        if id in node.mempool.entries:
            return show(id)
        try:
            entry = node.mempool.judge(raw.data, raw.tx)
        except NotAccepted as error:
            code = TRANSACTION_ERROR if error.reason == MISSING else TRANSACTION_REJECTED
            raise RpcError(code, str(error))
        if 0 < most < entry.fee:
            raise RpcError(TRANSACTION_ERROR, "Fee exceeds maximum configured by user (e.g. -maxtxfee, maxfeerate)")
        node.mempool.add(entry)
    return show(id)


@call(GROUP, "rawtxs", "maxfeerate", needed=1, types=("array",))
def testmempoolaccept(node: Node, rawtxs: Any, maxfeerate: Any) -> List[Object]:
    """Whether transactions would be put among those that wait, each behind those before it, and why not. Nothing changes."""
    with node.others():
        raws = _package(rawtxs)
        fault = _package_fault(raws)
    if fault:
        return [{"txid": show(raw.id), "package-error": fault} for raw in raws]
    with node.mempool.used():
        judged = _judged(node, raws)
    found, is_over = [], False
    for place, raw in enumerate(raws):
        entry = judged[place] if place < len(judged) else None
        answer = {} if entry is None or is_over else _tested(entry, _most_fee(maxfeerate, len(raw.data)))
        # Behind one that isn't accepted none is looked at.
        is_over = is_over or not answer.get("allowed")
        found.append({"txid": show(raw.id), **answer})
    return found


def _package(given: Any) -> List[Raw]:
    """Transactions that come together."""
    if not 1 <= len(array(given)) <= MOST_TOGETHER:
        raise RpcError(INVALID_PARAMETER, f"Array must contain between 1 and {MOST_TOGETHER} transactions.")
    return [_raw(it) for it in given]


def _package_fault(raws: Sequence[Raw]) -> str:
    """Why transactions don't come together (Bitcoin Core's `CheckPackage`), or "". One alone is no package."""
    if len(raws) == 1:
        return ""
    ids = [raw.id for raw in raws]
    if len({*ids}) < len(ids):
        return "package-contains-duplicates"
    later = [{*ids[place:]} for place in range(len(ids))]
    if any(spends.id in own for own, raw in zip(later, raws) for spends in raw.tx.inputs):
        return "package-not-sorted"
    # One that spends a coin twice is refused by itself.
    spent = [at for raw in raws for at in {(spends.id, spends.index) for spends in raw.tx.inputs}]
    return "conflict-in-package" if len({*spent}) < len(spent) else ""


def _judged(node: Node, raws: Sequence[Raw]) -> Sequence[Union[Entry, NotAccepted]]:
    """What each would be, up to the first that may not wait. One alone may replace others."""
    if len(raws) > 1:
        return node.mempool.judge_all([(raw.data, raw.tx) for raw in raws])
    try:
        return [node.mempool.judge(raws[0].data, raws[0].tx)]
    except NotAccepted as error:
        return [error]


def _tested(found: Union[Entry, NotAccepted], most: int) -> Object:
    if isinstance(found, NotAccepted):
        return {"allowed": False, "reject-reason": "missing-inputs" if found.reason == MISSING else found.reason}
    if 0 < most < found.fee:
        return {"allowed": False, "reject-reason": "max-fee-exceeded"}
    return {"allowed": True, "vsize": found.size, "fees": {"base": Amount(found.fee)}}


@call(GROUP, "package", "maxfeerate", "maxburnamount", needed=1, types=("array",))
def submitpackage(node: Node, package: Any, maxfeerate: Any, maxburnamount: Any) -> Object:
    """Puts a transaction among those that wait, behind those that it spends coins of, which come with it."""
    with node.others():
        raws = _package(package)
        _expect_no_burning(raws, 0 if maxburnamount is None else amount(maxburnamount))
        fault = _package_fault(raws)
        if not fault and not _is_child_with_parents(raws):
            message = "package topology disallowed. not child-with-parents or parents depend on each other."
            raise RpcError(TRANSACTION_ERROR, message)
    results: Dict[str, Object] = {}
    gone: List[bytes] = []
    with node.mempool.used():
        for raw in raws:
            results[show(raw.id)] = _sent(node, raw, fault, _most_fee(maxfeerate, len(raw.data)), gone)
    is_well = not any("error" in it for it in results.values())
    said = fault or ("success" if is_well else "transaction failed")
    return {"package_msg": said, "tx-results": results, "replaced-transactions": [show(id) for id in gone]}


def _is_child_with_parents(raws: Sequence[Raw]) -> bool:
    """Whether the last spends a coin of each other, and these of none (Bitcoin Core's `IsChildWithParentsTree`)."""
    *parents, child = raws
    ids, spent = {raw.id for raw in parents}, {spends.id for spends in child.tx.inputs}
    return ids <= spent and not any(spends.id in ids for raw in parents for spends in raw.tx.inputs)


def _expect_no_burning(raws: Sequence[Raw], most: int) -> None:
    for raw in raws:
        if any(out.value > most and consensus.script(out.script).unspendable for out in raw.tx.outputs):
            message = "Unspendable output exceeds maximum configured by user (maxburnamount)"
            raise RpcError(TRANSACTION_ERROR, message)


def _sent(node: Node, raw: Raw, fault: str, most: int, gone: List[bytes]) -> Object:
    """What is said of one of a package: it waits then, or there is an error. What it replaces is added to `gone`."""
    found: Object = {"txid": show(raw.id)}
    entry = node.mempool.entries.get(raw.id)
    if fault:
        return {**found, "error": "package-not-validated"}
    if entry is None:
        try:
            entry = node.mempool.judge(raw.data, raw.tx)
        except NotAccepted as error:
            return {**found, "error": error.reason}
        if 0 < most < entry.fee:
            return {**found, "error": "max feerate exceeded"}
        gone += node.mempool.add(entry)
    fees = {"base": Amount(entry.fee), "effective-feerate": Amount(rate(entry.fee, entry.size)), "effective-includes": [show(raw.id)]}
    return {**found, "vsize": entry.size, "fees": fees}
