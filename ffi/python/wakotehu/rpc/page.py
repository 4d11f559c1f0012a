"""The page of -page: the block tree while it changes, blocks, transactions, and the coins of a script. The page is one file,
`page.html`; what it shows it asks for by GET, and nothing of it changes anything."""

import base64
import hashlib
import os
import re
from itertools import islice
from typing import Any, Callable, Dict, List, NamedTuple, Optional, Tuple
from urllib.parse import parse_qsl, urlsplit

from .. import consensus
from ..chainstate import read_id, show
from ..encoding import Output, Transaction, block_at_front
from ..nodebench import Coins
from .blockchain import header_fields
from .errors import INVALID_ADDRESS_OR_KEY, METHOD_NOT_FOUND, RpcError
from .jsonrpc import written
from .node import Call, Node, run
from .outlines import outlines
from .descriptors import output_script
from .scripts import asm, kind_of
from .txs import active_block
from .values import Object, digits

#: The page, and in front of a name what it asks for.
PATH, ASKED = "/page", "/page/"
#: How many blocks of the tree, transactions of a block, inputs and outputs of a transaction, and coins one answer has at most.
MOST_BLOCKS, MOST = 2000, 500
#: What a browser may do with any answer: nothing from elsewhere, and nothing in another site's page.
HEADERS = (
    "Cache-Control: no-store", "X-Content-Type-Options: nosniff", "Referrer-Policy: no-referrer",
    "Cross-Origin-Resource-Policy: same-origin",
)  # fmt: skip


class Answer(NamedTuple):
    """An answer of HTTP: its status, its body and the body's type, and headers."""

    status: int
    body: bytes
    kind: str
    headers: Tuple[str, ...]


class Page:
    """Answers what is asked for below `/page`."""

    def __init__(self, node: Node) -> None:
        self.node = node
        with open(os.path.join(os.path.dirname(__file__), "page.html"), "rb") as file:
            self.html = file.read()
        allowed = [f"{name}-src {_hashes(self.html, tag)}" for name, tag in (("script", b"script"), ("style", b"style"))]
        others = "connect-src 'self'; base-uri 'none'; form-action 'none'; frame-ancestors 'none'"
        self.policy = f"Content-Security-Policy: default-src 'none'; {'; '.join(allowed)}; {others}"

    def __call__(self, path: str, is_gone: Callable[[], bool]) -> Answer:
        """The page, or what it asks for. A fault is a JSON object with its text."""
        if path == PATH:
            return Answer(200, self.html, "text/html; charset=utf-8", (*HEADERS, self.policy))
        parts = urlsplit(path)
        self.node.called_by(is_gone)
        try:
            status, found = 200, run(self.node, parts.path[len(ASKED) :], dict(parse_qsl(parts.query, keep_blank_values=True)), ASKS)
        except RpcError as error:
            status = 404 if error.code in (INVALID_ADDRESS_OR_KEY, METHOD_NOT_FOUND) else 500
            found = {"error": str(error)}
        return Answer(status, written(found), "application/json", HEADERS)


def _hashes(html: bytes, tag: bytes) -> str:
    """What a policy says of the page's own scripts or styles: their hashes, so that no others run."""
    found = re.findall(b"<%b>(.*?)</%b>" % (tag, tag), html, re.DOTALL)
    return " ".join(f"'sha256-{base64.b64encode(hashlib.sha256(text).digest()).decode()}'" for text in found)


# ---- what the page asks for. Amounts are satoshis


def tree(node: Node, known: Any) -> Object:
    """The best block and the tips, and the blocks behind those that are known, as [id, parent, height, transactions]."""
    index, tip = node.bench.index, node.tip()
    begin = int(known) if known and re.fullmatch("[0-9]{1,9}", known) else 0
    new = list(islice(index.blocks.values(), begin, begin + MOST_BLOCKS))
    tips = [[show(it.id), it.status] for it in node.bench.tips()]
    return {
        # Another server's blocks are others.
        "run": f"{node.started}",
        "best": show(tip.id),
        "height": tip.height,
        "count": len(index.blocks),
        "waiting": len(node.mempool.entries),
        "tips": tips,
        "blocks": [[show(it.id), show(it.header.parent), it.height, it.transactions] for it in new],
    }


def find(node: Node, text: Any) -> Object:
    """What a text names: a height, the id of a block or of a transaction, an address, or raw(HEX)."""
    text = text.strip()
    at = node.bench.index.at(int(text)) if re.fullmatch("[0-9]{1,9}", text) else None
    if at is not None:
        return {"block": show(at)}
    if re.fullmatch("[0-9a-fA-F]{64}", text):
        id = read_id(text)
        if id in node.bench.index.blocks:
            return {"block": show(id)}
        if id in node.bench.index.transactions or id in node.mempool.entries:
            return {"transaction": show(id)}
    else:
        try:
            return {"coins": output_script(text).hex()}
        except RpcError:
            pass  # The error is raised below.
    raise RpcError(INVALID_ADDRESS_OR_KEY, "There is no such height, block, transaction or address")


def block(node: Node, id: Any) -> Object:
    """A block's header and size, and its transactions with what their outputs are worth together."""
    kept = node.kept(digits(id, "id"))
    fields, data = header_fields(node, kept), node.data(kept.id)
    with node.others():
        txs = zip(block_at_front(data).ids, outlines(data))
        rows = [[show(tx), len(its.spends), its.outputs, its.value] for tx, its in islice(txs, MOST)]
    return {**fields, "size": kept.size, "transactions": rows}


def transaction(node: Node, id: Any) -> Object:
    """A transaction of a kept block, on the active branch if there is one, or one that waits."""
    name = digits(id, "id")
    waits = node.mempool.entries.get(name)
    kept = None if waits else active_block(node, name)
    tx = waits.tx if waits else node.bench.transaction(name)
    if tx is None:
        raise RpcError(INVALID_ADDRESS_OR_KEY, "Transaction not found")
    if kept is None and waits is None:
        kept = node.kept(node.bench.index.transactions[name][0])
    active = kept is not None and node.bench.index.is_active(kept.id)
    return {
        "id": show(name),
        "block": None if kept is None else show(kept.id),
        "height": None if kept is None else kept.height,
        "confirmations": node.tip().height - kept.height + 1 if kept is not None and active else 0,
        "inputs": _inputs(node, tx),
        "value": sum(it.value for it in tx.outputs),
        "outputs": [_output(it, state) for it, state in zip(tx.outputs, _states(node, name, tx))],
        "more": max(0, len(tx.inputs) - MOST) + max(0, len(tx.outputs) - MOST),
    }


def coins(node: Node, script: Any) -> Object:
    """The coins of a script on the active branch, the lowest blocks' first; all coins are read for it."""
    wanted = _script(script)
    best, found = node.bench.coins()
    with node.others():
        own: Coins = sorted((it for it in found if it[2].script == wanted), key=lambda it: (it[2].height, *it[:2]))
    return {
        "script": _shown(wanted),
        "best": show(best),
        "count": len(own),
        "value": sum(coin.value for _, _, coin in own),
        "coins": [[show(id), number, coin.value, coin.height, coin.coinbase] for id, number, coin in own[:MOST]],
    }


def _script(text: str) -> bytes:
    if not re.fullmatch("([0-9a-f]{2}){0,10000}", text):
        raise RpcError(INVALID_ADDRESS_OR_KEY, "The script isn't hexadecimal")
    return bytes.fromhex(text)


def _inputs(node: Node, tx: Transaction) -> List[Object]:
    """What a transaction spends, with where it comes from; a coinbase has nothing."""
    if tx.is_coinbase:
        return []
    spent: Dict[Tuple[bytes, int], Output] = node.spent({tx.id: tx._replace(inputs=tx.inputs[:MOST])})
    found = [((it.id, it.index), spent.get((it.id, it.index))) for it in tx.inputs[:MOST]]
    return [{"id": show(at[0]), "number": at[1], **(_output(it, None) if it else {})} for at, it in found]


def _output(output: Output, is_unspent: Optional[bool]) -> Object:
    return {"value": output.value, "script": _shown(output.script), "unspent": is_unspent}


def _states(node: Node, id: bytes, tx: Transaction) -> List[Optional[bool]]:
    """Whether each output is a coin; None where it can never be one."""
    outputs = tx.outputs[:MOST]
    coins = node.bench.coins_at([(id, place) for place in range(len(outputs))])
    return [None if consensus.script(it.script).unspendable else coin is not None for it, coin in zip(outputs, coins)]


def _shown(script: bytes) -> Object:
    """A script by its bytes, its words and the address that it pays to; a long one by its beginning."""
    addresses = kind_of(script)[2]
    return {"hex": script[:10000].hex(), "words": asm(script[:600])[:300], "address": addresses[0] if len(addresses) == 1 else ""}


#: What may be asked for, by its name behind `/page/`.
ASKS: Dict[str, Call] = {
    "tree": Call("tree", "", ("known",), 0, (), "", tree, True),
    "find": Call("find", "", ("text",), 1, ("string",), "", find, True),
    "block": Call("block", "", ("id",), 1, ("string",), "", block, True),
    "transaction": Call("transaction", "", ("id",), 1, ("string",), "", transaction, True),
    "coins": Call("coins", "", ("script",), 1, ("string",), "", coins, True),
}
