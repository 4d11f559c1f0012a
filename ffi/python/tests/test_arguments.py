"""What is no argument: of each public call, each argument is given values of 25 wrong kinds or more, and each of them is
refused by a TypeError or a ValueError that names the argument. A call, or an argument, without a row here fails."""

import array
import asyncio
import ctypes
import datetime
import decimal
import enum
import fractions
import importlib
import inspect
import io
import os
import pathlib
import pkgutil
import unittest
from typing import Any, Dict, Iterator, List, NamedTuple, Tuple

import wakotehu
from blocks import NOW, Maker, block_id
from wakotehu import bench, chainstate, consensus, encoding, errors, node, pipe, psbt, psbtsigning, signatures, wallet
from wakotehu.encoding import GENESIS

ROOT = os.path.realpath(os.path.join(os.path.dirname(__file__), "..", "..", ".."))
PROGRAM = os.environ.get("WAKOTEHU_PROGRAM", f"{ROOT}/crates/regchain/out/regchain")


class Colour(enum.Enum):
    RED = 1


class Wide(ctypes.Structure):
    _fields_ = [("a", ctypes.c_uint32)]


def released() -> memoryview:
    view = memoryview(b"abc")
    view.release()
    return view


def generator() -> Any:
    yield 1


def shown(value: Any) -> str:
    """A value for messages. A number of 5,000 digits has no text."""
    try:
        return repr(value)[:100]
    except ValueError:
        return "a long number"


#: Values that are neither bytes, nor numbers, nor texts, nor collections of any, by their kinds.
NOTHING: List[Any] = [
    object(), int, bytes, len, lambda: b"", 1j, Ellipsis, NotImplemented, Colour.RED, datetime.datetime(2020, 1, 1),
    generator(), io.BytesIO(b"abc"), pkgutil, ValueError("x"), slice(3),
]  # fmt: skip
NUMBERS: List[Any] = [0, 1, 3, -1, 1 << 32, 10**5000, True, False, Colour.RED]
FRACTIONS: List[Any] = [0.0, 0.7, 1.9, float("nan"), float("inf"), decimal.Decimal(1), fractions.Fraction(1)]
TEXTS: List[Any] = ["", "1", "abc", "00" * 32, "\ud800"]
LISTS: List[Any] = [[], [1], [1, 2, 3], (), (b"a",), {}, {1: 2}, set(), {1}, frozenset(), range(3), [b"abc"]]
OCTETS: List[Any] = [b"", b"1", b"abc", bytearray(b"1"), memoryview(b"1")]
#: Buffers that are no bytes: of wide items, with gaps, a single number, or gone.
BUFFERS: List[Any] = [
    array.array("I", [1, 2, 3]), array.array("H"), array.array("d", [1.0]), memoryview(array.array("I", [1, 2, 3])),
    memoryview(b"12345678").cast("I"), memoryview(b"12345678")[::2], memoryview(b"12345678")[::-1],
    (ctypes.c_uint32 * 2)(1, 2), ctypes.c_uint8(3), ctypes.c_char(b"a"), Wide(1), memoryview(b"1").cast("?"), released(),
]  # fmt: skip
LENGTHS: List[Any] = [b"", bytes(31), bytes(33), bytearray(31), array.array("B", bytes(31))]

BYTES = [None, *NOTHING, *NUMBERS, *FRACTIONS, *TEXTS, *LISTS, *BUFFERS]
NUMBER = [None, *NOTHING, True, False, -1, 1 << 64, 10**5000, *FRACTIONS, *TEXTS, *LISTS, *OCTETS, *BUFFERS[:4]]
SEQUENCE = [None, *NOTHING, *NUMBERS, *FRACTIONS, *TEXTS, {}, {1: 2}, set(), {1}, frozenset(), *OCTETS, *BUFFERS[3:]]

#: The wrong values of each kind of argument.
#: What gives no heights; none by name are those of regtest.
UNNAMED = [*(it for it in SEQUENCE if it != {}), {"csv": -1}, {"csv": 1 << 32}, {"csv": 0.5}, {1: 1}, {"": 1}, {"Csv": 1}]
WRONG: Dict[str, List[Any]] = {
    "bytes": BYTES,
    "id": [*BYTES, *LENGTHS],
    "optional id": [*BYTES[1:], *LENGTHS],
    "payee": [None, *NOTHING, *NUMBERS, *FRACTIONS, *TEXTS, *LISTS, *BUFFERS],
    "optional ids": [*SEQUENCE[1:], [1], [bytes(31)], [None], ["00" * 32], [], [bytes(32)] * 2],
    "ids": [*SEQUENCE, [1], [bytes(31)], [None], ["00" * 32], [bytes(32), 3]],
    "number": NUMBER,
    "number32": [*NUMBER, 1 << 32],
    "number8": [*NUMBER, 256],
    "number256": [*(own for own in NUMBER if own is not NUMBER[0] and own != 1 << 64), None, 1 << 256],
    "signed32": [None, *NOTHING, True, 1 << 31, -(1 << 31) - 1, 10**5000, *FRACTIONS, *TEXTS, *LISTS, *OCTETS],
    "signed64": [None, *NOTHING, True, 1 << 63, -(1 << 63) - 1, 10**5000, *FRACTIONS, *TEXTS, *LISTS, *OCTETS],
    "moment": NUMBER[1:],
    "step": [*NUMBER, 0],
    "place": [*NUMBER, 1],
    "count": [*NUMBER, 0, 17],
    "seat": [value for value in NUMBER if type(value) is not int],
    "threads": [0, *NUMBER[1:], 1 << 31],
    "flag": [None, *NOTHING, 0, 1, 2, *FRACTIONS, *TEXTS, *LISTS, *OCTETS],
    "text": [None, *NOTHING, *NUMBERS, *FRACTIONS, *LISTS, *OCTETS, *BUFFERS, "\ud800"],
    "digits": [None, *NOTHING, *NUMBERS, *FRACTIONS, *LISTS, *OCTETS, *TEXTS[:3], "\ud800", " 00" * 32, "0" * 63, "g" * 64],
    "lines": [None, *NOTHING, *NUMBERS, *FRACTIONS, *LISTS, *BUFFERS, "\ud800"],
    "optional lines": [*NOTHING, *NUMBERS, *FRACTIONS, *LISTS, *BUFFERS, "\ud800"],
    "line": [*BYTES, b"", b"aa", b"aa bb", b"aa bb " + b"00" * 31, b"zz - " + b"00" * 32, b"a - " + b"00" * 32],
    "list of lines": [*SEQUENCE, [1], [None], ["aa"], [b"aa"], [b"aa bb cc dd"], [b"zz - " + b"00" * 32]],
    "command": [None, *NOTHING, *NUMBERS, *FRACTIONS, *LISTS, *OCTETS, *TEXTS, "submit", "INVALIDATE"],
    # Without the generator and the file, which are empty when they were read once.
    "flags": [
        None, *(own for own in NOTHING if not isinstance(own, Iterator)), *NUMBERS, *FRACTIONS, *TEXTS, *OCTETS, {},
        {1: 2}, ["P2SH"], [1], [None], {b"CSV"},
    ],
    "rules": [
        None, *(own for own in NOTHING if not isinstance(own, Iterator)), *NUMBERS, *FRACTIONS, *TEXTS, *OCTETS, {},
        {1: 2}, ["WITNESS"], [1], [None], {b"P2SH"},
    ],
    "stack": [*SEQUENCE, [1], [None], ["aa"], [b"aa", 1], [array.array("I", [1])]],
    "heights": [*UNNAMED, [], [1], [1] * 3, [1] * 5, [1, 1, 1, -1], [1, 1, 1, 1 << 32], [1, 1, 1, 0.5], [1, 1, 1, "1"]],
    "optional heights": [
        *UNNAMED[1:], [], [1], [1] * 3, [1] * 5, [1, 1, 1, -1], [1, 1, 1, 1 << 32], [1, 1, 1, 0.5], [True] * 4,
    ],
    "times": [*SEQUENCE, [-1], [1 << 32], [0.5], ["1"], [None], [True], [b"1"]],
    "coin": [
        None, *NOTHING, *NUMBERS, *FRACTIONS, *TEXTS, *LISTS, *(chainstate.Coin(own, b"", 7, False) for own in (1 << 63, 0.5, "1")),
        chainstate.Coin(1, "51", 7, False), chainstate.Coin(1, b"", -1, False), chainstate.Coin(1, b"", 7, 1),  # type: ignore[arg-type]
    ],
    "given": [
        *SEQUENCE, [1], [(bytes(32), 0)], [(bytes(31), 0, chainstate.Coin(1, b"", 7, False))], [(bytes(32), -1, chainstate.Coin(1, b"", 7, False))],
        [(bytes(32), 0, 7)], [(bytes(32), 0, (1, b"", 7, False))],
    ],
    "starts": [*SEQUENCE, [1], [(1,)], [(1, 2, 3)], [(1, -1)], [(0.5, 1)], ["12"], [b"12"], [{1, 2}], [(1, 1 << 32)]],
    "outpoints": [
        *SEQUENCE, [1], [(bytes(32),)], [(bytes(31), 0)], [(bytes(32), -1)], [(bytes(32), 0.7)], [("00" * 32, 0)], ["ab"],
        [(bytes(32), True)], [(bytes(32), 1 << 32)],
    ],
    "optional outpoint": [
        *SEQUENCE[1:], [1], (bytes(32),), (bytes(31), 0), (bytes(32), -1), (bytes(32), 0.7), ("00" * 32, 0), "ab",
        (bytes(32), True), (bytes(32), 1 << 32), (None, 0),
    ],
    "triple": [
        *SEQUENCE, [], [b""] * 2, [b""] * 3, (3, b"", bytes(32)), (b"", "a", bytes(32)), (b"", b"", bytes(31)),
        (array.array("I", [1]), b"", bytes(32)),
    ],
    "path": [None, *NOTHING, *NUMBERS, *FRACTIONS, *LISTS, "", "a\0b", b"", b"a\0b", bytearray(b"a")],
    "optional path": [*NOTHING, *NUMBERS, *FRACTIONS, *LISTS, "", "a\0b", b"", b"a\0b", bytearray(b"a")],
    "seconds": [*NOTHING, 0, -1, 0.0, -0.5, float("nan"), float("inf"), 1e9, 10**5000, True, False, *TEXTS, *LISTS, *OCTETS],
    "digest20": [*BYTES, *LENGTHS],
    "network": [None, *NOTHING, *NUMBERS, *FRACTIONS, *TEXTS, *LISTS, *OCTETS, "Main"],
    "optional source": [*NOTHING, *NUMBERS, *FRACTIONS, *TEXTS, *LISTS, *OCTETS],
    "secret": [*BYTES, *LENGTHS, bytes(32), b"\xff" * 32],
    "own": [None, *NOTHING, *NUMBERS, *FRACTIONS, *TEXTS, *LISTS, *OCTETS],
    "optional seed": [*BYTES[1:], b"", bytes(15), bytes(65), bytearray(15)],
    "optional function": [it for it in (*NOTHING, *NUMBERS, *FRACTIONS, *TEXTS, *LISTS, *OCTETS) if not callable(it)],
}  # fmt: skip


def replaced(value: Any, field: str, kind: str) -> List[Any]:
    """The value with each wrong value in one of its fields."""
    put = value._replace if hasattr(value, "_replace") else lambda **words: type(value)(**{**vars(value), **words})
    return [put(**{field: wrong}) for wrong in WRONG[kind]]


MAKER = Maker()
FIRST = MAKER.block(GENESIS.id)
TX = encoding.read_block(FIRST).transactions[0]
RAW = encoding.write_transaction(TX)
PARTS = consensus.transaction_parts(RAW)
TRIPLE = consensus.Triple(b"\2" * 33, b"\3" * 9, bytes(32))
SECRET = b"\1" * 32
POOLED = bench.Bench()
KINDS = {"id": "id", "script": "bytes", "index": "number32", "sequence": "number32", "value": "signed64"}
ENDS = {"version": "signed32", "lock_time": "number32"}
HEADERS = {"version": "signed32", "parent": "id", "root": "id", "time": "number32", "bits": "number32", "nonce": "number32"}
WRONG["transaction"] = [
    *WRONG["own"], PARTS, *(bad for end, kind in ENDS.items() for bad in replaced(TX, end, kind)),
    *(TX._replace(inputs=[bad]) for field in ("id", "script", "index", "sequence")
      for bad in replaced(TX.inputs[0], field, KINDS[field])),
    *(TX._replace(outputs=[bad]) for field in ("value", "script")
      for bad in replaced(TX.outputs[0], field, KINDS[field])),
]  # fmt: skip
WRONG["kind of transaction"] = [*WRONG["own"], PARTS, PARTS.inputs[0]]
WRONG["parts"] = [
    *WRONG["own"], TX, *(bad for end, kind in ENDS.items() for bad in replaced(PARTS, end, kind)),
    *(consensus.Parts(1, (bad,), (), 0) for field in ("id", "script", "index", "sequence")
      for bad in replaced(PARTS.inputs[0], field, KINDS[field])),
    *(consensus.Parts(1, (), (bad,), 0) for field in ("value", "script")
      for bad in replaced(PARTS.outputs[0], field, KINDS[field])),
]  # fmt: skip
PSBT = psbt.blank(TX)
PSBT.inputs[0].final_script = b"\x51"
WRONG["psbts"] = [*SEQUENCE, [1], [None], [RAW], [TX]]
WRONG["function"], WRONG["optional own"] = [None, *WRONG["optional function"]], WRONG["own"][1:]
HEADER = encoding.read_block(FIRST).header
WRONG["header"] = [*WRONG["own"], TX, *(bad for field, kind in HEADERS.items() for bad in replaced(HEADER, field, kind))]
WRONG["transactions"] = [*SEQUENCE, [1], [None], [RAW], [TX.inputs[0]]]
WRONG["block"] = [*WRONG["own"], TX, FIRST, *(encoding.Block(bad, []) for bad in WRONG["header"]),
                  *(encoding.Block(HEADER, bad) for bad in WRONG["transactions"])]  # fmt: skip


class Call(NamedTuple):
    """A call: its arguments by name, each with its kind and a right value."""

    name: str
    arguments: Dict[str, Tuple[str, Any]]


def row(name: str, **arguments: Tuple[str, Any]) -> Call:
    return Call(name, arguments)


COIN = chainstate.Coin(1, b"", 7, False)
DATA = ("bytes", RAW)
BLOCK = ("bytes", FIRST)
ID = ("id", GENESIS.id)
MOMENT = ("moment", NOW)
OPENED = {
    "seats": ("count", 2), "workers": ("count", 1), "heights": ("optional heights", None),
    "table": ("optional lines", None), "program": ("optional path", PROGRAM), "blk": ("optional path", None),
    "load": ("optional path", None), "save": ("optional path", None), "datadir": ("optional path", None),
    "sync": ("flag", True), "timeout": ("seconds", 60.0), "verify": ("optional function", None),
    "history_memory": ("moment", None),
}  # fmt: skip
SEAT = [
    ("submit", {"block": BLOCK, "now": MOMENT}), ("try_submit", {"block": BLOCK, "now": MOMENT}),
    ("judge", {"block": BLOCK, "now": MOMENT}),
    ("invalidate", {"id": ID}), ("reconsider", {"id": ID}), ("precious", {"id": ID}),
    ("try_mark", {"command": ("command", "precious"), "id": ID}),
    ("gettxout", {"txid": ID, "n": ("number32", 0)}), ("gettxouts", {"outpoints": ("outpoints", [(bytes(32), 0)])}),
    ("getbestblockhash", {}), ("getchaintips", {}), ("getblock", {"id": ID}), ("getblockheader", {"id": ID}),
    ("getblockhash", {"height": ("number", 0)}), ("getancestor", {"id": ID, "height": ("number", 0)}),
    ("getfork", {"one": ID, "other": ID}), ("getspent", {"id": ID}), ("moved", {"before": ID}),
    ("coins", {"above": ("optional outpoint", (bytes(32), 0)), "most": ("number", 1)}), ("wait", {"after": ("number", 0)}),
    ("journal", {"first": ("step", 1), "last": ("number", 9)}), ("note", {}), ("told", {"other": ("own", None)}),
]  # fmt: skip
CHAIN = [
    ("submit", {"block": BLOCK, "now": MOMENT}), ("try_submit", {"block": BLOCK, "now": MOMENT}),
    ("invalidate", {"id": ID}), ("reconsider", {"id": ID}), ("precious", {"id": ID}),
    ("try_mark", {"command": ("command", "precious"), "id": ID}), ("best", {}), ("height", {}), ("tips", {}),
    ("coin", {"id": ID, "index": ("number32", 0)}), ("block", {"id": ID}), ("coins", {}), ("is_kept", {"id": ID}),
    ("judge", {"block": BLOCK, "now": MOMENT}), ("id_at", {"height": ("number", 0)}), ("header", {"id": ID}),
    ("ancestor", {"id": ID, "height": ("number", 0)}), ("fork", {"one": ID, "other": ID}), ("spent", {"id": ID}),
    ("moved", {"before": ("id", GENESIS.id)}), ("copy", {}), ("close", {}),
]  # fmt: skip
ROWS = [
    row("consensus.transaction", data=DATA, oversize=("flag", False)), row("consensus.transaction_parts", data=DATA),
    row("consensus.write_transaction", parts=("parts", PARTS)),
    row("consensus.is_final", data=DATA, height=("number32", 1), cutoff=("number32", 1)),
    row("consensus.locks_met", data=DATA, starts=("starts", [(1, 1)]), height=("number32", 1), cutoff=("number32", 1)),
    row("consensus.block", data=BLOCK), row("consensus.block_size", data=BLOCK), row("consensus.block_ids", data=BLOCK),
    row("consensus.block_place", data=BLOCK, height=("number32", 1), median=("number32", 1), now=("number", 1),
        heights=("heights", (1, 1, 1, 1))),
    row("consensus.records", data=("bytes", b"")), row("consensus.subsidy", height=("number32", 1)),
    row("consensus.header", data=("bytes", encoding.write_header(HEADER))), row("consensus.merkle", ids=("ids", [])),
    row("consensus.read_bits", bits=("number32", 0)), row("consensus.work", bits=("number32", 0)),
    row("consensus.write_bits", value=("number256", 0), negative=("flag", False)),
    row("consensus.meets_target", id=ID), row("consensus.median", times=("times", [1])),
    row("consensus.opcodes", script=("bytes", b"\x51")), row("consensus.script", data=("bytes", b"\x51")),
    row("consensus.p2sh_sigops", input=("bytes", b""), spent=("bytes", b"")),
    row("consensus.read_number", data=("bytes", b"\1"), most=("number", 4)),
    row("consensus.number_bytes", value=("signed64", -1)), row("consensus.strict_signature", data=("bytes", b"")),
    row("consensus.signature_digest", data=DATA, input=("number", 0), code=("bytes", b"\xab"), kind=("number32", 1)),
    row("consensus.signature_digest_as_given", data=DATA, input=("number", 0), code=("bytes", b""), kind=("number32", 1)),
    row("consensus.verify", data=DATA, input=("number", 0), spent=("bytes", b""), flags=("flags", ["CSV"]),
        table=("lines", b""), signatures=("optional source", "secp256k1")),
    row("consensus.verify_known", data=DATA, input=("number", 0), spent=("bytes", b""), flags=("flags", {"CSV"}),
        valid=("lines", ""), invalid=("lines", b"")),
    row("consensus.verify_script", data=DATA, input=("number", 0), spent=("bytes", b""), flags=("rules", {"P2SH"}),
        valid=("lines", ""), invalid=("lines", b""), signatures=("optional source", "secp256k1")),
    row("consensus.eval_script", data=DATA, input=("number", 0), script=("bytes", b""), stack=("stack", [b"\1"]),
        flags=("rules", ["CSV"]), valid=("lines", ""), invalid=("lines", b""), signatures=("optional source", "secp256k1")),
    row("consensus.ParsedTransaction", data=DATA, whole=("flag", True)), row("consensus.ParsedTransaction.close"),
    row("consensus.ParsedTransaction.verify_input", input=("number", 0), spent=("bytes", b""), flags=("rules", {"P2SH"}),
        valid=("lines", ""), invalid=("lines", b""), signatures=("optional source", "secp256k1")),
    row("consensus.ParsedTransaction.verify_inputs", spent=("stack", [b""] * len(PARTS.inputs)), flags=("rules", {"P2SH"}),
        valid=("lines", ""), invalid=("lines", b"")),
    row("consensus.ParsedTransaction.verify", input=("number", 0), spent=("bytes", b""), flags=("flags", ["CSV"]),
        table=("lines", b""), signatures=("optional source", "secp256k1")),
    row("consensus.triple_of", triple=("triple", TRIPLE)), row("consensus.Triple.of_line", line=("line", TRIPLE.line)),
    row("consensus.Triple.of_lines", lines=("list of lines", [TRIPLE.line])), row("consensus.Table", text=("lines", "")),
    row("consensus.Table.add", key=("bytes", b""), signature=("bytes", b""), digest=ID),
    row("consensus.Table.has", key=("bytes", b""), signature=("bytes", b""), digest=ID),
    row("consensus.sha1", data=DATA), row("consensus.sha256", data=DATA),
    row("consensus.ripemd160", data=DATA), row("consensus.hash160", data=DATA), row("consensus.double_sha", data=DATA),
    row("consensus.show", id=ID), row("consensus.read_id", text=("text", "00" * 32)),
    row("chainstate.show", id=ID), row("chainstate.read_id", text=("digits", "00" * 32)),
    row("chainstate.read_heights", heights=("heights", (1, 1, 1, 1))), row("chainstate.moment_of", now=MOMENT),
    row("chainstate.mark_of", command=("command", "precious")),
    row("chainstate.Chainstate", heights=("heights", (1, 1, 1, 1)), table=("lines", ""), by_need=("flag", False)),
    *(row(f"chainstate.Chainstate.{name}", **words) for name, words in CHAIN),
    row("chainstate.Chainstate.wants"), row("chainstate.Chainstate.learn", triple=("triple", TRIPLE), valid=("flag", True)),
    row("coinset.CoinSet", coins=("given", [(GENESIS.id, 0, COIN)])),
    row("coinset.CoinSet.put", id=ID, index=("number32", 0), coin=("coin", COIN)),
    row("coinset.CoinSet.connect", block=BLOCK, height=("number32", 1), cutoff=("number32", 1), medians=("times", [1]),
        heights=("heights", (1, 1, 1, 1))),
    row("coinset.CoinSet.check_tx_inputs", data=DATA, height=("number32", 1), oversize=("flag", False)),
    row("coinset.CoinSet.learn", triple=("triple", TRIPLE), valid=("flag", True)),
    row("coinset.CoinSet.verify_input", tx=("own", consensus.ParsedTransaction(RAW)), input=("number", 0),
        spent=("bytes", b""), flags=("rules", {"P2SH"})),
    row("coinset.CoinSet.coin", id=ID, index=("number32", 0)),
    *(row(f"coinset.CoinSet.{name}") for name in ("disconnect", "spent", "wants", "coins", "close")),
    row("bench.Bench", heights=("heights", (1, 1, 1, 1)), table=("lines", ""), threads=("threads", 1)),
    *(row(f"bench.Bench.{name}", **words) for name, words in CHAIN),
    row("bench.Bench.table_from", place=("number", 0)), row("bench.Bench.fresh"),
    row("bench.Bench.try_submit_spelled", spelled=("own", encoding.block_at_front(FIRST)), now=("number", NOW)),
    row("bench.Bench.judge_spelled", spelled=("own", encoding.block_at_front(FIRST)), now=("number", NOW)),
    row("bench.Bench.unspent", id=ID, index=("number32", 0)), row("bench.Bench.parent", id=("id", block_id(FIRST))),
    row("bench.Bench.branch", id=("optional id", GENESIS.id)), row("bench.Bench.output", id=ID, index=("number32", 0)),
    row("bench.Bench.transaction", id=ID), row("bench.Bench.spelled", id=ID),
    row("bench.Bench.coins_at", outpoints=("outpoints", [(bytes(32), 0)])),
    row("encoding.double_sha", data=DATA), row("encoding.hash160", data=DATA), row("encoding.read_transaction", data=DATA),
    row("encoding.read_block", data=BLOCK), row("encoding.block_at_front", data=BLOCK),
    row("encoding.Spelled.transaction", place=("place", 0)), row("encoding.write_transaction", tx=("transaction", TX)),
    row("encoding.write_header", header=("header", HEADER)),
    row("encoding.write_block", block=("block", encoding.read_block(FIRST))), row("encoding.merkle_root", ids=("ids", [])),
    row("encoding.push", data=("bytes", b"")), row("encoding.push_number", number=("number", 1)),
    row("encoding.subsidy", height=("number32", 1)),
    row("encoding.coinbase", height=("number32", 1), value=("signed64", 1), script=("bytes", b""), extra=("bytes", b"")),
    row("encoding.mine", parent=ID, when=("number32", 1), transactions=("transactions", [TX]), version=("signed32", 4)),
    row("encoding.mine_spelled", parent=ID, when=("number32", 1), transactions=("stack", [RAW]), version=("signed32", 4),
        ids=("optional ids", [TX.id])),
    row("encoding.meeting_target", header=("header", HEADER)), row("pool.Pool", bench=("own", POOLED), most=("number", 10**9), full_rbf=("flag", False)),
    row("pool.Pool.prioritise", id=ID, delta=("signed64", 0)),
    *(row(f"pool.Pool.{name}", tx=DATA) for name in ("add", "test")),
    *(row(f"pool.Pool.{name}", id=ID) for name in ("entry", "parents", "children", "ancestors", "descendants")),
    *(row(f"pool.Pool.{name}", id=ID, index=("number32", 0)) for name in ("spender", "coin")),
    *(row(f"pool.Pool.{name}", to=("payee", b"\x51")) for name in ("selection", "template")),
    row("pool.Pool.mine", count=("number32", 1), to=("payee", b"\x51")), row("encoding.operations", script=("bytes", b"")), row("encoding.without_separators", script=("bytes", b"")),
    row("encoding.signature_digest", tx=("kind of transaction", TX), input=("number", 0), code=("bytes", b""),
        kind=("number32", 1)),
    row("signatures.Secp256k1"), row("signatures.Secp256k1.valid", triple=("triple", TRIPLE)),
    row("signatures.Secp256k1.public_key", secret=("secret", SECRET), compressed=("flag", True)),
    row("signatures.Secp256k1.sign", secret=("secret", SECRET), digest=ID),
    *(row(f"signatures.Secp256k1.{name}", secret=("secret", SECRET), digest=ID) for name in ("sign_short", "sign_recoverable")),
    row("signatures.Secp256k1.is_key", key=("bytes", b"")), row("signatures.Secp256k1.tweaked", key=("bytes", b""), tweak=ID),
    row("signatures.Verifier", threads=("threads", 1)),
    row("signatures.Verifier.verdicts", lines=("list of lines", [TRIPLE.line])), row("signatures.processors"),
    row("signatures.read_signature", data=("bytes", b"")),
    row("signatures.secp256k1", lines=("list of lines", [TRIPLE.line])),
    row("encoding.sha256", data=DATA), row("encoding.sha1", data=DATA),
    row("encoding.read_header", data=("bytes", encoding.write_header(HEADER))), row("encoding.merkle", ids=("ids", [])),
    row("encoding.read_bits", bits=("number32", 0)), row("encoding.work", bits=("number32", 0)),
    row("encoding.write_bits", value=("number256", 0), negative=("flag", False)),
    row("addresses.address_of", script=("bytes", b""), network=("network", "main")),
    row("addresses.script_of", address=("text", ""), network=("network", "main")),
    row("addresses.spelled", prefix=("number8", 0), digest=("digest20", bytes(20))),
    row("spelling.read_script", text=("text", "1 ADD")), row("spelling.show_script", script=("bytes", b"\x51")),
    row("served.program_path", named=("optional path", PROGRAM)),
    row("node.Node", **OPENED), row("asyncnode.AsyncNode", **OPENED),
    *(row(f"{kind}.{name}") for kind in ("node.Node", "asyncnode.AsyncNode") for name in ("close", "kill", "save")),
    *(row(f"{kind}.seat", number=("seat", 0)) for kind in ("node.Node", "asyncnode.AsyncNode")),
    *(row(f"{kind}.{name}", **words) for kind in ("node.Seat", "asyncnode.AsyncSeat") for name, words in SEAT),
    row("psbt.blank", tx=("kind of transaction", TX)), row("psbt.decode", data=("bytes", psbt.encode(PSBT))),
    row("psbt.previous_of", data=DATA, may_have_witness=("flag", True)), row("psbt.from_base64", text=("text", psbt.to_base64(PSBT))),
    *(row(f"psbt.{name}", psbt=("own", PSBT)) for name in ("encode", "to_base64", "extract")),
    *(row(f"psbt.{name}", psbts=("psbts", [PSBT])) for name in ("combine", "join")),
    row("psbt.Previous.output", index=("number32", 0)), row("psbt.Psbt.spent", place=("place", 0)),
    row("psbtsigning.finalize", psbt=("own", PSBT)),
    row("psbtsigning.fill", psbt=("own", PSBT), means=("own", psbtsigning.Means()), previous=("function", lambda id: None),
        kind=("number8", 1), signs=("flag", True), tells_origins=("flag", True)),
    row("psbtsigning.Signer", psbt=("own", PSBT), means=("optional own", psbtsigning.Means()), kind=("number8", 1), is_dummy=("flag", False)),
    *(row(f"psbtsigning.Signer.{name}", place=("place", 0)) for name in ("sign", "describe")),
    row("library.library"), row("library.secp256k1_library"),
    Call("wallet.Wallet", {
        "chain": ("own", POOLED), "pool": ("optional source", None), "seed": ("optional seed", bytes(16)), "path": ("optional path", None),
        "name": ("text", ""), "is_blank": ("flag", True), "has_private": ("flag", True), "settings": ("own", wallet.Settings(3)),
    }),
    row("wallet.Wallet.address", label=("text", ""), type=("text", "legacy")), row("wallet.Wallet.balance", least_depth=("number32", 0)),
    *(row(f"wallet.Wallet.{name}") for name in ("abort_rescan", "balances", "unspent", "follow", "close")),
    row("wallet.Wallet.pay", to=("payee", b"\x51"), satoshis=("step", 1000), rate=("moment", 1000), is_replaceable=("flag", False)),
    row("wallet.Wallet.bump", id=ID, rate=("moment", 1000), is_replaceable=("flag", False)),
    *(row(f"wallet.Wallet.{name}", id=ID) for name in ("transaction", "abandon")), row("wallet.Wallet.key_for", script=("bytes", b"")),
    row("wallet.Wallet.rescan", start=("number32", 0), stop=("moment", 0), is_ending=("optional function", None)),
    row("wallet.Wallet.copy", chain=("own", POOLED), pool=("optional source", None)),
    row("wallet.Wallet.backup", path=("path", "/nonexistent/w")),
]  # fmt: skip

#: Modules that are no part of this: what takes the arguments, exceptions, what a server has, and what it is started by; what
#: needs a database (tests/replicas has its arguments); what pytest calls (test_testing has its own).
OTHER = {
    "ahead", "arguments", "asyncreplica", "benches", "errors", "explain", "extendedkeys", "filters", "following", "history", "index", "mempool",
    "nodebench", "pipe", "processor", "replacing", "replica", "replicabench", "replicacommand", "replicalog", "replication", "server", "stage", "stopping", "testing", "vectors",
    "version", "__main__",
}  # fmt: skip
#: What other modules of the package call with what was taken before.
INSIDE = {
    "addresses.base58", "addresses.data_of", "chainstate.reply_of", "library.params_of", "psbt.place_of", "psbt.prefixed", "psbt.secp", "psbt.written", "psbtsigning.filled",
    "psbtsigning.holds", "psbtsigning.push_shortest", "psbtsigning.satisfy",
} | {
    f"deployments.{name}" for name in ("SoftForks", "SoftForks.height", "read_members", "read_word", "soft_forks")
} | {
    f"signatures.{name}" for name in (
        "KnownSignatures", "KnownSignatures.learn", "KnownSignatures.verdicts", "signatures_of",
    )
} | {
    f"served.{name}" for name in (
        "Call", "Opening", "Wanted", "verdicts", "learning", "submission", "dry_run", "mark", "output", "outputs", "block_of", "header_of", "hash_at", "coins_above", "longer_than",
        "ancestor_of", "fork_of", "spent_by", "moving", "entries", "told", "parted", "request", "checked", "outcome", "outcome_behind",
        "died", "read_answer",
    )
} | {
    f"wallet.Wallet.{name}" for name in (
        "keep", "used", "scan_state", "height_at", "add", "refill", "owner", "is_solvable", "is_change", "active", "new_script", "set_label",
        "record", "plan", "fund", "output", "sign", "send", "commit", "change_script",
    )
}  # fmt: skip
#: What calls answer, and who is called: nobody makes them.
ANSWERS = {
    "psbt.Mismatch", "psbt.Previous", "psbt.Psbt", "psbt.PsbtError", "psbt.PsbtInput", "psbt.PsbtOutput", "psbt.Unreadable",
    "psbtsigning.HashTypeMismatch", "psbtsigning.Lacks", "psbtsigning.Means", "psbtsigning.MissingOutput", "psbtsigning.Satisfied",
    "psbtsigning.Signed",
    "consensus.Transaction", "consensus.Input", "consensus.Output", "consensus.Parts", "consensus.Block", "consensus.Header",
    "consensus.Opcode", "consensus.Script", "consensus.Refused", "consensus.Triple", "consensus.ScriptError", "chainstate.Coin",
    "chainstate.Tip", "chainstate.Reply", "chainstate.Reply.check", "bench.Entry", "encoding.EncodingError",
    "encoding.Merkle", "encoding.Target",
    "encoding.Input", "encoding.Output", "encoding.Transaction", "encoding.Header", "encoding.Block", "encoding.Spelled",
    "chainstate.BlockHeader", "chainstate.Moved", "served.Stamped", "served.UnspentOutput", "served.Entry", "served.Info", "node.Seat",
    "asyncnode.AsyncSeat", "library.Heights",
    "wallet.Settings", "wallet.Bumped", "coinset.Fault", "library.Setting", "library.Fault", "library.Answer", "library.Tip", "library.Coin", "library.CoinCall", "library.Header", "library.SpentSize",
}  # fmt: skip


def public(names: Any) -> List[str]:
    return [name for name in names if not name.startswith("_")]


def calls() -> Dict[str, Any]:
    """The public calls of the package's modules: functions, classes, and methods that these have."""
    found = {}
    modules = {it.name: f"wakotehu.{it.name}" for it in pkgutil.iter_modules(wakotehu.__path__) if not it.ispkg and it.name not in OTHER}
    # What the wallet's other modules take was taken by this one before.
    modules["wallet"] = "wakotehu.wallet.wallet"
    for module, path in modules.items():
        loaded = importlib.import_module(path)
        for name in public(vars(loaded)):
            value = getattr(loaded, name)
            if getattr(value, "__module__", None) != loaded.__name__ or not callable(value):
                continue
            found[f"{module}.{name}"] = value
            if inspect.isclass(value):
                kept = [base for base in value.__mro__ if base.__module__.startswith("wakotehu")]
                for own in {own for base in kept for own in public(vars(base))}:
                    method = inspect.getattr_static(value, own)
                    if inspect.isfunction(method) or isinstance(method, classmethod):
                        found[f"{module}.{name}.{own}"] = getattr(value, own)
    return found


def parameters(call: Any) -> List[str]:
    if inspect.isclass(call):
        call = call.__init__ if "__init__" in vars(call) else lambda self: None
    return [name for name in inspect.signature(call).parameters if name not in ("self", "cls")]


class RowsTest(unittest.TestCase):
    def test_each_public_call_has_its_row(self) -> None:
        found = {name: call for name, call in calls().items() if name not in ANSWERS | INSIDE}
        self.assertEqual(set(found) ^ {each.name for each in ROWS}, set())
        self.assertEqual(len(ROWS), len(found))
        for each in ROWS:
            with self.subTest(each.name):
                self.assertEqual(list(each.arguments), parameters(found[each.name]))

    def test_there_are_25_wrong_kinds_of_each(self) -> None:
        for kind, values in WRONG.items():
            with self.subTest(kind):
                self.assertGreaterEqual(len({(type(value), shown(value)) for value in values}), 25)


class WrongTest(unittest.TestCase):
    """The rows, on what they are calls of."""

    def owner(self, name: str) -> Any:
        """Something that has the methods of a class."""
        made = {
            "consensus.Table": consensus.Table, "consensus.ParsedTransaction": lambda: consensus.ParsedTransaction(RAW),
            "chainstate.Chainstate": lambda: chainstate.Chainstate(by_need=True), "coinset.CoinSet": wakotehu.CoinSet,
            "bench.Bench": bench.Bench, "encoding.Spelled": lambda: encoding.block_at_front(FIRST),
            "signatures.Secp256k1": signatures.Secp256k1, "signatures.Verifier": signatures.Verifier,
            "pool.Pool": lambda: wakotehu.Pool(POOLED), "psbt.Psbt": lambda: psbt.blank(TX), "psbt.Previous": lambda: psbt.previous_of(RAW),
            "psbtsigning.Signer": lambda: psbtsigning.Signer(psbt.blank(TX)),
            "wallet.Wallet": lambda: wallet.Wallet(POOLED, settings=wallet.Settings(3)),
        }  # fmt: skip
        if name in made:
            found: Any = made[name]()
            if name == "bench.Bench":
                found.submit(FIRST, NOW)
            if hasattr(found, "close"):
                self.addCleanup(found.close)
            return found
        return importlib.import_module("wakotehu." + name.split(".")[0]) if "." not in name else calls()[name]

    def refused(self, each: Call, call: Any) -> None:
        right = {name: value for name, (_, value) in each.arguments.items()}
        for name, (kind, _) in each.arguments.items():
            for wrong in WRONG[kind]:
                with self.subTest(call=each.name, argument=name, value=shown(wrong)):
                    with self.assertRaises((TypeError, ValueError)) as caught:
                        call(**{**right, name: wrong})
                    self.assertIn(name, str(caught.exception))
                    self.assertNotIsInstance(caught.exception, UnicodeError)

    def test_calls_without_a_process(self) -> None:
        for each in ROWS:
            owner, _, name = each.name.rpartition(".")
            if owner.startswith(("node", "asyncnode", "served")):
                continue
            call = getattr(self.owner(owner), name)
            if name not in ("close", "library", "secp256k1_library"):
                try:
                    call(**{argument: value for argument, (_, value) in each.arguments.items()})
                except (errors.Error, wallet.WalletError, OSError):
                    pass
                self.refused(each, call)

    def test_openings_start_no_process(self) -> None:
        self.addCleanup(setattr, pipe.subprocess, "Popen", pipe.subprocess.Popen)

        def none(*words: Any, **more: Any) -> Any:
            raise AssertionError("a process was started")

        pipe.subprocess.Popen = none  # type: ignore[assignment,misc]
        for each in ROWS:
            if each.name in ("served.program_path", "node.Node", "asyncnode.AsyncNode"):
                self.refused(each, getattr(node, each.name.split(".")[1]))

    def test_seats_of_a_node(self) -> None:
        with wakotehu.Node(seats=2, program=PROGRAM) as opened:
            seat = opened.seat(0)
            for each in ROWS:
                if each.name.startswith("node.Seat."):
                    self.refused(each, getattr(seat, each.name.split(".")[2]))
                if each.name == "node.Node.seat":
                    self.refused(each, opened.seat)
            self.assertEqual(seat.note(), 0)
            self.assertEqual(seat.submit(FIRST, NOW).at, 1)

    def test_seats_of_an_asyncnode(self) -> None:
        async def asked() -> None:
            loop = asyncio.get_running_loop()
            async with wakotehu.AsyncNode(seats=2, program=PROGRAM) as opened:
                seat = opened.seat(0)
                for each in ROWS:
                    owner, _, name = each.name.rpartition(".")
                    if owner == "asyncnode.AsyncSeat":
                        self.refused(each, lambda **words: self.run_at_once(getattr(seat, name)(**words)))
                    if each.name == "asyncnode.AsyncNode.seat":
                        self.refused(each, opened.seat)
                self.assertEqual(await seat.note(), 0)
                self.assertEqual((await seat.submit(FIRST, NOW)).at, 1)
            self.assertTrue(loop.is_running())

        asyncio.run(asked())

    def run_at_once(self, coroutine: Any) -> None:
        """What is wrong is refused before anything is waited for."""
        try:
            coroutine.send(None)
        finally:
            coroutine.close()


class RightTest(unittest.TestCase):
    """All contiguous buffers of bytes are the same bytes, and what `operator.index` takes is a number."""

    def test_buffers_of_bytes(self) -> None:
        raw = b"\x02\xaa\xbb\xac"
        padded = memoryview(b"xx" + raw + b"xx")[2:-2]
        for data in (raw, bytearray(raw), memoryview(raw), padded, array.array("B", raw), array.array("b", [2, -86, -69, -84]),
                     (ctypes.c_uint8 * 4)(*raw), memoryview(raw).cast("B", (2, 2))):  # fmt: skip
            with self.subTest(type(data)):
                self.assertEqual(consensus.opcodes(data), consensus.opcodes(raw))
                self.assertEqual(consensus.double_sha(data), encoding.double_sha(data))
                self.assertEqual(consensus.double_sha(data), consensus.double_sha(raw))
        changed = bytearray(bytes(32))
        with wakotehu.Chainstate() as chain:
            self.assertIsNone(chain.coin(changed, 0))
            self.assertEqual(chain.submit(memoryview(FIRST), NOW), "accepted")

    def test_numbers(self) -> None:
        class Index:
            def __index__(self) -> int:
                return 150

        class Height(enum.IntEnum):
            HALVED = 150

        for height in (150, Index(), Height.HALVED):
            self.assertEqual(consensus.subsidy(height), 2500000000)  # type: ignore[arg-type]
            self.assertEqual(encoding.subsidy(height), 2500000000)  # type: ignore[arg-type]

    def test_paths(self) -> None:
        self.assertEqual(node.program_path(pathlib.Path(PROGRAM)), PROGRAM)  # type: ignore[arg-type]


if __name__ == "__main__":
    unittest.main()
