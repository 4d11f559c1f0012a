"""createrawtransaction."""

from typing import Any, Dict, Iterable, List, Optional, Tuple

from ..encoding import Input, Output, Transaction, push, write_transaction
from .errors import INVALID_ADDRESS_OR_KEY, INVALID_PARAMETER, RpcError
from .node import Node, call
from .scripts import address_script
from .txs import GROUP
from .values import amount, array, digits, expect_or_null, hex_text, integer, is_number, object_of

#: The sequence numbers of an input by itself, one of a transaction with a lock time, and one that may be replaced.
FINAL, LOCKED, REPLACEABLE = 0xFFFFFFFF, 0xFFFFFFFE, 0xFFFFFFFD


@call(GROUP, "inputs", "outputs", "locktime", "replaceable", needed=2)
def createrawtransaction(node: Node, inputs: Any, outputs: Any, locktime: Any, replaceable: Any) -> str:
    """A transaction, not signed, as digits: inputs {"txid", "vout", "sequence"}, and outputs {ADDRESS: AMOUNT} or
    {"data": HEX} in a list or an object."""
    with node.others():
        return write_transaction(made_transaction(inputs, outputs, locktime, replaceable)).hex()


def made_transaction(inputs: Any, outputs: Any, locktime: Any, replaceable: Any) -> Transaction:
    """The transaction of a call's parameters (Bitcoin Core's `ConstructTransaction`)."""
    for value, kind in ((inputs, "array"), (locktime, "number"), (replaceable, "bool")):
        expect_or_null(value, kind)
    if outputs is None:
        raise RpcError(INVALID_PARAMETER, "Invalid parameter, output argument must be non-null")
    pairs = list(outputs.items()) if isinstance(outputs, dict) else array(outputs)
    lock = 0 if locktime is None else integer(locktime, 64)
    if not 0 <= lock <= FINAL:
        raise RpcError(INVALID_PARAMETER, "Invalid parameter, locktime out of range")
    sequence = REPLACEABLE if replaceable else LOCKED if lock else FINAL
    ins = [_input(given, sequence) for given in inputs or ()]
    outs = _outputs(pairs if isinstance(outputs, dict) else _pairs(pairs))
    if replaceable and ins and all(it.sequence > REPLACEABLE for it in ins):
        message = "Invalid parameter combination: Sequence number(s) contradict replaceable option"
        raise RpcError(INVALID_PARAMETER, message)
    return Transaction(2, ins, outs, lock)


def _input(given: Any, sequence: int) -> Input:
    fields = object_of(given)
    id = digits(fields.get("txid"), "txid")
    if not is_number(fields.get("vout")):
        raise RpcError(INVALID_PARAMETER, "Invalid parameter, missing vout key")
    index = integer(fields["vout"])
    if index < 0:
        raise RpcError(INVALID_PARAMETER, "Invalid parameter, vout cannot be negative")
    if is_number(fields.get("sequence")):
        sequence = integer(fields["sequence"], 64)
        if not 0 <= sequence <= FINAL:
            raise RpcError(INVALID_PARAMETER, "Invalid parameter, sequence number is out of range")
    return Input(id, index, b"", sequence)


def _pairs(given: List[Any]) -> List[Tuple[str, Any]]:
    """The outputs of a list, each an object of one member."""
    found: List[Tuple[str, Any]] = []
    for it in given:
        if not isinstance(it, dict):
            raise RpcError(INVALID_PARAMETER, "Invalid parameter, key-value pair not an object as expected")
        if len(it) != 1:
            raise RpcError(INVALID_PARAMETER, "Invalid parameter, key-value pair must contain exactly one key")
        found += it.items()
    return found


def _outputs(pairs: Iterable[Tuple[str, Any]]) -> List[Output]:
    """The outputs; no address twice, and one with data at most."""
    found: List[Output] = []
    #: The scripts so far; data has no script of its own.
    known: Dict[Optional[bytes], str] = {}
    for name, value in pairs:
        script = None if name == "data" else address_script(name)
        if script is None and name != "data":
            raise RpcError(INVALID_ADDRESS_OR_KEY, f"Invalid Bitcoin address: {name[:100]}")
        if script in known:
            what = "duplicate key: data" if script is None else f"duplicated address: {name}"
            raise RpcError(INVALID_PARAMETER, f"Invalid parameter, {what}")
        known[script] = name
        found.append(Output(0, _data_script(value)) if script is None else Output(amount(value), script))
    return found


def _data_script(value: Any) -> bytes:
    """OP_RETURN and the data, which may be digits that spell a number too."""
    given = str(value) if isinstance(value, str) or is_number(value) else ""
    data = hex_text(given, "Data")
    if len(data) > 0xFFFF:
        return b"\x6a\x4e" + len(data).to_bytes(4, "little") + data
    return b"\x6a" + push(data)

