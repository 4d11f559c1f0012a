"""Requests and replies of JSON-RPC, in the versions 1.0 (with errors as HTTP statuses) and 2.0, one by one and in
batches."""

import json
import re
import secrets
from itertools import accumulate
from typing import Any, Callable, Dict, List, NoReturn, Optional, Tuple, Union

from .errors import INVALID_REQUEST, METHOD_NOT_FOUND, PARSE_ERROR, RpcError
from .values import Amount, Number

#: How deep objects and arrays may lie in each other, as in Bitcoin Core.
MAX_DEPTH = 512
#: A whole number of fewer digits is one of Python's.
MAX_DIGITS = 4300
#: How many requests a batch may have.
MAX_BATCH = 10_000

#: Turns digits to zeros and all else to spaces, which is the fastest way to find many digits in a row.
_ZEROS = bytes(0x30 if 0x30 <= byte <= 0x39 else 0x20 for byte in range(256))
_SURROGATE = re.compile(rb"\\u[dD][89a-fA-F]")
#: How much deeper a bracket leads; all bytes but these; and how many bytes are looked at together.
_STEPS = {0x5B: 1, 0x7B: 1, 0x5D: -1, 0x7D: -1}
_OTHERS = bytes(set(range(256)) - set(_STEPS))
_PIECE = 1 << 18

Call = Callable[[str, Any], Any]


def answer(call: Call, body: bytes) -> Tuple[int, bytes]:
    """The HTTP status and the body that answer a request's body. No body at all answers a 2.0 notification."""
    try:
        request = _parsed(body)
    except (ValueError, RecursionError):
        return 500, written(_reply({}, error=RpcError(PARSE_ERROR, "Parse error")))
    if not isinstance(request, (list, dict)):
        return 500, written(_reply({}, error=RpcError(PARSE_ERROR, "Top-level object parse error")))
    if isinstance(request, list):
        if len(request) > MAX_BATCH:
            return 400, written(_reply({}, error=RpcError(INVALID_REQUEST, "Too many requests in a batch")))
        replies = [reply for reply in (_one(call, it)[1] for it in request) if reply is not None]
        return (200, written(replies)) if replies or not request else (204, b"")
    status, reply = _one(call, request)
    return status, b"" if reply is None else written(reply)


def _one(call: Call, request: Any) -> Tuple[int, Optional[Dict[str, Any]]]:
    if not isinstance(request, dict):
        return 400, _reply({}, error=RpcError(INVALID_REQUEST, "Invalid Request object"))
    second = request.get("jsonrpc") == "2.0"
    try:
        reply = _reply(request, call(*_asked(request)))
        status = 200
    except RpcError as error:
        reply = _reply(request, error=error)
        status = {INVALID_REQUEST: 400, METHOD_NOT_FOUND: 404}.get(error.code, 500)
    if second and "id" not in request:
        return 204, None
    return 200 if second else status, reply


def _asked(request: Dict[str, Any]) -> Tuple[str, Any]:
    method, params = request.get("method"), request.get("params")
    if method is None:
        raise RpcError(INVALID_REQUEST, "Missing method")
    if not isinstance(method, str):
        raise RpcError(INVALID_REQUEST, "Method must be a string")
    if params is not None and not isinstance(params, (list, dict)):
        raise RpcError(INVALID_REQUEST, "Params must be an array or object")
    return method, [] if params is None else params


def _reply(request: Dict[str, Any], result: Any = None, error: Optional[RpcError] = None) -> Dict[str, Any]:
    told = None if error is None else {"code": error.code, "message": str(error)}
    id = request.get("id")
    if request.get("jsonrpc") != "2.0":
        return {"result": result, "error": told, "id": id}
    return {"jsonrpc": "2.0", **({"result": result} if told is None else {"error": told}), "id": id}


# ---- texts


def _parsed(body: bytes) -> Any:
    if body.count(b"[") + body.count(b"{") > MAX_DEPTH and _is_too_deep(body):
        raise ValueError("too deep")
    # A whole number of more digits Python doesn't read, or not in time.
    whole = _whole if b"0" * MAX_DIGITS in body.translate(_ZEROS) else None
    found = json.loads(
        body.decode(), parse_constant=_refused, object_pairs_hook=_object, parse_int=whole, parse_float=Number
    )
    if _SURROGATE.search(body):
        # Halves of a sign that aren't paired are refused.
        _texts(found).encode()
    return found


def _is_too_deep(body: bytes) -> bool:
    # Without what is escaped each quote begins a text or ends one.
    plain = body.replace(rb"\\", b"").replace(rb'\"', b"")
    depth, inside = 0, 0
    for begin in range(0, len(plain), _PIECE):
        parts = plain[begin : begin + _PIECE].split(b'"')
        brackets = b"".join(parts[inside::2]).translate(None, _OTHERS)
        depths = list(accumulate(map(_STEPS.__getitem__, brackets), initial=depth))
        if max(depths) > MAX_DEPTH:
            return True
        depth, inside = depths[-1], (inside + len(parts) - 1) % 2
    return False


def _whole(word: str) -> Union[int, Number]:
    return int(word) if len(word) <= 20 else Number(word)


def _texts(value: Any) -> str:
    return json.dumps(value, ensure_ascii=False, default=str)


def _refused(word: str) -> NoReturn:
    raise ValueError(word)


def _object(pairs: List[Tuple[str, Any]]) -> Dict[str, Any]:
    """Of a name that is given twice the first counts, as in Bitcoin Core."""
    found = dict(pairs)
    if len(found) < len(pairs):
        found = {}
        for name, value in pairs:
            found.setdefault(name, value)
    return found


#: What stands around a number until all is written: no client can have known it.
_MARK = secrets.token_hex(16)


def written(value: Any) -> bytes:
    """A value as JSON, with an end of line."""
    spelled = json.dumps(value, separators=(",", ":"), default=_marked)
    # Zeros at the end of amounts are written, and a request's number as it was spelled.
    return spelled.replace(f'"{_MARK}', "").replace(f'{_MARK}"', "").encode() + b"\n"


def _marked(value: Any) -> str:
    if not isinstance(value, (Amount, Number)):
        raise TypeError(f"no JSON: {type(value).__name__}")
    return f"{_MARK}{value}{_MARK}"
