"""Calls about the server itself, and about peers, of which there are none."""

import time
from typing import Any, Dict, List, Optional, Set, Tuple

from ..version import __version__
from .errors import INVALID_PARAMETER, INVALID_PARAMS, MISC_ERROR, NODE_NOT_ADDED, NODE_NOT_CONNECTED, P2P_DISABLED, RpcError
from .node import CALLS, Node, call
from .values import Amount, Object, boolean, integer, shortened, text


@call("Control", "command")
def help(node: Node, command: Any) -> str:
    """All calls, or what one of them does."""
    if command is not None:
        found = CALLS.get(text(command))
        return f"{found.usage}\n\n{found.about}\n" if found else f"help: unknown command: {command[:100]}"
    groups: Dict[str, List[str]] = {}
    for it in sorted(CALLS.values()):
        if it.group != "Hidden":
            groups.setdefault(it.group, []).append(it.usage)
    return "\n\n".join("\n".join([f"== {group} ==", *groups[group]]) for group in sorted(groups))


@call("Control")
def uptime(node: Node) -> int:
    """How many seconds the server runs, by its clock, which setmocktime sets."""
    return node.now() - int(node.started)


@call("Control", "wait")
def stop(node: Node, wait: Any) -> str:
    """Stops the server, so many milliseconds after the answer."""
    pause = 0 if wait is None else integer(wait)
    node.stopped = True
    node.pause = max(pause, 0) / 1000
    node.turn.notify_all()
    return "Wakotehu stopping"


@call("Hidden", "timestamp", needed=1, types=("number",))
def setmocktime(node: Node, timestamp: Any) -> None:
    """Sets the moment of all that comes, in seconds since 1970; 0 is the system's again."""
    moment = integer(timestamp, 64)
    if moment < 0:
        raise RpcError(INVALID_PARAMETER, f"Mocktime can not be negative: {moment}.")
    node.mocked = moment


@call("Control")
def getrpcinfo(node: Node) -> Object:
    """The calls that run, with the microseconds since they began. There is no file of a log."""
    now = time.monotonic()
    running = [{"method": name, "duration": int((now - begun) * 1e6)} for name, begun in list(node.running.values())]
    return {"active_commands": running, "logpath": ""}


#: What Bitcoin Core 0.21 can log, by its categories.
CATEGORIES = (
    "net tor mempool http bench zmq walletdb rpc estimatefee addrman selectcoins reindex cmpctblock rand prune proxy"
    " mempoolrej libevent coindb qt leveldb validation"
).split()


@call("Control", "include", "exclude")
def logging(node: Node, include: Any, exclude: Any) -> Object:
    """The categories of the log, and which of them are on. They are remembered; nothing is logged."""
    for given, is_on in ((include, True), (exclude, False)):
        with node.others():
            found, fault = _categories(given if isinstance(given, list) else [])
        node.logged = node.logged | found if is_on else node.logged - found
        if fault is not None:
            raise fault
    return {name: name in node.logged for name in CATEGORIES}


def _categories(names: List[Any]) -> Tuple[Set[str], Optional[RpcError]]:
    """The categories of some names, up to the first that names none, and what is said of that."""
    found: Set[str] = set()
    try:
        for name in names:
            if text(name) in ("all", "1", ""):
                found = {*CATEGORIES}
            elif name in CATEGORIES:
                found.add(name)
            elif name not in ("none", "0"):
                raise RpcError(INVALID_PARAMETER, f"unknown logging category {name[:100]}")
    except RpcError as fault:
        return found, fault
    return found, None


_ECHOED = [f"arg{number}" for number in range(10)]


@call("Hidden", *_ECHOED, padded=False)
def echo(node: Node, *given: Any) -> List[Any]:
    """Answers the parameters."""
    return list(given)


@call("Hidden", *_ECHOED, padded=False)
def echojson(node: Node, *given: Any) -> List[Any]:
    """Answers the parameters."""
    return list(given)


#: The most blocks that a fee may be estimated for; of so many at least it is looked at what was paid.
MOST_BLOCKS, LEAST_BLOCKS = 1008, 100


@call("Util", "conf_target", "estimate_mode", needed=1, types=("number", "string"))
def estimatesmartfee(node: Node, conf_target: Any, estimate_mode: Any) -> Object:
    """What fee for 1,000 bytes transactions paid that waited here and were mined of late; none is asked for."""
    if not 1 <= integer(conf_target) <= MOST_BLOCKS:
        raise RpcError(INVALID_PARAMETER, f"Invalid conf_target, must be between 1 and {MOST_BLOCKS}")
    if estimate_mode is not None and estimate_mode.lower() not in ("unset", "economical", "conservative"):
        message = 'Invalid estimate_mode parameter, must be one of: "unset", "economical", "conservative"'
        raise RpcError(INVALID_PARAMETER, message)
    with node.mempool.read():
        found = node.mempool.estimate(max(integer(conf_target), LEAST_BLOCKS))
    if found is None:
        return {"errors": ["Insufficient data or no feerate found"], "blocks": 0}
    return {"feerate": Amount(found), "blocks": integer(conf_target)}


# ---- no peers


@call("Network")
def getnetworkinfo(node: Node) -> Object:
    """The state of the network: there are no peers. The version is of the Bitcoin Core whose answers these are."""
    return {
        "version": 210000,
        "subversion": f"/Wakotehu:{__version__}/",
        "protocolversion": 70016,
        "localservices": "0000000000000401",
        "localservicesnames": ["NETWORK", "NETWORK_LIMITED"],
        "localrelay": True,
        "timeoffset": 0,
        "networkactive": node.is_network_active,
        "connections": 0,
        "connections_in": 0,
        "connections_out": 0,
        "networks": [
            {"name": name, "limited": is_limited, "reachable": not is_limited, "proxy": "", "proxy_randomize_credentials": False}
            for name, is_limited in (("ipv4", False), ("ipv6", False), ("onion", True))
        ],
        "relayfee": Amount(1000),
        "incrementalfee": Amount(1000),
        "localaddresses": [],
        "warnings": "",
    }


@call("Network")
def getpeerinfo(node: Node) -> List[Object]:
    """The peers: none."""
    return []


@call("Network")
def getconnectioncount(node: Node) -> int:
    """How many peers there are: none."""
    return 0


@call("Network")
def ping(node: Node) -> None:
    """Asks the peers how long an answer takes: there are none to ask."""


@call("Network")
def getnettotals(node: Node) -> Object:
    """How many bytes went to peers and came from them: none."""
    return {
        "totalbytesrecv": 0,
        "totalbytessent": 0,
        "timemillis": int(time.time() * 1000),
        "uploadtarget": {
            "timeframe": 86400, "target": 0, "target_reached": False, "serve_historical_blocks": True,
            "bytes_left_in_cycle": 0, "time_left_in_cycle": 0,
        },  # fmt: skip
    }


@call("Network", "node", "command", needed=2)
def addnode(own: Node, node: Any, command: Any) -> None:
    """Refused: there are no peers."""
    text(node)
    if text(command) not in ("add", "remove", "onetry"):
        raise RpcError(MISC_ERROR, f"{CALLS['addnode'].usage}\n\n{CALLS['addnode'].about}\n")
    raise RpcError(P2P_DISABLED, "Error: Peer-to-peer functionality missing or disabled")


@call("Network", "node")
def getaddednodeinfo(own: Node, node: Any) -> List[Object]:
    """The peers that were added: none."""
    if node is not None:
        raise RpcError(NODE_NOT_ADDED, "Error: Node has not been added.")
    return []


@call("Network", "count")
def getnodeaddresses(node: Node, count: Any) -> List[Object]:
    """The addresses of peers that are known: none."""
    if count is not None and integer(count) < 0:
        raise RpcError(INVALID_PARAMETER, "Address count out of range")
    return []


@call("Network")
def listbanned(node: Node) -> List[Object]:
    """The peers that aren't let in: none."""
    return []


@call("Network")
def clearbanned(node: Node) -> None:
    """Lets in all peers: there are none."""


@call("Network", "state", needed=1)
def setnetworkactive(node: Node, state: Any) -> bool:
    """Is remembered: there are no peers."""
    node.is_network_active = boolean(state)
    return node.is_network_active


@call("Network", "address", "nodeid")
def disconnectnode(node: Node, address: Any, nodeid: Any) -> None:
    """Refused: there are no peers."""
    if address is not None and nodeid is None:
        text(address)
    elif nodeid is not None and address in (None, ""):
        integer(nodeid, 64)
    else:
        raise RpcError(INVALID_PARAMS, "Only one of address and nodeid should be provided.")
    raise RpcError(NODE_NOT_CONNECTED, "Node not found in connected nodes")


@call("Hidden")
def syncwithvalidationinterfacequeue(node: Node) -> None:
    """Does nothing: what was answered is told to all."""


@call("Hidden", "delta_time", needed=1, types=("number",))
def mockscheduler(node: Node, delta_time: Any) -> None:
    """Does nothing: there is no work by the clock."""
    if not 0 < integer(delta_time, 64) <= 3600:
        raise RpcError(MISC_ERROR, "delta_time must be between 1 and 3600 seconds (1 hr)")


@call("Control", "mode")
def getmemoryinfo(node: Node, mode: Any) -> Object:
    """The memory that is locked, so that keys aren't swapped to the disk: none."""
    kind = "stats" if mode is None else text(mode)
    if kind == "mallocinfo":
        raise RpcError(INVALID_PARAMETER, "mallocinfo is only available when compiled with glibc 2.10+")
    if kind != "stats":
        raise RpcError(INVALID_PARAMETER, f"unknown mode {shortened(kind)}")
    return {"locked": dict.fromkeys(("used", "free", "total", "locked", "chunks_used", "chunks_free"), 0)}
