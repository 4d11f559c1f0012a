"""Calls on wallets, as a list that any server of bitcoind's calls can be asked. What is at random, as ids, keys and moments, is told
by its kind, so that the answers of two servers are the same."""

import re
from typing import Any, Callable, Dict, List, Tuple

Call = Callable[..., Any]
#: What litecoind has beside Bitcoin Core's, what its wallets of 0.21 have and those of descriptors have not, and what is another
#: thing in each.
LEFT_OUT = (
    "ismweb", "keypoololdest", "keypoolsize", "keypoolsize_hd_internal", "hdseedid", "hdkeypath", "hdmasterfingerprint", "format",
    "descriptors", "walletversion", "decoded", "hex", "blockindex", "vout", "changepos",
)  # fmt: skip
_KINDS = (
    (re.compile(r"pkh\(\[.*\][0-9a-f]{66}\)#[0-9a-z]{8}"), "DESCRIPTOR"), (re.compile("(?<![0-9a-f])[0-9a-f]{64}(?![0-9a-f])"), "ID"),
    (re.compile("(?<![0-9a-f])[0-9a-f]{50,}"), "HEX"), (re.compile("c[1-9A-HJ-NP-Za-km-z]{51}"), "KEY"),
    (re.compile("[mn][1-9A-HJ-NP-Za-km-z]{25,34}"), "ADDRESS"),
)  # fmt: skip
#: An address of nobody.
OTHER = "mipcBbFg9gMiCh81Kj8tqqdgoZub1ZJRfn"
NONE, WRONG = "00" * 32, "no address"


class Steps:
    """Makes the calls in their order, and keeps what is answered."""

    def __init__(self, call: Call, folder: str) -> None:
        self._call, self._folder = call, folder
        self.answers: List[Tuple[str, Any]] = []

    def ask(self, *words: Any, at: str = "w", **named: Any) -> Any:
        """A call on a wallet, or on none, whose answer is kept."""
        answer = self._call(*words, path=f"/wallet/{at}" if at else "/", **named)
        what = f"{words[0]} {[_told(it) for it in words[1:]]} {_told(named)} {at}"
        self.answers.append((what, _told(answer, self._folder)))
        return answer


def _told(value: Any, folder: str = "") -> Any:
    if isinstance(value, dict):
        return {_told(name): "TIME" if "time" in name else _told(it, folder) for name, it in value.items() if name not in LEFT_OUT}
    if isinstance(value, list):
        return [_told(it, folder) for it in value]
    if isinstance(value, float):
        return f"{value:.8f}"
    if isinstance(value, str):
        for kind, name in _KINDS:
            value = kind.sub(name, value)
        if folder:
            value = value.replace(folder + "/", "").replace("/wallet.dat", "")
        return value.replace("Litecoin", "Bitcoin").replace("litecoin", "bitcoin").replace("LTC", "BTC")
    return value


def played(call: Call, folder: str) -> List[Tuple[str, Any]]:
    """What a server answers that has genesis alone, whose wallets are in a folder."""
    steps = Steps(call, folder)
    _managed(steps)
    own, change = _given(steps)
    call("generatetoaddress", 1, own)
    call("generatetoaddress", 100, OTHER)
    for name in ("getbalance", "getbalances", "listunspent", "listtransactions", "getunconfirmedbalance"):
        steps.ask(name)
    _paid(steps, own)
    _sent(steps, own)
    _labelled(steps, own)
    _refused(steps, own)
    for words in (("unloadwallet", "w"), ("unloadwallet",)):
        steps.ask(*words, at="w")
    steps.ask("loadwallet", "w", at="")
    steps.ask("getbalances")
    return steps.answers


def _managed(steps: Steps) -> None:
    ask = steps.ask
    for words in (("getbalance",), ("listwallets",), ("unloadwallet",), ("unloadwallet", "x"), ("loadwallet", "x"), ("createwallet", 5),
                  ("createwallet", "w"), ("createwallet", "w"), ("loadwallet", "w"), ("getbalance",),
                  ("createwallet", "blank", False, True), ("createwallet", "watch", True), ("createwallet", "e", True, False, "x"),
                  ("createwallet", "v", False, False, ""), ("createwallet", "x", "y"), ("listwallets",), ("getbalance",)):  # fmt: skip
        ask(*words, at="")
    for name in ("w", "blank", "watch", "nix"):
        ask("getwalletinfo", at=name)
    for name in ("blank", "watch"):
        ask("getnewaddress", at=name)
        ask("getrawchangeaddress", at=name)
    ask("getblockcount", at="nix")


def _given(steps: Steps) -> Tuple[str, str]:
    ask = steps.ask
    own, change = ask("getnewaddress", "lab", "legacy"), ask("getrawchangeaddress", "legacy")
    for words in (("getnewaddress", "*"), ("getnewaddress", 5), ("getnewaddress", "", 5), ("getnewaddress", "", "x"),
                  ("getrawchangeaddress", "x"), ("getaddressinfo", own), ("getaddressinfo", change), ("getaddressinfo", OTHER),
                  ("getaddressinfo", WRONG), ("getaddressinfo", 5), ("dumpprivkey", own), ("dumpprivkey", OTHER),
                  ("dumpprivkey", WRONG)):  # fmt: skip
        ask(*words)
    return own, change


def _paid(steps: Steps, own: str) -> None:
    ask = steps.ask
    first = ask("sendtoaddress", own, 1.5, "a comment", "to whom")
    ask("gettransaction", first)
    ask("gettransaction", first, None, True)
    ask("getbalances")
    ask("listunspent", 0, 5, [own])
    ask("listtransactions", "lab")
    second = ask("sendtoaddress", address=OTHER, amount=1.2, replaceable=True, verbose=True)["txid"]
    ask("bumpfee", first)
    ask("bumpfee", NONE)
    ask("bumpfee", second, {"fee_rate": 1})
    ask("bumpfee", second, {"x": 1})
    bumped = ask("bumpfee", second)["txid"]
    ask("bumpfee", second)
    ask("abandontransaction", bumped)
    ask("abandontransaction", NONE)
    steps._call("generatetoaddress", 1, OTHER)
    ask("gettransaction", bumped)
    ask("bumpfee", bumped)
    ask("listsinceblock")
    ask("getbalance", "*", 2)
    at = {"txid": bumped, "vout": 0}
    for words in ((False, [{**at, "vout": 9}]), (False, [{"txid": NONE, "vout": 0}]), (False, [{"txid": "zz", "vout": 0}]),
                  (False, [{**at, "vout": -1}]), (True,), (False,), ("x",), (False, [5]), (False, [{"vout": 1}])):  # fmt: skip
        ask("lockunspent", *words)
    free = steps._call("listunspent", path="/wallet/w")[0]
    place = [{"txid": free["txid"], "vout": free["vout"]}]
    for lock in (False, False):
        ask("lockunspent", lock, place)
    ask("listlockunspent")
    for lock in (True, True):
        ask("lockunspent", lock, place)


def _sent(steps: Steps, own: str) -> None:
    ask, call = steps.ask, steps._call
    raw = call("createrawtransaction", [], {OTHER: 1})
    found = ask("fundrawtransaction", raw)
    for words in (({"changePosition": 5},), ({"x": 5},), ({"changeAddress": WRONG},), ({"changeAddress": 5},),
                  ({"subtractFeeFromOutputs": [0], "feeRate": 0.0002},), ({"subtractFeeFromOutputs": [4]},),
                  ({"subtractFeeFromOutputs": [0, 0]},), ({"feeRate": 0.001, "fee_rate": 1},), ({"fee_rate": 20},)):  # fmt: skip
        ask("fundrawtransaction", raw, *words)
    ask("fundrawtransaction", call("createrawtransaction", [], {OTHER: 10000}))
    ask("fundrawtransaction", "00")
    ask("fundrawtransaction", "01000000000000000000")
    ask("signrawtransactionwithwallet", found["hex"])
    ask("signrawtransactionwithwallet", found["hex"], at="blank")
    ask("signrawtransactionwithwallet", found["hex"], [], "x")
    ask("signrawtransactionwithwallet", "00")
    ask("sendmany", "", {own: 1, OTHER: 2})
    for words in (("x", {own: 1}), ("", {}), ("", {WRONG: 1}), ("", 5), ("", {own: "x"})):
        ask("sendmany", *words)


def _labelled(steps: Steps, own: str) -> None:
    ask = steps.ask
    for words in (("setlabel", own, "new"), ("setlabel", OTHER, "other"), ("setlabel", WRONG, "x"), ("setlabel", own, "*"),
                  ("getaddressesbylabel", "new"), ("getaddressesbylabel", "other"), ("getaddressesbylabel", "nix"),
                  ("listlabels",), ("listlabels", "send"), ("listlabels", "x"), ("rescanblockchain",), ("rescanblockchain", 5, 4),
                  ("rescanblockchain", -1), ("rescanblockchain", 1000), ("rescanblockchain", 1, 1000), ("keypoolrefill", -1),
                  ("keypoolrefill", 20), ("backupwallet", "/nonexistent/x")):  # fmt: skip
        ask(*words)


def _refused(steps: Steps, own: str) -> None:
    ask = steps.ask
    for words in ((own, 0), (own, 0.00000001), (own, 10000), (WRONG, 1), (own, -1), (own, 1, "", "", False, True, 5, "x"),
                  (own, 1, "", "", False, True, 5000), (own, 1, 5), (own, 1, "", "", 5)):  # fmt: skip
        ask("sendtoaddress", *words)
    more: List[Dict[str, Any]] = [{"conf_target": 3}, {"estimate_mode": "economical"}]
    for named in more:
        ask("sendtoaddress", address=own, amount=1, fee_rate=10, **named)
    for words in (("settxfee", 0.000001), ("settxfee", 1000), ("settxfee", 0), ("getbalance", "x"), ("gettransaction", NONE),
                  ("gettransaction", "zz"), ("listtransactions", "*", -1), ("listtransactions", "*", 1, -1),
                  ("listtransactions", ""), ("listsinceblock", NONE), ("listsinceblock", None, 0), ("listunspent", "x"),
                  ("listunspent", 1, 2, [WRONG]), ("listunspent", 1, 2, [own, own]), ("importprivkey", "zz")):  # fmt: skip
        ask(*words)
    ask("importprivkey", "cMahea7zqjxrtgAbB7LSGbcQUr1uX1ojuat9jZodMN87JcbXMTcA", at="watch")
    ask("sendtoaddress", own, 1, at="watch")
