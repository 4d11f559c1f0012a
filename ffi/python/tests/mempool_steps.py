"""Calls about transactions that wait to be mined, as a list that any server of bitcoind's calls can be asked. Ids are told by
names, and moments are left out, so that the answers of two servers are the same text."""

from typing import Any, Callable, Dict, List, Tuple

from wakotehu import read_id
from wakotehu.encoding import Input, Output, Transaction, write_transaction

Call = Callable[..., Any]
COIN = 100_000_000
LAST = 0xFFFFFFFF
#: Moments, blocks of a chain of its own, and what litecoind has beside Bitcoin Core's.
LEFT_OUT = ("time", "bestblock", "ismweb", "mwebweight", "ancestormwebweight", "descendantmwebweight")
#: Anyone spends it; so long that no transaction has less than 82 bytes, which Bitcoin Core's policy asks for.
OPEN = b"\x61" * 30 + b"\x51"
#: Above the heights at which all soft forks are in force.
BLOCKS = 1400


class Steps:
    """Makes the calls in their order, and keeps what is answered."""

    def __init__(self, call: Call) -> None:
        self._call = call
        self.names: Dict[str, str] = {}
        self.answers: List[Tuple[str, Any]] = []

    def ask(self, what: str, *words: Any) -> Any:
        """A call, whose answer is kept under a name."""
        answer = self._call(*words)
        self.answers.append((what, self._named(answer)))
        return answer

    def _named(self, answer: Any) -> Any:
        if isinstance(answer, dict):
            return {self._named(name): self._named(it) for name, it in answer.items() if name not in LEFT_OUT}
        if isinstance(answer, list):
            return [self._named(it) for it in answer]
        return self.names.get(answer, answer) if isinstance(answer, str) else answer

    def tx(self, name: str, spends: List[Tuple[str, int]], pays: List[int], sequence: int = LAST, lock: int = 0,
           script: bytes = b"", to: bytes = OPEN) -> str:  # fmt: skip
        """The digits of a transaction of a name, which spends outputs and pays to a script."""
        ins = [Input(read_id(id), index, script, sequence) for id, index in spends]
        made = Transaction(2, ins, [Output(value, to) for value in pays], lock)
        self.names[made.id[::-1].hex()] = name
        self.names[write_transaction(made).hex()] = f"{name} as digits"
        return write_transaction(made).hex()

    def id(self, name: str) -> str:
        return next(id for id, known in self.names.items() if known == name)


def played(call: Call) -> List[Tuple[str, Any]]:
    """What a server answers that has genesis alone."""
    steps = Steps(call)
    blocks = call("generatetodescriptor", BLOCKS, "raw(51)")
    coins = [call("getblock", blocks[height - 1])["tx"][0] for height in (1, 2, 3, 4, 5, 6, BLOCKS - 50)]
    steps.names.update({coin: f"coinbase {place}" for place, coin in enumerate(coins)})
    _accepted(steps, coins)
    _refused(steps, coins)
    _mined(steps, coins)
    return steps.answers


def _accepted(steps: Steps, coins: List[str]) -> None:
    ask = steps.ask
    first = steps.tx("A", [(coins[0], 0)], [20 * COIN, 30 * COIN - 1000], sequence=LAST - 2)
    ask("nothing waits", "getrawmempool")
    ask("A would be accepted", "testmempoolaccept", [first])
    ask("asking changes nothing", "getrawmempool")
    ask("A is sent", "sendrawtransaction", first)
    ask("A is sent again", "sendrawtransaction", first)
    ask("A is asked again", "testmempoolaccept", [first])
    a = steps.id("A")
    second = steps.tx("B", [(a, 0)], [20 * COIN - 2000])
    ask("B spends A", "sendrawtransaction", second)
    b = steps.id("B")
    ask("C spends both", "sendrawtransaction", steps.tx("C", [(a, 1), (b, 0)], [49 * COIN]), 0)
    ask("fewer ancestors first", "getrawmempool")
    ask("all of them", "getrawmempool", True)
    ask("with a number", "getrawmempool", True, True)
    for name in "ABC":
        ask(f"{name} alone", "getmempoolentry", steps.id(name))
    ask("before A", "getmempoolancestors", a)
    ask("before B", "getmempoolancestors", b)
    ask("behind B", "getmempooldescendants", b)
    ask("behind B, shown", "getmempooldescendants", b, True)
    ask("one that doesn't wait", "getmempoolentry", coins[1])
    for name, index, word in ((a, 0, None), (b, 0, None), (steps.id("C"), 0, None), (steps.id("C"), 0, False), (steps.id("C"), 1, True)):
        ask(f"output {index} of {steps.names[name]}, {word}", *(["gettxout", name, index] + ([] if word is None else [word])))
    for word in (True, False):
        ask(f"a coin that is spent by what waits, {word}", "gettxout", coins[0], 0, word)
    ask("A as digits", "getrawtransaction", a)


def _refused(steps: Steps, coins: List[str]) -> None:
    a, lone = steps.id("A"), (coins[1], 0)
    rows = [
        ("D conflicts", steps.tx("D", [(a, 0)], [COIN])),
        ("E has no coin", steps.tx("E", [("11" * 32, 0)], [COIN])),
        ("F is too early", steps.tx("F", [(coins[6], 0)], [COIN])),
        ("G makes money", steps.tx("G", [lone], [51 * COIN])),
        ("H isn't final", steps.tx("H", [lone], [50 * COIN - 500], sequence=0, lock=BLOCKS + 50)),
        ("I is locked", steps.tx("I", [(coins[2], 0)], [50 * COIN], sequence=BLOCKS)),
        ("J pays too much", steps.tx("J", [lone], [COIN])),
        ("K is empty", steps.tx("K", [lone], [])),
        ("L spends twice", steps.tx("L", [lone, lone], [COIN])),
        ("M is negative", steps.tx("M", [lone], [-1])),
        ("N is too large", steps.tx("N", [lone], [21_000_000 * COIN * 10])),
        ("O is a coinbase", steps.tx("O", [("00" * 32, LAST)], [COIN], script=b"\x01\x01")),
        ("P has no such output", steps.tx("P", [(a, 7)], [COIN])),
    ]
    for what, digits in rows:
        steps.ask(f"{what}?", "testmempoolaccept", [digits])
        steps.ask(what, "sendrawtransaction", digits)
    for words in (
        ("testmempoolaccept", []), ("testmempoolaccept", ["00", "00"]), ("testmempoolaccept", ["00"]), ("testmempoolaccept", "00"),
        ("sendrawtransaction", "00"), ("sendrawtransaction", 5), ("sendrawtransaction", "zz"),
        ("sendrawtransaction", rows[6][1], "x"), ("sendrawtransaction", rows[6][1], -1), ("getmempoolentry", "00"),
    ):  # fmt: skip
        steps.ask(f"a fault: {words[0]} {str(words[1:])[:12]}", *words)


def _mined(steps: Steps, coins: List[str]) -> None:
    ask = steps.ask
    [mined] = steps._call("generatetodescriptor", 1, "raw(51)")
    steps.names[mined] = "the block"
    block = steps._call("getblock", mined)
    steps.names[block["tx"][0]] = "its coinbase"
    steps.answers.append(("what was mined", steps._named(block["tx"])))
    ask("nothing waits behind the block", "getrawmempool")
    first, third = (next(digits for digits, known in steps.names.items() if known == f"{name} as digits") for name in "AC")
    ask("A is in a block", "testmempoolaccept", [first])
    ask("A is sent once more", "sendrawtransaction", first)
    ask("C is in a block", "sendrawtransaction", third, 0)
    ask("C has a coin", "testmempoolaccept", [third])
    fourth = steps.tx("Q", [(steps.id("C"), 0)], [48 * COIN])
    ask("Q spends C", "sendrawtransaction", fourth, 0)
    steps._call("invalidateblock", mined)
    ask("the block is gone", "getrawmempool")
    ask("what came back", "getrawmempool", True)
    other = steps.tx("R", [(coins[0], 0)], [50 * COIN - 700])
    ask("R spends the same coin as A", "testmempoolaccept", [other])
    steps._call("generatetodescriptor", 1, "raw(51)")
    ask("all is mined again", "getrawmempool")
    ask("another id", "generateblock", "raw(51)", ["11" * 32])
