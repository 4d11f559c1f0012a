"""A list played by the peer and by ours, and what each answered."""

import subprocess
import tempfile
from pathlib import Path
from typing import Dict, FrozenSet, List, Mapping, NamedTuple, Optional, Sequence, Tuple, Type, Union

import wakotehu
from wakotehu.encoding import GENESIS
from wakotehu.rpc.blockchain import coins_hash

from . import peer as peer_
from .chainstate import Chainstate, Ground, Unclear
from .peer import HEIGHTS, Peer
from .rules import ALL_KINDS, Body, Coin, Coins, Point, Rules, Signatures, Tx
from .spelling import ROOT, Chain, Logical, ours, theirs
from .trees import Command, List_

AnyCoin = Union[Coin, wakotehu.Coin]

#: The most that all coins may be worth, here.
MONEY = 21 * 10**14

#: An answer to a read of a coin: value, script, height, whether a coinbase made it, confirmations.
Read = Optional[Tuple[int, str, int, bool, int]]


class Seen(NamedTuple):
    """What is seen after a command, blocks by their numbers in the list (the base's tip is -1)."""

    reply: str
    best: int
    height: int
    #: Number, height, how many blocks off the active branch, status; in order.
    tips: Tuple[Tuple[int, int, int, str], ...]
    reads: Tuple[Read, ...]

    def as_core(self) -> "Seen":
        """The same in Bitcoin Core's words, with tips in no order."""
        return self._replace(reply=word(self.reply), tips=tuple(sorted(self.tips)))


class Played(NamedTuple):
    """What was seen after each command, and all coins at the end: how many, and their hash over the peer's best id."""

    seen: Sequence[Optional[Seen]]
    coins: Tuple[int, str]


def asked(list_: List_, step: int) -> List[Tuple[bytes, int]]:
    """Which coins are read after a step: some, in turn."""
    outs = list_.outpoints
    return [outs[(step * 3 + k) % len(outs)] for k in range(min(3, len(outs)))]


def word(reply: str) -> str:
    """A reply as both have it: without the number of a version, the place of a script, the name of a script's fault."""
    if reply.startswith("bad-version"):
        return "bad-version"
    scripts = ("blk-bad-inputs", "block-validation-failed", "mandatory-script-verify-flag-failed")
    return "blk-bad-inputs" if reply.startswith(scripts) else reply


class Lines:
    """The two spellings of a list, and its blocks by id."""

    def __init__(self, base: "Base", list_: List_) -> None:
        self.list = list_
        # So that no two lists have a header in common: the peer keeps those of the lists before.
        nonce = (list_.seed % 4096 << 8 | list_.salt % 256) << 12
        self.ours, self.theirs = base.ours.copy(nonce), base.theirs.copy(nonce)
        own = range(list_.base, len(list_.blocks))
        self._txs = {n: [Tx(tx) for tx in list_.blocks[n].transactions] for n in own}
        self._bodies: Dict[bool, Dict[int, Body]] = {}
        self.signatures = Signatures(_triple(line) for line in list_.table)
        self.by_ours = self._numbers(self.ours)
        self.by_theirs = self._numbers(self.theirs)
        #: Of each own block the first number of its id, and that of its parent's.
        self.names = {n: self.canonical(n) for n in own}
        self.parents = {n: self.canonical(list_.blocks[n].parent) for n in own}

    def bodies(self, is_peer: bool) -> Dict[int, Body]:
        """The list's own blocks as the rules have them, in either chain."""
        if is_peer not in self._bodies:
            chain = self.theirs if is_peer else self.ours
            self._bodies[is_peer] = {n: chain.body(self.list.blocks, n, txs) for n, txs in self._txs.items()}
        return self._bodies[is_peer]

    def _numbers(self, chain: Chain) -> Dict[bytes, int]:
        found = {chain.genesis: -1}
        for number in range(len(self.list.blocks)):
            found.setdefault(chain.id(self.list.blocks, number), self.of(number))
        return found

    def of(self, number: int) -> int:
        """A number of the list's own blocks; -1 for the base and all below."""
        return number if number >= self.list.base else -1

    def canonical(self, number: int) -> int:
        """The first block with the same header; -1 for the base."""
        return self.by_ours[self.ours.id(self.list.blocks, number)]


def _triple(line: str) -> Tuple[bytes, bytes, bytes]:
    key, signature, digest = (bytes.fromhex(part) for part in line.split())
    return key, signature, digest


class Base:
    """The spellings of a base, which lists share, and what it leaves."""

    def __init__(self, blocks: Sequence[Logical]) -> None:
        self.ours, self.theirs = ours(), theirs()
        rules = Rules(MONEY, HEIGHTS, Signatures(()), frozenset())
        coins: Coins = {}
        times, medians = [GENESIS.time], [GENESIS.time]
        for height, block in enumerate(blocks, 1):
            for tx in block.transactions:
                rules.after(Tx(tx), height, coins)
            times.append(block.time)
            medians.append(sorted(times[-11:])[len(times[-11:]) // 2])
        self.ground = Ground(medians, tuple(times[-11:]), coins)


# ---- the peer


def play_peer(peer: Peer, lines: Lines) -> Played:
    """Plays a list on the base, and takes it back."""
    list_ = lines.list
    seen = []
    for step, command in enumerate(list_.commands):
        id, data = lines.theirs.spell(list_.blocks, command.block)
        if command.word == "submit":
            peer.call("setmocktime", command.now)
            reply = peer.submit(data)
        else:
            reply = peer.mark(command.word, id)
        seen.append(_look_at_peer(peer, lines, word(reply), asked(list_, step)))
    info = peer.call("gettxoutsetinfo")
    played = Played(seen, (info["txouts"], info["hash_serialized_2"]))
    _take_back(peer, lines)
    return played


def _look_at_peer(peer: Peer, lines: Lines, reply: str, outs: Sequence[Tuple[bytes, int]]) -> Seen:
    reads = [("gettxout", [id[::-1].hex(), index, False]) for id, index in outs]
    best, count, tips, *coins = peer.calls([("getbestblockhash", []), ("getblockcount", []), ("getchaintips", []), *reads])
    known = [
        (lines.by_theirs[bytes.fromhex(t["hash"])[::-1]], t["height"], t["branchlen"], t["status"])
        for t in tips
        if bytes.fromhex(t["hash"])[::-1] in lines.by_theirs
    ]
    read = tuple(
        None if c is None
        else (round(c["value"] * 100000000), c["scriptPubKey"]["hex"], count + 1 - c["confirmations"], c["coinbase"], c["confirmations"])
        for c in coins
    )  # fmt: skip
    return Seen(reply, lines.by_theirs[bytes.fromhex(best)[::-1]], count, tuple(sorted(known)), read)


def _take_back(peer: Peer, lines: Lines) -> None:
    """Marks all blocks of the list that stand on the base."""
    blocks, base = lines.list.blocks, lines.list.base
    for number in range(base, len(blocks)):
        if blocks[number].parent == (base - 1 if base else ROOT):
            peer.mark("invalidate", lines.theirs.id(blocks, number))


# ---- ours, by the program


def write_scenario(lines: Lines, commands: Sequence[Command], with_reads: bool = True) -> str:
    """The list as a scenario: all blocks by their bytes."""
    list_ = lines.list
    out = ["client a", "now 4294967295"]
    for number in range(list_.base):
        out.append("raw " + lines.ours.spell(list_.blocks, number)[1].hex())
    for step, command in enumerate(commands):
        id, data = lines.ours.spell(list_.blocks, command.block)
        if command.word == "submit":
            out += [f"now {command.now}", "raw " + data.hex()]
        else:
            out.append(f"{command.word} {id[::-1].hex()}")
        if with_reads:
            out += ["best", "tips"]
            out += [f"txout {id[::-1].hex()}:{index}" for id, index in asked(list_, step)]
    return "\n".join(out) + "\n"


def run_program(program: str, lines: Lines, scenario: str) -> List[str]:
    """The answers of a scenario behind those of the base."""
    list_ = lines.list
    with tempfile.TemporaryDirectory() as room:
        file, table = Path(room, "scenario"), Path(room, "table")
        file.write_text(scenario)
        table.write_text(table_of(list_))
        heights = ",".join(map(str, HEIGHTS))
        command = [program, "run", "--scenario", str(file), "--table", str(table), "--heights", heights]
        done = subprocess.run(command, stdout=subprocess.PIPE, stderr=subprocess.PIPE)
    if done.returncode:
        raise RuntimeError(done.stderr.decode())
    answers = done.stdout.decode().split("\njournal")[0].splitlines()[1 + list_.base :]
    return [answer.split(" = ", 1)[1].rsplit(" @", 1)[0] for answer in answers]


def play_program(program: str, lines: Lines) -> List[Seen]:
    """What the program answers after each command."""
    list_ = lines.list
    answers = run_program(program, lines, write_scenario(lines, list_.commands))
    seen, at = [], 0
    for step in range(len(list_.commands)):
        count = 3 + len(asked(list_, step))
        seen.append(_read_answers(answers[at : at + count], lines))
        at += count
    return seen


def _read_answers(answers: List[str], lines: Lines) -> Seen:
    def number(text: str) -> int:
        return -1 if text == "genesis" else lines.by_ours[bytes.fromhex(text)[::-1]]

    tips = [t.split() for t in answers[2].split("; ")]
    found = tuple((number(name), int(height), int(length), status) for name, height, length, status in tips)
    height = next(h for _, h, _, status in found if status == "active")
    return Seen(answers[0], number(answers[1]), height, found, tuple(map(_read_coin, answers[3:])))


def _read_coin(text: str) -> Read:
    if text == "none":
        return None
    words = text.split()
    return int(words[0]), words[1].replace("-", ""), int(words[3]), "coinbase" in words, int(words[-1])


# ---- ours, by the library


def play_library(lines: Lines, heights: Sequence[int] = HEIGHTS) -> Played:
    """What the library answers after each command."""
    list_ = lines.list
    with wakotehu.Chainstate(heights, table_of(list_)) as chain:
        lay_base(chain, lines)
        seen = []
        for step, command in enumerate(list_.commands):
            id, data = lines.ours.spell(list_.blocks, command.block)
            if command.word == "submit":
                reply = chain.try_submit(data, command.now)
            else:
                reply = chain.try_mark(command.word, id)
            seen.append(_look_at_library(chain, lines, reply.text, asked(list_, step)))
        coins = chain.coins()
        return Played(seen, hash_coins(lines, seen[-1].best if seen else -1, {(id, n): coin for id, n, coin in coins}))


def hash_coins(lines: Lines, best: int, coins: Mapping[Point, AnyCoin]) -> Tuple[int, str]:
    """How many coins there are, and their hash over a block's id at the peer, as Bitcoin Core has it."""
    list_ = lines.list
    top = best if best >= list_.base else list_.base - 1 if list_.base else ROOT
    in_order = sorted((id, n, coin) for (id, n), coin in coins.items())
    return len(coins), coins_hash(lines.theirs.id(list_.blocks, top), in_order)[::-1].hex()


def table_of(list_: List_) -> str:
    """The signatures of a list that are valid, as a table's lines."""
    return "".join(line + "\n" for line in list_.table)


def lay_base(chain: wakotehu.Chainstate, lines: Lines) -> None:
    for number in range(lines.list.base):
        chain.submit(lines.ours.spell(lines.list.blocks, number)[1], 2**32 - 1)


def _look_at_library(chain: wakotehu.Chainstate, lines: Lines, reply: str, outs: Sequence[Point]) -> Seen:
    height = chain.height()
    tips = tuple((lines.by_ours[tip.id], tip.height, tip.length, tip.status) for tip in chain.tips())
    return Seen(reply, lines.by_ours[chain.best()], height, tips, tuple(as_read(chain.coin(*out), height) for out in outs))


def as_read(coin: Optional[AnyCoin], height: int) -> Read:
    return coin and (coin.value, coin.script.hex(), coin.height, coin.coinbase, height + 1 - coin.height)


# ---- what the published rules say


class Setting(NamedTuple):
    """A model: of the peer or of ours, the kinds in which Bitcoin Core is followed, its rules, and the chainstate over them."""

    is_peer: bool
    kinds: FrozenSet[str]
    rules: Type[Rules] = Rules
    chainstate: Type[Chainstate] = Chainstate


OURS = Setting(False, frozenset())
CORE = Setting(True, ALL_KINDS)


def model(setting: Setting, base: Base, lines: Lines, reverse: int = -1, precious_height: int = 0) -> Chainstate:
    """A model before a list; the peer's count of preferences goes on from list to list."""
    rules = setting.rules(peer_.MAX_MONEY if setting.is_peer else MONEY, HEIGHTS, lines.signatures, setting.kinds)
    bodies = lines.bodies(setting.is_peer)
    return setting.chainstate(
        rules, base.ground, bodies, lines.names, lines.parents, reverse=reverse, precious_height=precious_height
    )


def play_model(lines: Lines, chain: Chainstate) -> Played:
    """What a model says after each command; None from where Bitcoin Core's answer hangs on addresses."""
    list_ = lines.list
    out: List[Optional[Seen]] = []
    for step, command in enumerate(list_.commands):
        try:
            if command.word == "submit":
                reply = chain.submit(command.block, command.now)
            else:
                reply = getattr(chain, command.word)(lines.canonical(command.block))
        except Unclear:
            return Played(out + [None] * (len(list_.commands) - len(out)), (0, ""))
        active, coins = chain.active, chain.coins()
        reads = tuple(as_read(coins.get(point), active.height) for point in asked(list_, step))
        out.append(Seen(reply, active.number, active.height, tuple(chain.tips()), reads))
    return Played(out, hash_coins(lines, chain.active.number, chain.coins()))
