"""A fuzzer of another implementation. Random block trees go to it by bitcoind's RPC, and to a `Bench` in this process: forks,
spends, broken blocks and marks. The first reply or best block that differs is printed as a scenario (docs/PROGRAM.md).

    fuzz_another.py                                     a wakotehu-server that it starts, from which nothing differs
    fuzz_another.py http://u:p@127.0.0.1:19443 1000     the node that answers there, with 1,000 trees

The node has to answer as Bitcoin Core 0.21 does, and to begin on genesis alone. Debian's litecoind is such a node; it gets the
same transactions under headers of its own:

    litecoind -regtest -segwitheight=-1 -rpcport=19443 -rpcuser=u -rpcpassword=p -listen=0 -connect=0

The trees keep away from the differences that docs/CORE.md names: one mark of `invalidate` at a time and no block on it, no block
on a broken one, and two marks of `precious` in a tree."""

import base64
import http.client
import json
import random
import sys
from typing import Any, List, Tuple
from urllib.parse import urlsplit

from trees import FAULTS, Tree
from wakotehu import Bench, show
from wakotehu.benches import Server
from wakotehu.encoding import GENESIS

#: The blocks of the chain that the trees stand on, the name of its last one, and how many commands make a tree.
BASE, TOP, STEPS = 110, "c110", 16


class Peer:
    """A node that answers bitcoind's calls."""

    def __init__(self, url: str) -> None:
        parts = urlsplit(url)
        self.link = http.client.HTTPConnection(parts.hostname or "", parts.port, timeout=60)
        key = base64.b64encode(f"{parts.username}:{parts.password}".encode()).decode()
        self.head = {"Authorization": f"Basic {key}"}

    def call(self, method: str, *params: Any) -> Any:
        """A call's result, or its error as a text."""
        self.link.request("POST", "/", json.dumps({"method": method, "params": params, "id": 1}), self.head)
        reply = json.loads(self.link.getresponse().read())
        return f"error {reply['error']['code']}" if reply["error"] else reply["result"]


class Fuzzer:
    """Random trees on a chain of 110 blocks that a peer and a bench have."""

    def __init__(self, peer: Peer, seed: int = 0) -> None:
        self.peer, self.dice = peer, random.Random(seed)
        forks = peer.call("getblockchaininfo")["softforks"]
        self.heights = [forks[fork]["height"] for fork in ("bip34", "bip65", "bip66", "csv")]
        self.bench, self.tree = Bench(self.heights), Tree(peer.call("getblockhash", 0))
        if peer.call("getblockcount"):
            sys.exit("fuzz_another: the peer has to begin on genesis alone")
        peer.call("setmocktime", GENESIS.time)
        for height in range(1, BASE + 1):
            made = self.tree.add(f"c{height}", f"c{height - 1}" if height > 1 else "genesis", self.dice)
            self.bench.submit(made.data[0], GENESIS.time)
            peer.call("submitblock", made.data[1].hex())
        # The next block may spend the coinbases of the first eleven. Of the others four stay, which are too young.
        ids = list(self.tree.coins)
        self.tree.blocks[TOP] = self.tree.blocks[TOP]._replace(coins=frozenset(ids[:11]))
        self.tree.coins = {id: self.tree.coins[id] for id in ids[:11] + ids[-4:]}
        #: How many commands there were, and blocks on the chain.
        self.commands = self.blocks = 0

    def play(self) -> str:
        """Plays a tree: the scenario of the first difference, or "" where there is none and the peer is set back."""
        tree = self.tree.copy()
        commands: List[str] = []
        with self.bench.copy() as bench:
            for _ in range(STEPS):
                commands.append(self._draw(tree, commands))
                word, _, name = commands[-1].partition(" ")
                ours, theirs = self._ours(bench, tree, word, name), self._theirs(tree, word, name)
                self.commands += 1
                if ours != theirs:
                    return self._scenario(tree, commands, ours, theirs)
        for name, made in tree.blocks.items():
            if made.parent == TOP:
                self.peer.call("invalidateblock", show(tree.ids[name][1]))
        return ""

    def _draw(self, tree: Tree, commands: List[str]) -> str:
        """A command that may come now. A mark of `invalidate` is taken back before the next one."""
        marks = [it for it in commands if it.startswith(("invalidate", "reconsider"))]
        marked = marks[-1].split()[1] if marks and marks[-1].startswith("invalidate") else "none"
        own = [name for name in tree.blocks if name.startswith("b") and not tree.is_on(name, marked)]
        good = [name for name in own if not tree.blocks[name].is_broken]
        whole = [name for name in good if not any(tree.is_on(it, name) for it in own if it not in good)]
        word = self.dice.choices(("new", "again", "mark", "precious"), (10, 1, 3, 2))[0]
        if word == "mark" and marked != "none":
            return f"reconsider {marked}"
        if word == "mark" and whole:
            return f"invalidate {self.dice.choice(whole)}"
        if word == "again" and own:
            return f"submit {self.dice.choice(own)}"
        if word == "precious" and good and sum(it.startswith("precious") for it in commands) < 2:
            return f"precious {self.dice.choice(good[-4:])}"
        self.blocks += 1
        tree.add(f"b{self.blocks}", self.dice.choice([TOP, *good][-3:]), self.dice, self.dice.choice(FAULTS))
        return f"submit b{self.blocks}"

    def _ours(self, bench: Bench, tree: Tree, word: str, name: str) -> Tuple[str, str]:
        """The bench's reply as the RPC words it, and its best block."""
        if word == "submit":
            reply = bench.try_submit(tree.blocks[name].data[0], GENESIS.time)
        else:
            reply = bench.try_mark(word, tree.ids[name][0])
        text = "duplicate" if reply.reply == "duplicate-inconclusive" else reply.reason or reply.reply
        return text, self._named(tree, 0, bench.best())

    def _theirs(self, tree: Tree, word: str, name: str) -> Tuple[str, str]:
        if word == "submit":
            text = self.peer.call("submitblock", tree.blocks[name].data[1].hex()) or "accepted"
        else:
            text = self.peer.call(f"{word}block", show(tree.ids[name][1])) or "done"
        # A refused script's word depends on how many threads Bitcoin Core has.
        is_script = text.startswith(("block-validation-failed", "mandatory-script-verify-flag-failed"))
        best = bytes.fromhex(self.peer.call("getbestblockhash"))[::-1]
        return "blk-bad-inputs" if is_script else text, self._named(tree, 1, best)

    def _named(self, tree: Tree, side: int, id: bytes) -> str:
        return next((name for name, ids in tree.ids.items() if ids[side] == id), show(id))

    def _scenario(self, tree: Tree, commands: List[str], ours: Tuple[str, str], theirs: Tuple[str, str]) -> str:
        said = [f"#   {who}: {reply}, and the best block is {best}" for who, (reply, best) in (("peer", theirs), ("bench", ours))]
        heights = ",".join(map(str, self.heights))
        made = [line for name, block in tree.blocks.items() if name.startswith("b") for line in block.lines]
        return "\n".join([
            "# The last submission or mark is answered so:", *said, f"# regchain run --heights {heights} --scenario FILE",
            f"chain c {BASE} genesis", *made, "client a", f"each c 1 {BASE}", *commands, "best",
        ])  # fmt: skip


def fuzz(peer: Peer, trees: int, seed: int = 0) -> bool:
    """Plays trees until one differs; whether none did."""
    fuzzer = Fuzzer(peer, seed)
    for _ in range(trees):
        found = fuzzer.play()
        if found:
            print(found)
            return False
    print(f"{trees} trees, {fuzzer.commands} commands, {fuzzer.blocks} blocks: no difference")
    return True


def main() -> None:
    """Fuzzes the peer of the command line: its URL, how many trees, and a seed."""
    url, trees, seed = [*sys.argv[1:], *["", "20", "0"][len(sys.argv) - 1 :]]
    if url:
        sys.exit(not fuzz(Peer(url), int(trees), int(seed)))
    server = Server()
    try:
        sys.exit(not fuzz(Peer(server.url), int(trees), int(seed)))
    finally:
        server.stop()


if __name__ == "__main__":
    main()
