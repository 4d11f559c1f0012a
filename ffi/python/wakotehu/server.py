"""A server on the loopback that answers the calls of bitcoind's JSON-RPC, over the seats of a `Node`: with real signatures,
or with those of a table.

    wakotehu-server -datadir=/tmp/bench
    wakotehu-server -table=/tmp/signatures
"""

import argparse
import contextlib
import ctypes
import gc
import os
import sys
import threading
import time
from typing import Callable, Dict, Iterator, List, Optional, Sequence, Tuple

from .deployments import soft_forks
from .errors import Error
from .nodebench import SEATS, NodeBench
from .replicabench import ReplicaBench
from .rpc import (
    addresses, blockchain, chain, control, descriptors, filters, making, mining, notices, policy, proofs, psbts, saved, sending,
    settings, signing, stats, template, txs, waiting, walletcoins, walletkeys, walletpsbts, wallets, walletsending,
)  # fmt: skip
from .rpc.auth import COOKIE_USER, Gate, remove_cookie, write_cookie
from .rpc.datadir import BadFolder, Folder, Opening
from .rpc.http import LOOPBACK, Server
from .rpc.jsonrpc import answer
from .rpc.node import Node, run
from .rpc.page import PATH, Page
from .rpc.values import MAX_MONEY, satoshis
from .signatures import Verifier
from .stopping import Signals
from .wallet import Settings
from .wallet.funding import FALLBACK
from .wallet.keys import KEYPOOL
from .version import __version__

#: The modules that put calls into the table.
MODULES = (
    addresses, blockchain, chain, control, descriptors, filters, making, mining, notices, proofs, psbts, saved, sending, signing,
    stats, template, txs, waiting, walletcoins, walletkeys, walletpsbts, wallets, walletsending,
)  # fmt: skip
#: The file of -datadir that has what waits to be mined.
MEMPOOL = "mempool.dat"
#: M_MMAP_THRESHOLD of glibc's malloc.h.
_MMAP_THRESHOLD = -3
#: Names of soft forks for -testactivationheight; csv has BIPs 68, 112 and 113, nulldummy BIP 147.
FORKS = ("bip34", "cltv", "bip65", "dersig", "bip66", "csv", "nulldummy")


#: How often it is looked whether the server ends, in seconds.
LOOK = 0.1


def serve(
    node: Node, gate: Gate, hosts: Sequence[str] = ("127.0.0.1",), port: int = 0,
    ready: Optional[Callable[[int], None]] = None, page: Optional[Page] = None, is_ending: Callable[[], bool] = lambda: False,
) -> None:  # fmt: skip
    """Serves until `stop` is called, or is_ending answers True. Port 0 is any that is free; `ready` is called with it once it is
    bound."""

    def answered(body: bytes, is_gone: Callable[[], bool], wallet: Optional[str]) -> Tuple[int, bytes]:
        node.called_by(is_gone, wallet)
        return answer(lambda method, params: run(node, method, params), body)

    servers: List[Server] = []
    threads: List[threading.Thread] = []
    try:
        for host in hosts:
            servers.append(Server(host, port or (servers[0].server_address[1] if servers else 0), gate, answered, page))
            servers[-1].stopping = lambda: node.stopped
            servers[-1].left = node.leave
        # Who connects from now on waits until the servers run.
        if ready:
            ready(servers[0].server_address[1])
        for server in servers:
            threads.append(threading.Thread(target=server.run, daemon=True))
            threads[-1].start()
        with node.turn:
            while not node.stopped and not is_ending():
                node.turn.wait(LOOK)
        # The answer to `stop` is taken.
        until = time.monotonic() + node.pause + LOOK
        while time.monotonic() < until and not is_ending():
            time.sleep(LOOK)
    finally:
        node.end()
        # An interrupt may come before all of them run.
        for server, thread in zip(servers, threads):
            if thread.is_alive():
                server.shutdown()
        for server in servers:
            server.server_close()
        node.close()


# ---- the command line


class _Parser(argparse.ArgumentParser):
    """Flags as bitcoind's: with one dash or two, and `-noNAME`."""

    def parse(self, words: Sequence[str]) -> argparse.Namespace:
        return self.parse_args([settings.positive("-" + word if _has_one_dash(word) else word) for word in words])


def _has_one_dash(word: str) -> bool:
    return word.startswith("-") and not word.startswith("--") and len(word) > 2


class _Also(argparse.Action):
    """A flag of bitcoind that changes nothing here, or is refused by name."""

    def __call__(
        self, parser: argparse.ArgumentParser, given: argparse.Namespace, value: object, flag: Optional[str] = None
    ) -> None:
        try:
            settings.expect(self.dest, str(value))
        except settings.BadSetting as error:
            parser.error(str(error))


#: What is published by ZeroMQ.
_ZMQ = {
    "hashblock": "publishes the hash of each best block by ZeroMQ: tcp://127.0.0.1:N or ipc://PATH; needs python3-zmq."
    " -zmqpubhashblockhwm=N, and so on: how many messages wait, 1000 by default",
    "hashtx": "the id of each transaction that comes to the mempool, and of a block that comes or goes",
    "rawblock": "each best block",
    "rawtx": "each transaction that comes to the mempool, and of a block that comes or goes",
    "sequence": "the hash of each block that comes (C) or goes (D), and the id of each transaction that comes to the mempool (A)"
    " or leaves it without being mined (R)",
}


def _parser() -> _Parser:
    parser = _Parser(
        prog="wakotehu-server",
        allow_abbrev=False,
        description=f"Answers the calls of bitcoind's JSON-RPC on the loopback, by the {SEATS} seats of a node (the program"
        " regchain). Signatures are verified by libsecp256k1. Flags have one dash or two.",
        epilog="A password is never a word of this command, where ps shows it: rpcuser, rpcpassword and rpcauth stand in"
        " the file of -conf, or in WAKOTEHU_RPCUSER, WAKOTEHU_RPCPASSWORD and WAKOTEHU_RPCAUTH. Without them there is a"
        " cookie, in the file that is printed. Flags of bitcoind that mean the same here or nothing are taken too"
        " (-regtest=1, -server, -listen=0, -rpcallowip=127.0.0.1); those that would promise something"
        " are refused.",
    )
    add = parser.add_argument
    add("--datadir", metavar="D", help="keeps the history in the folder D, and goes on from it at the next start")
    add("--table", metavar="F", help="a file of the signatures that are valid, a key, signature and digest a line; no other is,"
        " and libsecp256k1 isn't asked")  # fmt: skip
    add("--replica", metavar="URL", help="one history with other machines, in this database (wakotehu-replica init)")
    add("--replica-not-durable", action="store_true", help="also where the database's settings may lose rows that it has confirmed")
    add("--workers", metavar="N", help="how many threads check a block's scripts, 1 to 16; 2 by default")
    add("--fsync", action="store_true", default=True, help="answers when the history is on the disk; it is the default")
    add("--no-fsync", dest="fsync", action="store_false", help="doesn't wait for the disk: a crash of the machine may lose commands")
    add("--rpcport", "--port", dest="rpcport", metavar="N", help="18443 by default; 0 is any that is free")
    add("--rpcbind", action="append", default=[], metavar="HOST", help="127.0.0.1, ::1 or localhost; given again for more")
    add("--testactivationheight", action="append", default=[], metavar="FORK@N", help="bip34, cltv, dersig, csv or nulldummy")
    add("--conf", metavar="F", help="a file as bitcoin.conf, from the folder of -datadir on; bitcoin.conf there by default")
    add("--rpcuser", metavar="NAME", help="who is let in by WAKOTEHU_RPCPASSWORD, or by the password in the file of -conf")
    add("--rpcpassword", help=argparse.SUPPRESS)
    add("--rpcauth", action="append", default=[], metavar="NAME:SALT$HASH", help="who is let in, by a salted hash")
    add("--rpccookiefile", metavar="F", help="where the cookie is written")
    add("--no-auth", action="store_true", help="lets in everyone on this machine, without a password")
    for topic in settings.TOPICS:
        add(f"--zmqpub{topic}", action="append", default=[], metavar="ADDRESS", help=_ZMQ[topic])
        add(f"--zmqpub{topic}hwm", metavar="N", help=argparse.SUPPRESS)
    add("--maxmempool", metavar="N", help="how many MB of transactions may wait to be mined; 300 by default")
    add("--mempoolfullrbf", nargs="?", const="1", default="0", help="a transaction that pays more replaces those that don't signal it too")
    add("--acceptnonstdtxn", nargs="?", const="1", default="1", help="0: transactions that Bitcoin Core wouldn't relay are refused,"
        " for tests of that")  # fmt: skip
    add("--persistmempool", nargs="?", const="1", default="1", help="with -datadir: what waits to be mined is kept; it is the default")
    add("--txindex", nargs="?", const="1", default="0", help="getrawtransaction finds transactions of active blocks by their ids alone")
    add("--blockfilterindex", nargs="?", const="1", default="0", help="getblockfilter has the basic filters of blocks (BIP 158)")
    add("--page", action="store_true", help="shows the block tree, blocks, transactions and coins in a browser, at /page of the same"
        " port, with the same password")  # fmt: skip
    add("--wallet", action="append", default=[], metavar="NAME", help="loads a wallet at the start; given again for more")
    add("--fallbackfee", metavar="AMOUNT", help="what wallets pay for 1,000 bytes where nothing else is said: 0.0002 by default")
    add("--keypool", metavar="N", help="how many keys wallets know beyond the last used one: 1000 by default")
    add("--blocknotify", metavar="COMMAND", help="is run when another block is the active one, with its hash for %%s")
    add("--version", action="version", version=__version__)
    for name in settings.RULES:
        add(f"--{name}", action=_Also, nargs="?", const="1", help=argparse.SUPPRESS)
    return parser


def _given(words: Sequence[str]) -> argparse.Namespace:
    parser = _parser()
    if any(word.lstrip("-").partition("=")[0] == "port" and not word.startswith("--") for word in words):
        parser.error("-port is for bitcoind's peers, of which there are none here: -rpcport is the server's")
    given = _with_file(parser, words)
    if given.rpcpassword is not None:
        parser.error("-rpcpassword would be shown by ps: put it into the file of -conf or into WAKOTEHU_RPCPASSWORD")
    given.rpcport = _number(parser, "18443" if given.rpcport is None else given.rpcport, "-rpcport", 65535)
    if given.replica is not None and (given.datadir or given.table is not None or given.testactivationheight):
        parser.error("-replica has its commands, signatures and heights in the database: not beside -datadir, -table and -testactivationheight")
    given.workers = _number(parser, "2" if given.workers is None else given.workers, "-workers", 16)
    for host in given.rpcbind:
        if host.strip("[]") not in LOOPBACK:
            parser.error(f"-rpcbind={host} isn't an address of the loopback: the server answers this machine alone")
    heights: Dict[str, int] = {}
    for it in given.testactivationheight:
        fork, _, number = it.partition("@")
        if fork not in FORKS:
            parser.error(f"-testactivationheight={it}: forks are bip34, cltv (bip65), dersig (bip66), csv and nulldummy")
        heights[fork] = _number(parser, number, "-testactivationheight", 2**32 - 1)
    given.heights = soft_forks(heights) if heights else None
    given.maxmempool = _number(parser, "300" if given.maxmempool is None else given.maxmempool, "-maxmempool", 100_000)
    given.keypool = _number(parser, str(KEYPOOL) if given.keypool is None else given.keypool, "-keypool", 1_000_000)
    fallback = FALLBACK if given.fallbackfee is None else satoshis(given.fallbackfee)
    if fallback is None or not 0 <= fallback <= MAX_MONEY:
        parser.error(f"-fallbackfee={given.fallbackfee} is no amount")
    given.fallbackfee = fallback
    for name in ("txindex", "mempoolfullrbf", "persistmempool", "acceptnonstdtxn"):
        setattr(given, name, settings.is_on(getattr(given, name)))
    try:
        given.blockfilterindex = settings.has_filters(given.blockfilterindex)
    except settings.BadSetting as error:
        parser.error(str(error))
    given.notices = _notices(parser, given)
    return given


def _notices(parser: argparse.ArgumentParser, given: argparse.Namespace) -> List[notices.Notice]:
    """What is published where."""
    found: List[notices.Notice] = []
    for topic in settings.TOPICS:
        flag = f"-zmqpub{topic}hwm"
        many = getattr(given, flag[1:])
        water = _number(parser, str(notices.HIGH_WATER) if many is None else many, flag, 2**31 - 1)
        for address in getattr(given, flag[1:-3]):
            try:
                found.append(notices.read_notice(topic, address, water))
            except notices.BadNotice as error:
                parser.error(str(error))
    return list(dict.fromkeys(found))


def _with_file(parser: _Parser, words: Sequence[str]) -> argparse.Namespace:
    """The flags, and what the file sets and no flag does."""
    given = parser.parse(words)
    for name in ("datadir", "table", "conf", "rpccookiefile"):
        if getattr(given, name) == "":
            parser.error(f"-{name}= is empty")
    path = settings.file_of(given.conf, given.datadir)
    password = None
    try:
        if path is not None:
            found = settings.read(path, bool(given.conf))
            given, password = parser.parse([*found.words, *words]), found.password
            for line in found.ignored:
                print(f"wakotehu-server: {line}", file=sys.stderr)
    except (settings.BadSetting, OSError, ValueError) as error:
        parser.error(str(error))
    given.password = password
    return given


def _number(parser: argparse.ArgumentParser, word: str, flag: str, most: int) -> int:
    if not (word.isascii() and word.isdigit()) or int(word) > most:
        parser.error(f"{flag} is a number from 0 to {most}")
    return int(word)


def _gate(given: argparse.Namespace) -> Tuple[Gate, bool]:
    """Who is let in by a password, and whether there is a cookie too: as at bitcoind, where there is no rpcpassword."""
    gate = Gate(anyone=given.no_auth)
    user = given.rpcuser or os.environ.get("WAKOTEHU_RPCUSER", "")
    password = given.password or os.environ.get("WAKOTEHU_RPCPASSWORD", "")
    if password:
        gate.add(user, password)
    elif user:
        raise BadFolder("there is a user without a password: see --help")
    for line in given.rpcauth + os.environ.get("WAKOTEHU_RPCAUTH", "").split():
        gate.add_salted(line)
    return gate, not password and not given.no_auth


def _cookie_path(given: argparse.Namespace, port: int) -> str:
    """Where the cookie is, as bitcoin-cli looks for it with these flags; without a folder there is one for each port."""
    folder = given.datadir
    if given.rpccookiefile:
        return os.path.join(folder, "regtest", given.rpccookiefile) if folder else str(given.rpccookiefile)
    return os.path.join(folder, ".cookie") if folder else os.path.expanduser(f"~/.wakotehu/.cookie-{port}")


def _bake(given: argparse.Namespace, gate: Gate, port: int) -> Tuple[str, str]:
    """Writes the cookie and lets in who knows it: its path, and the password."""
    path = _cookie_path(given, port)
    os.makedirs(os.path.dirname(path) or ".", mode=0o700, exist_ok=True)
    password = write_cookie(path)
    gate.add(COOKIE_USER, password)
    if given.datadir and not given.rpccookiefile:
        _link_cookie(given.datadir)
    return path, password


def _link_cookie(folder: str) -> None:
    """Has `bitcoin-cli -regtest -datadir=FOLDER` find the cookie: it looks into the folder `regtest` there."""
    os.makedirs(os.path.join(folder, "regtest"), mode=0o700, exist_ok=True)
    link = os.path.join(folder, "regtest", ".cookie")
    if not os.path.lexists(link):
        os.symlink(os.path.join("..", ".cookie"), link)


def _bench(given: argparse.Namespace, folder: Optional[Folder]) -> NodeBench:
    if given.replica is not None:
        return ReplicaBench(given.replica, workers=given.workers, durable=not given.replica_not_durable)
    verify = Verifier().verdicts if given.table is None else None
    table = None
    if given.table is not None:
        with open(given.table, "rb") as file:
            table = file.read()

    def opened(heights: Optional[Sequence[int]], known: bytes, datadir: Optional[str], sync: bool) -> NodeBench:
        signatures = known if table is None else table
        return NodeBench(heights, signatures, workers=given.workers, verify=verify, datadir=datadir, sync=sync)

    if folder is None:
        return opened(given.heights, b"", None, True)
    return folder.open(Opening(given.heights, table, given.fsync, opened))


def _give_memory_back() -> None:
    """Has the allocator of C give large pieces back to the system as they are freed. By itself it keeps what one of 32 MB,
    as a request's body may be, was in, for each thread."""
    try:
        ctypes.CDLL(None).mallopt(_MMAP_THRESHOLD, 1 << 20)
    except AttributeError:
        pass  # Another library of C.


def _collect_seldom() -> None:
    """Has Python look for cycles among objects seldom: next to none are made here, and answers of many objects would each have
    all others looked through, while every thread waits."""
    gc.freeze()
    gc.set_threshold(100_000, 50, 100)


@contextlib.contextmanager
def _published(given: argparse.Namespace) -> Iterator[Optional[notices.Publisher]]:
    """What tells of blocks, where that is asked for."""
    if not given.notices and not given.blocknotify:
        yield None
        return
    publisher = notices.Publisher(given.notices, given.blocknotify or "")
    try:
        yield publisher
    finally:
        publisher.close()


def _run(given: argparse.Namespace, folder: Optional[Folder], cookies: List[Tuple[str, str]], signals: Signals) -> None:
    """Serves until the end. The cookies that are written are added."""
    gate, has_cookie = _gate(given)
    with _published(given) as publisher, _bench(given, folder) as bench:
        signals.raises = False
        if folder:
            print(f"{bench.loaded} commands of {given.datadir} were taken again", flush=True)
        hosts = list(dict.fromkeys(host.strip("[]") for host in given.rpcbind)) or ["127.0.0.1"]

        def ready(port: int) -> None:
            if has_cookie:
                cookies.append(_bake(given, gate, port))
            print(f"127.0.0.1:{port}" + "".join(f" cookie {path}" for path, _ in cookies), flush=True)
            if given.page:
                print(f"the page is http://127.0.0.1:{port}{PATH}", flush=True)

        _collect_seldom()
        node = Node(bench, given.maxmempool * 1_000_000, given.txindex, given.mempoolfullrbf)
        node.mempool.policy = None if given.acceptnonstdtxn else policy
        if folder and given.persistmempool:
            node.saves_to = os.path.join(given.datadir, MEMPOOL)
            with node.turn:
                if not saved.load(node, node.saves_to, lambda: signals.came):
                    return
        own = Settings(given.keypool, given.fallbackfee)
        node.wallets = wallets.Wallets(node, os.path.join(given.datadir, wallets.FOLDER) if folder else None, own)
        node.wallets.start(given.wallet)
        node.publisher = publisher
        node.filters = filters.FilterIndex() if given.blockfilterindex else None
        serve(node, gate, hosts, given.rpcport, ready, Page(node) if given.page else None, lambda: signals.came)
        node.wallets.close()
        if node.saves_to is not None and not node.broken:
            with node.turn:
                saved.save(node, node.saves_to)
        if node.broken:
            raise Error(node.broken)


def main(words: Optional[Sequence[str]] = None) -> None:
    """The command, which takes SIGINT and SIGTERM."""
    signals = Signals()
    cookies: List[Tuple[str, str]] = []
    try:
        given = _given(sys.argv[1:] if words is None else words)
        _give_memory_back()
        if given.datadir:
            with Folder(given.datadir) as folder:
                _run(given, folder, cookies, signals)
        else:
            _run(given, None, cookies, signals)
    except (BadFolder, Error, OSError, ValueError, notices.BadNotice) as error:
        sys.exit(f"wakotehu-server: {error}")
    except KeyboardInterrupt:
        pass
    except RuntimeError:
        # What it cut short may not have held its lock any more.
        if not signals.came:
            raise
    finally:
        for path, password in cookies:
            remove_cookie(path, password)


if __name__ == "__main__":
    main()
