"""The wallets of a server: their files, which are in the folder `wallets` of -datadir, and which of them a call is of. A wallet's own
lock is taken when the turn is let go, so no call on a wallet holds up others."""

import json
import os
import re
import sqlite3
import sys
import threading
from contextlib import contextmanager
from typing import Any, Dict, Iterator, List, Optional, Sequence, Tuple

from ..chainstate import Coin
from ..errors import DecodeFailed, NotAccepted
from ..wallet import Settings, Wallet
from ..wallet.hosts import IndexHost, Seen
from ..wallet.store import is_whole
from .errors import (
    INVALID_PARAMETER, WALLET_ENCRYPTION_FAILED, WALLET_ERROR, WALLET_NOT_FOUND, WALLET_NOT_SPECIFIED, RpcError,
)  # fmt: skip
from .node import Node, call
from .values import Object, boolean, text

GROUP = "Wallet"
#: The folder of the wallets' files, how their names end, and the file that says which are loaded at the start.
FOLDER, END, STARTUP = "wallets", ".sqlite", "startup.json"
#: A name is that of a file.
_NAME = re.compile(r"(?!\.)[^/\\\0]{1,100}|", re.DOTALL)
_FAILED = "Wallet file verification failed. "


class ServedHost(IndexHost):
    """The chainstate of a server, with its mempool. Who calls doesn't hold the turn."""

    def __init__(self, node: Node) -> None:
        super().__init__(node.bench)
        self.node = node

    def now(self) -> int:
        return self.node.now()

    def seen(self, changes: int) -> Seen:
        with self.node.turn:
            self.node.expect_running()
            pool = self.node.mempool
            pool.settle()
            entries = None if pool.changes == changes else dict(pool.entries)
            return Seen(self.node.bench.best(), entries, pool.changes)

    def send(self, data: bytes) -> None:
        with self.node.turn, self.node.mempool.used():
            self.node.mempool.add(self.node.mempool.judge(data))

    def coins_at(self, outpoints: Sequence[Tuple[bytes, int]]) -> List[Optional[Coin]]:
        if not outpoints:
            return []
        with self.node.turn:
            return self.node.bench.coins_at(outpoints)


class Wallets:
    """The wallets of a server.

    folder: where their files are; without one they live until the server ends, loaded or not.
    """

    def __init__(self, node: Node, folder: Optional[str] = None, settings: Settings = Settings()) -> None:
        self.node, self.folder, self.settings = node, folder, settings
        self.loaded: Dict[str, Wallet] = {}
        self._others: Dict[str, Wallet] = {}
        #: Held by who loads a wallet, or unloads one.
        self.changing = threading.Lock()
        if folder is not None:
            os.makedirs(folder, mode=0o700, exist_ok=True)

    def path(self, name: str) -> str:
        """Where a wallet is, as faults name it."""
        return os.path.join(self.folder or "", name)

    def _file(self, name: str) -> Optional[str]:
        return None if self.folder is None else os.path.join(self.folder, name + END)

    def is_there(self, name: str) -> bool:
        """Whether there is a wallet of a name, loaded or not."""
        file = self._file(name)
        return name in self.loaded or name in self._others or (file is not None and is_whole(file))

    def names(self) -> List[str]:
        """All wallets, loaded or not."""
        if self.folder is None:
            return sorted({*self.loaded, *self._others})
        return sorted(name[: -len(END)] for name in os.listdir(self.folder) if name.endswith(END))

    def create(self, name: str, is_blank: bool, has_private: bool) -> Wallet:
        """A new wallet, which is loaded."""
        if not _NAME.fullmatch(name) or len(name.encode()) > 200:
            raise RpcError(WALLET_ERROR, f"{_FAILED}A wallet's name is that of a file here")
        if self.is_there(name):
            message = f"{_FAILED}Failed to create database path '{self.path(name)}'. Database already exists."
            raise RpcError(WALLET_ERROR, message)
        try:
            found = Wallet(
                ServedHost(self.node), path=self._file(name), name=name, is_blank=is_blank, has_private=has_private,
                settings=self.settings,
            )  # fmt: skip
        except (OSError, sqlite3.Error) as error:
            raise RpcError(WALLET_ERROR, f"{_FAILED}{error}") from error
        self.loaded[name] = found
        return found

    def load(self, name: str) -> Wallet:
        """Loads a wallet; what it sent that isn't mined waits again, if it may."""
        if name in self.loaded:
            message = f"{_FAILED}Refusing to load database. Data file '{self.path(name)}' is already loaded."
            raise RpcError(WALLET_ERROR, message)
        if not _NAME.fullmatch(name) or not self.is_there(name):
            message = f"{_FAILED}Failed to load database path '{self.path(name)}'. Path does not exist."
            raise RpcError(WALLET_NOT_FOUND, message)
        found = self._others.pop(name, None)
        if found is None:
            try:
                found = Wallet(ServedHost(self.node), path=self._file(name), settings=self.settings)
            except (OSError, sqlite3.Error, KeyError, ValueError) as error:
                raise RpcError(WALLET_ERROR, f"{_FAILED}Data file '{self.path(name)}' can't be read: {error}") from error
            found.name = name
        self.loaded[name] = found
        self._send_again(found)
        return found

    def _send_again(self, wallet: Wallet) -> None:
        with wallet.used():
            ledger = wallet.ledger
            for own in sorted((ledger.records[id] for id in ledger.pending), key=lambda it: it.order):
                if own.id not in ledger.waiting and ledger.is_live(own) and not own.tx.is_coinbase:
                    try:
                        wallet.host.send(own.data)
                    except (NotAccepted, DecodeFailed):
                        pass

    def unload(self, name: str) -> None:
        """Unloads a wallet."""
        found = self.loaded.pop(name, None)
        if found is None:
            # One without a file is forgotten then, so that tests may have the name again.
            self._others.pop(name, None)
            raise RpcError(WALLET_NOT_FOUND, "Requested wallet does not exist or is not loaded")
        if self.folder is None:
            self._others[name] = found
        found.close()

    def close(self) -> None:
        """Closes all files."""
        for wallet in self.loaded.values():
            wallet.close()

    # ---- which are loaded at the start

    def start(self, names: Sequence[str]) -> None:
        """Loads those that are named, and those that are loaded at each start; what can't be is said on standard error."""
        for name in dict.fromkeys([*names, *self.at_start()]):
            try:
                self.load(name)
            except RpcError as error:
                print(f"wakotehu-server: wallet {name[:100]!r} isn't loaded: {error}", file=sys.stderr)

    def at_start(self) -> List[str]:
        """Those that are loaded at the start."""
        try:
            with open(os.path.join(self.folder or "", STARTUP)) as file:
                found = json.load(file)
            return [name for name in found if isinstance(name, str)] if isinstance(found, list) else []
        except (OSError, ValueError):
            return []

    def set_at_start(self, name: str, given: Any) -> None:
        """Whether one is loaded at the start from now on; null changes nothing."""
        if given is None or self.folder is None:
            return
        names = [it for it in self.at_start() if it != name] + [name] * given
        path = os.path.join(self.folder, STARTUP)
        with open(path + ".new", "w") as file:
            json.dump(names, file)
        os.replace(path + ".new", path)


def wallets_of(node: Node) -> Wallets:
    """The wallets of a server; where it was given none, they have no files."""
    if node.wallets is None:
        node.wallets = Wallets(node)
    found: Wallets = node.wallets
    return found


def named(node: Node) -> Optional[Wallet]:
    """The wallet of a call: the one that the path names, or the only one; None where none is loaded, nor named."""
    name, loaded = node.wallet_name, wallets_of(node).loaded
    if name is not None:
        if name not in loaded:
            raise RpcError(WALLET_NOT_FOUND, "Requested wallet does not exist or is not loaded")
        return loaded[name]
    found = list(loaded.values())
    if len(found) > 1:
        message = "Wallet file not specified (must request wallet RPC through /wallet/<filename> uri-path)."
        raise RpcError(WALLET_NOT_SPECIFIED, message)
    return found[0] if found else None


def wallet_of(node: Node) -> Wallet:
    """The same, where there has to be one."""
    found = named(node)
    if found is None:
        message = ("No wallet is loaded. Load a wallet using loadwallet or create a new one with createwallet. (Note: A default"
                   " wallet is no longer automatically created)")  # fmt: skip
        raise RpcError(WALLET_NOT_FOUND, message)
    return found


@contextmanager
def using(node: Node) -> Iterator[Wallet]:
    """The wallet of a call, as the chain is now; other calls run meanwhile, but those on this wallet."""
    wallet = wallet_of(node)
    with node.others(), wallet.used():
        yield wallet


@call(
    GROUP, "wallet_name", "disable_private_keys", "blank", "passphrase", "avoid_reuse", "descriptors", "load_on_startup", needed=1,
)  # fmt: skip
def createwallet(
    node: Node, wallet_name: Any, disable_private_keys: Any, blank: Any, passphrase: Any, avoid_reuse: Any, descriptors: Any,
    load_on_startup: Any,
) -> Object:  # fmt: skip
    """Creates a wallet and loads it: for tests, with its keys in the clear. Each has descriptors; blank has none yet."""
    name = text(wallet_name)
    flags = [it is not None and boolean(it) for it in (disable_private_keys, blank, avoid_reuse, descriptors)]
    start = None if load_on_startup is None else boolean(load_on_startup)
    words = "" if passphrase is None else text(passphrase)
    if words and flags[0]:
        message = ("Passphrase provided but private keys are disabled. A passphrase is only used to encrypt private keys, so"
                   " cannot be used for wallets with private keys disabled.")  # fmt: skip
        raise RpcError(WALLET_ERROR, message)
    if words:
        raise RpcError(WALLET_ENCRYPTION_FAILED, "Error: Wallets aren't encrypted here, their keys are in the clear")
    if flags[2]:
        raise RpcError(WALLET_ERROR, "Error: avoid_reuse isn't supported")
    wallets = wallets_of(node)
    with _managing(node):
        wallets.create(name, flags[1], not flags[0])
        wallets.set_at_start(name, start)
    warning = "Empty string given as passphrase, wallet will not be encrypted." if passphrase == "" else ""
    return {"name": name, "warning": warning}


@contextmanager
def _managing(node: Node) -> Iterator[None]:
    """One call at a time changes which wallets there are; others run meanwhile."""
    with node.others(), wallets_of(node).changing:
        yield


@call(GROUP, "filename", "load_on_startup", needed=1)
def loadwallet(node: Node, filename: Any, load_on_startup: Any) -> Object:
    """Loads a wallet."""
    name, start = text(filename), None if load_on_startup is None else boolean(load_on_startup)
    wallets = wallets_of(node)
    with _managing(node):
        wallets.load(name)
        wallets.set_at_start(name, start)
    return {"name": name, "warning": ""}


@call(GROUP, "wallet_name", "load_on_startup")
def unloadwallet(node: Node, wallet_name: Any, load_on_startup: Any) -> Object:
    """Unloads a wallet: the one that is named, or that the path names."""
    name = node.wallet_name
    if name is not None and wallet_name is not None:
        message = "Both the RPC endpoint wallet and wallet_name parameter were provided (only one allowed)"
        raise RpcError(INVALID_PARAMETER, message)
    name = text(wallet_name) if name is None else name
    start = None if load_on_startup is None else boolean(load_on_startup)
    wallets = wallets_of(node)
    with _managing(node):
        wallets.unload(name)
        wallets.set_at_start(name, start)
    return {"warning": ""}


@call(GROUP)
def listwallets(node: Node) -> List[str]:
    """The wallets that are loaded."""
    return list(wallets_of(node).loaded)


@call(GROUP)
def listwalletdir(node: Node) -> Object:
    """The wallets that may be loaded."""
    wallets = wallets_of(node)
    with node.others():
        return {"wallets": [{"name": name} for name in wallets.names()]}


def rescanned(node: Node, wallet: Wallet, start: int, stop: Optional[int]) -> int:
    """Looks for the wallet's coins in active blocks; the turn isn't held. The height of the last one."""
    return wallet.rescan(start, stop, lambda: node.stopped)
