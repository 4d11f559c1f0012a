"""A wallet for tests on regtest. Its keys are kept in the clear: whoever reads its file, or this process, can spend its coins."""

import os
import sqlite3
import threading
import time
from contextlib import contextmanager
from dataclasses import replace
from typing import Any, Callable, Dict, Iterator, List, NamedTuple, Optional, Sequence, Set, Tuple, Union

from .. import arguments
from ..addresses import script_of
from ..chainstate import show
from ..encoding import Input, Output, Transaction, block_at_front, read_header, read_transaction
from ..errors import DecodeFailed, NotAccepted
from ..pool import Pool
from ..replacing import REPLACEABLE, money, rate, signals
from ..rpc.descriptors import Script, Underivable, curve
from ..rpc.errors import (
    INSUFFICIENT_FUNDS, INVALID_ADDRESS_OR_KEY, INVALID_PARAMETER, KEYPOOL_RAN_OUT, MISC_ERROR, WALLET_ERROR, WALLET_NOT_FOUND,
)  # fmt: skip
from ..rpc.signing import Keys, Means, sign_inputs
from ..rpc.values import MAX_MONEY, Object
from .coins import Balances, Coin, Ledger, Outpoint, Record
from .errors import WalletError
from .funding import FALLBACK, Funded, Payment, Plan, Purse, fund
from .hosts import PART, Host, host_of
from .keys import DEFAULT_TYPE, KEYPOOL, TYPES, Owned, destination, expect_type, first_descriptors, read
from .store import Kept, Store, changed, is_whole, restored

#: The bytes of a seed (BIP 32).
SEED, LEAST_SEED, MOST_SEED = 32, 16, 64
#: What a bumped transaction pays more for 1,000 bytes, in satoshis (Bitcoin Core's `WALLET_INCREMENTAL_RELAY_FEE`).
BUMP = 5000
#: Blocks that were made so many seconds before a key may have its coins (`TIMESTAMP_WINDOW`).
WINDOW = 7200
#: So many scripts are remembered with their keys; so many a wallet has.
MOST_SCRIPTS, MOST_OWN = 10_000, 2_000_000
NO_KEYS = "Error: This wallet has no available keys"


class Settings(NamedTuple):
    """What wallets are opened with: how many keys are known beyond the last used one, and the rate where nobody says one."""

    keypool: int = KEYPOOL
    fallback: int = FALLBACK


class Bumped(NamedTuple):
    """A replacement: its id, and what the transaction that it replaces and itself pay, in satoshis."""

    id: bytes
    old_fee: int
    fee: int


class Wallet:
    """A wallet on a chainstate: its blocks are taken up when the wallet is used next. Any thread may call it.

    chain: a `Bench`, a `NodeBench`, a `Node`, a `Replica` or a seat of these.
    pool: where transactions are sent to; without one the caller mines them (`transaction`).
    seed: 16 to 64 bytes, of which all keys are derived (BIP 32); 32 at random by default.
    path: the file that keeps it, which is made where it isn't there. Without one it lives as long as this object.
    name, is_blank, has_private: of a new wallet: its name, whether it begins without keys, and whether it may have private ones.
    """

    def __init__(
        self, chain: Any, pool: Optional[Pool] = None, seed: Optional[bytes] = None, path: Optional[arguments.Path] = None,
        name: str = "", is_blank: bool = False, has_private: bool = True, settings: Settings = Settings(),
    ) -> None:  # fmt: skip
        seed = None if seed is None else arguments.octets(seed, "seed")
        if seed is not None and not LEAST_SEED <= len(seed) <= MOST_SEED:
            raise ValueError(f"seed must have from {LEAST_SEED} to {MOST_SEED} bytes, not {len(seed)}")
        arguments.instance(settings, Settings, "settings")
        self.name, self.settings = arguments.text(name, "name"), settings
        self.has_private, self.is_blank = arguments.flag(has_private, "has_private"), arguments.flag(is_blank, "is_blank")
        if pool is not None:
            arguments.instance(pool, Pool, "pool")
        file = None if path is None else arguments.path(path, "path")
        is_new = file is None or not is_whole(file)
        self._begin(chain if hasattr(chain, "seen") else host_of(chain, pool))
        self.store = None if file is None else Store(file)
        if is_new:
            if has_private and not is_blank:
                self._add_first(os.urandom(SEED) if seed is None else seed)
        else:
            assert self.store is not None, "its file is there"
            self._restore(self.store.read())
        self.keep()

    def _begin(self, host: Host) -> None:
        """A wallet of nothing."""
        self.host, self.lock = host, threading.RLock()
        best = host.seen(-1).best
        self.owned: Dict[int, Owned] = {}
        #: The numbers of descriptors by their texts without private keys.
        self._texts: Dict[str, int] = {}
        #: The numbers of those that give addresses, by the type of these and whether they are for change.
        self._active: Dict[Tuple[str, bool], int] = {}
        #: Of each script the number of its descriptor, its place there, and which of the place's scripts it is.
        self._scripts: Dict[bytes, Tuple[int, int, int]] = {}
        self._cache: Dict[bytes, Script] = {}
        self.ledger = Ledger(self._scripts.__contains__, best, host.height(best))
        #: The labels of scripts, each with its purpose: "receive" or "send".
        self.labels: Dict[bytes, Tuple[str, str]] = {}
        self.locked: Dict[Outpoint, None] = {}
        #: What settxfee sets, in satoshis for 1,000 bytes; and whether a rescan runs: since when, and how far it is.
        self.rate = 0
        self.scanning: Optional[Tuple[float, float]] = None
        self._aborts = False
        self._heard: Set[bytes] = set()
        self._changes = -2
        self._is_closed = False
        #: What isn't kept yet, and what was kept last.
        self._unkept: Dict[str, Dict[Any, None]] = {"owned": {}, "labels": {}}
        self._kept_meta: Object = {}

    def _add_first(self, seed: bytes) -> None:
        for type, row in TYPES.items():
            for is_internal in (False, True) if row.descriptor else ():
                self.add(first_descriptors(seed, type, is_internal), self.host.now(), is_active=True, is_internal=is_internal)

    # ---- its file

    def _restore(self, kept: Kept) -> None:
        self.name, self.has_private, self.is_blank = kept.meta["name"], bool(kept.meta["private"]), bool(kept.meta["blank"])
        self.labels = kept.labels
        self.ledger.advance(kept.meta["best"], kept.meta["height"])
        for own in kept.descriptors:
            self.owned[own.number] = own
            self._texts[own.found.text] = own.number
            self._make_active(own)
            self._learn(own)
        restored(self.ledger, kept)

    def keep(self) -> None:
        """Writes what changed into the file."""
        if self.store is None:
            return
        records, conflicts = changed(self.ledger)
        labels = {script: self.labels[script] for script in self._unkept["labels"]}
        meta = self._meta()
        if self._kept_meta != meta or records or self._unkept["owned"] or self._unkept["labels"]:
            kept = Kept(meta, [self.owned[it] for it in self._unkept["owned"]], records, conflicts, labels)
            try:
                self.store.write(kept)
            except sqlite3.Error as error:
                raise WalletError(WALLET_ERROR, f"Error: The wallet's file can't be written: {error}") from error
        self._kept_meta = meta
        self.ledger.changed.clear()
        self._unkept = {"owned": {}, "labels": {}}

    def _meta(self) -> Object:
        return {"name": self.name, "private": self.has_private, "blank": self.is_blank, "best": self.ledger.best,
                "height": self.ledger.height}  # fmt: skip

    def close(self) -> None:
        """Closes its file; the wallet isn't used any more. One without a file stays as it is."""
        with self.lock:
            if self.store is not None:
                self.keep()
                self.store.close()
                self.store, self._is_closed = None, True

    def backup(self, path: arguments.Path) -> None:
        """Writes a copy of it into a file."""
        path = arguments.path(path, "path")
        with self.used():
            self.keep()
            if self.store is not None:
                self.store.copy_to(path)
                return
            ledger, other = self.ledger, Store(None)
            try:
                conflicts = [(id, *it) for id in ledger.records for it in ledger.conflicts_of(id).items()]
                other.write(Kept(self._meta(), list(self.owned.values()), ledger.in_order(), conflicts, self.labels))
                other.copy_to(path)
            finally:
                other.close()

    def copy(self, chain: Any, pool: Optional[Pool] = None) -> "Wallet":
        """The same wallet on a copy of its chain, without a file. Each then goes its own way."""
        if pool is not None:
            arguments.instance(pool, Pool, "pool")
        with self.lock:
            found = Wallet.__new__(Wallet)
            found.name, found.settings, found.store = self.name, self.settings, None
            found.has_private, found.is_blank = self.has_private, self.is_blank
            found._begin(host_of(chain, pool))
            found.owned = {number: replace(own) for number, own in self.owned.items()}
            found._scripts.update(self._scripts)
            found._texts, found._active = dict(self._texts), dict(self._active)
            found.ledger = self.ledger.copy(found._scripts.__contains__)
            found.labels, found.locked, found.rate = dict(self.labels), dict(self.locked), self.rate
            return found

    # ---- the chain

    @contextmanager
    def used(self) -> Iterator["Wallet"]:
        """The wallet as its chain is now, for one thread; what it changes is kept."""
        with self.lock:
            if self._is_closed:
                raise WalletError(WALLET_NOT_FOUND, "Requested wallet does not exist or is not loaded")
            self.follow()
            try:
                yield self
            finally:
                self.keep()

    def follow(self) -> None:
        """Takes up what its chain did: block by block, undoing those that left and doing those that came."""
        with self.lock:
            seen, ledger = self.host.seen(self._changes), self.ledger
            if seen.best != ledger.best:
                self._move(seen.best)
            if seen.waiting is not None:
                self._hear(seen.waiting)
            elif seen.changes == -1:
                ledger.set_waiting({id for id in ledger.pending if self._may_wait(ledger.records[id])})
            self._changes = seen.changes

    def _may_wait(self, record: Record) -> bool:
        """Whether one waits where no pool says it."""
        return self.ledger.is_live(record) and not record.tx.is_coinbase and "replaced_by_txid" not in record.notes

    def _move(self, best: bytes) -> None:
        ledger, height = self.ledger, self.host.height(best)
        way = self.host.way(ledger.best, best)
        if way is None:
            # It comes from another chain: all is done anew.
            for id in ledger.blocks():
                ledger.disconnect(id)
            self._scan(best, 1, height)
        else:
            for id in way.gone:
                ledger.disconnect(id)
            for place, id in enumerate(way.come, height + 1 - len(way.come)):
                self._connect(id, place)
        ledger.advance(best, height)

    def _scan(self, best: bytes, low: int, high: int) -> None:
        for begin in range(low, high + 1, PART):
            for height, id in enumerate(self.host.ids(best, begin, min(begin + PART - 1, high)), begin):
                self._connect(id, height)

    def _connect(self, id: bytes, height: int) -> None:
        records = self.ledger.connect(block_at_front(self.host.block(id)), id, height, self.host.now())
        self._use(out.script for own in records for out in own.tx.outputs)

    def _hear(self, waiting: Any) -> None:
        """Takes up what waits to be mined."""
        for id in [id for id in waiting if id not in self._heard]:
            entry = waiting[id]
            record = self.ledger.take(id, entry.tx, entry.data, entry.time)
            if record is not None:
                self.ledger.revive(record)
                self._use(out.script for out in record.tx.outputs)
        self._heard = set(waiting)
        self.ledger.set_waiting({id for id in self.ledger.pending if id in waiting})

    def rescan(
        self, start: int = 0, stop: Optional[int] = None, is_ending: Optional[Callable[[], bool]] = None
    ) -> int:  # fmt: skip
        """Looks for the wallet's transactions in active blocks from a height on, up to another or to the last: that height. Other
        threads use the wallet meanwhile. It ends with a `WalletError` where `is_ending` or `abort_rescan` says so."""
        height, began = max(1, arguments.number(start, "start")), time.monotonic()
        stop = None if stop is None else arguments.number(stop, "stop")
        if is_ending is not None and not callable(is_ending):
            raise TypeError(f"is_ending must be a function, not {type(is_ending).__name__}")
        with self.lock:
            if self.scanning is not None:
                raise WalletError(WALLET_ERROR, "Wallet is currently rescanning. Abort existing rescan or wait.")
            self.scanning, self._aborts = (began, 0.0), False
        try:
            while not self._aborts and (is_ending is None or not is_ending()):
                with self.used():
                    last = self.ledger.height if stop is None else min(stop, self.ledger.height)
                    if height > last:
                        return last if stop is None else stop
                    self.scanning = began, (height - start) / max(1, last - start + 1)
                    self._scan(self.ledger.best, height, min(height + PART - 1, last))
                height += PART
            raise WalletError(MISC_ERROR, "Rescan aborted.")
        finally:
            self.scanning = None

    def abort_rescan(self) -> bool:
        """Has a rescan end, which raises there: whether one runs that wasn't told so before."""
        # A rescan holds the lock for a part.
        if self.scanning is None or self._aborts:
            return False
        self._aborts = True
        return True

    def scan_state(self) -> Optional[Tuple[float, float]]:
        """How long a rescan runs, in seconds, and how far it is, up to 1; None where none does."""
        return None if self.scanning is None else (time.monotonic() - self.scanning[0], self.scanning[1])

    def height_at(self, timestamp: int) -> int:
        """The height from which on blocks may have the coins of a key of a moment: of the first whose time is late enough."""
        with self.used():
            high = self.ledger.height if timestamp > WINDOW else 0
            for begin in range(1, high + 1, PART):
                ids = self.host.ids(self.ledger.best, begin, min(begin + PART - 1, high))
                for height, id in enumerate(ids, begin):
                    if read_header(self.host.block(id)[:80]).time >= timestamp - WINDOW:
                        return height
            return high + 1

    # ---- scripts and keys

    def add(
        self, text: str, timestamp: int, low: int = 0, high: int = 0, next: int = 0, is_active: bool = False,
        is_internal: bool = False,
    ) -> Owned:  # fmt: skip
        """Adds a descriptor, or more places of one that is there; an active one gives addresses from now on. The chain isn't
        looked through. `Underivable` where a key of it can't be derived."""
        with self.lock:
            number = self._texts.get(read(text).text, len(self.owned) + 1)
            own = Owned(number, text, timestamp, low, high, next)
            if number in self.owned:
                own = replace(self.owned[number])
            own.timestamp = min(own.timestamp, timestamp)
            own.low, own.high, own.next = min(own.low, low), max(own.high, high), max(own.next, next)
            own.text, own.is_active, own.is_internal, own.known = text, is_active, is_internal, own.low
            if own.found.is_range:
                own.high = max(own.high, own.next + self.settings.keypool)
            self._learn(own)
            self.owned[number], self._texts[own.found.text] = own, number
            # Those with the same keys may have no private ones; what waits may pay to them.
            self._cache.clear()
            self._heard, self._changes = set(), -2
            self._make_active(own)
            self._unkept["owned"][own.number] = None
            return own

    def _make_active(self, own: Owned) -> None:
        """It gives the addresses of its type from now on, or no more."""
        kind = own.type or "", own.is_internal
        before = self._active.get(kind)
        if own.is_active and before is not None and before != own.number:
            self.owned[before].is_active = False
            self._unkept["owned"][before] = None
        self._active = {it: number for it, number in self._active.items() if number != own.number}
        if own.is_active:
            self._active[kind] = own.number

    def _learn(self, own: Owned) -> None:
        """Knows the scripts of a descriptor's range."""
        high = own.high if own.found.is_range else own.low + 1
        if len(self._scripts) + high - max(own.known, own.low) > MOST_OWN:
            raise WalletError(WALLET_ERROR, f"A wallet has at most {MOST_OWN} scripts")
        for place in range(max(own.known, own.low), high):
            for which, script in enumerate(own.scripts(place)):
                if script.code not in self._scripts:
                    self._scripts[script.code] = own.number, place, which
                    self.ledger.claim(script.code)
        own.known = max(own.known, high)

    def _use(self, scripts: Iterator[bytes]) -> None:
        """Some scripts were paid to: their places are given to nobody else."""
        for script in scripts:
            at = self._scripts.get(script)
            if at is not None:
                self._used(self.owned[at[0]], at[1])

    def _used(self, own: Owned, place: int) -> None:
        if own.found.is_range and place >= own.next:
            own.next = place + 1
            self._unkept["owned"][own.number] = None
            self.refill(own)

    def refill(self, own: Owned, keypool: Optional[int] = None) -> None:
        """Has so many keys of a descriptor known beyond the last used one."""
        high = own.next + (self.settings.keypool if keypool is None else keypool)
        if own.found.is_range and high > own.high:
            own.high = high
            try:
                self._learn(own)
            except Underivable:
                own.high = own.known
            self._unkept["owned"][own.number] = None

    def key_for(self, script: bytes) -> Optional[Script]:
        """A script of the wallet with its keys, their origins and secrets, and with the script whose hash it pays to; None for
        another one."""
        script = arguments.octets(script, "script")
        at = self._scripts.get(script)
        if at is None:
            return None
        if script not in self._cache:
            if len(self._cache) >= MOST_SCRIPTS:
                self._cache.clear()
            self._cache[script] = self.owned[at[0]].scripts(at[1])[at[2]]
        return self._cache[script]

    def owner(self, script: bytes) -> Optional[Owned]:
        """The descriptor that a script is of."""
        at = self._scripts.get(script)
        return None if at is None else self.owned[at[0]]

    def is_solvable(self, script: bytes) -> bool:
        """Whether it is known how the script is spent, if the keys are there."""
        own = self.owner(script)
        return own is not None and own.found.is_solvable

    def is_change(self, script: bytes) -> bool:
        """Whether an output is the wallet's change: nobody was told of it (`IsChange`)."""
        return script in self._scripts and script not in self.labels

    def active(self, type: str, is_internal: bool) -> Optional[Owned]:
        """The descriptor that gives addresses of a type."""
        number = self._active.get((type, is_internal))
        return None if number is None else self.owned[number]

    def new_script(self, type: str = DEFAULT_TYPE, is_internal: bool = False, is_taken: bool = True) -> bytes:
        """The next script of a type; one that isn't taken is given again."""
        own = self.active(type, is_internal)
        if own is None:
            if not self._active:
                raise WalletError(WALLET_ERROR, NO_KEYS)
            expect_type(type)
            raise WalletError(KEYPOOL_RAN_OUT, f"Error: No {type} addresses available.")
        try:
            script = own.scripts(own.next)[0].code
        except Underivable:
            raise WalletError(KEYPOOL_RAN_OUT, "Error: Keypool ran out, please call keypoolrefill first") from None
        if is_taken:
            self._used(own, own.next)
        return script

    def address(self, label: str = "", type: str = DEFAULT_TYPE) -> str:
        """A new address, with a label."""
        label, type = arguments.text(label, "label"), arguments.text(type, "type")
        with self.used():
            expect_type(type)
            script = self.new_script(type)
            self.set_label(script, label, "receive")
            found = destination(script)
            assert found is not None, "scripts of types have addresses"
            return found

    def set_label(self, script: bytes, label: str, purpose: str) -> None:
        """Gives a script a label."""
        self.labels[script] = label, purpose
        self._unkept["labels"][script] = None

    # ---- what it has

    def balance(self, least_depth: int = 0) -> int:
        """The satoshis that it can pay with: of mined transactions at some depth, and of its own that wait."""
        with self.used():
            return self.ledger.balances(arguments.number(least_depth, "least_depth")).trusted

    def balances(self) -> Balances:
        """What is trusted; what waits that others sent; and what coinbases have that aren't deep enough."""
        with self.used():
            return self.ledger.balances()

    def unspent(self) -> List[Coin]:
        """Its coins, the oldest first, those that wait last."""
        with self.used():
            return [it for it in self.ledger.available() if it.outpoint not in self.locked]

    def transaction(self, id: bytes) -> bytes:
        """The bytes of a transaction of the wallet; `WalletError` for another one."""
        with self.used():
            return self.record(arguments.id_of(id)).data

    def record(self, id: bytes) -> Record:
        """What is known of a transaction of the wallet."""
        found = self.ledger.records.get(id)
        if found is None:
            raise WalletError(INVALID_ADDRESS_OR_KEY, "Invalid or non-wallet transaction id")
        return found

    # ---- payments

    def pay(self, to: Union[bytes, str], satoshis: int, rate: Optional[int] = None, is_replaceable: bool = False) -> bytes:
        """Pays to a script or an address, at a rate in satoshis for 1,000 bytes: the transaction's id. `WalletError` where the
        wallet can't."""
        script = script_of(arguments.text(to, "to")) if isinstance(to, str) else arguments.octets(to, "to")
        if script is None:
            raise ValueError(f"to must be a script or an address of regtest, not {to!r}")
        value = arguments.number(satoshis, "satoshis", 51, least=1)
        own = None if rate is None else arguments.number(rate, "rate", 51)
        sequence = REPLACEABLE if arguments.flag(is_replaceable, "is_replaceable") else REPLACEABLE + 1
        with self.used():
            plan = self.plan([Payment(Output(min(value, MAX_MONEY), script))], own)
            plan.sequence = sequence
            return self.send(self.fund(plan).tx)

    def plan(self, payments: Sequence[Payment], rate: Optional[int] = None) -> Plan:
        """How some payments are made where nothing else is said."""
        own = rate if rate is not None else self.rate or self.settings.fallback
        if rate is None and not own:
            message = "Fee estimation failed. Fallbackfee is disabled. Wait a few blocks or enable -fallbackfee."
            raise WalletError(INSUFFICIENT_FUNDS, message)
        return Plan(payments, own, self.change_script)

    def change_script(self, type: str = DEFAULT_TYPE) -> Optional[bytes]:
        """The script that change goes to next; None where the wallet has no keys for change."""
        try:
            return self.new_script(type, is_internal=True, is_taken=False)
        except WalletError:
            return None

    def fund(self, plan: Plan) -> Funded:
        """A transaction of a plan that isn't signed, by the wallet's coins that aren't locked."""
        found = fund(plan, Purse(self._free, self.output, self._solved))
        if found.change >= 0:
            self._use(iter([found.tx.outputs[found.change].script]))
        return found

    def _free(self) -> Iterator[Coin]:
        return (it for it in self.ledger.available() if it.outpoint not in self.locked)

    def _solved(self, script: bytes) -> Optional[Script]:
        return self.key_for(script) if self.is_solvable(script) else None

    def output(self, at: Outpoint) -> Optional[Output]:
        """An output of a transaction of the wallet."""
        record = self.ledger.records.get(at[0])
        return record.tx.outputs[at[1]] if record is not None and at[1] < len(record.tx.outputs) else None

    def sign(self, tx: Transaction, spent: Optional[Dict[Outpoint, bytes]] = None, kind: int = 1,
             redeems: Optional[Dict[bytes, bytes]] = None) -> Object:  # fmt: skip
        """The transaction with the signatures that the wallet can make: {"hex", "complete", "errors"}. `spent` has scripts of
        outputs that the wallet and the chain don't know, `redeems` scripts by their hashes."""
        places = [(it.id, it.index) for it in tx.inputs]
        known = {at: out.script for at in places for out in [self.output(at)] if out is not None}
        unknown = [at for at in places if at not in known and at not in (spent or {})]
        coins = zip(unknown, self.host.coins_at(unknown))
        scripts = {**known, **(spent or {}), **{at: coin.script for at, coin in coins if coin is not None}}
        keys, inner = Keys(), dict(redeems or {})
        for script in {scripts[at] for at in places if at in scripts}:
            self._add_keys(script, keys, inner)
        return sign_inputs(tx, scripts, Means(curve(), keys, inner, kind))

    def _add_keys(self, script: bytes, keys: Keys, inner: Dict[bytes, bytes]) -> None:
        """Adds what a script is spent by."""
        own = self.key_for(script) or self.key_for(inner.get(script[2:22], b""))
        if own is None:
            return
        if own.inner is not None:
            inner[script[2:22]] = own.inner
        for key in own.keys:
            keys.add(key.key, key.secret)

    def send(self, tx: Transaction, notes: Optional[Dict[str, str]] = None) -> bytes:
        """Signs a transaction of the wallet, keeps it, and has it wait: its id."""
        signed = self.sign(tx)
        if not signed["complete"]:
            raise WalletError(WALLET_ERROR, "Signing transaction failed")
        data = bytes.fromhex(signed["hex"])
        return self.commit(data, notes)

    def commit(self, data: bytes, notes: Optional[Dict[str, str]] = None) -> bytes:
        """Has a signed transaction wait, and keeps it."""
        try:
            self.host.send(data)
        except (NotAccepted, DecodeFailed) as error:
            raise WalletError(WALLET_ERROR, f"The transaction was rejected: {error}") from error
        tx = read_transaction(data)
        self.follow()
        record = self.ledger.take(tx.id, tx, data, self.host.now())
        if record is not None:
            record.notes.update({name: text for name, text in (notes or {}).items() if text})
            self.ledger.changed[record.id] = None
            self.follow()
        return tx.id

    # ---- fees

    def bump(self, id: bytes, rate: Optional[int] = None, is_replaceable: bool = True) -> Bumped:
        """Replaces a transaction of the wallet that waits by one that pays more (BIP 125)."""
        id = arguments.id_of(id)
        own = None if rate is None else arguments.number(rate, "rate", 51)
        arguments.flag(is_replaceable, "is_replaceable")
        with self.used():
            record = self.record(id)
            self._expect_bumpable(record)
            funded, old_fee = self._bumped(record, own, REPLACEABLE if is_replaceable else REPLACEABLE + 1)
            notes = {name: text for name, text in record.notes.items() if name in ("comment", "to")}
            found = self.send(funded.tx, {**notes, "replaces_txid": show(id)})
            record.notes["replaced_by_txid"] = show(found)
            self.ledger.changed[id] = None
            return Bumped(found, old_fee, funded.fee)

    def _expect_bumpable(self, record: Record) -> None:
        """What `feebumper::PreconditionChecks` tests."""
        ledger = self.ledger
        if ledger.children(record):
            raise WalletError(INVALID_PARAMETER, "Transaction has descendants in the wallet")
        if record.place is not None or ledger.depth(record) != 0:
            raise WalletError(WALLET_ERROR, "Transaction has been mined, or is conflicted with a mined transaction")
        if not signals(record):
            raise WalletError(WALLET_ERROR, "Transaction is not BIP 125 replaceable")
        if "replaced_by_txid" in record.notes:
            by = record.notes["replaced_by_txid"]
            message = f"Cannot bump transaction {show(record.id)} which was already bumped by transaction {by}"
            raise WalletError(WALLET_ERROR, message)
        if any((it.id, it.index) not in ledger.coins for it in record.tx.inputs):
            raise WalletError(WALLET_ERROR, "Transaction contains inputs that don't belong to this wallet")

    def _bumped(self, record: Record, rate_: Optional[int], sequence: int) -> Tuple[Funded, int]:
        """The replacement, and the fee of what it replaces."""
        tx, ledger = record.tx, self.ledger
        old_fee = ledger.debit(tx) - sum(out.value for out in tx.outputs)
        old_rate = rate(old_fee, len(record.data))
        if rate_ is not None and rate_ < old_rate + BUMP:
            size = len(record.data)
            paid, old, more = (each * size // 1000 for each in (rate_, old_rate, BUMP))
            message = (f"Insufficient total fee {money(paid)}, must be at least {money(old + more)} (oldFee {money(old)}"
                       f" + incrementalFee {money(more)})")  # fmt: skip
            raise WalletError(INVALID_PARAMETER, message)
        change = next((out for out in tx.outputs if self.is_change(out.script)), None)
        payments = [Payment(out) for out in tx.outputs if out is not change]
        own = max(old_rate + BUMP, self.settings.fallback) if rate_ is None else rate_
        plan = self.plan(payments or [Payment(out) for out in tx.outputs], own)
        plan.inputs = [Input(it.id, it.index, b"", sequence) for it in tx.inputs]
        plan.sequence, plan.least_depth = sequence, 1
        if change is not None and payments:
            script = change.script
            plan.change = lambda: script
        return self.fund(plan), old_fee

    def abandon(self, id: bytes) -> None:
        """A transaction that isn't mined, and doesn't wait in a pool, spends its coins no more."""
        with self.used():
            record = self.record(arguments.id_of(id))
            waits = self._changes != -1 and record.id in self.ledger.waiting
            if record.place is not None or self.ledger.depth(record) != 0 or waits:
                raise WalletError(INVALID_ADDRESS_OR_KEY, "Transaction not eligible for abandonment")
            self.ledger.abandon(record.id)
