"""What a wallet pays with. What tests may rely on: the fee is the rate for 1,000 bytes times the largest size that the signed
transaction may have, rounded up; mined coins are taken before those that wait, the oldest first; there is one change output or none,
and none that isn't worth its spending, which is added to the fee. Coins that aren't worth their fee are left; where
the oldest are too many for one transaction, the largest come first."""

from dataclasses import dataclass, field
from typing import Callable, Iterable, List, NamedTuple, Optional, Sequence

from ..encoding import Input, Output, Transaction, push, write_transaction
from ..rpc.descriptors import Script
from ..rpc.errors import INSUFFICIENT_FUNDS, INVALID_PARAMETER, WALLET_ERROR
from ..rpc.policy import MOST_SIZE, RELAY, dust
from ..replacing import REPLACEABLE
from ..rpc.scripts import is_script_hash, kind_of
from .coins import Coin, Outpoint
from .errors import WalletError

#: What is paid for 1,000 bytes where nothing else is said, in satoshis (-fallbackfee), and the most that one transaction pays
#: (-maxtxfee).
FALLBACK, MOST_FEE = 20_000, 10_000_000
#: The bytes of the longest signature with its hash type that Bitcoin Core makes, and of an input without its script.
SIGNATURE, INPUT = 71, 41
#: What is said of coins that aren't enough, and where no script is there for change.
NO_FUNDS = "Insufficient funds"
NO_CHANGE = "Transaction needs a change address, but we can't generate it. Please call keypoolrefill first."
#: As long as a script to a key's hash.
OTHER = bytes(25)


class Payment(NamedTuple):
    """An output to be made, and whether the fee is taken from it."""

    output: Output
    pays_fee: bool = False


@dataclass
class Plan:
    """What is to be paid, and how.

    inputs: these coins are spent in any case; others are added where that isn't enough, and `may_add` is true.
    rate: satoshis for 1,000 bytes.
    change: the script of the change output, asked for where there may be one, or None where there is none; `place` is where it
        stands, the last by default.
    """

    payments: Sequence[Payment]
    rate: int
    change: Callable[[], Optional[bytes]]
    inputs: Sequence[Input] = ()
    may_add: bool = True
    place: Optional[int] = None
    sequence: int = REPLACEABLE + 1
    version: int = 2
    lock_time: int = 0
    least_depth: int = 0
    includes_unsafe: bool = False


class Funded(NamedTuple):
    """A transaction that isn't signed, with its fee in satoshis, and where its change is, or -1."""

    tx: Transaction
    fee: int
    change: int


class Purse(NamedTuple):
    """What a wallet can pay with: its coins in the order in which they are taken, what an outpoint has, and how a script is spent."""

    coins: Callable[[], Iterable[Coin]]
    output: Callable[[Outpoint], Optional[Output]]
    known: Callable[[bytes], Optional[Script]]


def signed_size(script: bytes, known: Optional[Script]) -> Optional[int]:
    """How many bytes the input script has at most that spends a script; None where nobody knows."""
    code = known.inner if known is not None and is_script_hash(script) else script
    if known is None or code is None:
        return None
    kind, needed, _ = kind_of(code)
    key = len(known.keys[0].key) if known.keys else 33
    sizes = {
        "pubkey": 1 + SIGNATURE, "pubkeyhash": 1 + SIGNATURE + 1 + key, "multisig": 1 + needed * (1 + SIGNATURE),
    }  # fmt: skip
    if kind not in sizes:
        return None
    return sizes[kind] + (0 if code is script else len(push(code)))


@dataclass
class _Sum:
    """A transaction as it grows: its inputs with the sizes of their scripts, and what they have."""

    inputs: List[Input] = field(default_factory=list)
    value: int = 0
    scripts: int = 0

    def add(self, spends: Input, value: int, size: int) -> None:
        self.inputs.append(spends)
        self.value += value
        # The length of a script is in one byte, or in three; one is there already.
        self.scripts += size + (2 if size >= 253 else 0)


class _TooLarge(WalletError):
    """So many coins are in no transaction that others relay."""

    def __init__(self) -> None:
        super().__init__(INSUFFICIENT_FUNDS, "Transaction too large")


def fund(plan: Plan, purse: Purse) -> Funded:
    """A transaction of a plan; `WalletError` where the coins aren't enough, or an output is too small."""
    expect_outputs([own.output for own in plan.payments])
    try:
        return _funded(plan, purse, purse.coins())
    except _TooLarge:
        # The oldest ones are too many small ones.
        return _funded(plan, purse, sorted(purse.coins(), key=lambda it: -it.output.value))


def _funded(plan: Plan, purse: Purse, coins: Iterable[Coin]) -> Funded:
    """The same, by coins in their order."""
    outputs, sum_ = [own.output for own in plan.payments], _Sum()
    paid = sum(out.value for out in outputs)
    for spends in plan.inputs:
        _take(sum_, spends, purse)
    chosen = {(it.id, it.index) for it in plan.inputs}
    added = (it for it in coins if plan.may_add and it.outpoint not in chosen and _may_take(it, plan, purse))
    while True:
        found = _finished(plan, sum_, outputs) if sum_.inputs and sum_.value >= paid else None
        if found is not None:
            return found
        if INPUT * len(sum_.inputs) + sum_.scripts > MOST_SIZE:
            raise _TooLarge
        coin = next(added, None)
        if coin is None:
            raise WalletError(INSUFFICIENT_FUNDS, NO_FUNDS)
        _take(sum_, Input(*coin.outpoint, b"", plan.sequence), purse)


def expect_outputs(outputs: Sequence[Output]) -> None:
    """That a transaction has outputs, none of them too small, and not too many."""
    if not outputs:
        raise WalletError(INSUFFICIENT_FUNDS, "Transaction must have at least one recipient")
    if sum(9 + len(out.script) for out in outputs) > MOST_SIZE:
        raise WalletError(INSUFFICIENT_FUNDS, "Transaction too large")
    if any(out.value < dust(out) for out in outputs):
        raise WalletError(INSUFFICIENT_FUNDS, "Transaction amount too small")


def _may_take(coin: Coin, plan: Plan, purse: Purse) -> bool:
    if coin.depth < plan.least_depth or not (coin.is_safe or plan.includes_unsafe):
        return False
    size = signed_size(coin.output.script, purse.known(coin.output.script))
    # One that isn't worth its fee isn't spent.
    return size is not None and coin.output.value > plan.rate * (INPUT + size) // 1000


def _take(sum_: _Sum, spends: Input, purse: Purse) -> None:
    out = purse.output((spends.id, spends.index))
    size = None if out is None else signed_size(out.script, purse.known(out.script))
    if out is None or size is None:
        raise WalletError(WALLET_ERROR, NO_FUNDS if out is None else "Missing solving data for estimating transaction size")
    sum_.add(spends, out.value, size)


def _finished(plan: Plan, sum_: _Sum, outputs: List[Output]) -> Optional[Funded]:
    """The transaction, where what it spends is enough."""
    paid = sum(out.value for out in outputs)
    takers = [at for at, own in enumerate(plan.payments) if own.pays_fee]
    bare = Transaction(plan.version, sum_.inputs, outputs, plan.lock_time)
    script = plan.change()
    change = Output(0, OTHER if script is None else script)
    with_change = bare._replace(outputs=[*outputs, change])
    fee = _fee(plan.rate, with_change, sum_.scripts)
    left = sum_.value - paid - (0 if takers else fee)
    if left >= max(1, dust(change)):
        if script is None:
            raise WalletError(INSUFFICIENT_FUNDS, NO_CHANGE)
        own = _less(outputs, takers, fee)
        at = len(own) if plan.place is None else plan.place
        own.insert(at, change._replace(value=left))
        return Funded(_expect_size(bare._replace(outputs=own), sum_.scripts, fee), fee, at)
    fee = _fee(plan.rate, bare, sum_.scripts)
    left = sum_.value - paid
    if not takers and left < fee:
        return None
    # What is left pays the fee too, and what takes the fee pays the rest of it.
    own = _less(outputs, takers, max(0, fee - left))
    fee = max(fee, left)
    return Funded(_expect_size(bare._replace(outputs=own), sum_.scripts, fee), fee, -1)


def _less(outputs: List[Output], takers: List[int], fee: int) -> List[Output]:
    """The outputs, where some pay a fee: each the same, and the first the rest besides."""
    found = list(outputs)
    for count, at in enumerate(takers):
        part = fee // len(takers) + (fee % len(takers) if count == 0 else 0)
        value = found[at].value - part
        if value < dust(found[at]):
            message = "The transaction amount is too small to pay the fee" if value < 0 else (
                "The transaction amount is too small to send after the fee has been deducted")  # fmt: skip
            raise WalletError(INSUFFICIENT_FUNDS, message)
        found[at] = found[at]._replace(value=value)
    return found


def _fee(rate: int, tx: Transaction, scripts: int) -> int:
    """The fee of a transaction that isn't signed, whose input scripts will have so many bytes."""
    return max(-(-rate * size_of(tx, scripts) // 1000), -(-RELAY * size_of(tx, scripts) // 1000))


def size_of(tx: Transaction, scripts: int) -> int:
    """The most bytes that it has once it is signed."""
    return len(write_transaction(tx)) + scripts


def _expect_size(tx: Transaction, scripts: int, fee: int) -> Transaction:
    if size_of(tx, scripts) > MOST_SIZE:
        raise _TooLarge
    if fee > MOST_FEE:
        message = "Fee exceeds maximum configured by user (e.g. -maxtxfee, maxfeerate)"
        raise WalletError(INSUFFICIENT_FUNDS, message)
    return tx


def expect_place(place: int, count: int) -> int:
    """That change may stand at a place among so many other outputs."""
    if not 0 <= place <= count:
        raise WalletError(INVALID_PARAMETER, "changePosition out of bounds")
    return place
