"""Which transaction may take the place of others that wait and spend the same coins (BIP 125, as Bitcoin Core has it)."""

from typing import TYPE_CHECKING, List, Protocol, Sequence

from .chainstate import show
from .encoding import Transaction
from .errors import NotAccepted

if TYPE_CHECKING:
    from .mempool import Entry, Waiting

#: An input with a higher sequence number doesn't signal that it may be replaced.
REPLACEABLE = 0xFFFFFFFD
#: What a replacement pays beyond what it replaces, in satoshis for 1,000 bytes (-incrementalrelayfee).
INCREMENT = 1000
#: How many one may replace, with what hangs on them.
MOST = 100


class Spends(Protocol):
    """What has a transaction."""

    @property
    def tx(self) -> Transaction: ...


def signals(entry: Spends) -> bool:
    """Whether a transaction says by itself that it may be replaced."""
    return any(spends.sequence <= REPLACEABLE for spends in entry.tx.inputs)


def money(satoshis: int) -> str:
    """An amount in bitcoin, with two digits behind the point at least."""
    whole, part = divmod(satoshis, 100_000_000)
    return f"{whole}.{f'{part:08}'.rstrip('0').ljust(2, '0')}"


def rate(fee: int, size: int) -> int:
    """A fee for 1,000 bytes, as Bitcoin Core's CFeeRate rounds it."""
    return abs(fee) * 1000 // size * (1 if fee >= 0 else -1)


def rate_text(satoshis: int) -> str:
    """A rate as Bitcoin Core's CFeeRate prints it."""
    return f"{satoshis // 100_000_000}.{satoshis % 100_000_000:08} BTC/kB"


def expect_replacing(entry: "Entry", others: Sequence[bytes], among: "Waiting") -> None:
    """That a transaction may take the place of others, which spend what it spends: else `NotAccepted`."""
    name = show(entry.id)
    for above in among.with_ancestors(entry)[:-1]:
        if above.id in others:
            raise NotAccepted("bad-txns-spends-conflicting-tx", f"{name} spends conflicting transaction {show(above.id)}")
    _expect_rate(entry, others, among)
    count = sum(1 + len(among.descendants(id)) for id in others)
    if count > MOST:
        more = f"rejecting replacement {name}; too many potential replacements ({count} > {MOST})\n"
        raise NotAccepted("too many potential replacements", more)
    parents = {spends.id for id in others for spends in among.entries[id].tx.inputs}
    for place, spends in enumerate(entry.tx.inputs):
        if spends.id not in parents and spends.id in among.entries:
            raise NotAccepted("replacement-adds-unconfirmed", f"replacement {name} adds unconfirmed input, idx {place}")
    _expect_fee(entry, among.with_descendants(others), among)


def _expect_rate(entry: "Entry", others: Sequence[bytes], among: "Waiting") -> None:
    """It pays more for its size than each that it replaces."""
    new = rate(among.paid(entry), entry.size)
    for id in others:
        old = rate(among.paid(among.entries[id]), among.entries[id].size)
        if new <= old:
            more = f"rejecting replacement {show(entry.id)}; new feerate {rate_text(new)} <= old feerate {rate_text(old)}"
            raise NotAccepted("insufficient fee", more)


def _expect_fee(entry: "Entry", gone: List[bytes], among: "Waiting") -> None:
    """It pays what goes paid, and for its own bytes besides."""
    new, old = among.paid(entry), sum(among.paid(among.entries[id]) for id in gone)
    least, name = INCREMENT * entry.size // 1000, show(entry.id)
    if new < old:
        more = f"rejecting replacement {name}, less fees than conflicting txs; {money(new)} < {money(old)}"
        raise NotAccepted("insufficient fee", more)
    if new - old < least:
        more = f"rejecting replacement {name}, not enough additional fees to relay; {money(new - old)} < {money(least)}"
        raise NotAccepted("insufficient fee", more)
