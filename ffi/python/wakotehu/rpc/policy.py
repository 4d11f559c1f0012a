"""What Bitcoin Core relays (its `policy/policy.cpp`), for tests of what is refused: -acceptnonstdtxn=0. No rule of consensus is
here, and by default none of this is asked."""

from typing import Sequence

from .. import consensus
from ..chainstate import Coin
from ..encoding import Output, Transaction
from ..errors import NotAccepted
from .scripts import kind_of

#: The most bytes of a transaction and of an input script, and the fewest of a transaction.
MOST_SIZE, MOST_INPUT, LEAST_SIZE = 100_000, 1650, 82
#: The most keys of a script of keys, and bytes of a script of data.
MOST_KEYS, MOST_DATA = 3, 83
#: The most signature operations of a transaction, and of a script hash's inner script.
MOST_SIGOPS, MOST_INNER = 4_000, 15
#: What a transaction pays at least (-minrelaytxfee), and by what an output is dust (-dustrelayfee), in satoshis for 1,000 bytes.
RELAY, DUST = 1000, 3000


def expect_standard(tx: Transaction, size: int) -> None:
    """What a transaction breaks by itself (`IsStandardTx`), by `NotAccepted`."""
    if not 1 <= tx.version <= 2:
        raise NotAccepted("version")
    if size > MOST_SIZE:
        raise NotAccepted("tx-size")
    for spends in tx.inputs:
        if len(spends.script) > MOST_INPUT:
            raise NotAccepted("scriptsig-size")
        if not consensus.script(spends.script).push_only:
            raise NotAccepted("scriptsig-not-pushonly")
    for out in tx.outputs:
        if not _is_standard(out.script):
            raise NotAccepted("scriptpubkey")
        if out.value < dust(out):
            raise NotAccepted("dust")
    if sum(kind_of(out.script)[0] == "nulldata" for out in tx.outputs) > 1:
        raise NotAccepted("multi-op-return")
    if size < LEAST_SIZE:
        raise NotAccepted("tx-size-small")


def expect_standard_spends(tx: Transaction, coins: Sequence[Coin], sigops: int) -> None:
    """What it breaks by what it spends (`AreInputsStandard`)."""
    for spends, coin in zip(tx.inputs, coins):
        is_unknown = kind_of(coin.script)[0] in ("nonstandard", "witness_unknown")
        if is_unknown or consensus.p2sh_sigops(spends.script, coin.script) > MOST_INNER:
            raise NotAccepted("bad-txns-nonstandard-inputs")
    if sigops > MOST_SIGOPS:
        raise NotAccepted("bad-txns-too-many-sigops", str(4 * sigops))


def expect_fee(fee: int, size: int) -> None:
    """That it pays enough to be relayed."""
    least = RELAY * size // 1000
    if fee < least:
        raise NotAccepted("min relay fee not met", f"{fee} < {least}")


def _is_standard(script: bytes) -> bool:
    kind = kind_of(script)[0]
    if kind == "multisig":
        return script[-2] - 0x50 <= MOST_KEYS
    return kind != "nonstandard" and (kind != "nulldata" or len(script) <= MOST_DATA)


def dust(out: Output) -> int:
    """What an output has at least, so that it may be worth spending (`GetDustThreshold`)."""
    if consensus.script(out.script).unspendable:
        return 0
    spending = 67 if kind_of(out.script)[0].startswith("witness") else 148
    length = 1 if len(out.script) < 253 else 3
    return DUST * (8 + length + len(out.script) + spending) // 1000
