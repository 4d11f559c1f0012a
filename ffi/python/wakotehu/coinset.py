"""Coins that are given: blocks and transactions over them, apart from any chainstate."""

import ctypes
from typing import Iterable, List, NamedTuple, Optional, Sequence, Tuple, Union

from . import arguments, errors
from .arguments import id_of, number, octets
from .chainstate import REGTEST, Coin, _Held, read_heights
from .consensus import FAULTS, NAMED, ParsedTransaction, Refused, ScriptError, Triple
from .deployments import GivenHeights
from .library import Coin as _Coin
from .library import Fault as _Fault
from .library import Heights, Setting, library, params_of


class Fault(NamedTuple):
    """The first rule that a block breaks, in Bitcoin Core's word; of "blk-bad-inputs" the transaction and the input whose
    script isn't accepted, else 0."""

    reason: str
    transaction: int
    input: int


class CoinSet(_Held):
    """Coins of one's own, each as the id of a transaction, an output's number, and the coin. Blocks are connected to them,
    and transactions checked. The set takes the caller's word for where a block stands.

    Signatures are verified by need: `connect` raises `Wants`, and has no effect; `learn` takes the verdicts, and the
    call is made again. One thread at a time may be inside a call: another one is refused with `Busy`.

        with CoinSet([(id, 0, Coin(5000, b"\\x51", 7, False))]) as coins:
            coins.connect(block, height=9, cutoff=1296688602)
    """

    _prefix = "wakotehu_utxo_"

    def __init__(self, coins: Sequence[Tuple[bytes, int, Coin]] = ()) -> None:
        self._library = library()
        handle = ctypes.c_uint64()
        self._check(self._library.wakotehu_utxo_open(ctypes.byref(handle)))
        self._handle = handle.value
        for it in arguments.sequence(coins, "coins"):
            id, index, coin = arguments.several(it, "coins", 3)
            self._put(id, index, coin, "coins.")

    def put(self, id: bytes, index: int, coin: Coin) -> None:
        """Puts a coin in, in the place of one that is there. The last block can't be taken back any more."""
        self._put(id, index, coin)

    def _put(self, id: bytes, index: int, coin: Coin, of: str = "") -> None:
        coin = arguments.instance(coin, Coin, f"{of}coin")
        script = octets(coin.script, f"{of}coin.script")
        value, height = arguments.signed(coin.value, f"{of}coin.value", 64), number(coin.height, f"{of}coin.height")
        row = _Coin(value, len(script), height, arguments.flag(coin.coinbase, f"{of}coin.coinbase"))
        at = id_of(id, f"{of}id"), number(index, f"{of}index")
        self._check(self._library.wakotehu_utxo_put(self._handle, *at, row, script))

    def connect(
        self, block: bytes, height: int, cutoff: int, medians: Sequence[int] = (), heights: GivenHeights = REGTEST
    ) -> Optional[Fault]:
        """Connects a block: the first rule that it breaks by itself or over the coins, or None, and then the coins are those
        after it. Bytes that are no block raise `Refused`.

        cutoff: the median time past of its parent. medians: those of its parent's branch by height, genesis first, as far
        as relative locks by time ask for them: each counts from the median of the block below the coin that it spends, which
        is of this block where the set doesn't have it. The parent's may be left out where all below it are there. Too few
        raise `Refused` ("mismatch"), whatever else the block breaks, and nothing changes.
        """
        block, times = octets(block, "block"), [number(it, "medians") for it in arguments.sequence(medians, "medians")]
        rows = (ctypes.c_uint32 * len(times))(*times)
        forks, fault = read_heights(heights), _Fault()
        setting = Setting(rows, len(times), Heights(*forks), number(height, "height"), number(cutoff, "cutoff"))
        with params_of(forks) as params:
            code = self._library.wakotehu_connect_with(self._handle, block, len(block), setting, params, fault)
        if code == 31:
            lines = self._want_lines()
            raise errors.Wants(Triple.of_lines(lines), lines)
        self._told(code)
        return Fault(errors.REASONS[fault.reason], fault.transaction, fault.input) if fault.reason else None

    def disconnect(self) -> bool:
        """Takes back the block that was connected last. False where no block was connected, where it was taken back already, and
        where a coin was put in since."""
        code = self._library.wakotehu_disconnect(self._handle)
        if code == 4:
            return False
        self._check(code)
        return True

    def spent(self) -> Optional[List[Coin]]:
        """The coins that the last block spent, in the order of its inputs, as long as it can be taken back."""
        return self._spent("spent")

    def check_tx_inputs(self, data: bytes, height: int, oversize: bool = False) -> Union[int, str]:
        """What the transaction at the front of these bytes gives as its fee in a block of this height; or the first rule that
        it breaks by itself or by the coins that it spends, in Bitcoin Core's word. Locks and scripts aren't asked.

        oversize: by Bitcoin Core's rule of sizes too, as `consensus.transaction` has it."""
        data, reason, fee = octets(data, "data"), ctypes.c_uint32(), ctypes.c_int64()
        words = len(data), number(height, "height"), ctypes.byref(reason), ctypes.byref(fee)
        call = "check_transaction_inputs" if arguments.flag(oversize, "oversize") else "check_tx_inputs"
        self._told(getattr(self._library, f"wakotehu_{call}")(self._handle, data, *words))
        return errors.REASONS[reason.value] or fee.value

    def verify_input(
        self, tx: ParsedTransaction, input: int, spent: bytes, flags: Iterable[str] = NAMED
    ) -> Union[None, ScriptError, Triple]:
        """Why an input of a transaction may not spend a script, None where it may, by the verdicts that the set has learnt; or
        a triple of which it has none. No table is read, and the set's coins aren't asked."""
        return arguments.instance(tx, ParsedTransaction, "tx")._verify_known(input, spent, self._handle, flags)

    def _told(self, code: int) -> None:
        """Raises what a code says of bytes, or of the handle."""
        if code in FAULTS:
            raise Refused(FAULTS[code])
        self._check(code)
