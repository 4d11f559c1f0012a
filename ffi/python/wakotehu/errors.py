"""What goes wrong, as exceptions."""

from typing import TYPE_CHECKING, Dict, List, Optional, Sequence, Type

if TYPE_CHECKING:
    from uuid import UUID

    from .chainstate import Reply
    from .consensus import Triple
    from .served import Stamped


class Error(Exception):
    """Of this package. `at` is the place in a node's history of the answer that is raised; None where there is none."""

    at: Optional[int] = None


class LibraryMissing(Error):
    """libwakotehu.so isn't found."""


class ProgramMissing(Error):
    """The program `regchain` isn't found."""


class Closed(Error):
    """The chainstate, the transaction or the node was closed."""


class Memory(Error):
    """There was no memory for a call of a node. No step was taken."""


class Owed(Error):
    """A step was taken, and can't be shown yet: the next command of any seat shows it first."""


class HistoryFull(Error):
    """The submission wouldn't be kept, and such ones have taken what `history_memory` gives them. No step was taken."""


class BadRequest(Error):
    """A node didn't take a request. `code` and `data` are in docs/SERVE.md."""

    def __init__(self, code: int, message: str, data: Optional[str] = None) -> None:
        super().__init__(f"{message} ({code})" + (f": {data}" if data else ""))
        self.code = code
        self.data = data


class NotSaved(BadRequest):
    """The history couldn't be saved, or kept in the folder of `datadir`: then nothing is answered any more. Whether a call
    that was under way is a step is open until the folder is opened again. Of `save` `data` says why, and the node goes on."""


class NodeDied(Error):
    """A node's process has ended. `status` is its status, `stderr` the end of what it wrote on the standard error."""

    def __init__(self, status: Optional[int], stderr: str) -> None:
        super().__init__(f"the node's process ended with status {status}" + (f": {stderr.strip()}" if stderr else ""))
        self.status = status
        self.stderr = stderr


class TimedOut(Error, TimeoutError):
    """A node's answer didn't come in time. Whether the step was taken isn't known; the answer is dropped when it comes.
    Until then it counts among the requests of its seat that are under way."""


class DatabaseMissing(Error):
    """Python's psycopg isn't found, which a `Replica` needs."""


class NoHistory(Error):
    """The database has no history of this package: `wakotehu-replica init` makes one."""


class Unavailable(Error):
    """The database can't be reached, or refuses rows. The command isn't in the table, and won't be."""


class DatabaseRefused(Error):
    """The database did nothing of what it was asked: the role lacks rights, say, or a `statement_timeout` ran out."""


class NotDurable(Error):
    """The database may lose rows that it has confirmed, by its settings (`fsync`, `full_page_writes`, `synchronous_commit`) or by an
    unlogged table."""


class ReadOnly(Error):
    """The replica only follows: its role may not write."""


class Undecided(TimedOut):
    """A write wasn't answered in time. Its row may be in the table, or come there later, with this token: `Replica.find`
    looks for it."""

    def __init__(self, message: str, token: "UUID") -> None:
        super().__init__(f"{message} (token {token})")
        self.token = token


class BadRow(Error):
    """A row of the table isn't what a replica writes: a place that isn't there, or a command that can't be taken."""


class ReplicaDiffers(Error):
    """Of a place of the table two replicas have different replies, or verdicts. `own` is this replica's, `other` the one of
    the replica of that name. Which one is right isn't known, so both replicas stop; `wakotehu-replica check` finds out."""

    def __init__(self, place: int, own: str, other: str, replica: str) -> None:
        super().__init__(f"place {place}: this replica replies {own!r}, and {replica} {other!r}")
        self.place, self.own, self.other, self.replica = place, own, other, replica


class OtherProcess(Error):
    """The node was opened by another process, of which this one is a fork. Each process opens a node of its own."""


class OtherLoop(Error):
    """The node was opened in another event loop."""


class Busy(Error):
    """Another thread is inside a call on the same chainstate or set of coins, or asks the transaction that is closed."""


class TooMany(Error):
    """The library has no room for one more chainstate or transaction."""


class Wants(Error):
    """Of a chainstate by need: signatures have to be found out first. The command had no effect, and can be made again.

    `triples` are those at which a script stops, and `lines` their lines in the text of a table, without
    ends."""

    def __init__(self, triples: Sequence["Triple"], lines: Sequence[bytes]) -> None:
        super().__init__(f"{len(triples)} signatures have to be found out first")
        self.triples, self.lines = triples, lines


class Contradiction(Error):
    """A verdict on a signature contradicts one that is known, which stays. `answered` is what a node answered to the command
    whose scripts asked for it, where it was taken all the same; else None."""

    answered: "Optional[Stamped[Reply]]" = None


class BadTable(Error):
    """A line of the table can't be read. `line` is its number, from 1."""

    def __init__(self, line: int) -> None:
        super().__init__(f"line {line} of the table can't be read")
        self.line = line


class DecodeFailed(Error):
    """The bytes are no block, or no transaction."""


class NotFound(Error):
    """No such block is kept, or no such transaction waits."""


class Genesis(Error):
    """The genesis block is never marked."""


class TreeFull(Error):
    """No more blocks can be kept."""


class NotAccepted(Error):
    """A transaction may not wait to be mined. `reason` is Bitcoin Core's word, as "txn-mempool-conflict", and `more` what
    Bitcoin Core adds, or "". `reply` is what a block would be answered that has it, where that says why."""

    def __init__(self, reason: str, more: str = "", reply: Optional["Reply"] = None) -> None:
        super().__init__(f"{reason}, {more}" if more else reason)
        self.reason, self.more, self.reply = reason, more, reply


class Rejected(Error):
    """A block breaks a rule. Each reason has a class of its own, as `BadCbAmount` for "bad-cb-amount".

    `transaction` and `input` are numbers, from 0, where the script of an input isn't accepted, else None.
    """

    reason = ""

    def __init__(self, transaction: int = 0, input: int = 0) -> None:
        self.transaction = self.input = None
        if self.reason == "blk-bad-inputs":
            self.transaction, self.input = transaction, input
        super().__init__(self.text)

    @property
    def text(self) -> str:
        """The reason as the program prints it: with the input, where there is one."""
        if self.transaction is None:
            return self.reason
        return f"{self.reason} {self.transaction}:{self.input}"


class HighHash(Rejected):
    """The block's hash is above the target."""

    reason = "high-hash"


class BadTxnmrklroot(Rejected):
    """The header has another Merkle root than the block's transactions."""

    reason = "bad-txnmrklroot"


class BadTxnsDuplicate(Rejected):
    """Repeated transactions have the Merkle root of a shorter list (CVE-2012-2459)."""

    reason = "bad-txns-duplicate"


class BadBlkLength(Rejected):
    """The block has no transaction, or it is too large."""

    reason = "bad-blk-length"


class BadCbMissing(Rejected):
    """The first transaction is no coinbase."""

    reason = "bad-cb-missing"


class BadCbMultiple(Rejected):
    """A transaction behind the first is a coinbase."""

    reason = "bad-cb-multiple"


class BadTxnsVinEmpty(Rejected):
    """A transaction has no input."""

    reason = "bad-txns-vin-empty"


class BadTxnsVoutEmpty(Rejected):
    """A transaction has no output."""

    reason = "bad-txns-vout-empty"


class BadTxnsVoutNegative(Rejected):
    """An output's value is negative."""

    reason = "bad-txns-vout-negative"


class BadTxnsVoutToolarge(Rejected):
    """An output's value is above 21,000,000 coins."""

    reason = "bad-txns-vout-toolarge"


class BadTxnsTxouttotalToolarge(Rejected):
    """The outputs of a transaction together are above 21,000,000 coins."""

    reason = "bad-txns-txouttotal-toolarge"


class BadTxnsInputsDuplicate(Rejected):
    """A transaction spends one output twice."""

    reason = "bad-txns-inputs-duplicate"


class BadCbLength(Rejected):
    """A coinbase's script has less than 2 or more than 100 bytes."""

    reason = "bad-cb-length"


class BadTxnsPrevoutNull(Rejected):
    """A transaction that is no coinbase has an input that spends nothing."""

    reason = "bad-txns-prevout-null"


class BadBlkSigops(Rejected):
    """The block has too many signature operations."""

    reason = "bad-blk-sigops"


class PrevBlkNotFound(Rejected):
    """No block with the parent's id is kept."""

    reason = "prev-blk-not-found"


class BadPrevblk(Rejected):
    """The parent, or a block below it, is invalid."""

    reason = "bad-prevblk"


class BadDiffbits(Rejected):
    """The header asks for another target than regtest's."""

    reason = "bad-diffbits"


class TimeTooOld(Rejected):
    """The block's time isn't above the median time past of its parent."""

    reason = "time-too-old"


class TimeTooNew(Rejected):
    """The block's time is more than two hours ahead."""

    reason = "time-too-new"


class BadVersion(Rejected):
    """The block's version is too low for its height (BIPs 34, 65 and 66)."""

    reason = "bad-version"


class BadTxnsNonfinal(Rejected):
    """A transaction isn't final at this height and time (BIP 113), or its relative locks aren't met (BIP 68)."""

    reason = "bad-txns-nonfinal"


class BadCbHeight(Rejected):
    """The coinbase doesn't begin with the block's height (BIP 34)."""

    reason = "bad-cb-height"


class BadTxnsBIP30(Rejected):
    """A transaction has the id of an earlier one with an output that isn't spent (BIP 30)."""

    reason = "bad-txns-BIP30"


class BadTxnsInputsMissingorspent(Rejected):
    """An input spends an output that isn't there, or was spent."""

    reason = "bad-txns-inputs-missingorspent"


class BadTxnsPrematureSpendOfCoinbase(Rejected):
    """An input spends an output of a coinbase less than 100 blocks after it."""

    reason = "bad-txns-premature-spend-of-coinbase"


class BadTxnsInBelowout(Rejected):
    """The outputs of a transaction are above what its inputs spend."""

    reason = "bad-txns-in-belowout"


class BadCbAmount(Rejected):
    """The coinbase makes more than the subsidy and the fees."""

    reason = "bad-cb-amount"


class BlkBadInputs(Rejected):
    """The script of an input isn't accepted: `transaction` and `input` say of which."""

    reason = "blk-bad-inputs"


#: The exceptions of the reasons, in the order of their numbers, from 1.
_KINDS: List[Type[Rejected]] = [
    HighHash, BadTxnmrklroot, BadTxnsDuplicate, BadBlkLength, BadCbMissing, BadCbMultiple, BadTxnsVinEmpty,
    BadTxnsVoutEmpty, BadTxnsVoutNegative, BadTxnsVoutToolarge, BadTxnsTxouttotalToolarge, BadTxnsInputsDuplicate,
    BadCbLength, BadTxnsPrevoutNull, BadBlkSigops, PrevBlkNotFound, BadPrevblk, BadDiffbits, TimeTooOld, TimeTooNew,
    BadVersion, BadTxnsNonfinal, BadCbHeight, BadTxnsBIP30, BadTxnsInputsMissingorspent,
    BadTxnsPrematureSpendOfCoinbase, BadTxnsInBelowout, BadCbAmount, BlkBadInputs,
]  # fmt: skip

#: The reasons by their numbers; "" is at 0. The last one is no block's: Bitcoin Core's rule of a transaction's size.
REASONS: List[str] = ["", *(kind.reason for kind in _KINDS), "bad-txns-oversize"]

#: The exception of each reason.
BY_REASON: Dict[str, Type[Rejected]] = {kind.reason: kind for kind in _KINDS}
