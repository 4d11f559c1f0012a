"""The kinds of answers in which Bitcoin Core differs from ours, each as a small list with both answers.

A list is written by names: `a2 on a1` is the block a2, which stands on a1; `base` is the tip of the base. Behind a block
stand its faults. Each step has what Bitcoin Core answers and what ours does.
"""

from typing import Callable, Dict, List, NamedTuple, Tuple

from wakotehu.encoding import Input, Output, Transaction, coinbase, hash160, merkle_root, push, push_number, subsidy

from .spelling import ROOT, Logical
from .trees import FINAL, TRUE, Command, List_, Maker


class Step(NamedTuple):
    """A command, and what both answer; the best block by its name after it."""

    command: str
    core: str
    ours: str


class Kind(NamedTuple):
    """A kind of difference: its name in docs/CORE.md, blocks, and steps; the height of the base that it wants; and the kind
    of which it is another case."""

    name: str
    blocks: Tuple[str, ...]
    steps: Tuple[Step, ...]
    base: int = 0
    case_of: str = ""

    @property
    def switch(self) -> str:
        """The switch of the rules (rules.py) that it stands for."""
        return self.case_of or self.name


def _step(text: str) -> Step:
    command, core, ours = (part.strip() for part in text.split("|"))
    return Step(command, core, ours)


def _kind(name: str, blocks: str, steps: str, base: int = 0, case_of: str = "") -> Kind:
    lines = [line for line in steps.strip().splitlines() if line.strip()]
    return Kind(name, tuple(line.strip() for line in blocks.strip().splitlines()), tuple(map(_step, lines)), base, case_of)


KINDS: Tuple[Kind, ...] = (
    _kind(
        "marks above an invalidated block",
        """
        a1 on base
        a2 on a1
        x2 on a1
        """,
        """
        submit a1      | accepted, a1     | accepted, a1
        submit a2      | accepted, a2     | accepted, a2
        submit x2      | inconclusive, a2 | inconclusive, a2
        invalidate a1  | done, base       | done, base
        reconsider x2  | done, x2         | done, a2
        """,
    ),
    _kind(
        "a reconsidered block that fails again",
        """
        a1 on base
        a2 on a1
        x2 on a1 pays too much
        """,
        """
        submit a1      | accepted, a1     | accepted, a1
        submit a2      | accepted, a2     | accepted, a2
        submit x2      | inconclusive, a2 | inconclusive, a2
        invalidate a1  | done, base       | done, base
        reconsider x2  | done, a1         | done, a2
        """,
        case_of="marks above an invalidated block",
    ),
    _kind(
        "a child of a marked branch that was valid",
        """
        a1 on base
        a2 on a1
        b1 on base
        b2 on b1
        b3 on b2
        c3 on a2
        """,
        """
        submit a1      | accepted, a1      | accepted, a1
        submit a2      | accepted, a2      | accepted, a2
        submit b1      | inconclusive, a2  | inconclusive, a2
        submit b2      | inconclusive, a2  | inconclusive, a2
        submit b3      | accepted, b3      | accepted, b3
        invalidate a1  | done, b3          | done, b3
        submit c3      | inconclusive, b3  | bad-prevblk, b3
        """,
    ),
    _kind(
        "tests of the header before marks spread",
        """
        a1 on base
        a2 on a1
        a3 on a2
        b1 on base
        b2 on b1
        c3 on b2 too old
        """,
        """
        submit a1      | accepted, a1      | accepted, a1
        submit a2      | accepted, a2      | accepted, a2
        submit a3      | accepted, a3      | accepted, a3
        submit b1      | inconclusive, a3  | inconclusive, a3
        submit b2      | inconclusive, a3  | inconclusive, a3
        invalidate b1  | done, a3          | done, a3
        submit c3      | time-too-old, a3  | bad-prevblk, a3
        """,
    ),
    _kind(
        "a header stays of a block that isn't final",
        """
        a1 on base not final
        a2 on a1
        """,
        """
        submit a1      | bad-txns-nonfinal, base | bad-txns-nonfinal, base
        submit a1      | duplicate-invalid, base | bad-txns-nonfinal, base
        submit a2      | bad-prevblk, base       | prev-blk-not-found, base
        invalidate a1  | done, base              | not-found, base
        reconsider a1  | done, base              | not-found, base
        submit a2      | inconclusive, base      | prev-blk-not-found, base
        submit a1      | bad-txns-nonfinal, base | bad-txns-nonfinal, base
        """,
        base=101,
    ),
    _kind(
        "a block below a header that stays",
        """
        a1 on base
        a2 on a1 not final
        """,
        """
        submit a1      | accepted, a1          | accepted, a1
        submit a2      | bad-txns-nonfinal, a1 | bad-txns-nonfinal, a1
        invalidate a1  | done, base            | done, base
        reconsider a2  | done, base            | not-found, base
        precious a1    | done, a1              | done, base
        """,
        base=101,
        case_of="a header stays of a block that isn't final",
    ),
    _kind(
        "a header stays of a block without its height",
        """
        a1 on base another height
        """,
        """
        submit a1      | bad-cb-height, base     | bad-cb-height, base
        submit a1      | duplicate-invalid, base | bad-cb-height, base
        """,
        base=500,
    ),
    _kind(
        "a block that was never tried comes again",
        """
        a1 on base
        b1 on base
        """,
        """
        submit a1      | accepted, a1      | accepted, a1
        submit b1      | inconclusive, a1  | inconclusive, a1
        submit b1      | duplicate, a1     | duplicate-inconclusive, a1
        """,
    ),
    _kind(
        "other bytes under the header of a block that was never tried",
        """
        a1 on base
        b1 on base of three transactions
        c1 on base its last transaction twice
        """,
        """
        submit a1      | accepted, a1           | accepted, a1
        submit b1      | inconclusive, a1       | inconclusive, a1
        submit c1      | bad-txns-duplicate, a1 | duplicate-inconclusive, a1
        submit b1      | duplicate, a1          | duplicate-inconclusive, a1
        """,
    ),
    _kind(
        "a block that begins with no coinbase",
        """
        a1 on base without coinbase and work
        """,
        """
        submit a1      | bad-cb-missing, base | high-hash, base
        """,
    ),
    _kind(
        "bytes behind a block",
        """
        a1 on base bytes behind
        """,
        """
        submit a1      | accepted, a1 | decode-failed, base
        """,
    ),
    _kind(
        "a transaction without inputs",
        """
        a1 on base no inputs
        """,
        """
        submit a1      | decode-failed, base | bad-txns-vin-empty, base
        """,
    ),
    _kind(
        "a target of the header's own",
        """
        a1 on base bits 1d00ffff
        """,
        """
        submit a1      | high-hash, base | bad-diffbits, base
        """,
    ),
    _kind(
        "signature operations before a missing input",
        """
        a1 on base makes scripts of many operations
        a2 on a1 missing input and then too many operations
        """,
        """
        submit a1      | accepted, a1                       | accepted, a1
        submit a2      | bad-txns-inputs-missingorspent, a1 | bad-blk-sigops, a1
        """,
        base=110,
    ),
    _kind(
        "ranks are counted anew",
        """
        a1 on base
        a2 on a1
        b2 on a1
        c2 on a1
        c3 on c2
        d3 on c2
        """,
        """
        submit a1      | accepted, a1      | accepted, a1
        submit a2      | accepted, a2      | accepted, a2
        submit b2      | inconclusive, a2  | inconclusive, a2
        submit c2      | inconclusive, a2  | inconclusive, a2
        precious b2    | done, b2          | done, b2
        precious c2    | done, c2          | done, c2
        precious b2    | done, b2          | done, b2
        precious c2    | done, c2          | done, c2
        submit c3      | accepted, c3      | accepted, c3
        submit d3      | inconclusive, c3  | inconclusive, c3
        precious d3    | done, d3          | done, d3
        invalidate d3  | done, c3          | done, c3
        invalidate c3  | done, c2          | done, c2
        precious a2    | done, c2          | done, a2
        """,
    ),
)


# ---- made into lists


def made(kind: Kind, maker: Maker) -> Tuple[List_, Dict[str, int]]:
    """The list of a kind, and the numbers of its blocks by name."""
    blocks = list(maker.base)
    base = len(blocks)
    names = {"base": base - 1 if base else ROOT}
    heights = {"base": maker.height}
    for line in kind.blocks:
        name, _, parent, *words = line.split()
        height = heights[parent] + 1
        above = blocks[names[parent]].time if names[parent] != ROOT else 1296688602
        # No two lists have a block in common.
        tx = coinbase(height, subsidy(height), TRUE, f"{KINDS.index(kind)} {name}".encode())
        block = Logical(names[parent], above + 600, [tx])
        fault = " ".join(words)
        if fault:
            FAULTS[fault](block, height, maker, blocks)
        names[name], heights[name] = len(blocks), height
        blocks.append(block)
    now = 2**31 - 1
    commands = []
    for step in kind.steps:
        word, name = step.command.split()
        commands.append(Command(word, names[name], now if word == "submit" else 0))
    return List_(blocks, base, commands, [], []), names


def _pays_too_much(block: Logical, height: int, maker: Maker, blocks: List[Logical]) -> None:
    tx = block.transactions[0]
    block.transactions[0] = tx._replace(outputs=[Output(subsidy(height) + 1, TRUE)])


def _too_old(block: Logical, height: int, maker: Maker, blocks: List[Logical]) -> None:
    block.time = 1296688602


def _not_final(block: Logical, height: int, maker: Maker, blocks: List[Logical]) -> None:
    coin = maker.coins[0]
    spend = Transaction(1, [Input(coin.id, 0, b"", 0)], [Output(coin.value, TRUE)], height)
    block.transactions.append(spend)


def _another_height(block: Logical, height: int, maker: Maker, blocks: List[Logical]) -> None:
    tx = block.transactions[0]
    own = push_number(height + 1) + b"\x01\x07"
    block.transactions[0] = tx._replace(inputs=[tx.inputs[0]._replace(script=own)])


def _three(block: Logical, height: int, maker: Maker, blocks: List[Logical]) -> None:
    block.transactions += [Transaction(1, [Input(bytes([n]) * 32, 0, b"", FINAL)], [Output(0, TRUE)], 0) for n in (8, 9)]


def _last_twice(block: Logical, height: int, maker: Maker, blocks: List[Logical]) -> None:
    """The block before it, with its last transaction twice."""
    other = blocks[-1]
    block.root = merkle_root([tx.id for tx in other.transactions])
    block.transactions = other.transactions + other.transactions[-1:]


def _no_coinbase_and_work(block: Logical, height: int, maker: Maker, blocks: List[Logical]) -> None:
    block.transactions[0] = Transaction(1, [Input(b"\7" * 32, 0, b"", FINAL)], [Output(0, TRUE)], 0)
    block.works = False


def _bytes_behind(block: Logical, height: int, maker: Maker, blocks: List[Logical]) -> None:
    block.behind = b"\0"


def _no_inputs(block: Logical, height: int, maker: Maker, blocks: List[Logical]) -> None:
    block.transactions.append(Transaction(1, [], [Output(0, TRUE)], 0))


def _own_bits(block: Logical, height: int, maker: Maker, blocks: List[Logical]) -> None:
    block.bits = 0x1D00FFFF


#: A script of 500 CHECKMULTISIGs, each of which counts as 20 signature operations.
MANY = b"\xae" * 500


def _many_operations(block: Logical, height: int, maker: Maker, blocks: List[Logical]) -> None:
    coin = maker.coins[0]
    script = b"\xa9\x14" + hash160(MANY) + b"\x87"
    block.transactions.append(Transaction(1, [Input(coin.id, 0, b"", FINAL)], [Output(1, script)] * 3, 0))


def _missing_and_operations(block: Logical, height: int, maker: Maker, blocks: List[Logical]) -> None:
    """A transaction spends a script of 10,000 signature operations; the next makes an output of 10,001, and lacks its
    input."""
    spent = blocks[block.parent].transactions[1].id
    many = Transaction(1, [Input(spent, 0, push(MANY), FINAL)], [Output(0, TRUE)], 0)
    lost = Transaction(1, [Input(b"\7" * 32, 0, b"", FINAL)], [Output(0, b"\xac" * 10001)], 0)
    block.transactions += [many, lost]


FAULTS: Dict[str, Callable[[Logical, int, Maker, List[Logical]], None]] = {
    "pays too much": _pays_too_much,
    "too old": _too_old,
    "not final": _not_final,
    "another height": _another_height,
    "of three transactions": _three,
    "its last transaction twice": _last_twice,
    "without coinbase and work": _no_coinbase_and_work,
    "bytes behind": _bytes_behind,
    "no inputs": _no_inputs,
    "bits 1d00ffff": _own_bits,
    "makes scripts of many operations": _many_operations,
    "missing input and then too many operations": _missing_and_operations,
}
