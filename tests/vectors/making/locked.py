"""Rows of locks.json: whether litecoind takes a block with a transaction that is locked by its lock time, or by its inputs."""

from typing import Any, Iterator, List, Sequence, Tuple

from .asking import HAND, RULES
from .outside import CORE, FINAL, GENESIS_TIME, TRUE, Chain
from .reading import Input, Output, Tx, spell

OFF, TIMED = 1 << 31, 1 << 22
ONE = [Output(0, b"\x51")]

#: An input's coin: its id, its output's number, and its height.
Coin = Tuple[bytes, int, int]


def median(height: int) -> int:
    """The median time past of a block of the chain, whose blocks are 600 seconds apart."""
    return GENESIS_TIME + 600 * (height - 5)


def finals(chain: Chain, coins: List[Coin]) -> Iterator[Tuple[List[Any], Tx]]:
    """Lock times round the block's height and the median time past, with final inputs and others."""
    height, cutoff = chain.height + 1, median(chain.height)
    times = (0, 1, height - 1, height, height + 1, 499999999, 500000000, cutoff - 1, cutoff, cutoff + 1, FINAL)
    ends = ((FINAL,), (0,), (FINAL - 1,), (FINAL, FINAL), (FINAL, 0), (0, FINAL), (FINAL, FINAL, FINAL - 1))
    for lock_time in times:
        for sequences in ends:
            inputs = [Input(id, n, b"", s) for (id, n, _), s in zip(coins, sequences)]
            yield ["final", [lock_time, list(sequences), height, cutoff]], Tx(1, inputs, ONE, lock_time)


def relative(chain: Chain, new: List[Coin], old: List[Coin]) -> Iterator[Tuple[List[Any], Tx]]:
    """Relative locks round the blocks and the seconds since the coin, with each bit, version, and several inputs."""
    height, cutoff = chain.height + 1, median(chain.height)

    def row(version: int, pairs: Sequence[Tuple[Coin, int]]) -> Tuple[List[Any], Tx]:
        starts = [[coin[2], median(coin[2] - 1)] for coin, _ in pairs]
        inputs = [Input(id, n, b"", s) for (id, n, _), s in pairs]
        return ["relative", [version, [s for _, s in pairs], starts, height, cutoff]], Tx(version, inputs, ONE, 0)

    def edges(coin: Coin) -> Tuple[int, int]:
        return height - coin[2], (cutoff - median(coin[2] - 1)) // 512

    for coin in (new[0], *old):
        blocks, units = edges(coin)
        for lock in (0, 1, blocks - 1, blocks, blocks + 1, 65535):
            yield row(2, [(coin, max(lock, 0))])
        for lock in (0, 1, units - 1, units, units + 1, 65535):
            yield row(2, [(coin, TIMED | max(lock, 0))])
    blocks, units = edges(old[0])
    for version in (-(2**31), -2, -1, 0, 1, 2, 3, 2**31 - 1):
        for sequence in (blocks, blocks + 1, TIMED | units, TIMED | units + 1):
            yield row(version, [(old[0], sequence)])
    for bit in range(16, 32):
        yield row(2, [(old[0], 1 << bit | blocks)])
        yield row(2, [(old[0], 1 << bit | blocks + 1)])
        yield row(2, [(old[0], TIMED | 1 << bit | units + 1)])
    met, unmet, late = (old[0], blocks), (old[1], edges(old[1])[0] + 1), (old[2], TIMED | edges(old[2])[1] + 1)
    timed, off = (old[3], TIMED | edges(old[3])[1]), (new[1], OFF | 65535)
    for pairs in (
            [met, timed], [met, unmet], [unmet, met], [late, met], [met, off],
            [off, unmet], [off, met, timed], [met, timed, late], [off],
    ):  # fmt: skip
        yield row(2, pairs)
        yield row(1, pairs)


def rows(chain: Chain) -> List[List[Any]]:
    id, _ = chain.fund([TRUE] * 4)
    new = [(id, n, chain.height) for n in range(4)]
    # Coins of coinbases: the seconds since three of them are a number of units of 512, without a rest.
    every = {height: (id, 0, height) for id, _, height in chain.coins}
    old = [every[chain.height + 1 - back] for back in (128, 192, 640, 129)]
    questions = [*finals(chain, new), *relative(chain, new, old)]
    found = []
    for (row, _), said in zip(questions, chain.judge([spell(tx) for _, tx in questions])):
        if said not in ("accepted", "bad-txns-nonfinal"):
            raise RuntimeError(f"{row}: {said}")
        found.append([*row, said == "accepted", CORE])
    return found


def by_hand(rows: List[List[Any]]) -> List[List[Any]]:
    """Rows that were written by hand, by the rules."""
    return [[*row[:3], RULES] for row in rows if str(row[-1]).endswith(HAND)]
