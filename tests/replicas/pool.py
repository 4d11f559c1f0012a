"""Blocks that all lists draw from: a tree on genesis with branches, of which some break a rule."""
from __future__ import annotations

import random

from blocks import NOW, Maker, block_id
from wakotehu import show
from wakotehu.encoding import GENESIS

#: The moment of submissions: the second one is before the blocks of height 13 on.
NOWS = (NOW, GENESIS.time + 600)


class Pool:
    """Blocks, their ids as they are printed, and the ids of their coinbases."""

    def __init__(self, count: int = 60, seed: int = 7) -> None:
        draw, maker = random.Random(seed), Maker()
        self.blocks: list[bytes] = []
        parents = [GENESIS.id]
        for number in range(count):
            parent = draw.choice(parents[-6:])
            # One in eight makes a satoshi too much, and one in twelve isn't the block that its header says.
            block = maker.block(parent, extra=bytes([number, 1]), more=int(number % 8 == 5))
            if number % 12 == 7:
                block = block[:-1] + b"\x01"
            self.blocks.append(block)
            parents.append(block_id(block))
        self.ids = [block_id(block) for block in self.blocks]
        self.shown = [show(id) for id in self.ids]
        self.coinbases = [maker.coinbases[id].id for id in self.ids]


#: Bytes that are no block.
JUNK = [b"", b"\x00", bytes(80)]
