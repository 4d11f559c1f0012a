"""The tips after a list drawn at random, recounted from the replies of the definition.

The list ends with the submission of all its blocks, twice, and the replies to the second time say which blocks are kept, and
how each stands. From them and the blocks' parents come the tips.
"""
from __future__ import annotations

# How a block stands that is submitted once more. A valid one may be the active one.
STANDING = {"duplicate": "valid-fork", "duplicate-invalid": "invalid", "duplicate-inconclusive": "valid-headers"}


class Block:
    def __init__(self, parent: str, height: int) -> None:
        self.parent, self.height = parent, height
        # How it stands: nothing, where it isn't kept; and which command it was that it was kept by.
        self.standing: str | None = None
        self.arrival = 0


def blocks_of(definitions: str) -> dict[str, Block]:
    """The blocks of these lines, genesis first."""
    blocks = {"genesis": Block("", 0)}
    blocks["genesis"].standing = "valid-fork"
    for line in definitions.splitlines():
        words = line.split()
        if words[:1] == ["chain"]:
            parent = words[3]
            for number in range(1, int(words[2]) + 1):
                blocks[f"{words[1]}{number}"] = Block(parent, blocks[parent].height + 1)
                parent = f"{words[1]}{number}"
        elif words[:1] == ["block"]:
            blocks[words[1]] = Block(words[2], blocks[words[2]].height + 1)
    return blocks


class Recount:
    """The blocks of a list as they stand at its end, of which this one is active."""

    def __init__(self, definitions: str, replies: list[str], best: str) -> None:
        self.blocks, self.best = blocks_of(definitions), best
        for number, line in enumerate(replies):
            command, reply = line.split(" = ")
            word, name = command.split(" ")
            if word == "submit":
                block = self.blocks[name]
                block.standing = STANDING.get(reply)
                if block.standing is None:
                    # it was kept by the last command that didn't find it kept
                    block.arrival = number
        self.branch = [best]
        while self.branch[-1] != "genesis":
            self.branch.append(self.blocks[self.branch[-1]].parent)

    def is_best_right(self) -> bool:
        """Whether the active block is seen, and no usable one is higher."""
        usable = [it.height for it in self.blocks.values() if it.standing not in (None, "invalid")]
        active = self.blocks[self.best]
        return active.standing == "valid-fork" and active.height == max(usable)

    def length(self, name: str) -> int:
        """How many blocks of the branch of a block aren't active."""
        length = 0
        while name not in self.branch:
            name, length = self.blocks[name].parent, length + 1
        return length

    def tips(self) -> str:
        """All tips, by height downwards, then by arrival."""
        parents = {it.parent for it in self.blocks.values() if it.standing}
        kept = [(name, it) for name, it in self.blocks.items() if it.standing]
        kept.sort(key=lambda it: (-it[1].height, it[1].arrival))
        tips = []
        for name, block in kept:
            if name == self.best or name not in parents:
                status = "active" if name == self.best else block.standing
                tips.append(f"{name} {block.height} {self.length(name)} {status}")
        return "; ".join(tips)
