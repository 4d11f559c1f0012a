"""Random scenarios: blocks on any recent block, and what many clients ask of them."""

from __future__ import annotations

import dataclasses
import random

# The chain that all begin with, and how many of its coinbases are ripe above it.
BASE = 200
# So many blocks above it a coinbase is ripe.
MATURITY = 100
SUBSIDY = 5_000_000_000
GENESIS_TIME = 1_296_688_602
CLIENTS = 15

# Options of a block, each of which breaks a rule, or may.
OPTIONS = [
    "root=00000000000000000000000000000000000000000000000000000000000000aa",
    "time=1296688602",
    "time=1299999999",
    "version=3",
    "cb=0110",
    "bits=207ffffe",
    "cb=none",
    "reward=5000000001",
    "reward=1",
    "version=5",
]


@dataclasses.dataclass
class Block:
    name: str
    height: int
    parent: int | None
    made: list[tuple[str, int]]  # outputs that its transactions make, each with its value
    spent: set[str]  # outputs that they spend
    is_last: bool = False  # it may break a rule, so nothing that is kept stands on a block above it


@dataclasses.dataclass
class Scenario:
    definitions: list[str]
    # the commands of each client
    commands: list[list[str]]

    def text(self, is_asked: bool = True) -> str:
        lines = list(self.definitions)
        for number, commands in enumerate(self.commands):
            lines.append(f"client s{number}")
            lines += commands if is_asked else []
        return "\n".join(lines) + "\n"


class Dealer:
    def __init__(self, seed: int, count: int) -> None:
        self.chance = random.Random(seed)
        self.definitions = [f"chain c {BASE} genesis"]
        self.blocks = [Block(f"c{BASE}", BASE, None, [], set())]
        # nobody waits for the seat that the first chain comes from
        first = [f"submit c{height}" for height in range(1, BASE + 1)]
        self.commands = [list(first) for _ in range(CLIENTS)]
        # the places of the blocks that each client has submitted
        self.submitted: list[set[int]] = [{0} for _ in range(CLIENTS)]
        self.transactions = 0
        # how many blocks are defined
        self.count = 0
        # whether the block that is being made may break a rule
        self.is_doubtful = False
        for number in range(count):
            self.block()
            if number % 100 == 99:
                self.catch_up()

    def scenario(self) -> Scenario:
        return Scenario(self.definitions, self.commands)

    def recent(self) -> int:
        """The place of a block, most often of one of the last."""
        span = self.chance.choice([1, 1, 2, 4, 8, 40])
        return max(0, len(self.blocks) - self.chance.randint(1, span))

    def coins(self, height: int, place: int | None) -> list[tuple[str, int]]:
        """Outputs that may well be unspent for a block of this height above this one: what the last blocks made, and the
        coinbase that is ripe for this height first."""
        spent: set[str] = set()
        made: list[tuple[str, int]] = []
        ripe = f"c{height - MATURITY}"
        for _ in range(MATURITY):
            if place is None:
                break
            block = self.blocks[place]
            ripe = block.name if block.height == height - MATURITY else ripe
            spent |= block.spent
            made += block.made
            place = block.parent
        return [it for it in made[-200:] + [(f"{ripe}.cb:0", SUBSIDY)] if it[0] not in spent]

    def transaction(self, block: Block, coins: list[tuple[str, int]]) -> str | None:
        if not coins:
            return None
        name, value = coins.pop(self.chance.randrange(len(coins)))
        this = f"t{self.transactions}"
        self.transactions += 1
        # now and then a script that fails, a lock that isn't over, or more that comes out than goes in
        script, sequence, more = "-", "", 0
        match self.chance.randrange(100):
            case 0:
                script = "6a"
            case 1:
                sequence = " 3"
            case 2:
                more = 1
        self.is_doubtful |= (script, sequence, more) != ("-", "", 0)
        first, second = value // 2, value - value // 2 + more
        self.definitions += [f"tx {this} 2 0", f"in {name} {script}{sequence}"]
        self.definitions += [f"out {first} 51", f"out {second} 51"]
        block.spent.add(name)
        block.made += [(f"{this}:0", first), (f"{this}:1", second)]
        if self.chance.random() < 0.5:
            coins += block.made[-2:]
        return this

    def block(self) -> None:
        """Defines a block, and has some clients submit it, each among other calls."""
        place = self.recent()
        self.is_doubtful = False
        below = self.blocks[place]
        block = Block(f"b{self.count}", below.height + 1, place, [], set())
        self.count += 1
        coins = self.coins(block.height, place)
        wanted = [self.transaction(block, coins) for _ in range(self.chance.choice([0, 0, 1, 2, 5]))]
        words = [f"block {block.name} {below.name}", *(it for it in wanted if it)]
        block.is_last = self.is_doubtful
        if self.chance.random() < 0.06:
            words.append(self.chance.choice(OPTIONS))
            self.is_doubtful = True
        elif not below.is_last:
            self.blocks.append(block)
        self.definitions.append(" ".join(words))
        for _ in range(1 if self.is_doubtful else self.chance.choice([1, 2, 3])):
            self.submit(block)

    def submit(self, block: Block) -> None:
        """Has a client submit a block, most often after those below it: other clients, who have them too, may not be as
        far."""
        number = self.chance.randrange(CLIENTS)
        client, submitted = self.commands[number], self.submitted[number]
        below, place = [], block.parent
        while place is not None and place not in submitted:
            below.append(place)
            place = self.blocks[place].parent
        if self.chance.random() < 0.9:
            client += [f"submit {self.blocks[it].name}" for it in reversed(below)]
            submitted.update(below)
        client.append(f"submit {block.name}")
        client += [self.read() for _ in range(self.chance.choice([0, 1, 2]))]
        match self.chance.randrange(300):
            case 0:
                client += self.marks()
            case number if number < 30:
                client.append(self.seldom())

    def branch(self) -> list[str]:
        """Submissions of the branch of the last block."""
        place: int | None = len(self.blocks) - 1
        names = []
        while place:
            names.append(f"submit {self.blocks[place].name}")
            place = self.blocks[place].parent
        return names[::-1]

    def catch_up(self) -> None:
        """Has some clients take all marks back and submit a branch once more: a block that came while one below it was
        marked wasn't kept, nor was any above it."""
        for number in self.chance.sample(range(CLIENTS), 3):
            self.commands[number] += [f"reconsider c{BASE}", *self.branch()]

    def marks(self) -> list[str]:
        """A mark that is taken back soon, but for a few, which someone takes back with all others."""
        name = self.blocks[self.recent()].name
        reads = [self.read() for _ in range(self.chance.randint(0, 3))]
        taken_back = [f"reconsider {name}"] if self.chance.random() < 0.95 else []
        return [f"invalidate {name}", *reads, *taken_back]

    def read(self) -> str:
        kind = self.chance.random()
        if kind < 0.4:
            return "best"
        if kind < 0.5:
            return "tips"
        block = self.blocks[self.recent()]
        if block.made and kind < 0.9:
            return f"txout {self.chance.choice(block.made)[0]}"
        return f"txout {block.name}.cb:0"

    def seldom(self) -> str:
        name = self.blocks[self.recent()].name
        return self.chance.choice(
            [
                f"reconsider {name}",
                f"reconsider c{BASE}",
                f"reconsider c{BASE}",
                f"precious {name}",
                f"submit {name}",
                f"cut {name} {self.chance.randint(0, 200)}",
                f"now {GENESIS_TIME + self.chance.randint(0, 40_000)}",
            ]
        )
