"""The table of scenarios that the program's tests play, through Python: each answer is the program's."""

import os
import re
import subprocess
import tempfile
import unittest

from bitcoin.core import CoreRegTestParams

from wakotehu import Chainstate, read_id, show
from wakotehu.encoding import GENESIS, double_sha, read_block

ROOT = os.path.realpath(os.path.join(os.path.dirname(__file__), "..", "..", ".."))
#: The program: WAKOTEHU_PROGRAM, or where `./build` and `rt ci` leave it.
PROGRAM = os.environ.get("WAKOTEHU_PROGRAM", f"{ROOT}/crates/regchain/out/regchain")
TABLE = [f"{ROOT}/crates/workloads/src/table/{name}.rt" for name in ("branches", "spends")]
SCENARIO = re.compile(
    r'pub const (\w+): Scenario = Scenario {\s*name: "[^"]*",\s*heights: (\w+|"[^"]*"),'
    r'\s*definitions: (\w+|"[^"]*"),\s*told: "([^"]*)",\s*};'
)


class Scenario:
    """A scenario of the table: its heights, its definitions and its commands."""

    def __init__(self, name, heights, definitions, told):
        self.name, self.heights = name, heights
        self.commands = [line.split(" = ")[0] for line in told.split("\n")]
        self.text = "\n".join([definitions, "client a", *self.commands, ""])


def scenarios():
    """All of the table. One that isn't written as these are is a failure."""
    found = []
    for path in TABLE:
        with open(path, encoding="utf-8") as file:
            text = file.read()
        texts = dict(re.findall(r'const (\w+): &str = "([^"]*)";', text), REGTEST="1,1,1,1")
        rows = SCENARIO.findall(text)
        assert len(rows) == text.count("Scenario = Scenario {"), path
        for name, *words in rows:
            said = [texts[word] if word in texts else word.strip('"') for word in words]
            found.append(Scenario(name, *said))
    return found


class Player:
    """Takes a scenario's commands through a chainstate, and words the answers as the program does."""

    def __init__(self, chain, shown):
        self.chain, self.now = chain, 1296688602
        #: The ids of blocks by their names, and of transactions; and the blocks' bytes.
        self.ids, self.blocks = {"genesis": GENESIS.id}, {"genesis": CoreRegTestParams.GENESIS_BLOCK.serialize()}
        for name, id, data in shown:
            self.ids[name] = read_id(id)
            if len(data) > 80 and double_sha(data[:80]) == self.ids[name]:
                self.blocks[name] = data
        for name, data in self.blocks.items():
            made = read_block(data).transactions
            self.ids[f"{name}.cb"] = made[0].id if made else bytes(32)
        # The first name of an id is the one that is printed.
        self.names = {self.ids[name]: name for name in reversed(self.blocks)}

    def name_of(self, id):
        return self.names.get(id, show(id))

    def answer(self, line):
        """The command as it is printed, and its answer, for each that a line stands for."""
        command, *words = line.split()
        if command == "now":
            self.now = int(words[0])
        elif command == "each":
            for number in range(int(words[1]), int(words[2]) + 1):
                yield from self.answer(f"submit {words[0]}{number}")
        else:
            yield line, getattr(self, f"answer_{command}", self.answer_mark)(command, *words)

    def answer_submit(self, _command, name):
        return self.chain.try_submit(self.blocks[name], self.now).text

    def answer_cut(self, _command, name, length):
        return self.chain.try_submit(self.blocks[name][: int(length)], self.now).text

    def answer_mark(self, command, name):
        return self.chain.try_mark(command, self.ids[name]).text

    def answer_best(self, _command):
        return self.name_of(self.chain.best())

    def answer_tips(self, _command):
        return "; ".join(f"{self.name_of(tip.id)} {tip.height} {tip.length} {tip.status}" for tip in self.chain.tips())

    def answer_txout(self, _command, output):
        name, index = output.rsplit(":", 1)
        coin = self.chain.coin(self.ids[name], int(index))
        if coin is None:
            return "none"
        made = " coinbase" if coin.coinbase else ""
        depth = self.chain.height() - coin.height + 1
        return f"{coin.value} {coin.script.hex() or '-'} height {coin.height}{made} conf {depth}"


def run(*words, text):
    """What the program prints."""
    done = subprocess.run([PROGRAM, *words], input=text, capture_output=True, text=True)
    if done.returncode or done.stderr:
        raise AssertionError(f"{words}: {done.stderr or done.returncode}")
    return done.stdout.splitlines()


class ScenariosTest(unittest.TestCase):
    def test_answers_are_those_of_the_program(self):
        self.assertTrue(os.path.exists(PROGRAM), f"{PROGRAM} isn't there: run ./build or rt ci first")
        answers = 0
        for scenario in scenarios():
            with self.subTest(scenario=scenario.name), tempfile.TemporaryDirectory() as folder:
                answers += self.compared(scenario, folder)
        self.assertGreater(answers, 1000)

    def compared(self, scenario, folder):
        """Plays a scenario both ways, and answers how many answers there were."""
        words = ("--scenario", "-", "--heights", scenario.heights, "--save", folder)
        printed = run("run", *words, text=scenario.text)
        told = [line.rsplit(" @", 1)[0] for line in printed[1 : printed.index("journal")]]
        shown = [line.split() for line in run("show", "--scenario", "-", text=scenario.text)]
        with open(f"{folder}/table.txt", encoding="ascii") as file:
            table = file.read()
        with open(f"{folder}/heights.txt", encoding="ascii") as file:
            heights = [int(height) for height in file.read().split(",")]
        with Chainstate(heights, table) as chain:
            player = Player(chain, [(name, id, bytes.fromhex(data)) for name, id, data in shown])
            played = [f"{words} = {answer}" for line in scenario.commands for words, answer in player.answer(line)]
        self.assertEqual(played, told)
        return len(played)


if __name__ == "__main__":
    unittest.main()
