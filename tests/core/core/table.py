"""The table of scenarios (crates/workloads), as lists for both: the blocks that it defines, by the bytes that regchain makes."""

import subprocess
import tempfile
from pathlib import Path
from typing import Dict, Iterator, List, NamedTuple, Optional, Tuple

import scenarios
from wakotehu.encoding import GENESIS, EncodingError, Header, double_sha, read_block

from .spelling import ROOT, TARGET, Logical, work
from .trees import Command, List_


class Scenario(NamedTuple):
    """A scenario of the table as a list on genesis."""

    name: str
    list: List_


def lists(program: str) -> Iterator[Scenario]:
    """The scenarios that can be put to both: those without signatures, which are invented, and without bytes that are no
    block or have a parent that is none."""
    for scenario in (*scenarios.BRANCHES, *scenarios.SPENDS):
        if "verdict" in scenario.definitions:
            continue
        found = _list(program, scenario)
        if found is not None:
            yield Scenario(scenario.name, found)


def _list(program: str, scenario: scenarios.Scenario) -> Optional[List_]:
    shown = _shown(program, scenario.text())
    blocks, numbers = _blocks(shown)
    if blocks is None:
        return None
    commands, now = [], int(scenarios.MOMENT)
    for line in scenario.told.split("\n"):
        words = line.split(" = ")[0].split()
        if words[0] == "now":
            now = int(words[1])
        elif words[0] in ("submit", "invalidate", "reconsider", "precious"):
            if words[1] not in numbers:
                return None
            commands.append(Command(words[0], numbers[words[1]], now if words[0] == "submit" else 0))
        elif words[0] == "each":
            commands += [
                Command("submit", numbers[f"{words[1]}{n}"], now) for n in range(int(words[2]), int(words[3]) + 1)
            ]
        elif words[0] in ("raw", "cut"):
            return None
    return List_(blocks, 0, commands, [], []) if commands else None


def _shown(program: str, text: str) -> List[Tuple[str, bytes]]:
    """The names and the bytes of what a scenario defines."""
    with tempfile.TemporaryDirectory() as room:
        file = Path(room, "scenario")
        file.write_text(text)
        done = subprocess.run([program, "show", "--scenario", str(file)], stdout=subprocess.PIPE, check=True)
    return [(name, bytes.fromhex(data)) for name, _, data in (line.split() for line in done.stdout.decode().splitlines())]


def _blocks(shown: List[Tuple[str, bytes]]) -> Tuple[Optional[List[Logical]], Dict[str, int]]:
    blocks: List[Logical] = []
    numbers: Dict[str, int] = {}
    ids = {GENESIS.id: ROOT}
    for name, data in shown:
        try:
            block = read_block(data)
        except EncodingError:
            continue  # a transaction
        header: Header = block.header
        if header.parent not in ids:
            return None, {}
        numbers[name] = len(blocks)
        ids.setdefault(double_sha(data[:80]), len(blocks))
        blocks.append(
            Logical(
                ids[header.parent], header.time, block.transactions, header.version, header.bits, header.root,
                work(data[:80]) <= TARGET, data[80:],
            )  # fmt: skip
        )
    return blocks, numbers
