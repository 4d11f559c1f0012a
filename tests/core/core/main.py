"""The tests beside Bitcoin Core's code, from the command line."""

import argparse
import os
import sys
import tempfile
import time
from collections import Counter
from pathlib import Path
from typing import Dict, List, Sequence

from . import cases, changed, differences, goals, peer, planted, reached, scripts, signed, table
from .chainstate import BY_ITSELF, BY_PLACE, ON_BRANCH, REORGANISING, Refusal
from .compare import Bench, Tally
from .rules import ALL_KINDS
from .wrong import RULES, SCRIPTS

DOCUMENT = Path(__file__).parents[3] / "docs" / "CORE.md"
#: Heights of bases on which each rule comes: with no soft fork in force, and with all.
RULE_BASES = (110, 1360)
#: In so many lists each wrong rule has to be found.
LISTS_TO_FIND = 60
#: What has to be broken, where, and how often in 100 lists.
REQUIRED = (
    (BY_ITSELF, tuple(cases.ALONE), 20), (BY_PLACE, tuple(cases.PLACE), 20), (ON_BRANCH, tuple(cases.COINS), 20),
    (REORGANISING, tuple(cases.COINS), 5),
)  # fmt: skip
#: Heights of other bases: none, round maturity, round halvings, and below and above each soft fork.
BASES = (0, 1, 99, 101, 110, 149, 150, 299, 431, 440, 499, 501, 1250, 1252, 1350, 1352)
#: Bases of script pairs, with other rules in force each.
SHORT_PAIR_BASES = (110, 1360)
PAIR_BASES = (110, 440, 1260, 1360)
#: How many pairs of all bases together look for small changes of a reading, and the least share of them that is found.
CHANGE_PAIRS, LEAST_SHARE = 20000, 95.0
SHORT_CHANGE_PAIRS, SHORT_LEAST_SHARE = 7000, 95.0


def main(words: Sequence[str]) -> int:
    options = _options(words)
    begun = time.monotonic()
    print(peer.version())
    with tempfile.TemporaryDirectory() as room:
        run = _Run(options, Path(room))
        faults = run.kinds() + run.rules() + run.table() + run.signed() + run.lists() + run.pairs()
    print(f"{time.monotonic() - begun:.0f} seconds, {'no difference that docs/CORE.md lacks' if not faults else f'{faults} faults'}")
    return 1 if faults else 0


def _options(words: Sequence[str]) -> argparse.Namespace:
    parser = argparse.ArgumentParser(prog="tests/core/run", description=__doc__)
    parser.add_argument("--short", action="store_true", help="some of it, in a minute or two")
    parser.add_argument("--program", help="regchain, whose answers are compared too (else the library's alone)")
    parser.add_argument("--seed", type=int, default=1, help="the first seed of lists and pairs (1)")
    parser.add_argument("--lists", type=int, help="lists on each base (50, on bases of other heights 40 or 20; short 30)")
    parser.add_argument("--pairs", type=int, help="script pairs on each base (25,000; short 3,500)")
    parser.add_argument("--jobs", type=int, help="processes that look for small changes of a reading (as many as processors, at most 4)")
    parser.add_argument("--keep", type=Path, metavar="FOLDER", help="keeps the peer's data of each base here")
    return parser.parse_args(words)


class _Run:
    def __init__(self, options: argparse.Namespace, room: Path) -> None:
        self.options, self.room = options, room
        self.short = bool(options.short)
        self.begun = time.monotonic()

    def _bench(self, height: int, options: Sequence[str] = ()) -> Bench:
        if self.options.keep is not None:
            self.options.keep.mkdir(parents=True, exist_ok=True)
        return Bench(height, self.room, self.options.program, self.options.keep, options)

    def kinds(self) -> int:
        """Each kind of difference is as docs/CORE.md has it, and each switch of the rules is one of them."""
        faults = [f"no small list for {kind}" for kind in ALL_KINDS - {kind.switch for kind in differences.KINDS}]
        rows = {line.split(" | ")[0][2:] for line in DOCUMENT.read_text().splitlines() if line.startswith("| ")}
        faults += [f"docs/CORE.md has no row: {kind.name}" for kind in differences.KINDS if kind.name not in rows]
        by_base: Dict[int, List[differences.Kind]] = {}
        for kind in differences.KINDS:
            by_base.setdefault(kind.base, []).append(kind)
        for height, kinds in by_base.items():
            with self._bench(height) as bench:
                faults += [f"{kind.name}: {fault}" for kind in kinds for fault in planted.kind_faults(bench, kind)]
        for fault in faults:
            print(f"FAULT {fault}")
        print(f"{len(differences.KINDS)} kinds of differences" + (", each as docs/CORE.md has it" if not faults else ""))
        return len(faults)

    def table(self) -> int:
        """The table of scenarios at both, on a peer of its own each."""
        if self.short or self.options.program is None:
            return 0
        faults, tally = 0, Tally()
        for name, list_ in table.lists(self.options.program):
            with self._bench(0) as bench:
                found = bench.play(list_, tally)
                if found is not None:
                    faults += 1
                    print(f"FAULT the scenario {name}: {found}")
        print(
            f"{tally.lists} scenarios of the table, {tally.commands} commands: {tally.equal} answered alike, "
            f"{tally.apart} otherwise, each as it has to be"
        )
        return faults

    def signed(self) -> int:
        """Blocks with real signatures by writers at once."""
        if self.options.program is None:
            return 0
        faults = signed.faults_of(self.options.program, self.options.seed, self.room)
        for fault in faults[:10]:
            print(f"FAULT {fault[:500]}")
        return len(faults)

    def rules(self) -> int:
        """Lists in which each rule is broken and just kept; then wrong products and wrong rules against what was answered."""
        faults, tally = 0, Tally()
        count = self.options.lists or (LISTS_TO_FIND // 2 if self.short else 50)
        by_base: List[List[planted.Recorded]] = []
        for height in RULE_BASES:
            with self._bench(height) as bench:
                seeds = range(self.options.seed, self.options.seed + count)
                by_base.append([])
                for seed in seeds:
                    played, found = planted.record(bench, bench.maker.list(seed), tally)
                    by_base[-1].append(played)
                    if found is not None:
                        faults += 1
                        print("FAULT " + bench.report(played.lines.list, found))
        recorded = [played for pair in zip(*by_base) for played in pair]
        self._timed("lists were played")
        faults += self._told(tally) + self._reasons(tally) + self._edges(tally)
        faults += self._products(recorded) + self._wrong(recorded)
        self._timed("wrong rules were looked for")
        return faults

    def lists(self) -> int:
        """Lists on bases of other heights."""
        faults, tally = 0, Tally()
        for height in () if self.short else BASES:
            count = self.options.lists or (40 if height < 600 else 20)
            with self._bench(height) as bench:
                for seed in range(self.options.seed, self.options.seed + count):
                    list_ = bench.maker.list(seed)
                    found = bench.play(list_, tally)
                    if found is not None:
                        faults += 1
                        print("FAULT " + bench.report(list_, found))
        return faults + (self._told(tally) if tally.lists else 0)

    def _told(self, tally: Tally) -> int:
        print(
            f"{tally.lists} lists, {tally.commands} commands: {tally.equal} answered alike, {tally.apart} otherwise, each as "
            f"it has to be; {tally.unclear} behind a tie by addresses"
        )
        print("  replies: " + ", ".join(f"{word} {count}" for word, count in tally.replies.most_common()))
        return 0

    def _reasons(self, tally: Tally) -> int:
        """Each rule was broken so often, and those over the coins in reorganisations too."""
        faults = 0
        for where, reasons, least in REQUIRED:
            wanted = least * tally.lists // 100
            counts = {reason: tally.refusals[Refusal(reason, where)] for reason in reasons}
            print(f"  refused {where}: " + ", ".join(f"{reason} {count}" for reason, count in counts.items()))
            for reason, count in counts.items():
                if count < wanted:
                    faults += 1
                    print(f"FAULT {reason} {where} came {count} times, not {wanted}")
        return faults

    def _edges(self, tally: Tally) -> int:
        """The lists came to the edges of the rules."""
        faults = goals.lacking(tally.edges, tally.lists)
        for fault in faults:
            print(f"FAULT {fault}")
        return len(faults)

    def _products(self, recorded: Sequence[planted.Recorded]) -> int:
        """Wrong products are found."""
        faults, products = 0, planted.products(recorded)
        last = 0
        for name, change in products.items():
            found = planted.product_found(recorded, change)
            last = max(last, found or 0)
            if found is None:
                faults += 1
                print(f"FAULT a wrong product isn't found: {name}")
        print(f"{len(products)} wrong products, the last found in list {last}")
        return faults

    def _timed(self, what: str) -> None:
        print(f"  ({time.monotonic() - self.begun:.0f} seconds: {what})", flush=True)

    def _wrong(self, recorded: Sequence[planted.Recorded]) -> int:
        """Wrong rules are found: the peer contradicts each, and so do our answers."""
        faults, some = 0, recorded[:LISTS_TO_FIND]
        for wrong in RULES:
            found = planted.rule_found(some, wrong)
            is_found = found.by_ours is not None and (wrong.is_ours or found.by_core is not None)
            faults += not is_found
            if not is_found or not self.short:
                by = f"by ours in list {found.by_ours}, by Core in list {found.by_core}"
                print(("  " if is_found else f"FAULT not found in {len(some)} lists: ") + f"{wrong.name}: {by}")
        print(f"{len(RULES)} wrong rules planted, {len(RULES) - faults} found in {len(some)} lists")
        return faults

    def pairs(self) -> int:
        """Script pairs at both."""
        faults = 0
        every: List[scripts.Pairs] = []
        for height in SHORT_PAIR_BASES if self.short else PAIR_BASES:
            with self._bench(height, scripts.TELLING) as bench:
                pairs = scripts.Pairs(bench, self.options.seed * 1000003 + height)
                pairs.play(self.options.pairs or (3500 if self.short else 25000))
                every.append(pairs)
                for found in pairs.differing(scripts.right(pairs.height, pairs.author.secp)):
                    faults += 1
                    print(f"FAULT {found}")
                for found in pairs.differing(scripts.by_rules(pairs.height, pairs.author.secp)):
                    faults += 1
                    print(f"FAULT the rules as they are written here: {found}")
                names: "Counter[str]" = Counter()
                for fault in pairs.misnamed(names):
                    faults += 1
                    print(f"FAULT {fault}")
                print(f"{len(names)} names of failures, each Core's: " + ", ".join(f"{n} {w}" for w, n in names.most_common()))
                others = dict.fromkeys(scripts.OTHERS, "not a matter of scripts")
                said = Counter(others.get(said, "accepted" if said == "accepted" else "refused") for _, said in pairs.played)
                print(f"{len(pairs.played)} script pairs at height {pairs.height}: " + ", ".join(f"{n} {w}" for w, n in said.most_common()))
                faults += self._planted_pairs(pairs)
        self._timed("pairs were played")
        return faults + self._changed(every)

    def _changed(self, every: Sequence[scripts.Pairs]) -> int:
        """Some of the pairs come to each edge, and find enough of the small changes of a reading of scripts."""
        count, least = (SHORT_CHANGE_PAIRS, SHORT_LEAST_SHARE) if self.short else (CHANGE_PAIRS, LEAST_SHARE)
        faults = 0
        is_whole = self.options.pairs is None and not self.short
        for lack in reached.lacking(reached.count(every, count // len(every))):
            faults += is_whole
            print(f"{'FAULT' if is_whole else '    by bad luck'} {lack}")
        rows = changed.rows_of(every, count // len(every))
        found = changed.Measure(rows).try_all(self.options.jobs or min(len(os.sched_getaffinity(0)), 4))
        share = changed.print_table(found, len(rows), not self.short)
        self._timed("small changes were looked for")
        if self.options.pairs is None and share < least:
            print(f"FAULT less than {least} % of the small changes are found")
            faults += 1
        return faults

    def _planted_pairs(self, pairs: scripts.Pairs) -> int:
        faults, secp = 0, pairs.author.secp
        readings = {name: scripts.by_rules(pairs.height, secp, run) for name, run in SCRIPTS}
        for name, rule in {**scripts.wrong(pairs.height, secp), **readings}.items():
            if next(pairs.differing(rule), None) is None:
                faults += 1
                print(f"FAULT no pair finds a wrong rule: {name}")
        return faults


if __name__ == "__main__":
    sys.exit(main(sys.argv[1:]))
