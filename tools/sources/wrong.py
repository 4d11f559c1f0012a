"""Tries the wrong bodies of wrong/: the prover has to refuse each, in the function that it changes.

    wrong/run [CRATE..]              all of these crates, by default of every crate, that aren't recorded as they are in refused.txt
                                     and twins.txt; --anew: all of them
    wrong/run --gate [CRATE..]       of these those alone that the gate tries, which gate.txt names
    wrong/run --edit CRATE/NAME ..   these edits alone, recorded or not
    wrong/run --refusals [CRATE..]   then the wrong programs of tests/refusals/wrong too, by tests/refusals/try_wrong
    wrong/run --programs             only the wrong programs of wrong/programs, by wrong/programs/try
    wrong/run --apply                only sees that every edit and every wrong program can still be laid over the
                                     sources: no prover, some seconds

One check tries many edits: what a function's contract says is shown of its body alone, so each is judged for itself, also
several of one function. README.md says how, and what the edits are for.

The status is 0 where all that was tried was refused, 1 where an edit was let through, can't be applied or wasn't tried.
"""
import argparse
import os
import re
import shutil
import subprocess
import sys
import tempfile
import time
from typing import Dict, Iterator, List, Tuple

from . import known
from .alone import Laid
from .edits import HERE, BadEdit, Batch, Edit, Variant, asked, batches, edits_of, gate, lines_of, text_of
from .repository import ROOT, crates
from .repository import text_of as text_at
from .told import Found, Said, Verdict, beside_twin

# The memory of a job of a check, as a share of what the machine has.
MEMORY_OF_ONE = 5 << 30


class NoCheck(Exception):
    """Why a check judged nothing."""


class Prover:
    """Checks of batches, each over what the ones before have proved."""

    def __init__(self, room: str, kept: str, jobs: int) -> None:
        self.room, self.kept, self.jobs = room, kept, jobs
        os.makedirs(kept, exist_ok=True)

    def tried_in_turn(self, variants: List[Variant]) -> Iterator[Dict[Variant, Found]]:
        """What became of these edits and twins, and why, a check at a time. One that wasn't judged next to others, as it may call a
        function that another has put in the place of a real one, is tried once more without that."""
        again = []
        for batch in batches(variants):
            disturbed = [it.variant for it in batch.trials if any(other.in_place for other in batch.trials if other is not it)]
            found = self.tried(batch)
            left = [it for it in disturbed if found[it].verdict == Verdict.UNTRIED]
            again += left
            yield {it: told for it, told in found.items() if it not in left}
        for batch in batches(again, apart=True):
            yield self.tried(batch)

    def tried(self, batch: Batch) -> Dict[Variant, Found]:
        """What became of each edit and twin of a batch, and why. Those that don't compile are left out, and the others tried."""
        found: Dict[Variant, Found] = {}
        while batch.trials:
            with tempfile.TemporaryDirectory(prefix="laid-", dir=self.room) as room:
                laid = self.laid(room, batch)
                lines = self.check(laid, batch)
                if any(it.startswith("fn ") for it in lines):
                    return {**found, **Said(laid, lines).verdicts(batch)}
                bad = self.uncompiled(room, batch, lines)
            if not bad:
                raise NoCheck("\n".join([*(it for it in lines if "error" in it), *lines[-1:]][:5]))
            found.update(bad)
            left = [it.variant for it in batch.trials if it.variant not in bad]
            batch = batches(left, batch.apart)[0] if left else Batch(batch.apart)
        return found

    def laid(self, room: str, batch: Batch) -> Laid:
        laid = Laid(room, batch.crates())
        for crate in batch.crates():
            for source, text in batch.texts(crate).items():
                laid.lay(crate, source, text)
            for it in batch.copies.get(crate, []):
                laid.copy_proof(crate, it)
        for crate in laid.used:
            laid.leave_out(crate, batch.functions(crate))
        return laid

    def check(self, laid: Laid, batch: Batch) -> List[str]:
        """What a check of the batch's functions prints."""
        words = [*laid.words(), "--jobs", str(self.jobs), "--incremental", self.kept]
        for crate in batch.crates():
            texts = batch.texts(crate)
            for source, name in sorted(batch.functions(crate)):
                words += ["--only", asked(crate, source, texts.get(source) or text_of(crate, source), name)]
        ran = subprocess.run(
            words, cwd=f"{laid.room}/laid", stdin=subprocess.DEVNULL, stdout=subprocess.PIPE, stderr=subprocess.STDOUT,
            text=True, errors="replace")
        return [it for it in ran.stdout.splitlines() if not it.startswith("so far: ")]

    def uncompiled(self, room: str, batch: Batch, lines: List[str]) -> Dict[Variant, Found]:
        """The edits and twins at whose functions the compiler found an error."""
        found = {}
        for number, line in enumerate(lines):
            at = re.match(r"\s*-->\s*(\S+?):(\d+):\d+|(\S+?):(\d+):\d+: error", line)
            if not at:
                continue
            path, row = at[1] or at[3], int(at[2] or at[4])
            for trial in batch.trials:
                for source, name in trial.functions:
                    if path == f"{room}/{trial.variant.edit.crate}/{source}" and row in lines_of(text_at(path), name):
                        why = next((it for it in reversed(lines[: number + 1]) if "error" in it), line)
                        found[trial.variant] = Found(Verdict.BAD, why.replace(f"{room}/", ""))
        return found


def at_once() -> int:
    """How many jobs there is room for."""
    with open("/proc/meminfo", encoding="ascii") as lines:
        free = next(int(it.split()[1]) << 10 for it in lines if it.startswith("MemAvailable"))
    return max(1, min(len(os.sched_getaffinity(0)), free // MEMORY_OF_ONE))


def unrecorded(edits: List[Edit], given: argparse.Namespace) -> Tuple[List[Edit], List[Edit]]:
    """The edits that are to be tried, and the twins: those that aren't recorded as they are, unless they are named. An edit whose
    twin is to be tried is tried beside it."""
    twins = [it for it in edits if it.has_twin()]
    if given.anew or given.edit:
        return edits, twins
    unknown = known.unknown(known.REFUSED, known.sum_of_refusal, edits)
    changed = known.unknown(known.TWINS, known.sum_of_twin, twins)
    # What a twin's function calls isn't in its sum, so the twin is tried again with its edit.
    left = [it for it in twins if it in unknown or it in changed]
    print(f"wrong/run: {len(edits) - len(unknown)} of {len(edits)} edits are recorded as refused, and {len(twins) - len(left)} twins as passed", flush=True)
    return [it for it in edits if it in unknown or it in left], left


def try_all(wanted: List[Edit], jobs: int, kept: str, given: argparse.Namespace) -> bool:
    """Tries these edits and their twins, and prints what became of them."""
    begun = time.monotonic()
    edits, left = unrecorded(wanted, given)
    twins = [it for it in edits if it.has_twin()]
    print(f"wrong/run: tries {len(edits)} edits, {len(twins)} of them beside a twin, and {len(left)} twins", flush=True)
    passed: Dict[Edit, Found] = {it: Found(Verdict.THROUGH) for it in twins if it not in left}
    tried: Dict[Edit, Found] = {}
    # An edit behind its twin, so that one check has both, and each crate behind those below, which a check can then leave out.
    variants = [Variant(it, as_twin) for it in edits for as_twin in (True, False) if not as_twin or it in left]
    with tempfile.TemporaryDirectory(prefix="wrong-") as room:
        prover = Prover(room, os.path.abspath(kept or f"{room}/kept"), jobs)
        for told in prover.tried_in_turn(variants):
            for it, found in told.items():
                (passed if it.as_twin else tried)[it.edit] = found
            print_each("twin of", {str(it.edit): found for it, found in told.items() if it.as_twin and found.verdict != Verdict.THROUGH})
            print(f"wrong/run: {len(tried)} of {len(edits)} edits, {len(passed)} of {len(twins)} twins, {spent()}", flush=True)
            if given.record:
                record(tried, passed)
    found_of = {it: beside_twin(found, passed.get(it)) for it, found in tried.items()}
    print_each("wrong", {str(it): found for it, found in found_of.items()})
    for verdict in Verdict:
        names = sorted(str(it) for it, found in found_of.items() if found.verdict == verdict)
        if names or verdict == Verdict.REFUSED:
            print(f"wrong/run: {len(names)} {verdict.value}")
        if verdict != Verdict.REFUSED:
            print("".join(f"    {it}\n" for it in names), end="")
    well = [it for it in twins if passed[it].verdict == Verdict.THROUGH]
    print(f"wrong/run: {len(well)} of {len(twins)} twins passed")
    print(f"wrong/run: {time.monotonic() - begun:.0f} seconds by the clock, {spent()}")
    return all(it.verdict == Verdict.REFUSED for it in found_of.values())


def record(tried: Dict[Edit, Found], passed: Dict[Edit, Found]) -> None:
    """Records what is known so far: an edit with a twin only once that is judged."""
    known.write(known.TWINS, known.sum_of_twin, [it for it, found in passed.items() if found.verdict == Verdict.THROUGH])
    told = {it: beside_twin(found, passed.get(it)) for it, found in tried.items() if it in passed or not it.has_twin()}
    known.write(known.REFUSED, known.sum_of_refusal, [it for it, found in told.items() if found.verdict == Verdict.REFUSED])


def print_each(of: str, found: Dict[str, Found]) -> None:
    for name, (verdict, why) in sorted(found.items()):
        print(f"{of} {name}: {verdict.value}{': ' * bool(why)}{why[:200]}")


def spent() -> str:
    """The minutes of a processor that the checks took so far."""
    ran = os.times()
    return f"{(ran.children_user + ran.children_system) / 60:.1f} minutes of a processor"


def faults() -> Iterator[str]:
    """Says which edits, and which wrong programs, can't be laid over the sources as they are."""
    named = {}
    for crate in sorted(it for it in os.listdir(HERE) if os.path.isdir(f"{HERE}/{it}") and it not in ("__pycache__", "programs")):
        if crate not in crates():
            yield f"wrong/{crate}: there is no such crate"
            continue
        for edit in edits_of(crate):
            named[str(edit)] = edit
            try:
                edit.laid({})
                edit.laid({}, as_twin=True)
                if str(edit) in gate() and not edit.has_twin():
                    raise BadEdit("it is the gate's and has no twin")
            except BadEdit as why:
                yield f"{edit}: {why}"
    yield from (f"gate.txt names {name}, and there is no such edit" for name in gate() if name not in named)
    if not shutil.which("patch"):
        print("wrong/run: there is no patch(1), so the wrong programs weren't looked at", file=sys.stderr)
        return
    for path in patches():
        laid = ["patch", "--dry-run", "--force", "-s", "-p1", "-i", f"{ROOT}/{path}"]
        ran = subprocess.run(laid, cwd=ROOT, stdin=subprocess.DEVNULL, capture_output=True, text=True)
        if ran.returncode:
            yield f"{path}: {(ran.stdout + ran.stderr).strip()}"


def patches() -> List[str]:
    """The wrong programs: patches, by their paths."""
    folders = ("tests/refusals/wrong", "wrong/programs")
    return [f"{folder}/{it}" for folder in folders for it in sorted(os.listdir(f"{ROOT}/{folder}")) if it.endswith(".patch")]


def can_all_be_applied() -> bool:
    found = list(faults())
    for line in found:
        print(f"wrong/run: BAD EDIT: {line}", file=sys.stderr)
    if not found:
        count = sum(len(edits_of(it)) for it in crates())
        print(f"wrong/run: {count} edits, {len(gate())} of them the gate's, and {len(patches())} wrong programs can be applied")
    return not found


def wanted_of(names: List[str], alone: List[str], of_gate: bool) -> List[Edit]:
    """The edits to be tried."""
    chosen = set(alone or (gate() if of_gate else []))
    every = [it for crate in crates() if not names or crate in names for it in edits_of(crate)]
    return [it for it in every if not chosen or str(it) in chosen]


def main() -> int:
    summary, _, rest = (__doc__ or "").partition("\n")
    words = argparse.ArgumentParser(description=summary, epilog=rest, formatter_class=argparse.RawDescriptionHelpFormatter)
    words.add_argument("names", metavar="CRATE", nargs="*")
    words.add_argument("--gate", action="store_true", help="only the edits that the gate tries")
    words.add_argument("--edit", metavar="CRATE/NAME", action="append", default=[], help="only this edit")
    words.add_argument("--refusals", action="store_true", help="also the wrong programs of tests/refusals/wrong")
    words.add_argument("--programs", action="store_true", help="only the wrong programs of wrong/programs")
    words.add_argument("--apply", action="store_true", help="only sees that every edit can be applied")
    words.add_argument("--anew", action="store_true", help="what is recorded too")
    words.add_argument("--record", action="store_true", help="writes which twins passed into twins.txt, and which edits were refused into refused.txt")
    words.add_argument("--kept", metavar="FOLDER", default="", help="where checks keep what they prove, for the next run")
    words.add_argument("--jobs", metavar="N", type=int, default=0, help="so many jobs of the prover, if not as many as there is room for")
    given = words.parse_args()
    if not can_all_be_applied():
        return 1
    if given.apply:
        return 0
    if given.programs:
        return subprocess.run([f"{HERE}/programs/try"]).returncode
    wanted = wanted_of(given.names, given.edit, given.gate)
    unknown = [it for it in given.names if it not in [edit.crate for edit in wanted]]
    unknown += [it for it in given.edit if it not in map(str, wanted)]
    if unknown or not wanted:
        words.error(f"there are no such edits for {', '.join(unknown)}")
    if not shutil.which("rt"):
        words.error("rt isn't on the path: the Rattle kit is needed (README.md)")
    try:
        well = try_all(wanted, given.jobs or at_once(), given.kept, given)
    except NoCheck as why:
        print(f"wrong/run: the check judged nothing:\n{why}", file=sys.stderr)
        return 1
    if given.refusals:
        well = subprocess.run([f"{ROOT}/tests/refusals/try_wrong"]).returncode == 0 and well
    return 0 if well else 1

