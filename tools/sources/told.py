"""What a check says of the functions that edits change."""

import re
from enum import Enum
from typing import Dict, Iterator, List, NamedTuple, Optional

from .alone import Laid
from .edits import Batch, Variant, asked, lines_of
from .repository import text_of

# A proof that names what an edit took away is refused whatever the contract says.
NAMES = re.compile(r"(has no field|is not in scope|has no `|was not admitted|: record `[^`]*` \(nearest: )")
UNCOVERED = "does not cover"
# What is said of a function without a proof by hand, one of whose goals isn't found.
SEARCHED = "`search` did not prove"
GAVE_UP = "gave up at one of its limits"
FALSE = "allow values at which this goal is false"


class Verdict(Enum):
    """What becomes of an edit, in the order in which they are counted at the end."""

    REFUSED = "refused"
    TWIN = "refused, and its twin too, so that says nothing"
    BY_HAND = "refused only as a proof by hand no longer fits, without a twin"
    BY_NAMES = "refused whatever the contract says, as a proof names what they took away"
    BY_LIMIT = "refused only by a limit of the prover, without a twin"
    UNCOVERED = "not judged, as the borrow checker doesn't cover them"
    THROUGH = "let through"
    BAD = "couldn't be applied"
    UNTRIED = "not tried"


class Found(NamedTuple):
    verdict: Verdict
    why: str = ""


class Said:
    """What a check printed of the functions of a batch."""

    def __init__(self, laid: Laid, lines: List[str]) -> None:
        self.laid, self.lines = laid, lines
        told = (re.match(r"fn ([^ ]+): (.*)", it) for it in lines)
        self.functions = {it[1].replace("+", ""): it[2] for it in told if it}

    def verdicts(self, batch: Batch) -> Dict[Variant, Found]:
        """What became of each edit and twin, and why: one function that is refused suffices, and a twin passes where all do.

        One that calls a function of the batch that isn't proved, and has no open goal of its own, isn't judged.
        """
        told = {}
        for trial in batch.trials:
            each = [self.of(trial.variant.edit.crate, *it) for it in sorted(trial.functions)]
            passed = [it for it in each if it.verdict == Verdict.THROUGH]
            left = [it for it in each if it.verdict != Verdict.THROUGH] if trial.variant.as_twin else each
            told[trial.variant] = min(left or passed, key=lambda it: list(Verdict).index(it.verdict))
        return told

    def of(self, crate: str, source: str, name: str) -> Found:
        """What is said of one function."""
        text = text_of(f"{self.laid.room}/{crate}/{source}")
        path = asked(crate, source, text, name).replace("+", "")
        said = [it for of, it in self.functions.items() if of == path or "::" not in path and of.endswith(f"::{path}")]
        if len(said) != 1:
            return Found(Verdict.UNTRIED, f"the check says nothing of {path}")
        rests = said[0].startswith("depends on a hole in ") and module_of(path) not in said[0].replace("+", "")
        if said[0] == "no holes" or rests:
            return Found(Verdict.THROUGH, f"{path}: {said[0]}")
        own = [*self.goals(crate, source, lines_of(text, name)), *self.errors(crate, path)]
        if any(UNCOVERED in it for it in [*own, said[0]]):
            return Found(Verdict.UNCOVERED, said[0])
        goals = [it for it in own if ": error" not in it]
        for it in [*(it for it in goals if FALSE in it), *(it for it in goals if GAVE_UP not in it)]:
            return Found(Verdict.REFUSED, it)
        errors = [it for it in own if ": error" in it and not NAMES.search(it)]
        if errors:
            return Found(Verdict.BY_HAND, errors[0])
        if goals or "could not tell" in said[0]:
            return Found(Verdict.BY_LIMIT, [*goals, said[0]][0])
        if own:
            return Found(Verdict.BY_NAMES, own[0])
        return Found(Verdict.REFUSED if SEARCHED in said[0] else Verdict.UNTRIED, said[0])

    def goals(self, crate: str, source: str, span: range) -> Iterator[str]:
        """The lines on goals that are open at a place of the function's text."""
        for line in self.lines:
            at = re.match(r"note: (\S+?):(\d+):\d+: ", line)
            if at and at[1] == f"{self.laid.room}/{crate}/{source}" and int(at[2]) in span and "not proved" in line:
                yield line.replace(f"{self.laid.room}/", "")

    def errors(self, crate: str, path: str) -> Iterator[str]:
        """The lines on what is refused in the files of its proof."""
        folder = f"{self.laid.room}/{crate}/proofs/" + path.partition("::")[2].replace("::", "/")
        for line in self.lines:
            if re.sub("^note: ", "", line).replace("+", "").startswith(f"{folder}/") and ": error" in line:
                yield line.replace(f"{self.laid.room}/", "")


def module_of(path: str) -> str:
    """The module of a function's proof, without a mark of a cycle of calls or of what a type is given."""
    crate, _, rest = path.partition("::")
    return f"`Rattle.{crate}.proofs.{rest.replace('::', '.')}.Proof."


def beside_twin(it: Found, twin: Optional[Found]) -> Found:
    """What became of an edit, where it is known of its twin: a refusal counts where that passes, also by a proof by hand or at a limit."""
    if twin and twin.verdict != Verdict.THROUGH and it.verdict in (Verdict.REFUSED, Verdict.BY_HAND, Verdict.BY_LIMIT):
        return Found(Verdict.TWIN, twin.why)
    if twin and it.verdict in (Verdict.BY_HAND, Verdict.BY_LIMIT):
        return Found(Verdict.REFUSED, it.why)
    return it
