"""Wrong products and wrong rules, each of which has to be found.

A wrong product is the library with its answers changed: it is found where it isn't what the rules say. A wrong rule is
planted in the rules (rules.py, chainstate.py): it is found where the peer's answers contradict it, and where ours do.
"""

from typing import Callable, Dict, Iterator, NamedTuple, Optional, Sequence, Tuple

from .compare import Bench, Difference, Four, Tally, as_core, count, differs
from .differences import Kind, made
from .playing import CORE, OURS, Base, Lines, Seen, Setting, model, play_model
from .rules import ALL_KINDS
from .wrong import Wrong
from .trees import List_


class Recorded(NamedTuple):
    """A list that was played, and the peer's count of preferences before it."""

    base: Base
    lines: Lines
    four: Four
    reverse: int
    precious_height: int

    def says(self, setting: Setting) -> Optional[Difference]:
        """How a model differs from what was answered."""
        found = self.four.core if setting.is_peer else self.four.ours
        chain = model(setting, self.base, self.lines, self.reverse, self.precious_height)
        try:
            said = play_model(self.lines, chain)
        except (AssertionError, AttributeError, KeyError, IndexError, StopIteration, TypeError, ValueError) as error:
            return Difference("it falls apart", 0, error, None)
        return differs("", found, as_core(said) if setting.is_peer else said)


def record(bench: Bench, list_: List_, tally: Tally) -> Tuple[Recorded, Optional[Difference]]:
    """Plays a list at both and keeps the answers; the first that isn't what it has to be."""
    reverse, precious_height = bench.reverse, bench.precious_height
    lines, four = bench.ask(list_)
    count(four, tally)
    return Recorded(bench.base, lines, four, reverse, precious_height), bench.judge(lines, four)


# ---- wrong products

Change = Callable[[Seen], Seen]


def _tips_of_others(seen: Seen) -> Seen:
    return seen._replace(tips=tuple((n, h, length, "active" if s == "valid-fork" else s) for n, h, length, s in seen.tips))


def _is_unit_off(seen: Seen) -> Seen:
    return seen._replace(reads=tuple(read and (read[0] + 1, *read[1:]) for read in seen.reads))


#: What every answer of a wrong product is changed to.
PRODUCTS: Dict[str, Change] = {
    "banana to every command": lambda seen: seen._replace(reply="banana"),
    "the base as the best block": lambda seen: seen._replace(best=-1),
    "no tips": lambda seen: seen._replace(tips=()),
    "a fork as active": _tips_of_others,
    "tips in another order": lambda seen: seen._replace(tips=seen.tips[::-1]),
    "no coin": lambda seen: seen._replace(reads=tuple(None for _ in seen.reads)),
    "coins of another value": _is_unit_off,
}


def answering(wrong: str, right: str) -> Change:
    """A product that answers another reply in the place of one."""
    return lambda seen: seen._replace(reply=wrong) if seen.reply.split(" ")[0] == right else seen


def products(recorded: Sequence[Recorded]) -> Dict[str, Change]:
    """Those, and for each reply of the lists a product that answers another in its place."""
    said = {seen.reply.split(" ")[0] for it in recorded for seen in it.four.ours_expected.seen if seen is not None}
    wrong = {right: "accepted" if right != "accepted" else "inconclusive" for right in sorted(said)}
    return {**PRODUCTS, **{f"{other} for {right}": answering(other, right) for right, other in wrong.items()}}


def product_found(recorded: Sequence[Recorded], change: Change) -> Optional[int]:
    """In which list, from 1, a wrong product is found."""
    for number, (_, _, four, _, _) in enumerate(recorded, 1):
        wrong = four.ours._replace(seen=[seen and change(seen) for seen in four.ours.seen])
        if differs("", wrong, four.ours_expected) is not None:
            return number
    return None


# ---- wrong rules


class Found(NamedTuple):
    """In which list a wrong rule is contradicted first: by the peer's answers, and by ours. None where in no list."""

    by_core: Optional[int]
    by_ours: Optional[int]


def rule_found(recorded: Sequence[Recorded], wrong: "Wrong") -> Found:
    def first(setting: Setting) -> Optional[int]:
        planted = setting._replace(rules=wrong.rules, chainstate=wrong.chainstate)
        return next((n for n, it in enumerate(recorded, 1) if it.says(planted) is not None), None)

    return Found(first(CORE), first(OURS))


# ---- kinds


def kind_faults(bench: Bench, kind: Kind) -> Iterator[str]:
    """In what a kind of difference isn't as it is written: its answers, what the rules say, and its switch of them."""
    list_, names = made(kind, bench.maker)
    played, _ = record(bench, list_, Tally())
    back: Dict[int, str] = {number: name for name, number in reversed(list(names.items())) if number >= list_.base}
    back[-1] = "base"
    for step, theirs, own in zip(kind.steps, played.four.core.seen, played.four.ours.seen):
        for who, seen, said in (("Core", theirs, step.core), ("ours", own, step.ours)):
            assert seen is not None
            answer = f"{seen.reply}, {back[seen.best]}"
            if answer != said:
                yield f"{step.command}: {who} answers {answer}, not {said}"
    for setting, other in ((CORE, ALL_KINDS - {kind.switch}), (OURS, frozenset({kind.switch}))):
        found = played.says(setting)
        if found is not None:
            yield str(found)
        if played.says(setting._replace(kinds=other)) is None:
            yield f"its switch changes nothing of {'Core' if setting.is_peer else 'ours'}"
