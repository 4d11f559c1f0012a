"""What came of edits and twins, by sums of what they were tried with, so that only what has changed is tried again."""

import hashlib
import os
import subprocess
from functools import lru_cache
from typing import Callable, Dict, Iterable, List, Tuple

from . import repository, seen
from .edits import HERE, Edit

#: A line for each twin that passed, and for each edit that was refused: CRATE/NAME and the sum.
TWINS, REFUSED = f"{HERE}/twins.txt", f"{HERE}/refused.txt"
WHOLE, STATED = ("src", "specs", "proofs"), ("src", "specs")


@lru_cache(None)
def texts_of(crate: str, folders: Tuple[str, ...]) -> bytes:
    """A sum of a crate's texts in these folders: functions and contracts, definitions, proofs."""
    whole = hashlib.sha256()
    for folder in folders:
        for path in repository.files(f"{repository.ROOT}/crates/{crate}/{folder}", ".rt", ".antt"):
            with open(path, "rb") as file:
                whole.update(f"{os.path.relpath(path, repository.ROOT)}\0".encode() + hashlib.sha256(file.read()).digest())
    return whole.digest()


@lru_cache(None)
def kit() -> bytes:
    return subprocess.run(["rt", "version"], capture_output=True, text=True, check=True).stdout.split("logic")[-1].strip().encode()


def sum_of(edit: Edit, texts: Iterable[bytes]) -> str:
    whole = hashlib.sha256(kit())
    with open(edit.path, "rb") as file:
        whole.update(hashlib.sha256(file.read()).digest())
    for it in texts:
        whole.update(hashlib.sha256(it).digest())
    return whole.hexdigest()[:16]


def all_texts(edit: Edit) -> List[bytes]:
    """Sums of all that a check of an edit reads, where it can't be told what of it counts."""
    return [texts_of(edit.crate, WHOLE), *(texts_of(it, STATED) for it in repository.below(edit.crate))]


def sum_of_twin(edit: Edit) -> str:
    """A sum of the kit, the edit, and the functions that it changes with their proofs. What those call isn't in it: a function whose
    own text, contract and proof stay is proved anew by the gate over what changed elsewhere. The twin is tried again with its edit."""
    own = seen.own(edit)
    return sum_of(edit, all_texts(edit) if own is None else [it.text.encode() for it in own])


def sum_of_refusal(edit: Edit) -> str:
    """A sum of the kit, the edit, and all that decides whether a wrong body is refused (seen.py)."""
    reached = seen.reached(edit)
    return sum_of(edit, all_texts(edit) if reached is None else [it.encode() for it in reached])


def read(path: str) -> Dict[str, str]:
    lines = repository.text_of(path).splitlines() if os.path.exists(path) else []
    return dict((name, sum) for name, sum in map(str.split, filter(str.strip, lines)))


def unknown(path: str, sum_now: Callable[[Edit], str], edits: List[Edit]) -> List[Edit]:
    """Those that aren't recorded there as they are."""
    recorded = read(path)
    return [it for it in edits if recorded.get(str(it)) != sum_now(it)]


def write(path: str, sum_now: Callable[[Edit], str], edits: List[Edit]) -> None:
    """Records these, and leaves out those that are gone."""
    found = read(path)
    found.update({str(it): sum_now(it) for it in edits})
    lines = [f"{name} {found[name]}\n" for name in sorted(found) if os.path.exists(f"{HERE}/{name}.edit")]
    with open(path, "w", encoding="ascii") as file:
        file.write("".join(lines))
