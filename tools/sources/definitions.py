"""The reader of definitions: the files of specs/, and what their names lead to."""

import os
import re
from typing import Callable, Dict, Iterable, Iterator, List, Optional, Set, Tuple

from . import repository
from .rattle import Imports, Module, imports

Name = Tuple[Module, str]
# A clause, with what its file imports.
Clause = Tuple[str, Imports]
Instead = Callable[[Module, str], Name]

WORD = re.compile(r"[^\s(){}\[\],;.λ→×¬∷]+")


def without_comments(line: str) -> str:
    return re.sub(r"(^|\s)--.*", "", line)


class Spec:
    """A file of definitions: each with its text, and what the file imports."""

    HEAD = re.compile(r"^(\s*)(?:pub )?(abbrev|unfoldable|opaque|record|data) (?:pub )?([^\s:({]+)")
    LEMMA = re.compile(r"^(\s*)pub ()([^\s:(]+) ?:")

    def __init__(self, text: str) -> None:
        lines = [without_comments(line) for line in text.split("\n")]
        self.names = imports(lines)
        self.defs: Dict[str, str] = {}
        # the line of each definition's head, from 0, and of the module with parameters that it stands in
        self.heads: Dict[str, int] = {}
        self.under: Dict[str, int] = {}
        self.records: Set[str] = set()
        module, depth = "", 0
        begun: Optional[int] = None
        here: Optional[str] = None
        for number, line in enumerate(lines):
            m = re.match(r"^\s*module _ (.*) where", line)
            if m:
                module, begun, here = m.group(1), number, None
                continue
            if re.match(r"^(pub )?(use|mod) ", line):
                continue
            m = self.HEAD.match(line) or self.LEMMA.match(line)
            # what stands deeper than the head of a record is one of its fields
            if m and not (here in self.records and len(m.group(1)) > depth):
                here, depth = m.group(3), len(m.group(1))
                if m.group(2) in ("record", "data"):
                    self.records.add(here)
                if not depth:
                    module, begun = "", None
                self.defs[here] = module + " " + line
                self.heads[here] = number
                if begun is not None:
                    self.under[here] = begun
            elif here:
                self.defs[here] += "\n" + line


Specs = Dict[Module, Spec]


def read_specs(order: Iterable[str]) -> Specs:
    """The files of definitions of these crates, by their modules."""
    specs: Specs = {}
    for crate in order:
        base = f"{repository.ROOT}/crates/{crate}/specs"
        for path in repository.files(base, ".antt"):
            parts = os.path.relpath(path, base)[:-5].split(os.sep)
            specs[(crate, "specs", *parts)] = Spec(repository.text_of(path))
    return specs


def module_of(path: str) -> Module:
    """The module of a file of definitions below crates/."""
    return tuple(path[:-len(".antt")].split("/"))


def reached(text: str, names: Imports, own: Iterable[str] = ()) -> Iterator[Tuple[Optional[Module], str]]:
    """Which imported names, names of an imported module, and own definitions a text cites."""
    # the steps of a `do` are tied by this operator
    if "←" in text:
        text += " >>="
    words: Set[str] = set()
    for chunk in re.findall(r"[^\s(){}\[\],;]+", text):
        words.add(chunk)
        words.update(WORD.findall(chunk))
    for word in words:
        module, real = names.get(word, ((), None))
        if real:
            yield module, real
        if word in own:
            yield (None, word)
        head, dot, tail = word.partition(".")
        if dot and head in names and names[head][1] is None:
            yield (names[head][0], tail.split(".")[0])
    for name in [*names, *own]:
        at, real = (None, name) if name in own else names[name]
        if real and "◌" in name and all(p in text for p in name.split("◌") if p):
            yield (at, real)


def resolved(specs: Specs, path: Module, name: str) -> List[Name]:
    """What a name of a module stands for: a definition there, one that the module passes on, or the records with such a field.
    Of a module that isn't among these it is the name itself."""
    while path in specs or path[:-1] in specs:
        if path not in specs:
            path, name = path[:-1], path[-1]
        spec = specs[path]
        if name in spec.defs:
            return [(path, name)]
        at, real = spec.names.get(name, (path, None))
        if real is None:
            field = re.compile(r"(^|\s)%s(\s|$)" % re.escape(name))
            return [(path, key) for key, text in spec.defs.items() if key in spec.records and field.search(text)]
        path, name = at, real
    return [(path, name)]


def itself(path: Module, name: str) -> Name:
    return path, name


def cited(specs: Specs, path: Module, name: str, instead: Instead) -> Iterator[Name]:
    """What a definition cites, its own file's definitions among it."""
    spec = specs[path]
    for at, other in reached(spec.defs[name], spec.names, spec.defs):
        if at is not None or other != name:
            yield from resolved(specs, *instead(at or path, other))


def reach(specs: Specs, clauses: Iterable[Clause], instead: Instead = itself) -> Set[Name]:
    """The definitions that these clauses lead to, each clause with its file's imports; in the place of one what `instead` gives."""
    hit: Set[Name] = set()
    todo: List[Name] = []
    for clause, names in clauses:
        for at, name in reached(clause, names):
            if at is not None:
                todo.extend(resolved(specs, *instead(at, name)))
    while todo:
        path, name = todo.pop()
        if path in specs and (path, name) not in hit:
            hit.add((path, name))
            todo.extend(cited(specs, path, name, instead))
    return hit
