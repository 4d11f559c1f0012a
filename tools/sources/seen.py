"""What a check of a function over its callees' contracts can read, so that a sum over it tells whether a result still holds.

The other functions' bodies and proofs aren't there (alone.py), and equal texts get equal results. Of those it is enough to
take what the function can reach by names; taking more only means that an edit is tried again:

- its own text, the `use` lines of its file, and the files of its proof;
- each type, trait, constant, macro and re-export of its crate and those below whose name is a word of what was taken. A value's type
  is named where the value comes from: in a head, a field, a constant or an import. A constant function is taken with its body;
- each impl of a taken type, with the heads of a trait's functions, which a body can call without their names. A trait of these crates
  has to be taken too, and suffices where the type isn't one of theirs, as a slice or a parameter;
- the head of any other function, by which a call is judged, if its name is a word of the function's text or of a proof, or of a macro,
  and of a method its type is taken;
- the files of definitions and lemmas that all this imports, and those that those import. A `use` line names its module whole.
"""

import os
import re
from functools import lru_cache
from typing import Dict, FrozenSet, Iterable, Iterator, List, NamedTuple, Optional, Set

from . import repository
from .definitions import without_comments
from .edits import PROOFS, Edit, function_of, path_of, text_of, whole_of
from .rattle import Function, bare, functions, header, imports, parts, plain

WORDS = re.compile(r"\w+")
# A module of the crates in a `use` line or a term, and one in an attribute.
NAMED = re.compile(r"\bRattle\.(\w+\.(?:specs|proofs)\.[\w.]+)")
ATTRIBUTED = re.compile(r"\b(\w+)::((?:specs|proofs)::[\w:]+)")
# What begins an item, where the layout is the kit's, and its name.
BEGIN = re.compile(r"^(?!where\b|requires\b|ensures\b|decreases\b)[#a-z]", re.M)
ITEM = re.compile(r"^(?:pub(?:\([^)]*\))? )?(?:unsafe )?(?:struct|enum|trait|type|const|static|mod|macro_rules!) (?!fn\b)(?:mut )?(\w+)", re.M)
IMPL = re.compile(r"^(?:unsafe )?impl\b([^{;]*)\{", re.M)
IMPORT = re.compile(r"^(?:pub(?:\([^)]*\))? )?use [^;]*;?", re.M)


class Part(NamedTuple):
    """A text without comments, with the lines that import what it names; its words; and the files that it leads to."""

    text: str
    words: FrozenSet[str]
    files: FrozenSet[str]


class Unit(NamedTuple):
    """What is taken of a source together: once one of these names is a word of what was taken (none: always), of an impl of a trait of
    these crates its trait's too, and a function's head if its own name is a word of what may call it."""

    part: Part
    names: FrozenSet[str]
    function: str = ""
    trait: str = ""


def one_by_one(line: str) -> List[str]:
    """An import for each name of a line."""
    ahead, brace, rest = line.partition("{")
    return [ahead + it for each in parts(rest.rpartition("}")[0]) for it in one_by_one(each)] if brace else [line]


def imported(line: str) -> FrozenSet[str]:
    """The name that a line imports, and what it is called."""
    return frozenset(WORDS.findall(re.sub(r"\w+\s*::", "", line))) - {"pub", "use", "as"}


def part(text: str, files: Iterable[str]) -> Part:
    return Part(text, frozenset(WORDS.findall(text)), frozenset(files))


@lru_cache(maxsize=None)
def definitions(path: str) -> Part:
    """A file of definitions, lemmas or a proof. Definitions reach a source's types by imports alone, and functions by `contracts`."""
    lines = [it for it in (without_comments(line).rstrip() for line in repository.text_of(path).splitlines()) if it]
    text = "\n".join(lines)
    made = part(text, (file for it in NAMED.findall(text) for file in files_of(it.split("."))))
    if "/proofs/" in path or "contracts" in text:
        return made
    return made._replace(words=frozenset(WORDS.findall("\n".join(it for it in lines if "Rattle." in it))))


@lru_cache(maxsize=None)
def exists(path: str) -> bool:
    return os.path.isfile(path)


def files_of(module: List[str]) -> List[str]:
    """The files that a module's path leads through: its own, and those that may pass its names on."""
    paths = (f"{repository.ROOT}/crates/{'/'.join(module[:count])}.antt" for count in range(3, len(module) + 1))
    return [it for it in paths if exists(it)]


class Source:
    """A source file, by what can be taken of it."""

    def __init__(self, crate: str, source: str) -> None:
        self.crate = crate
        self.text = text_of(crate, source)
        self.shown = bare(self.text, keeps_texts=True)
        self.lines = [it for line in IMPORT.findall(self.shown) for it in one_by_one(line.rstrip(";"))]
        # An impl may have imports of its own, and the same name for another definition.
        ghosts = (imports([it]) for it in self.shown.splitlines() if it.lstrip().startswith("ghost use "))
        self.ghosts = [it for each in ghosts for it in each.items()]

    def part(self, text: str, lines: Iterable[str] = ()) -> Part:
        """A part of the file's text, with these lines."""
        made, files = [*(it for it in text.splitlines() if it.strip()), *lines], set()
        for alias, (module, name) in self.ghosts:
            if all(it in text for it in alias.split("◌")):
                made.append(f"{alias} {'.'.join(module)} {name}")
                files.update(files_of([*module, name or ""]))
        for path in NAMED.findall(text):
            files.update(files_of(path.split(".")))
        for crate, path in ATTRIBUTED.findall(text):
            files.update(files_of([self.crate if crate == "crate" else crate, *path.split("::")]))
        return part("\n".join(made), files)

    def naming(self, text: str, with_traits: bool = False) -> Part:
        """The same, with the lines that import what it names, and all that may import a trait, whose methods a body calls."""
        words = set(WORDS.findall(text))
        taken = []
        for line in self.lines:
            names = imported(line)
            if "*" in line or names & words or (with_traits and any(it[0].isupper() for it in names)):
                taken.append(line)
        return self.part(text, taken)

    def units(self) -> Iterator[Unit]:
        yield from (Unit(self.part("", [it]), imported(it)) for it in self.lines if it.startswith("pub"))
        rest, done = list(self.shown), 0
        for it in functions(self.text):
            whole = whole_of(self.text, it)
            if whole.start < done:
                continue
            done = whole.stop
            is_const, of_trait = "const " in it.words, it.block and (it.block.trait or it.block.kind != "impl")
            head = range(whole.start, it.body.start if it.body and not is_const else it.end)
            if not of_trait:
                of = frozenset([it.name] if is_const else [plain(it.block.of)] if it.block else [])
                yield Unit(self.naming(self.shown[head.start : head.stop]), of, "" if is_const else it.name)
            # Blanks stand for what is taken apart, so that each place stays what it is.
            out = range(head.stop if of_trait else whole.start, whole.stop)
            rest[out.start : out.stop] = (letter if letter == "\n" else " " for letter in rest[out.start : out.stop])
        yield from self.items("".join(rest))

    def items(self, text: str) -> Iterator[Unit]:
        begins = [it.start() for it in BEGIN.finditer(bare(text))]
        ahead = ""
        for begin, end in zip(begins, [*begins[1:], len(text)]):
            item, ahead = ahead + text[begin:end], ""
            if item.startswith("#["):
                last = item.rstrip().rpartition("\n")[2]
                if last.startswith(("#[", ")]")):
                    ahead = item
                    continue
            line = text[begin:end]
            if IMPORT.match(line) or line.startswith("ghost use "):
                continue
            impl, named = IMPL.search(item), ITEM.search(item)
            made = self.naming(item)
            if impl:
                _, given, of = header("impl", impl[1])
                trait, own_type = plain(given), plain(of)
                ours = types(self.crate)
                yield Unit(made, frozenset([own_type if own_type in ours or not trait else trait]), trait=trait if trait in ours else "")
            else:
                yield Unit(made, frozenset([named[1]] if named else []))


@lru_cache(maxsize=None)
def types(crate: str) -> FrozenSet[str]:
    """The names of the items of a crate and all below."""
    texts = (text_of(it, source) for it in [*repository.below(crate), crate] for source in repository.sources(it))
    return frozenset(name for text in texts for name in ITEM.findall(bare(text)))


@lru_cache(maxsize=None)
def units_of(crate: str) -> List[Unit]:
    return [unit for source in repository.sources(crate) for unit in Source(crate, source).units()]


def has_cycle(folder: str) -> bool:
    above, _, last = folder.rpartition("/")
    return os.path.isdir(f"{above}/+{last}")


def own(edit: Edit) -> Optional[List[Part]]:
    """The functions that an edit changes, as they stand, and the files of their proofs; None where those can't be told."""
    made: List[Part] = []
    for source, name in sorted(edit.laid({})[1]):
        file = Source(edit.crate, source)
        it: Optional[Function] = function_of(file.text, name)
        path = path_of(edit.crate, source, it) if it else ""
        folder = f"{repository.ROOT}/crates/{edit.crate}/proofs/{path.replace('::', '/')}"
        if not it or not path or has_cycle(folder):
            return None
        whole, block = whole_of(file.text, it), f"{it.block.declared} {it.block.trait} {it.block.of}" if it.block else ""
        made.append(file.naming(f"{source} {name} {block}\n{file.shown[whole.start : whole.stop]}", with_traits=True))
        made += [definitions(f"{folder}/{of}") for of in PROOFS if exists(f"{folder}/{of}")]
    return made


def reached(edit: Edit) -> Optional[List[str]]:
    """The texts that a check of an edit can read, in order; None where that can't be told."""
    its = own(edit)
    if its is None:
        return None
    left = [it for crate in [*repository.below(edit.crate), edit.crate] for it in units_of(crate)]
    calls = set(WORDS.findall(repository.text_of(edit.path))).union(*(it.words for it in its))
    words: Set[str] = set()
    taken: List[Part] = []
    files = closed(file for it in its for file in it.files)
    while True:
        calls.update(*(it.words for path, it in files.items() if "/proofs/" in path or "contracts" in it.text))
        words.update(calls, *(it.words for it in files.values()))
        is_new = [
            (not it.names or bool(it.names & words)) and (not it.function or it.function in calls) and (not it.trait or it.trait in words)
            for it in left]
        new = [it for it, yes in zip(left, is_new) if yes]
        if not new:
            texts = [it.text for it in its] + sorted(it.text for it in taken)
            return texts + [f"{os.path.relpath(path, repository.ROOT)}\n{it.text}" for path, it in sorted(files.items())]
        left = [it for it, yes in zip(left, is_new) if not yes]
        taken += [it.part for it in new]
        files.update(closed(file for it in new for file in it.part.files))
        # A macro stands for what it writes, and a re-export may give another name.
        calls.update(*(it.part.words for it in new if "macro_rules!" in it.part.text))
        calls.update(*(imported(it.part.text) for it in new if IMPORT.match(it.part.text) and " as " in it.part.text))
        words.update(*(it.part.words for it in new))


def closed(paths: Iterable[str]) -> Dict[str, Part]:
    """These files of definitions, and all that they lead to."""
    found: Dict[str, Part] = {}
    todo = sorted(set(paths))
    while todo:
        path = todo.pop()
        if path not in found:
            found[path] = definitions(path)
            todo += found[path].files
    return found
