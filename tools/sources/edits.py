"""Wrong bodies as files: what each changes, in which function, and how many of them are tried in one check."""

import os
import re
from functools import partial
from typing import Dict, Iterable, List, NamedTuple, Optional, Set, Tuple

from . import repository
from .rattle import SHOWN, Function, bare, functions, line_of, plain

HERE = f"{repository.ROOT}/wrong"
# The edits that the gate tries, one CRATE/NAME a line.
GATE = f"{HERE}/gate.txt"
# Invariants and answers stand for a proof that the kit makes itself; a function that has one of its own has neither.
PROOFS = ("Answers.antt", "Invariants.antt", "Proof.antt")
CONSTANT = re.compile(rf"^{SHOWN}(?:const (?!fn)|static )(\w+)", re.M)

# How many edits and twins one check tries at the most: what it keeps of each takes memory until its end.
MOST = 240

# The texts of a crate's sources by their names, and functions by their source and name.
Texts = Dict[str, str]
Named = Set[Tuple[str, str]]


class BadEdit(Exception):
    """Why an edit can't be laid over the sources."""


class Edit:
    """One file of pairs of texts that turns a crate's source into a wrong body."""

    def __init__(self, crate: str, name: str) -> None:
        self.crate, self.name = crate, name
        self.path = f"{HERE}/{crate}/{name}.edit"

    def __str__(self) -> str:
        return f"{self.crate}/{self.name}"

    def pairs(self) -> "List[Pair]":
        found: List[Pair] = []
        source, old = "", ""
        for line in repository.text_of(self.path).splitlines():
            given = line.partition(": ")[2]
            if line.startswith("file: "):
                source = given.strip()
                if not source.startswith("src/") or not os.path.isfile(f"{repository.ROOT}/crates/{self.crate}/{source}"):
                    raise BadEdit(f"there is no source file {source}")
            elif line.startswith("old: "):
                old = given
            elif line.startswith("new:") and source and old:
                found.append(Pair(source, old, line[4 + (line[4:5] == " "):]))
                old = ""
            elif line.startswith("twin: ") and found and not old and found[-1].twin is None:
                found[-1] = found[-1]._replace(twin=given)
            elif line.strip():
                raise BadEdit(f"this line isn't read: {line.strip()}")
        if old:
            raise BadEdit("its last old text has no new one")
        if not found:
            raise BadEdit("it changes nothing")
        return found

    def has_twin(self) -> bool:
        return any(it.twin is not None for it in self.pairs())

    def constants(self) -> Set[str]:
        """The names of the constants that it changes."""
        found = set()
        for source, old, _, _ in self.pairs():
            text = text_of(self.crate, source)
            at = text.find(old)
            if at >= 0 and not old.lstrip().startswith(("use ", "mod ")) and not function_at(text, at):
                found.add(constant_at(text, at))
        return found

    def laid(self, texts: Texts, as_twin: bool = False) -> Tuple[Texts, Named]:
        """The texts of the files with this edit or its twin, over those of `texts`, and the functions (file, name) that it changes.

        A constant that it changes stands for the functions of its file's crate that name it.
        """
        texts, changed = dict(texts), set()
        for source, old, new, twin in self.pairs():
            if source not in texts:
                texts[source] = text_of(self.crate, source)
            count = texts[source].count(old)
            if count != 1:
                raise BadEdit(f"its old text stands in {source} {count} times: {old.strip()}")
            if old in (new, twin):
                raise BadEdit("it changes nothing")
            at = texts[source].index(old)
            if not old.lstrip().startswith(("use ", "mod ")):
                name = function_at(texts[source], at)
                changed |= {(source, name)} if name else readers(self.crate, constant_at(texts[source], at))
            if as_twin:
                new = old if twin is None else twin
            texts[source] = texts[source][:at] + new + texts[source][at + len(old) :]
        if not changed:
            raise BadEdit("it changes imports alone")
        return texts, changed


class Pair(NamedTuple):
    """A text of a source, the wrong one, and one that changes as much and means the same."""

    source: str
    old: str
    new: str
    twin: Optional[str] = None


def constant_at(text: str, at: int) -> str:
    """The name of the constant whose text has this place."""
    named = [it[1] for it in CONSTANT.finditer(text) if it.start() <= at]
    if not named:
        raise BadEdit("it changes no function and no constant")
    return named[-1]


def readers(crate: str, constant: str) -> Named:
    """The functions of a crate (file, name) that name a constant."""
    found = set()
    for source in repository.sources(crate):
        text = text_of(crate, source)
        for name in re.finditer(rf"\b{constant}\b", bare(text, keeps_texts=True)):
            function = function_at(text, name.start())
            if function:
                found.add((source, function))
    return found


def text_of(crate: str, source: str) -> str:
    return repository.read(f"crates/{crate}/{source}")


def function_at(text: str, at: int) -> str:
    """The name of the function whose text has this place, with its type's before it; empty where there is none."""
    around = [it for it in functions(text) if it.begin <= at < it.end]
    return name_of(around[-1]) if around else ""


def name_of(it: Function) -> str:
    """A function's name as the prover prints it: behind `Type::`, or `TypeTrait::` in the impl of a trait."""
    if not it.block:
        return it.name
    trait = it.block.trait
    given = "".join(plain(of) for of in trait.partition("<")[2].rstrip("> ").split(",") if of.strip() and "'" not in of)
    return f"{plain(it.block.of)}{plain(trait)}{given}::{it.name}"


def function_of(text: str, name: str) -> Optional[Function]:
    """The first function of this name, with its type's before it."""
    return next((it for it in functions(text) if name_of(it) == name), None)


def lines_of(text: str, name: str) -> range:
    """The lines of a file that a function has."""
    it = function_of(text, name)
    return range(line_of(text, it.begin), line_of(text, it.end) + 1) if it else range(0)


def path_of(crate: str, source: str, it: Function) -> str:
    """A function's path below its crate, as the prover prints it; empty where that can't be told from the text."""
    if not it.block:
        return module_of(source) + it.name if not it.indent else ""
    if it.block.kind == "trait":
        return ""
    declared = re.findall(r"\b([A-Z]\w*)\b(?=[:,>])", it.block.declared)
    of, trait = it.block.of, it.block.trait
    given = re.findall(r"\b[A-Z]\w*\b|&", "".join(of.partition("<")[1:]))
    if trait == "Drop" or of.startswith(("&", "(", "[")) or set(declared) & set(re.findall(r"\w+", trait.partition("<")[2])):
        return ""
    return printed(crate, source, name_of(it)) if set(given) <= set(declared) else with_parameters(crate, source, name_of(it))


def asked(crate: str, source: str, text: str, name: str) -> str:
    """How the prover is asked for a function: by its path, or else by its own name."""
    it = function_of(text, name)
    path = path_of(crate, source, it) if it else ""
    return f"{crate}::{path}" if path else name.rpartition("::")[2]


def with_parameters(crate: str, source: str, name: str) -> str:
    """The path of a method of a type at what it is given, where the folder of its proofs tells it."""
    path = printed(crate, source, name)
    of, _, last = path.rpartition("::")
    above, _, type_name = of.rpartition("::")
    folder = f"{repository.ROOT}/crates/{crate}/proofs/{above.replace('::', '/')}"
    longer = [it for it in os.listdir(folder) if it.startswith(f"{type_name}+")] if os.path.isdir(folder) else []
    return f"{above}::{longer[0]}::{last}" if len(longer) == 1 else ""


def module_of(source: str) -> str:
    """The module's path of a source file, `a::b::` of src/a/b.rt."""
    parts = source[len("src/"):-len(".rt")].split("/")
    if parts[-1] in ("lib", "main", "mod"):
        parts.pop()
    return "".join(f"{it}::" for it in parts)


def printed(crate: str, source: str, name: str) -> str:
    """A function's path below its crate, as the prover prints it: a method stands in the module of its type, and one that
    a trait asks for where the impl stands."""
    of, is_method, _ = name.partition("::")
    if is_method:
        declared = re.compile(rf"^\s*{SHOWN}(?:struct|enum) {of}\b", re.M)
        for other in repository.sources(crate):
            if declared.search(text_of(crate, other)):
                return module_of(other) + name
    return module_of(source) + name


def edits_of(crate: str) -> List[Edit]:
    folder = f"{HERE}/{crate}"
    names = sorted(os.listdir(folder)) if os.path.isdir(folder) else []
    return [Edit(crate, it[: -len(".edit")]) for it in names if it.endswith(".edit")]


def gate() -> List[str]:
    """The names of the edits that the gate tries."""
    return [line.strip() for line in repository.text_of(GATE).splitlines() if line.strip() and not line.startswith("#")]


class Variant(NamedTuple):
    """An edit, or its twin."""

    edit: Edit
    as_twin: bool

    def __str__(self) -> str:
        return f"{'twin of ' * self.as_twin}{self.edit}"


class Copy(NamedTuple):
    """A function with another name and body, to stand behind the one that it was made of."""

    source: str
    of: str
    name: str
    text: str


class Trial(NamedTuple):
    """A variant in a check: the functions that stand for it, their texts, and whether they stand in the place of the real ones."""

    variant: Variant
    functions: Named
    texts: List[str]
    in_place: bool

    def reads(self, constants: Set[str]) -> bool:
        """Whether one of its functions names one of these."""
        return any(re.search(rf"\b{it}\b", text) for it in constants for text in self.texts)


def whole_of(text: str, it: Function) -> range:
    """The places of a function, with the attributes and comments above it."""
    begin, shown = it.begin, bare(text)
    while begin:
        above = text.rfind("\n", 0, begin - 1) + 1
        if not text[above:begin].strip() or shown[above:begin].rstrip().endswith(("{", "}", ";")):
            break
        begin = above
    return range(begin, it.end)


def around(text: str, names: Iterable[str]) -> str:
    """A text without these functions."""
    spans = [(it.begin, it.end) for it in map(partial(function_of, text), names) if it]
    for begin, end in sorted(spans, reverse=True):
        text = text[:begin] + text[end:]
    return text


def around_all(texts: Texts, changed: Named) -> Texts:
    return {source: around(text, {name for of, name in changed if of == source}) for source, text in texts.items()}


def without_imports(texts: Texts) -> List[str]:
    return [line for text in texts.values() for line in text.splitlines() if not line.startswith(("use ", "mod "))]


def copies(crate: str, texts: Texts, changed: Named, mark: str) -> List[Copy]:
    """Copies of the changed functions under names of their own; none where one has to keep its name, in the impl of a trait."""
    made = []
    for source, name in sorted(changed):
        it = function_of(texts[source], name)
        if not it or not path_of(crate, source, it) or (it.block and (it.block.trait or it.block.kind != "impl")):
            return []
        whole = whole_of(texts[source], it)
        head = re.sub(rf"\bfn {it.name}\b", f"fn {it.name}{mark}", texts[source][it.begin : it.end], count=1)
        made.append(Copy(source, name, name + mark, texts[source][whole.start : it.begin] + head))
    return made


class Batch:
    """Edits and twins that one check judges.

    Each gets functions of its own next to the real ones, whose bodies are left out. So one check judges any number of wrong bodies
    of one function (MOST in all); they call the real functions through their contracts. A change of more than the texts of
    functions, or in the impl of a trait, replaces the real text, if no other does.
    """

    def __init__(self, apart: bool = False) -> None:
        self.apart = apart
        self.trials: List[Trial] = []
        self.copies: Dict[str, List[Copy]] = {}
        self.in_place: Dict[str, Texts] = {}
        # The constants that one of them changes: what names one is judged in another check, in each crate.
        self.moved: Set[str] = set()

    def functions(self, crate: str) -> Named:
        return {it for trial in self.trials if trial.variant.edit.crate == crate for it in trial.functions}

    def crates(self) -> List[str]:
        return sorted({*self.copies, *self.in_place})

    def texts(self, crate: str) -> Texts:
        """The sources of a crate that the batch changes."""
        texts = dict(self.in_place.get(crate, {}))
        for source in {it.source for it in self.copies.get(crate, [])}:
            text = texts.get(source) or text_of(crate, source)
            ends = {it.of: whole.end for it in self.copies[crate] for whole in [function_of(text, it.of)] if it.source == source and whole}
            for of, end in sorted(ends.items(), key=lambda it: -it[1]):
                behind = "".join(f"\n\n{it.text}" for it in self.copies[crate] if (it.source, it.of) == (source, of))
                text = text[:end] + behind + text[end:]
            texts[source] = text
        return texts

    def takes(self, variant: Variant) -> bool:
        """Adds a variant, and says whether it could."""
        crate = variant.edit.crate
        if len(self.trials) >= MOST:
            return False
        try:
            texts, changed = variant.edit.laid({}, variant.as_twin)
        except BadEdit:
            return False
        old = around_all({source: text_of(crate, source) for source in texts}, changed)
        new = around_all(texts, changed)
        made = copies(crate, texts, changed, f"_laid{len(self.trials)}") if old == new else []
        if not made:
            return self.takes_in_place(variant, changed, without_imports(old) != without_imports(new))
        trial = Trial(variant, {(it.source, it.name) for it in made}, [it.text for it in made], False)
        if not self.fits(trial):
            return False
        self.trials.append(trial)
        self.copies.setdefault(crate, []).extend(made)
        return True

    def takes_in_place(self, variant: Variant, changed: Named, moves: bool) -> bool:
        """The same for one that replaces the real text: not where another does, or where it moves a constant that
        others read."""
        crate, moved = variant.edit.crate, variant.edit.constants()
        copied = {(it.source, it.of) for it in self.copies.get(crate, [])}
        if changed & (self.functions(crate) | (copied if moves else set())) or any(it.reads(moved) for it in self.trials):
            return False
        try:
            texts, _ = variant.edit.laid(self.in_place.get(crate, {}), variant.as_twin)
        except BadEdit:
            return False
        its = [(texts[source], function_of(texts[source], name)) for source, name in changed if source in texts]
        trial = Trial(variant, changed, [text[it.begin : it.end] for text, it in its if it], True)
        if not self.fits(trial):
            return False
        self.trials.append(trial)
        self.in_place[crate] = texts
        self.moved |= moved
        return True

    def fits(self, trial: Trial) -> bool:
        """Whether it may stand here: next to no constant that it reads and another changes. Where the batch's stand apart, what
        replaces a real text stands alone, since others may call it."""
        apart = self.apart and self.trials and (trial.in_place or any(it.in_place for it in self.trials))
        return not (apart or trial.reads(self.moved))


def batches(variants: Iterable[Variant], apart: bool = False) -> List[Batch]:
    """The variants in as few checks as can be, by the order that they come in."""
    made: List[Batch] = []
    for variant in variants:
        if not any(it.takes(variant) for it in made):
            one = Batch(apart)
            if one.takes(variant):
                made.append(one)
    return made
