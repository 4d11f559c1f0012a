"""What has to be believed: the files of specs/ that the clauses of public calls reach.

    docs/believe             compares the tables in docs/MAP.md and docs/BOOK.md with what is found, and names definitions
                             that stand in the wrong place (status 1 where there are any)
    docs/believe --write     writes the tables into docs/MAP.md
    docs/believe --of CRATE  the definitions that are reached, and those that aren't
    docs/believe --door DOOR the files that a user of one door believes, with how many lines of definitions each has:
                             node, chainstate, library (C and Python) or audit
    docs/believe --book      writes docs/BOOK.md: all definitions that a user of the node believes, in the order of reading;
                             with --door DOOR it prints those of another door

Begun at are the clauses of each public function (and of what traits, models and public ghost fields say of public
types), but not those of `laws`: a law is a theorem about definitions, and what it says is known from its own words.
From there `ghost use` and `use` lines are followed from definition to definition. Types that the code declares
(`specs.declared`) are read in `src/`.
"""
import argparse
import os
import re
import sys
from typing import Callable, Dict, Iterable, Iterator, List, Set, Tuple

from . import book, repository
from .definitions import Clause, Name, Specs, cited, reach, read_specs
from .rattle import BRACKETS, Module, bare, blocks, close_of, functions, imports, is_for_c, plain

PRIVATE_MEMBERS = {"invariant", "laws", "agrees", "memory_tells", "from_gives", "next_gives", "ready_once", "respects_eq", "then"}
# definitions that only private clauses cite, theorems, and computing readings that nothing public reaches
APART = ("inside", "laws", "computed")


def exported(crate: str) -> Tuple[Set[str], Set[Tuple[str, str]], Set[str]]:
    """The names that lib.rt shows, each with its module too, and the modules that are public."""
    lib = f"{repository.ROOT}/crates/{crate}/src/lib.rt"
    text = bare(repository.text_of(lib)) if os.path.exists(lib) else ""
    placed = {("lib", name) for name in re.findall(r"^pub (?:struct|enum|trait|fn|type) (\w+)", text, re.M)}
    for m in re.finditer(r"^pub use ([^;]+);", text, re.M):
        words = re.findall(r"[A-Za-z_]\w*", m.group(1))
        placed.update((words[0], word) for word in words)
    return {name for _, name in placed}, placed, set(re.findall(r"^pub mod (\w+);", text, re.M))


class Source:
    """A source of a crate without its comments: what it imports, and which of it users of the crate see."""

    def __init__(self, crate: str, path: str) -> None:
        self.text = bare(repository.read(f"crates/{crate}/{path}"))
        self.names = imports(self.text.split("\n"))
        self.stem = path[len("src/"):-len(".rt")].split("/")[0]
        self.shown, self.placed, modules = exported(crate)
        self.open = self.stem in modules

    def of_functions(self) -> Iterator[str]:
        """The clauses of public functions, C's among them."""
        for it in functions(self.text):
            is_public = it.words.startswith("pub ")
            if it.block:
                seen = (plain(it.block.of) in self.shown or self.open) and (it.block.kind == "trait" or it.block.trait != "" or is_public)
            else:
                seen = is_public and ((self.stem, it.name) in self.placed or self.open or is_for_c(self.text, it))
            if seen:
                yield from (clause.text for clause in it.clauses)

    def of_members(self, views: bool) -> Iterator[str]:
        """What traits, models and public ghost fields say of public types."""
        for block in blocks(self.text):
            if not {plain(block.of), block.trait} & self.shown and not self.open:
                continue
            body = self.text[block.begin:block.end]
            if block.kind == "struct":
                yield from (m.group(2) for m in re.finditer(r"pub ghost (\w+): ([^\n]*)", body))
                continue
            for m in re.finditer(r"^    ghost (\w+)(?: =|:)([^\n]*)", body, re.M):
                if m.group(1) in PRIVATE_MEMBERS or (not views and m.group(1) == "view" and self.is_closed(block.of)):
                    continue
                at = body.find("{", m.start())
                yield body[at:close_of(BRACKETS, body, at)] if at >= 0 else m.group(2)

    def is_closed(self, name: str) -> bool:
        """Whether it is a struct without public fields."""
        return any(
            it.kind == "struct" and plain(it.of) == plain(name) and not re.search(r"^    pub ", self.text[it.begin:it.end], re.M)
            for it in blocks(self.text))


def public_clauses(crate: str, views: bool = True) -> Iterator[Clause]:
    """Texts of clauses that users of the crate see, C among them, each with its file's imports. Without `views` those are left
    out that say which value private fields stand for: it is seen through the type's calls alone."""
    for path in repository.sources(crate):
        source = Source(crate, path)
        if source.stem not in ("laws", "tests") and not source.stem.endswith("_tests"):
            yield from ((clause, source.names) for clause in (*source.of_functions(), *source.of_members(views)))


def contracts_of(path: str, name: str = "") -> Iterator[Clause]:
    """The clauses of the functions of a file, or of those of this name, each with the file's imports."""
    text = repository.read(path)
    names = imports(bare(text).split("\n"))
    yield from ((clause.text, names) for it in functions(text) if name in ("", it.name) for clause in it.clauses)


def law_clauses(crate: str) -> Iterator[Clause]:
    """Texts of the clauses of laws: their words are read by whoever reads the laws."""
    for path in repository.sources(crate):
        if os.path.basename(path) == "laws.rt":
            yield from contracts_of(f"crates/{crate}/{path}")


def survey(
    specs: Specs, order: Iterable[str], clauses_of: Callable[[str], Iterable[Clause]] = public_clauses,
) -> Set[Name]:
    """What the clauses of these crates lead to."""
    return reach(specs, (found for crate in order for found in clauses_of(crate)), joined)


# A computed reading, the relation that a law ties to it in both directions, and the laws: whoever reads the relation and trusts
# the law needn't read the computed one.
JOINED: Dict[Tuple[str, str, str], Tuple[str, str, str, List[str]]] = {
    ("block", "BlockOfBytes", "block_of_bytes"): (
        "block", "Grammar", "block", ["block#what_is_spelled_is_read", "block#what_is_read_is_spelled"]),
    ("connect", "computed/Scripts", "connect_fault"): ("connect", "Scripts", "IsConnectFault", ["connect#the_fault_is_computed"]),
    ("interp", "computed/InputVerdict", "accepts"): ("interp", "Rules", "Accepts", ["interp#the_verdict_is_computed"]),
    ("signatures", "computed/Shape", "is_strict"): ("signatures", "Shape", "IsStrict", ["signatures#shape_test"]),
}


def joined(path: Module, name: str) -> Name:
    """The relation that is read in the place of a computed definition, or the definition itself."""
    found = JOINED.get((path[0], "/".join(path[2:]), name))
    return ((found[0], "specs", *found[1].split("/")), found[2]) if found else (path, name)


def untied(specs: Specs) -> Iterator[str]:
    """Laws of JOINED that aren't there, or whose clauses don't lead to both definitions."""
    for (crate, file, name), (other, at, relation, laws) in JOINED.items():
        ends = {((crate, "specs", *file.split("/")), name), ((other, "specs", *at.split("/")), relation)}
        for law in laws:
            of, function = law.split("#")
            if not ends <= reach(specs, contracts_of(f"crates/{of}/src/laws.rt", function)):
                yield f"{law} doesn't tie {name} to {relation}"


# The page of what a user of the node believes.
BOOK = "docs/BOOK.md"

# The crates whose public clauses a user of a door reads, to begin with.
DOORS = {"node": ["node"], "chainstate": ["activate"], "library": ["ffi"], "audit": ["journal"]}


def lines_of(text: str) -> int:
    """How many lines a definition has."""
    return sum(1 for line in text.split("\n") if line.strip())


def door_names(specs: Specs, door: str) -> Set[Name]:
    """The definitions that a user of a door believes."""
    return survey(specs, DOORS[door])


def door_files(specs: Specs, door: str) -> Dict[str, int]:
    """The files that a user of a door believes, each with how many lines of definitions of it are reached."""
    found: Dict[str, int] = {}
    for path, name in sorted(door_names(specs, door)):
        at = "/".join(path)
        found[at] = found.get(at, 0) + lines_of(specs[path].defs[name])
    return found


def doors_table(specs: Specs) -> str:
    rows = ["| Door | Crate | Files | Lines of definitions |", "|---|---|---|---|"]
    for door, begun in DOORS.items():
        found = door_files(specs, door)
        rows.append(f"| {door} | `{begun[0]}` | {len(found)} | {sum(found.values())} |")
    return "\n".join(rows)


def table(order: Iterable[str], hit: Set[Name]) -> str:
    rows = ["| Crate | Files of `specs/` |", "|---|---|"]
    for crate in order:
        found = sorted({"/".join(p[2:]) for p, _ in hit if p[0] == crate})
        if found:
            rows.append(f"| `{crate}` | " + ", ".join(f"`{f}`" for f in found) + " |")
    return "\n".join(rows)


def astray(specs: Specs, order: List[str], hit: Set[Name]) -> Iterator[str]:
    """Definitions in specs/ itself that no public clause and no law reaches, and reached ones in specs/inside but for what a
    view of private fields alone leads to."""
    told = survey(specs, order, law_clauses)
    called = survey(specs, order, lambda crate: public_clauses(crate, views=False))
    for path, spec in specs.items():
        for name in spec.defs:
            there = (path, name) in hit
            if path[2] == "inside" and (path, name) in called:
                yield f"{'/'.join(path)}: {name} is reached by a public clause"
            if path[2] not in APART and not there and (path, name) not in told:
                yield f"{'/'.join(path)}: {name} is reached by no public clause"


def book_of(order: List[str], specs: Specs, door: str) -> str:
    """The page of all definitions that a user of a door believes."""
    names = door_names(specs, door)
    cites = {name: sorted(set(cited(specs, *name, joined))) for name in names}
    ties = [(name, joined((crate, "specs", *at.split("/")), name), to[3]) for (crate, at, name), to in sorted(JOINED.items())]
    lines = {(path, name): lines_of(specs[path].defs[name]) for path, name in names}
    return book.page(book.Reached(door, order, dict(specs), names, cites, ties, lines))


def book_faults(order: List[str], specs: Specs) -> Iterator[str]:
    if not os.path.isfile(f"{repository.ROOT}/{BOOK}") or repository.read(BOOK) != book_of(order, specs, "node"):
        yield f"{BOOK} isn't what the clauses of a node reach; docs/believe --book writes it"


def map_with_tables(order: List[str], specs: Specs, hit: Set[Name]) -> Tuple[str, str]:
    """docs/MAP.md as it is, and with the tables that are found."""
    page = written = repository.read("docs/MAP.md")
    for mark, text in (("docs/believe writes this table", table(order, hit)), ("docs/believe counts these", doors_table(specs))):
        written = re.sub(rf"(<!-- {mark} -->\n).*?(\n<!-- end -->)", lambda m: m[1] + text + m[2], written, flags=re.S)
        if f"<!-- {mark} -->\n{text}\n<!-- end -->" not in written:
            sys.exit(f"docs/believe: docs/MAP.md has no place for what is marked: {mark}")
    return page, written


def tell_of(crate: str, specs: Specs, hit: Set[Name]) -> None:
    """Prints the definitions of a crate that are reached, and those that aren't."""
    for path, spec in specs.items():
        if path[0] == crate:
            yes = [n for n in spec.defs if (path, n) in hit]
            no = [n for n in spec.defs if (path, n) not in hit]
            print("/".join(path[2:]), "| reached:", " ".join(yes), "| not:", " ".join(no))


def faults(order: List[str], specs: Specs, hit: Set[Name]) -> Iterator[str]:
    """What is wrong with the places of definitions, with the tables and with the book."""
    yield from astray(specs, order, reach(specs, (found for crate in order for found in public_clauses(crate))))
    yield from untied(specs)
    page, written = map_with_tables(order, specs, hit)
    if written != page:
        yield "the tables of docs/MAP.md aren't what the clauses reach; docs/believe --write writes them"
    yield from book_faults(order, specs)


def main() -> int:
    if {"-h", "--help"} & set(sys.argv[1:]):
        print(__doc__)
        return 0
    words = argparse.ArgumentParser(
        usage="docs/believe [--write | --of CRATE | --door DOOR | --book [--door DOOR]]", description=__doc__,
        formatter_class=argparse.RawDescriptionHelpFormatter, add_help=False)
    words.add_argument("--write", action="store_true")
    words.add_argument("--of", metavar="CRATE")
    words.add_argument("--door", choices=DOORS)
    words.add_argument("--book", action="store_true")
    given = words.parse_args()
    order = repository.crates()
    specs = read_specs(order)
    if given.of:
        tell_of(given.of, specs, survey(specs, order))
    elif given.book and given.door:
        sys.stdout.write(book_of(order, specs, given.door))
    elif given.book:
        repository.write(BOOK, book_of(order, specs, "node"))
    elif given.door:
        for at, count in door_files(specs, given.door).items():
            print(count, at)
    elif given.write:
        repository.write("docs/MAP.md", map_with_tables(order, specs, survey(specs, order))[1])
    else:
        wrong = list(faults(order, specs, survey(specs, order)))
        for line in wrong:
            print(f"docs/believe: {line}")
        return 1 if wrong else 0
    return 0

