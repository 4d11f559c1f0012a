"""From each rule to all that carries it: links to definitions in docs/RULES.md, and the table at its end, by docs/trace.json.

    docs/trace             compares links and table with what stands in the repository (status 1 where a part is missing, a
                           link is dead, or one of them is another)
    docs/trace --write     writes links and table into docs/RULES.md

Where the page says `NAME` in `crates/CRATE/specs/FILE.antt`, the name gets a link to the line of its definition there, and a
file that is named alone a link to it.

A rule of the table has a definition (`CRATE/specs/FILE#NAME`), a function whose contract says it (`CRATE/src/FILE#NAME`),
outside values that are played (`tests/vectors`), and a wrong body that the prover refuses (`CRATE/NAME` of wrong/). Looked at
is that the definition and the function stand there, that the function's contract leads to the definition, as docs/believe
follows `use` lines, and that the files are there.
"""
import json
import os
import re
import sys
from typing import Dict, Iterator, List, Tuple

from . import believe, book, repository
from .definitions import Specs, module_of, reach, read_specs

RULES = "docs/RULES.md"
HEAD = "## From a rule to all that carries it"
PARTS = ("rule", "source", "definition", "function", "vectors", "wrong")
# A row of docs/trace.json.
Row = Dict[str, str]


def wrong_body(which: str) -> str:
    """The file of a wrong body, from the top of the repository."""
    return f"wrong/{which}.edit"


def line_of(path: str, name: str, specs: Specs) -> int:
    """The line of a definition in a file below crates/, from 1; 0 where it isn't there."""
    spec = specs.get(module_of(path))
    return spec.heads[name] + 1 if spec and name in spec.heads else 0


def faults_of(row: Row, specs: Specs) -> Iterator[str]:
    missing = [part for part in PARTS if not row.get(part)]
    if missing:
        yield f"{row.get('rule')}: no {', '.join(missing)}"
        return
    (at, definition), (file, function) = (row[part].split("#") for part in ("definition", "function"))
    if not line_of(at, definition, specs):
        yield f"{row['rule']}: {row['definition']} isn't there"
        return
    clauses = list(believe.contracts_of(f"crates/{file}", function)) if os.path.isfile(f"{repository.ROOT}/crates/{file}") else []
    if not clauses:
        yield f"{row['rule']}: {row['function']} isn't there, or has no contract"
    elif (module_of(at), definition) not in reach(specs, clauses) | reach(specs, clauses, believe.joined):
        yield f"{row['rule']}: the contract of {row['function']} doesn't lead to {definition}"
    if not os.path.isfile(f"{repository.ROOT}/tests/vectors/{row['vectors']}"):
        yield f"{row['rule']}: no tests/vectors/{row['vectors']}"
    if not os.path.isfile(f"{repository.ROOT}/{wrong_body(row['wrong'])}"):
        yield f"{row['rule']}: no wrong body {row['wrong']}"


def link(path: str, name: str) -> str:
    return f"[`{name}`](../{path})"


def row_line(row: Row, specs: Specs) -> str:
    (at, definition), (file, function) = (row[part].split("#") for part in ("definition", "function"))
    cells = [
        f'<a id="{book.row_place(row["rule"])}"></a>{row["rule"]}',
        row["source"],
        link(f"crates/{at}#L{line_of(at, definition, specs)}", definition),
        link(f"crates/{file}", f"{file.split('/')[0]}: {function}"),
        link(f"tests/vectors/{row['vectors']}", row["vectors"]),
        link(wrong_body(row["wrong"]), row["wrong"].split("/")[1]),
    ]
    return "| " + " | ".join(cells) + " |"


def section(rows: List[Row], specs: Specs) -> str:
    return "\n".join(
        [
            HEAD,
            "",
            "Each rule with the standard that it comes from, its definition, a function whose contract says it, values from outside that are played against it, and a wrong body that the prover refuses. `docs/trace` makes the table, and `./test` fails where a link is dead or a rule lacks a part.",
            "",
            "| Rule | Standard | Definition | Function | Outside values | Wrong body |",
            "|---|---|---|---|---|---|",
            *(row_line(row, specs) for row in rows),
            "",
        ]
    )


def linked(text: str, specs: Specs) -> Tuple[str, List[str]]:
    """A text whose names of definitions have links to their lines, and what is wrong with them."""
    wrong: List[str] = []

    def to_line(path: str, name: str, shown: str) -> str:
        line = line_of(path, name, specs)
        if not line:
            wrong.append(f"{RULES}: crates/{path} has no {name}")
        return link(f"crates/{path}#L{line}", shown)

    def to_file(path: str) -> str:
        if not os.path.isfile(f"{repository.ROOT}/crates/{path}"):
            wrong.append(f"{RULES}: no crates/{path}")
        return link(f"crates/{path}", f"crates/{path}")

    def with_links(match: "re.Match[str]") -> str:
        first, *others = re.findall(r"`crates/([^`]+)`", match[0])
        if match[1] is None:
            return to_file(first)
        names = [name.split("`")[1] for name in re.findall(book.QUOTED, match[1])]
        phrase = re.sub(book.QUOTED, lambda it: to_line(first, it[0].split("`")[1], it[0].split("`")[1]), match[1])
        # the files after the first have the last name too
        places = [f"`crates/{first}`", *(to_line(path, names[-1], f"crates/{path}") for path in others)]
        return phrase + text[match.end(1):match.start(2)] + " and ".join(places)

    return re.sub(f"{book.RULE.pattern}|{book.FILE}", with_links, text), wrong


def main() -> int:
    if {"-h", "--help"} & set(sys.argv[1:]):
        print(__doc__)
        return 0
    if sys.argv[1:] not in ([], ["--write"]):
        print(__doc__, file=sys.stderr)
        return 2
    rows = json.loads(repository.read("docs/trace.json"))
    specs = read_specs(repository.crates())
    page = repository.read(RULES)
    front, faults = linked(page.split(HEAD)[0].rstrip(), specs)
    faults += [fault for row in rows for fault in faults_of(row, specs)]
    for fault in faults:
        print(f"docs/trace: {fault}", file=sys.stderr)
    if faults:
        return 1
    whole = f"{front}\n\n{section(rows, specs)}"
    if sys.argv[1:]:
        repository.write(RULES, whole)
    elif whole != page:
        print(f"docs/trace: links or table of {RULES} are others: docs/trace --write writes them", file=sys.stderr)
        return 1
    return 0

