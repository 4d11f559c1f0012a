"""The book of rules: definitions in the order in which they are read, as one page. docs/believe gives it the definitions that the
clauses of a door's public calls reach."""
import json
import os
import re
from typing import Any, Dict, Iterator, List, NamedTuple, Optional, Set, Tuple

from . import repository
from .definitions import Name, Spec, Specs, module_of, without_comments
from .repository import read

class Reached(NamedTuple):
    """What a door's clauses reach, and what stands beside it."""

    door: str
    order: List[str]
    specs: Specs
    names: "Set[Name]"
    # what each of these cites, types and names of other repositories among it
    cites: "Dict[Name, List[Name]]"
    # a computed definition, the relation that is read in its place, and the laws that tie them
    joined: "List[Tuple[str, Name, List[str]]]"
    # how many lines each has without comments
    lines: "Dict[Name, int]"


class Piece(NamedTuple):
    """A definition or a type: its lines with its comment, the line of its head, from 1, and the line of its module."""

    name: str
    lines: List[str]
    head: int
    under: Optional[int]


class Section(NamedTuple):
    """A file: its path, its first comment, and what is shown of it."""

    path: str
    title: str
    words: str
    language: str
    pieces: List[Piece]
    text: List[str]


# ---- definitions


def first_comment(lines: List[str], mark: str) -> str:
    """The words that a file begins with."""
    words: List[str] = []
    for line in lines:
        if not line.startswith(mark):
            break
        words.append(line[len(mark):].strip())
    return " ".join(words)


def pieces_of(lines: List[str], spec: Spec, shown: "Set[str]") -> Iterator[Piece]:
    """The shown definitions of a file in its order. What is a title before them comes with the next one."""
    heads = sorted((head, name) for name, head in spec.heads.items())
    begins = [begin_of(lines, head) for head, _ in heads] + [len(lines)]
    title: List[str] = []
    at = 0
    for place, (head, name) in enumerate(heads):
        between = lines[at:begins[place]]
        titles = [number for number, line in enumerate(between) if re.match(r"\s*-- ----", line)]
        if titles:
            kept = [line for line in between[titles[0]:] if not re.match(r"\s*module _ ", line)]
            title = "\n".join(kept).strip("\n").split("\n") + [""]
        at = head + 1
        while at < begins[place + 1] and lines[at].strip():
            at += 1
        if name in shown:
            yield Piece(name, title + lines[begins[place]:at], head + 1, spec.under.get(name))
            title = []


def begin_of(lines: List[str], head: int) -> int:
    """Where the comment before a definition begins."""
    while head and re.match(r"\s*(--|infix)", lines[head - 1]):
        head -= 1
    return head


def other_names(spec: Spec, pieces: List[Piece], several: "Set[str]") -> str:
    """What the names stand for that a file's `use` lines give to modules, to what has another name elsewhere, and to one of
    several definitions of a name."""
    shown = "\n".join(without_comments(line) for piece in pieces for line in piece.lines)
    told = []
    for name, (module, real) in sorted(spec.names.items()):
        path = f"`{'.'.join(module)}`" if module[-1] != "TheVariants" else f"a case of `{module[-2]}`"
        after = "[.]" if real is None else "(?![\\w.])"
        if not re.search(rf"(?<![\w.]){re.escape(name)}{after}", shown):
            continue
        if real is None:
            told.append(f"`{name}.` is {path}")
        elif real != name:
            told.append(f"`{name}` is `{real}` of {path}")
        elif name in several:
            told.append(f"`{name}` is that of {path}")
    return f"Here {', '.join(told)}." if told else ""


def blocks_of(section: Section) -> "Iterator[List[Piece]]":
    """What is shown together: the definitions of a module with parameters, or one with those after it that have no comment."""
    block: List[Piece] = []
    for piece in section.pieces:
        is_told = piece.lines[0].lstrip()[:2] in ("--", "//")
        if block and (piece.under != block[0].under or (piece.under is None and is_told)):
            yield block
            block = []
        block.append(piece)
    if block:
        yield block


# ---- types that the code declares


def type_of(name: Name) -> "Optional[Tuple[str, str]]":
    """The source file, below crates/, and the name of a type that `specs.declared` names."""
    module = name[0] + (name[1],)
    if "declared" not in module:
        return None
    rest = module[module.index("declared") + 1:]
    place = next((n for n, word in enumerate(rest) if word[:1].isupper()), None)
    if place is None:
        return None
    return f"{module[0]}/src/{'/'.join(rest[:place])}.rt", rest[place]


def type_piece(lines: List[str], name: str) -> Optional[Piece]:
    """A type as it is declared, with its comment and without attributes."""
    heads = (n for n, line in enumerate(lines) if re.match(rf"pub (struct|enum|type) {name}\b", line))
    head = next(heads, None)
    if head is None:
        return None
    begin, end = head, head
    while begin and re.match(r"(///|#\[)", lines[begin - 1]):
        begin -= 1
    while not re.search(r"^}|;$" if end == head else "^}", lines[end]):
        end += 1
    shown = [line for line in lines[begin:end + 1] if not re.match(r"\s*#\[", line)]
    return Piece(name, shown, head + 1, None)


def ordered_types(lines: List[str], names: "Set[str]") -> List[Piece]:
    """The types of a file, each after those of its fields."""
    found = {name: piece for name in names for piece in [type_piece(lines, name)] if piece}
    done: Dict[str, Piece] = {}

    def put(name: str) -> None:
        if name in done:
            return
        fields = "\n".join(line for line in found[name].lines if not line.lstrip().startswith("//"))
        for other in sorted(found, key=lambda it: found[it].head):
            if other != name and re.search(rf"\b{other}\b", fields):
                put(other)
        done[name] = found[name]

    for name in sorted(found, key=lambda it: found[it].head):
        put(name)
    return list(done.values())


# ---- the order


def file_of(name: Name, specs: Specs) -> Optional[str]:
    """The file, below crates/, of a definition or of a type."""
    if name[0] in specs:
        return "/".join(name[0]) + ".antt"
    told = type_of(name)
    return told[0] if told and os.path.isfile(f"{repository.ROOT}/crates/{told[0]}") else None


def ordered_files(given: Reached) -> List[str]:
    """The files, crate by crate, each after those that it cites; begun with those that docs/RULES.md names, in its order."""
    uses: Dict[str, List[str]] = {}
    for name in sorted(given.names):
        at = file_of(name, given.specs)
        if at:
            found = [file_of(other, given.specs) for other in given.cites[name]]
            uses.setdefault(at, []).extend(it for it in found if it)
            for it in found:
                if it:
                    uses.setdefault(it, [])
    told = [path for _, _, path in cited_rules(read("docs/RULES.md"))]
    begun = sorted(uses, key=lambda it: (told.index(it) if it in told else len(told), it))
    done: List[str] = []
    for crate in given.order:
        for it in begun:
            if it.split("/")[0] == crate:
                put_file(it, uses, done)
    return done


def put_file(path: str, uses: "Dict[str, List[str]]", done: List[str], above: "Tuple[str, ...]" = ()) -> None:
    """Puts a file after those of its crate that it cites."""
    if path in done or path in above:
        return
    for other in uses[path]:
        if other.split("/")[0] == path.split("/")[0]:
            put_file(other, uses, done, above + (path,))
    done.append(path)


def sections_of(given: Reached) -> List[Section]:
    shown: Dict[str, Set[str]] = {}
    for name in given.names:
        for it in [name, *given.cites[name]]:
            at, told = file_of(it, given.specs), type_of(it)
            if at and (told or it in given.names):
                shown.setdefault(at, set()).add(told[1] if told else it[1])
    names = [name for found in shown.values() for name in found]
    several = {name for name in names if names.count(name) > 1}
    found = []
    for path in ordered_files(given):
        lines = read(f"crates/{path}").split("\n")
        title = os.path.splitext(path.split("/", 2)[2])[0]
        if path.endswith(".antt"):
            spec = given.specs[module_of(path)]
            pieces = list(pieces_of(lines, spec, shown.get(path, set())))
            words = f"{first_comment(lines, '--')} {other_names(spec, pieces, several)}".strip()
            found.append(Section(path, title, words, "antt", pieces, lines))
        else:
            pieces = ordered_types(lines, shown.get(path, set()))
            found.append(Section(path, f"types of `{title}.rt`", first_comment(lines, "//!"), "rust", pieces, lines))
    return [section for section in found if section.pieces]


# ---- standards and rules

QUOTED = r"(?:\[`[^`\]]+`\]\([^)]*\)|`[^`/]+`)"
FILE = r"(?:\[`crates/[^`]+\.antt`\]\([^)]*\)|`crates/[^`]+\.antt`)"
BIPS = re.compile(r"(?<!before )\bBIPs? \d+(?:(?:, and |, | and )\d+)*")
# `a`, `b` and `c` in `crates/CRATE/specs/FILE.antt`, each with or without a link
RULE = re.compile(rf"((?:{QUOTED}(?:, and |, | and ))*{QUOTED})(?:,[^`.]*,)? in ({FILE}(?: and {FILE})*)")


def slug(heading: str) -> str:
    """The place of a heading in a page."""
    return re.sub(r"[^\w\- ]", "", heading.lower()).replace(" ", "-")


def cited_rules(page: str) -> "Iterator[Tuple[str, str, str]]":
    """Each definition that a page of rules names by its file: the heading above, the definition, and its file below crates/."""
    heading = ""
    for line in page.split("\n"):
        if line.startswith("#"):
            heading = line.lstrip("#").strip()
        for phrase in RULE.finditer(line):
            for path in re.findall(r"`crates/([^`]+)`", phrase[2]):
                for name in re.findall(r"`([^`]+)`", phrase[1]):
                    yield heading, name, path


def standards_of(comment: str, told: str) -> List[str]:
    """The standards that a comment names and that aren't told yet: BIPs, and functions and constants of Bitcoin Core."""
    found = []
    bips = {number for run in BIPS.findall(comment) for number in re.findall(r"\d+", run)}
    bips -= {number for run in BIPS.findall(told) for number in re.findall(r"\d+", run)}
    if bips:
        found.append(("BIP " if len(bips) == 1 else "BIPs ") + ", ".join(sorted(bips, key=int)))
    # what stands behind Core's name is Core's, and in parentheses what looks like it
    own = " ".join(re.findall(r"Bitcoin Core's `[\w:]+`(?:, `[\w:]+`)*(?: and `[\w:]+`)?", comment))
    names = re.findall(r"`([\w:]+)`", own)
    own = " ".join(re.findall(r"\([^()]*\)", comment))
    names += re.findall(r"`([A-Z][A-Za-z]*[A-Z_][\w:]*|get[a-z]{5,}|submitblock)`", own)
    names += re.findall(r"Bitcoin Core's ([A-Z][a-z]+[A-Z]\w+)", comment)
    names = [name for name in dict.fromkeys(names) if not re.search(rf"\b{name}\b", told)]
    if names:
        found.append("Core's " + ", ".join(f"`{name}`" for name in names))
    return found


class Rules(NamedTuple):
    """By file and name: the standards and rows of docs/trace.json, and the headings of docs/RULES.md."""

    rows: "Dict[Tuple[str, str], List[Any]]"
    headings: "Dict[Tuple[str, str], List[str]]"


def rules_read() -> Rules:
    rules = Rules({}, {})
    for row in json.loads(read("docs/trace.json")):
        path, name = row["definition"].split("#")
        rules.rows.setdefault((path, name), []).append(row)
    for heading, name, path in cited_rules(read("docs/RULES.md")):
        headings = rules.headings.setdefault((path, name), [])
        if heading not in headings:
            headings.append(heading)
    return rules


def sources_of(piece: Piece, path: str, rules: Rules) -> List[str]:
    """The standards that a definition's rows and its comment name."""
    told = [row["source"] for row in rules.rows.get((path, piece.name), [])]
    comment = " ".join(line.strip(" -/") for line in piece.lines if re.match(r"\s*(--|//)", line))
    return told + standards_of(comment, " ".join(told))


def told_of(piece: Piece, path: str, rules: Rules) -> str:
    """A definition's link, with its standards and its rules where there are any."""
    rows = rules.rows.get((path, piece.name), [])
    notes = sources_of(piece, path, rules)
    notes += [f"[{it}](RULES.md#{slug(it)})" for it in rules.headings.get((path, piece.name), [])]
    notes += [f"[row](RULES.md#{row_place(row['rule'])})" for row in rows]
    link = f"[`{piece.name}`](../crates/{path}#L{piece.head})"
    return f"{link} ({'; '.join(notes)})" if notes else link


def row_place(rule: str) -> str:
    """The place of a rule's row in docs/RULES.md."""
    return f"rule-{slug(rule)}"


# ---- the page


def block_lines(block: List[Piece], section: Section, rules: Rules) -> List[str]:
    shown: List[str] = []
    under = block[0].under
    if under is not None:
        shown.append(section.text[under])
    for place, piece in enumerate(block):
        shown += ([""] if place else []) + piece.lines
    links = ", ".join(told_of(piece, section.path, rules) for piece in block)
    return [links, "", f"```{section.language}", *shown, "```", ""]


def heading(section: Section) -> str:
    return f"{section.path.split('/')[0]}: {section.title}"


def section_lines(section: Section, rules: Rules) -> List[str]:
    link = f"[{section.path}](../crates/{section.path})"
    lines = [f"### {heading(section)}", "", f"{link}: {section.words}" if section.words else link, ""]
    for block in blocks_of(section):
        lines += block_lines(block, section, rules)
    return lines


def chapters(sections: List[Section], given: Reached) -> Iterator[str]:
    rules = rules_read()
    for crate in given.order:
        own = [section for section in sections if section.path.split("/")[0] == crate]
        if own:
            yield f"## {crate}"
            yield ""
            yield f"{crate_words(crate)} ([README](../crates/{crate}/README.md))"
            yield ""
            for section in own:
                yield from section_lines(section, rules)


def crate_words(crate: str) -> str:
    return first_comment(read(f"crates/{crate}/src/lib.rt").split("\n"), "//!")


FRONT = """\
# The book of rules

This page has every definition that a user of {door} believes: all that the clauses of its public calls cite, directly or through other definitions. That the code meets those clauses is proved. That these definitions are Bitcoin Core's rules isn't: judge it here.

It has {definitions} definitions in {files} files, {lines} lines without comments, and {types} types that the code declares. They come in reading order: bytes and ids, scripts, transactions and blocks, signatures, the interpreter, coins and the rules over them, the tree, the chain with its commands and histories, then what its readers and callers see. Within a crate a file comes after those that it cites.

Each definition stands here as its file has it, with its comment and without `use` lines. Its name above it links to its line. Behind the name are the standard that it follows and its place in [RULES.md](RULES.md), the rules in words, where it has one.

To read a definition, begin with its comment, which says what is meant. The line with a `:` says what it takes and gives, and the lines with a `=` say what that is, case by case. A name that begins with a capital letter is a type, one of its cases, or a fact, which holds or not; one that begins with a small letter is a value, which can be computed.

At the end are an index [by standard](#by-standard), the [computed forms](#computed-forms) that definitions cite in place of a relation, and the [names of Rattle's library and the kit](#from-rattles-library-and-the-kit) that they rest on. [PROOF.md](PROOF.md) reads a node's clauses from the top down. `docs/believe --book` writes this page, and `./test` fails where it differs from the definitions.
"""

NOTATION = """\
| Written | Read |
|---|---|
| `abbrev f : A → B`, `unfoldable f : ..` | f takes an A and gives a B; the two words differ for the prover alone. what stands in `{}` isn't written where f is used |
| `f x y`, `λ x. e`, `x.a`, `x.0` | f of x and y; the function that gives e for x; the field a of x; the first part of a pair |
| `record R where a : A ..` | a value with these fields; as a fact, all of them hold. `record { a = x }` makes one; `record r { a = x }` is r except for a |
| `data D where C : A → D ..` | one of these cases |
| `module _ (r : R) where` | each definition indented below it takes r first |
| `A × B`, `A ⊎ B`, `A → B`, `¬ A`, `Unit {0}`, `⊥` | of facts: both; one or the other; if A, then B; not A; always; never. Of values: `A × B` is a pair, `A → B` a function |
| `(x : A) → P`, `(x : A) × P` | for each x, P; there is an x with P |
| `a ≡ b`, `a == b` | a is b, as a fact; the same as `true` or `false` |
| `x ∷ xs`, `[]`, `xs ++ ys` | a list with x in front; none; one list behind another |
| `Some x`, `None` | a value, or none. `x ← a` in a `do` goes on with the value of a, and gives None where a has none |
| `ℕ`, `ℤ`, `pos n`, `+ℤ` | whole numbers from 0; all whole numbers; n as one of these; their sum. `0x4f` is hexadecimal |
| `nat_lt a b`, `list_any p xs`, `fold f a xs` | whether a is below b; whether some x of xs passes p (`list_all`: each; `find`: the first); f over all of xs, begun at a |
| `IfOk r (λ x. P)`, `IfErr r (λ e. P)` | where r is `Ok(x)`, P; where it is `Err(e)`, P |
| `Under known (λ valid. P)` | P under every set of valid signatures that agrees with what is known |
| `◌>>=◌`, `if◌then◌else◌` | a name that is written around what it takes, which stands in the places of ◌ |
| a type of the code | its value: of a `u32` a number; of a `Vec`, of `Inputs`, `Outputs`, `Txs`, `Script` and `Bytes` a list; of a `SharedTriple` a triple |
"""


def contents(given: Reached) -> Iterator[str]:
    """The crates, each with what is shown of it."""
    yield "| Crate | What it is about | Definitions | Lines |"
    yield "|---|---|---|---|"
    for crate in given.order:
        own = [name for name in given.names if name[0][0] == crate]
        if own:
            yield f"| [`{crate}`](#{crate}) | {crate_words(crate)} | {len(own)} | {sum(given.lines[name] for name in own)} |"
    yield ""


def standards_in(text: str) -> Iterator[str]:
    """Each BIP and each name of Bitcoin Core that these words name."""
    for run in BIPS.findall(text):
        yield from (f"BIP {number}" for number in re.findall(r"\d+", run))
    if "Core's" in text:
        yield from re.findall(r"`[\w:]+`", text)


def standard_lines(sections: List[Section]) -> Iterator[str]:
    """From each standard to the definitions that name it."""
    rules = rules_read()
    found: Dict[str, List[str]] = {}
    for section in sections:
        place = f"#{slug(heading(section))}"
        told = [(heading(section), it) for it in standards_of(section.words, "")]
        told += [(f"`{piece.name}`", it) for piece in section.pieces for it in sources_of(piece, section.path, rules)]
        for name, standard in dict.fromkeys((name, standard) for name, it in told for standard in standards_in(it)):
            found.setdefault(standard, []).append(f"[{name}]({place})")
    yield "## By standard"
    yield ""
    yield "The definitions whose comment, or whose rule's row, names a BIP, or a function or constant of Bitcoin Core; a whole file where its first comment does."
    yield ""
    yield "| Standard | Definitions |"
    yield "|---|---|"
    for standard in sorted(found, key=lambda it: (it[0] == "`", "" if it[0] == "`" else f"{it[4:]:>5}", it.lower())):
        yield f"| {standard} | {', '.join(found[standard])} |"
    yield ""


def joined_lines(given: Reached) -> Iterator[str]:
    """The computed forms that definitions cite, and whose relation stands here in their place."""
    cited = {other for name in given.names for other in given.cites[name]}
    rows = [(name, at, relation, laws) for name, (at, relation), laws in given.joined if (at, relation) in cited]
    if not rows:
        return
    yield "## Computed forms"
    yield ""
    yield "Definitions above cite these too. A law, which is proved, says that each gives what its relation says: so the relation stands above, and the computed form doesn't."
    yield ""
    yield "| Cited | Shown | Law |"
    yield "|---|---|---|"
    for name, at, relation, laws in rows:
        links = ", ".join(f"[`{law.split('#')[1]}`](../crates/{law.split('#')[0]}/src/laws.rt)" for law in laws)
        yield f"| `{name}` | [`{relation}`](../crates/{'/'.join(at)}.antt#L{given.specs[at].heads[relation] + 1}) | {links} |"
    yield ""


def outside_lines(given: Reached) -> Iterator[str]:
    """The names of Rattle's library and of the kit."""
    outside: Dict[str, Set[str]] = {}
    for name in given.names:
        for at, other in given.cites[name]:
            if at[0] not in given.order:
                outside.setdefault(".".join(at), set()).add(other)
    yield "## From Rattle's library and the kit"
    yield ""
    yield "The definitions above cite these names of other repositories, which are believed too."
    yield ""
    yield "| Module | Names |"
    yield "|---|---|"
    for module, names in sorted(outside.items()):
        yield f"| `{module}` | {', '.join(f'`{name}`' for name in sorted(names))} |".replace("||", "\\|\\|")
    yield ""


def page(given: Reached) -> str:
    """The whole book."""
    sections = sections_of(given)
    types = sum(len(section.pieces) for section in sections if section.language == "rust")
    files = sum(1 for section in sections if section.language == "antt")
    front = FRONT.format(
        door="the node" if given.door == "node" else f"the interface `{given.door}`",
        definitions=len(given.names), files=files, lines=f"{sum(given.lines.values()):,}", types=types)
    lines = [front, NOTATION, *contents(given), *chapters(sections, given)]
    lines += [*standard_lines(sections), *joined_lines(given), *outside_lines(given)]
    return "\n".join(lines).rstrip("\n") + "\n"
