"""The reader of Rattle's sources: comments and literals, functions with clauses and bodies, what stands around them, `use` lines.

Every place is one in the text that is given.
"""

import re
from functools import lru_cache
from typing import Dict, Iterable, List, NamedTuple, Optional, Tuple

# A module, as `use` lines name it.
Module = Tuple[str, ...]
# What `use` lines bring: a module, and a name in it if it is not the module.
Imports = Dict[str, Tuple[Module, Optional[str]]]

# A comment, a text or a character. A quote behind a word belongs to the word, and a lifetime has no second one.
HIDDEN = re.compile(
    r"""//[^\n]*|/\*|\b[bc]?r(#*)".*?"\1|"(?:\\.|[^"\\])*"|(?<![\w'])b?'(?:\\u\{[^}]*\}|\\x..|\\.|[^\\'\n])'""", re.S)
COMMENTS = re.compile(r"(/\*)|\*/")
SHOWN = r"(?:pub(?:\([^)]*\))? )?"
HEAD = re.compile(rf'^([ \t]*)({SHOWN}(?:(?:const|unsafe|extern "[^"]*") )*)fn (\w+)', re.M)
BLOCK = re.compile(rf"^{SHOWN}(?:unsafe )?(impl|trait|struct)\b([^{{;]*)\{{", re.M)
# What stands behind a function's parameters: a clause up to its brace, a bracket that opens, or the end of one without a body.
TOKEN = re.compile(r"\b(requires|ensures|ghost|decreases)\b[^{}();]*\{|[(\[{;]")
# Brackets that open, as a group, or close; an arrow's is none.
BRACKETS, ANGLES = re.compile(r"([(\[{])|[)\]}]"), re.compile(r"(<)|(?<![-=])>")
SELF = re.compile(r"&?(?:'\w+ )?(?:mut )?self(?::.*)?$", re.S)
USE = re.compile(r"\s*(?:pub )?(?:ghost )?use (\S+?)(?:\.\{(.*)\}| as (\S+?))?;?\s*$")


class Clause(NamedTuple):
    """A clause of a head: its word, what stands between its braces without comments, and its place."""

    word: str
    text: str
    begin: int
    end: int


class Block(NamedTuple):
    """An impl, a trait or a struct: the parameters that it declares, the trait and the type with what they are given, its place."""

    kind: str
    declared: str
    trait: str
    of: str
    begin: int
    end: int


class Function(NamedTuple):
    """A function: the words before `fn`, its parameters without self, and its places. It ends behind its body, if it has one."""

    name: str
    indent: str
    words: str
    parameters: List[str]
    clauses: List[Clause]
    body: Optional[range]
    begin: int
    end: int
    block: Optional[Block]


@lru_cache(maxsize=None)
def bare(text: str, keeps_texts: bool = False) -> str:
    """The text with blanks for comments and, unless they are kept, for what stands between quotes. Each place stays what it is."""
    made: List[str] = []
    done = at = 0
    for found in iter(lambda: HIDDEN.search(text, at), None):
        begin, end = found.span()
        if found[0] == "/*":
            end = close_of(COMMENTS, text, begin)
        elif found[0][0] != "/":
            quotes = [place for place in range(begin, end) if text[place] in "\"'"]
            begin, end = (end, end) if keeps_texts else (quotes[0] + 1, quotes[-1])
        made += [text[done:begin], re.sub(r"[^\n]", " ", text[begin:end])]
        done, at = end, max(end, found.end())
    return "".join([*made, text[done:]])


def close_of(marks: "re.Pattern[str]", text: str, at: int) -> int:
    """Behind what closes the mark at this place. The first group of `marks` is one that opens."""
    depth = 0
    for mark in marks.finditer(text, at):
        depth += 1 if mark[1] else -1
        if not depth:
            return mark.end()
    return len(text)


def parts(text: str) -> List[str]:
    """What stands between commas that are in no brackets."""
    found, begin, depth = [], 0, 0
    for at, letter in enumerate(text):
        if letter in "([{<":
            depth += 1
        elif letter in ")]}" or (letter == ">" and text[at - 1 : at] not in ("-", "=")):
            depth -= 1
        elif letter == "," and not depth:
            found.append(text[begin:at].strip())
            begin = at + 1
    return [it for it in [*found, text[begin:].strip()] if it]


@lru_cache(maxsize=None)
def functions(text: str) -> List[Function]:
    """The functions of a source, in its order."""
    shown = bare(text)
    around = blocks(text)
    return [function_at(shown, head, around) for head in HEAD.finditer(shown)]


def function_at(text: str, head: "re.Match[str]", around: List[Block]) -> Function:
    """The function of a bare text whose head begins there."""
    at = close_of(ANGLES, text, head.end()) if text.startswith("<", head.end()) else head.end()
    begin, at = text.find("(", at) + 1, close_of(BRACKETS, text, at)
    parameters = [it for it in parts(text[begin : at - 1]) if not SELF.match(it)]
    clauses: List[Clause] = []
    body = None
    for token in iter(lambda: TOKEN.search(text, at), None):
        at = token.end()
        if token[0] == ";":
            break
        at = close_of(BRACKETS, text, at - 1)
        if token[1]:
            clauses.append(Clause(token[1], text[token.end() : at - 1], token.start(), at))
        elif token[0] == "{":
            body = range(token.end(), at - 1)
            break
    own = [it for it in around if it.begin <= head.start() < it.end]
    return Function(head[3], head[1], head[2], parameters, clauses, body, head.start(), at, own[-1] if own else None)


@lru_cache(maxsize=None)
def blocks(text: str) -> List[Block]:
    """The impls, traits and structs of a source."""
    text = bare(text)
    return [Block(it[1], *header(it[1], it[2]), it.start(), close_of(BRACKETS, text, it.end() - 1)) for it in BLOCK.finditer(text)]


def header(kind: str, text: str) -> Tuple[str, str, str]:
    """The parameters, the trait and the type of what is written before a block's brace."""
    text = re.split(r"\bwhere\b", text)[0].strip()
    declared = ""
    if text.startswith("<"):
        end = close_of(ANGLES, text, 0)
        declared, text = text[:end], text[end:].strip()
    named = re.split(r"\s+for\s+", text, maxsplit=1) if kind == "impl" else [text]
    return declared, "" if named[0] == named[-1] else named[0], named[-1]


def is_for_c(text: str, it: Function) -> bool:
    """Whether C calls the function by its name."""
    return text[: it.begin].rstrip().endswith("#[unsafe(no_mangle)]")


def plain(path: str) -> str:
    """The name of a type or trait, without its path and what it is given."""
    found = re.match(r"&?(?:'\w+ )?(?:mut )?(?:dyn )?(?:\w+::)*(\w+)", path.strip())
    return found[1] if found else ""


def line_of(text: str, at: int) -> int:
    """The line of a place, from 1."""
    return text.count("\n", 0, at) + 1


def imports(lines: Iterable[str]) -> Imports:
    """The names and aliases that `use` lines of Rattle's modules bring."""
    found: Imports = {}
    for line in lines:
        m = USE.match(line)
        if not m or not m[1].startswith("Rattle."):
            continue
        path = tuple(m[1].rstrip(";").split(".")[1:])
        if m[2] is None:
            found[m[3] or path[-1]] = (path, None)
            continue
        for part in m[2].split(","):
            words = part.split(" as ")
            found[words[-1].strip()] = (path, words[0].strip())
    return found
