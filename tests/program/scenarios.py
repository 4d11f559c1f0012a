"""The table of scenarios, as crates/workloads/src/table.rt and the files below it have it.

The constants are read from these sources, so that the table stands once. What can't be read is an error: each `const`
of the files has to be a text, a scenario, or a list of scenarios of the length that it says.
"""
from __future__ import annotations

import os
import re
from typing import Any, NamedTuple

from running import ROOT

SOURCES = os.path.join(ROOT, "crates", "workloads", "src", "table")

# The first moment of a client.
MOMENT = "1296688602"

TOKEN = re.compile(r'\s+|//[^\n]*|(?P<text>"(?:[^"\\]|\\.)*")|(?P<word>\w+)|(?P<sign>.)', re.S)
ESCAPE = re.compile(r"\\(\n\s*|x[0-7][0-9a-f]|.)", re.S)
ESCAPES = {"n": "\n", "r": "\r", "t": "\t", "0": "\0", "\\": "\\", '"': '"', "'": "'"}


class Scenario(NamedTuple):
    """A scenario of the client `a`, and its answers."""

    name: str
    heights: str
    definitions: str
    # A line for each command, `COMMAND = ANSWER @STAMP`. The stamp of an `each` is that of its first answer.
    # `now N` has no answer.
    told: str

    def text(self) -> str:
        """The scenario as the program reads it."""
        commands = [line.split(" = ")[0] for line in self.told.split("\n")]
        return "\n".join([self.definitions, "client a", *commands]) + "\n"

    def output(self) -> str:
        """All that the program has to write."""
        answers, journal, now = ["client a"], ["journal"], MOMENT
        for line in self.told.split("\n"):
            if line.startswith("now "):
                now = line.removeprefix("now ")
                continue
            for command, reply, stamp in answers_of(line):
                answers.append(f"{command} = {reply} @{stamp}")
                moment = f" {now}" if command.startswith("submit ") else ""
                if moment or command.startswith(("invalidate ", "reconsider ", "precious ")):
                    journal.append(f"{stamp} a {command}{moment} = {reply}")
        return "\n".join([*answers, *journal]) + "\n"


def answers_of(line: str) -> list[tuple[str, str, int]]:
    """The commands of a line, each with its reply and its stamp."""
    answer = re.fullmatch(r"(.*?) = (.*?) @(\d+)", line)
    assert answer, line
    command, reply, stamp = answer.groups()
    if not command.startswith("each "):
        return [(command, reply, int(stamp))]
    _, name, first, last = command.split(" ")
    numbers = range(int(first), int(last) + 1)
    return [(f"submit {name}{number}", reply, int(stamp) + number - int(first)) for number in numbers]


class Unreadable(Exception):
    """A source isn't what is read here."""


class Source:
    """The tokens of a source file, from the front."""

    def __init__(self, path: str) -> None:
        self.path = path
        with open(path, encoding="utf-8") as file:
            text = file.read()
        found = TOKEN.finditer(text)
        self.tokens = [(m.group(0), text.count("\n", 0, m.start()) + 1) for m in found if m.lastgroup]
        self.place = 0

    def unreadable(self, wanted: str) -> Unreadable:
        token, line = self.tokens[self.place] if self.place < len(self.tokens) else ("the end", 0)
        return Unreadable(f"{self.path}, line {line}: {token} in the place of {wanted}")

    def next(self) -> str:
        """The token at the front, or an empty one at the end."""
        return self.tokens[self.place][0] if self.place < len(self.tokens) else ""

    def take(self, wanted: str) -> str:
        """Goes past the next token, which this expression has to match."""
        token = self.next()
        if not re.fullmatch(wanted, token, re.S):
            raise self.unreadable(wanted)
        self.place += 1
        return token

    def take_all(self, *wanted: str) -> None:
        for each in wanted:
            self.take(re.escape(each))

    def skip_past(self, last: str) -> None:
        while self.take(".+") != last:
            pass


def text_of(literal: str) -> str:
    """The text that a literal spells."""

    def spelled(found: re.Match[str]) -> str:
        word = found.group(1)
        if word[0] == "\n":
            return ""
        if word[0] == "x" and len(word) == 3:
            return chr(int(word[1:], 16))
        if word not in ESCAPES:
            raise Unreadable(f"the escape {found.group(0)} in {literal}")
        return ESCAPES[word]

    return ESCAPE.sub(spelled, literal[1:-1])


def read_text(source: Source, known: dict[str, object]) -> str:
    """A literal, or the name of a text."""
    token = source.take(r'".*"|\w+')
    value = text_of(token) if token[0] == '"' else known.get(token)
    if not isinstance(value, str):
        raise Unreadable(f"{source.path}: {token} is no text")
    return value


def read_scenario(source: Source, known: dict[str, object]) -> Scenario:
    """`Scenario { name: .., heights: .., definitions: .., told: .. }`, the fields in this order."""
    source.take_all("Scenario", "{")
    values = []
    for field in Scenario._fields:
        source.take_all(field, ":")
        values.append(read_text(source, known))
        source.take_all(",")
    source.take_all("}")
    return Scenario(*values)


def read_names(source: Source) -> list[str]:
    """`[NAME, ..]`."""
    names = []
    source.take_all("[")
    while source.next() != "]":
        names.append(source.take(r"\w+"))
        source.take_all(",")
    source.take_all("]")
    return names


def read_constant(source: Source, known: dict[str, object], lists: dict[str, list[str]]) -> None:
    """`const NAME: TYPE = VALUE;`, of which a list has the names of its scenarios, which may come later."""
    source.take_all("const")
    name = source.take(r"\w+")
    if name in known or name in lists:
        raise source.unreadable("another name")
    source.take_all(":")
    if source.next() == "&":
        source.take_all("&", "str", "=")
        known[name] = read_text(source, known)
    elif source.next() == "Scenario":
        source.take_all("Scenario", "=")
        known[name] = read_scenario(source, known)
    else:
        source.take_all("[", "Scenario", ";")
        length = int(source.take(r"\d+"))
        source.take_all("]", "=")
        lists[name] = read_names(source)
        if len(lists[name]) != length:
            raise Unreadable(f"{source.path}: {name} hasn't {length} scenarios")
    source.take_all(";")


def read_file(path: str, known: dict[str, Any]) -> dict[str, Any]:
    """All constants of a file that has nothing but imports and constants."""
    source, found = Source(path), dict(known)
    lists: dict[str, Any] = {}
    while source.next():
        if source.next() == "use":
            source.skip_past(";")
            continue
        if source.next() == "pub":
            source.take_all("pub")
        read_constant(source, found, lists)
    for name, scenarios in lists.items():
        found[name] = [found[each] for each in scenarios]
    return found


def read_regtest() -> str:
    """The heights of regtest, from the file above, which has other items too."""
    with open(SOURCES + ".rt", encoding="utf-8") as file:
        found = re.findall(r'^pub const REGTEST: &str = ("[0-9,]+");$', file.read(), re.M)
    if len(found) != 1:
        raise Unreadable(f"{SOURCES}.rt has no REGTEST")
    return text_of(found[0])


REGTEST = read_regtest()
_BRANCHES = read_file(os.path.join(SOURCES, "branches.rt"), {"REGTEST": REGTEST})
_SPENDS = read_file(os.path.join(SOURCES, "spends.rt"), {"REGTEST": REGTEST})

# The lists, and the scenarios that tests name.
BRANCHES: list[Scenario] = _BRANCHES["BRANCHES"]
SPENDS: list[Scenario] = _SPENDS["SPENDS"]
NAMED: dict[str, Scenario] = {
    name: value for name, value in [*_BRANCHES.items(), *_SPENDS.items()] if isinstance(value, Scenario)
}
