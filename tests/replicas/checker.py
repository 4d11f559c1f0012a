"""Whether what clients were answered is what one sequential chainstate answers, whose commands are the rows of the table in
their order: each write at its row's place, and each read at one place, no earlier than what its client was told.

What the chainstate gives comes from other programs: the replies from `regchain audit`, which replays the rows by the
definition, and the reads from `regchain run`, to which one client gives the same commands, and asks between them.
"""
from __future__ import annotations

import hashlib
import json
import os
import subprocess
import tempfile
from typing import Any, NamedTuple, Optional

SECONDS = 120
WRITES = ("submit", "invalidate", "reconsider", "precious")


class Wrong(Exception):
    """An answer that no such chainstate gives."""


class Row(NamedTuple):
    """A row of the table, and the reply that was written."""

    place: int
    token: str
    seat: str
    command: str
    data: str
    now: Optional[int]
    reply: Optional[str]


class Asked(NamedTuple):
    """What a client asked; `at` is None where it got no answer. `value` of a write is its reply."""

    what: dict[str, Any]
    at: Optional[int]
    value: Any
    error: Optional[str] = None


def read_lines(path: str) -> list[Asked]:
    """What a worker wrote of a client. The last line may be torn."""
    found: list[Asked] = []
    with open(path, encoding="ascii") as file:
        lines = file.read().split("\n")[:-1]
    asked: Optional[dict[str, Any]] = None
    for text in lines:
        line = json.loads(text)
        if "asks" in line:
            if asked is not None:
                found.append(Asked(asked, None, None, "ended"))
            asked = line
        elif "fault" in line:
            raise Wrong(line["fault"])
        else:
            assert asked is not None
            found.append(Asked(asked, line.get("at"), line.get("value"), line.get("error")))
            asked = None
    if asked is not None:
        found.append(Asked(asked, None, None, "ended"))
    return found


def check(rows: list[Row], clients: dict[str, list[Asked]], program: str) -> None:
    """Raises `Wrong` where something differs. Clients stand under their names, which are the seats of the rows."""
    check_rows(rows, clients)
    check_order(clients)
    check_replies(rows, program)
    check_reads(rows, clients, program)


def check_rows(rows: list[Row], clients: dict[str, list[Asked]]) -> None:
    """Each row is what one client asked, once; and each answered write is a row's."""
    if [row.place for row in rows] != list(range(1, len(rows) + 1)):
        raise Wrong("places have gaps")
    asked = {own.what["token"]: (name, own) for name, each in clients.items() for own in each if own.what["asks"] in WRITES}
    if len({row.token for row in rows}) != len(rows):
        raise Wrong("a command stands in two rows")
    by_token = {row.token: row for row in rows}
    for row in rows:
        if row.token not in asked:
            raise Wrong(f"nobody asked for the row of place {row.place}")
        name, own = asked[row.token]
        if (row.seat, row.command, row.data, row.now) != (name, own.what["asks"], own.what["data"], own.what["now"]):
            raise Wrong(f"place {row.place} isn't what was asked")
        if own.error == "unavailable":
            raise Wrong(f"place {row.place} is a command of which its client was told that it isn't in the table")
    for token, (name, own) in asked.items():
        if own.at is None:
            continue
        found = by_token.get(token)
        if found is None:
            raise Wrong(f"an answered write of {name} isn't in the table")
        if found.place != own.at or found.reply not in (own.value, None):
            raise Wrong(f"a write of {name} was answered {own.value} at {own.at}, and place {found.place} has {found.reply}")


def check_order(clients: dict[str, list[Asked]]) -> None:
    """No answer is of an earlier place than what its client saw before, or was told."""
    for name, each in clients.items():
        seen = 0
        for own in each:
            if own.at is None:
                continue
            least = max(seen, own.what.get("place", 0))
            if own.at < least or (own.what["asks"] in WRITES and own.at <= seen):
                raise Wrong(f"{name} was answered at {own.at} behind {least}")
            seen = own.at


def check_replies(rows: list[Row], program: str) -> None:
    """The definition gives these replies (`regchain audit`)."""
    with tempfile.TemporaryDirectory() as folder:
        with open(os.path.join(folder, "journal.txt"), "w", encoding="ascii") as journal:
            with open(os.path.join(folder, "blocks.blk"), "wb") as blocks:
                number = 0
                for row in rows:
                    if row.reply == "decode-failed":
                        continue
                    number += 1
                    journal.write(f"{number} {row.seat} {row.command} {_id(row)}{'' if row.now is None else f' {row.now}'} = {row.reply or 'owed'}\n")
                    if row.command == "submit":
                        data = bytes.fromhex(row.data)
                        blocks.write(bytes.fromhex("fabfb5da") + len(data).to_bytes(4, "little") + data)
        for name, text in (("table.txt", ""), ("heights.txt", "1,1,1,1\n")):
            with open(os.path.join(folder, name), "w", encoding="ascii") as file:
                file.write(text)
        ended = subprocess.run([program, "audit", "--saved", folder], capture_output=True, text=True, timeout=SECONDS)
    if ended.stdout != "agrees\n":
        raise Wrong(f"the definition differs: {ended.stdout}{ended.stderr}")


def _id(row: Row) -> str:
    data = bytes.fromhex(row.data)
    if row.command == "submit":
        data = hashlib.sha256(hashlib.sha256(data[:80]).digest()).digest()
    return data[::-1].hex()


def check_reads(rows: list[Row], clients: dict[str, list[Asked]], program: str) -> None:
    """Each read's value is that of its place."""
    reads = [(own.at, _question(own.what), own.value) for each in clients.values() for own in each
             if own.at is not None and own.what["asks"] in ("best", "tips", "txout")]  # fmt: skip
    if any(at > len(rows) for at, _, _ in reads):
        raise Wrong("a read is of a place that isn't there")
    wanted: dict[int, list[str]] = {}
    for at, question in sorted({(at, question) for at, question, _ in reads}):
        wanted.setdefault(at, []).append(question)
    lines: list[str] = ["client a"]
    order: list[Optional[tuple[int, str]]] = []
    for place in range(len(rows) + 1):
        if place:
            row = rows[place - 1]
            if row.command == "submit":
                lines += [f"now {row.now}", f"raw {row.data or '-'}"]
            else:
                lines += [f"{row.command} {_id(row)}"]
            order.append(None)
        for question in wanted.get(place, ()):
            lines.append(question)
            order.append((place, question))
    ended = subprocess.run(
        [program, "run", "--scenario", "-", "--json"], input="\n".join(lines) + "\n", capture_output=True, text=True, timeout=SECONDS
    )
    if ended.returncode:
        raise Wrong(f"the rows can't be replayed: {ended.stderr}")
    answers = [json.loads(line) for line in ended.stdout.splitlines()]
    given = {key: _value(answer["answer"]) for key, answer in zip(order, answers) if key is not None}
    for at, question, value in reads:
        if given[at, question] != value:
            raise Wrong(f"{question} at {at} was answered {value}, where it is {given[at, question]}")


def _question(what: dict[str, Any]) -> str:
    return f"txout {what['coin']}:0" if what["asks"] == "txout" else str(what["asks"])


def _value(answer: Any) -> Any:
    """A read's answer of `regchain run --json`, as workers write it."""
    if isinstance(answer, list):
        return [[tip["hash"], tip["height"], tip["branchlen"], tip["status"]] for tip in answer]
    if answer is None or "hash" in answer:
        return answer and answer["hash"]
    return [answer["value"], answer["script"], answer["height"], answer["coinbase"], answer["confirmations"]]
