"""Plays files of vectors in the shapes of Bitcoin Core's `src/test/data` over the proved rules, with libsecp256k1's
word on signatures: `python3 -m wakotehu.vectors script_tests.json tx_valid.json tx_invalid.json sighash.json`.

The shapes, and what flags and errors mean, are Bitcoin Core's by knowledge of it. Its files aren't in this repository.
"""

import argparse
import json
import os
import re
import sys
from typing import Any, Callable, Dict, FrozenSet, Iterator, List, NamedTuple, NoReturn, Optional, Tuple

from . import consensus
from .encoding import Input, Output, Transaction, write_transaction
from .errors import Error
from .signatures import secp256k1
from .spelling import read_script

#: The flags that are rules here.
_OURS = {
    "P2SH": "P2SH", "DERSIG": "DERSIG", "NULLDUMMY": "NULLDUMMY", "CHECKLOCKTIMEVERIFY": "CLTV", "CHECKSEQUENCEVERIFY": "CSV",
}  # fmt: skip
#: Flags that refuse more by themselves, and change nothing else; and the errors by which they do.
_POLICY: Dict[str, FrozenSet[str]] = {
    "STRICTENC": frozenset({"SIG_DER", "SIG_HASHTYPE", "PUBKEYTYPE"}), "LOW_S": frozenset({"SIG_DER", "SIG_HIGH_S"}),
    "SIGPUSHONLY": frozenset({"SIG_PUSHONLY"}),
    # A number that isn't spelled shortest ends a script as one that is too long does.
    "MINIMALDATA": frozenset({"MINIMALDATA", "UNKNOWN_ERROR", "SCRIPTNUM"}),
    "DISCOURAGE_UPGRADABLE_NOPS": frozenset({"DISCOURAGE_UPGRADABLE_NOPS"}), "CLEANSTACK": frozenset({"CLEANSTACK"}),
    "MINIMALIF": frozenset({"MINIMALIF"}), "NULLFAIL": frozenset({"NULLFAIL", "SIG_NULLFAIL"}),
    "CONST_SCRIPTCODE": frozenset({"OP_CODESEPARATOR", "SIG_FINDANDDELETE"}),
}  # fmt: skip
#: Flags of witnesses. Where they accept, so do the rules without them.
_WITNESS = frozenset({
    "WITNESS", "TAPROOT", "WITNESS_PUBKEYTYPE", "DISCOURAGE_UPGRADABLE_WITNESS_PROGRAM", "DISCOURAGE_OP_SUCCESS",
    "DISCOURAGE_UPGRADABLE_TAPROOT_VERSION", "DISCOURAGE_UPGRADABLE_PUBKEYTYPE",
})  # fmt: skip
#: The errors by which the rules here refuse.
_ERRORS = frozenset(
    "EVAL_FALSE OP_RETURN SCRIPT_SIZE PUSH_SIZE OP_COUNT STACK_SIZE SIG_COUNT PUBKEY_COUNT VERIFY EQUALVERIFY"
    " CHECKMULTISIGVERIFY CHECKSIGVERIFY NUMEQUALVERIFY BAD_OPCODE DISABLED_OPCODE INVALID_STACK_OPERATION"
    " INVALID_ALTSTACK_OPERATION UNBALANCED_CONDITIONAL NEGATIVE_LOCKTIME UNSATISFIED_LOCKTIME SIG_DER SIG_PUSHONLY"
    " SIG_NULLDUMMY"
    " UNKNOWN_ERROR SCRIPTNUM".split()
)


class Skipped(Exception):
    """A row that needs rules that aren't these; its text names them."""


class Unread(Exception):
    """A row that has another shape; its text says what of it."""


class Row(NamedTuple):
    """A row of a file: the line on which it begins, and what it has."""

    line: int
    fields: List[Any]


def rows_of(text: str) -> Iterator[Row]:
    """The rows of a list in JSON."""
    decoder, space = json.JSONDecoder(), re.compile(r"[ \t\r\n]*")
    at, line, before = _after(space, text, 0), 1, 0
    if text[at : at + 1] != "[":
        raise Unread("the file must be a list in JSON")
    at = _after(space, text, at + 1)
    while text[at : at + 1] not in ("]", ""):
        line, before = line + text.count("\n", before, at), at
        value, end = decoder.raw_decode(text, at)
        yield Row(line, value if isinstance(value, list) else [value])
        at = _after(space, text, end)
        if text[at : at + 1] == ",":
            at = _after(space, text, at + 1)
        elif text[at : at + 1] != "]":
            break
    if text[at : at + 1] != "]":
        raise json.JSONDecodeError("the list must go on by , or end by ]", text, at)
    at = _after(space, text, at + 1)
    if at < len(text):
        raise json.JSONDecodeError("nothing may stand behind the list", text, at)


def _after(space: "re.Pattern[str]", text: str, at: int) -> int:
    found = space.match(text, at)
    assert found is not None
    return found.end()


# ---- flags


def _names(flags: str) -> List[str]:
    return [name for name in flags.split(",") if name not in ("", "NONE")]


def _forced(names: List[str]) -> List[str]:
    """What is in force here of some flags. One that nobody knows may mean anything."""
    for name in names:
        if name not in _OURS and name not in _POLICY and name not in _WITNESS:
            raise Skipped(name)
    return [_OURS[name] for name in names if name in _OURS]


def _others(names: List[str]) -> List[str]:
    return [name for name in names if name not in _OURS]


def _need(names: List[str], error: str) -> None:
    """Sees that a row that is refused by this error is so without the flags that aren't ours. These only refuse, by
    errors of their own; a witness may be refused by any."""
    others = _others(names)
    theirs = {own for name in others for own in _POLICY.get(name, _ERRORS)}
    if error == "SIG_DER" and "DERSIG" in names and not _WITNESS & set(others):
        theirs.discard(error)
    if others and (error in theirs or error not in _ERRORS):
        raise Skipped(",".join(others))


def _failure(raw: bytes, input: int, spent: bytes, forced: List[str]) -> Optional[str]:
    """Why an input may not spend, by Core's name, with libsecp256k1's word on signatures."""
    known = {True: b"", False: b""}
    while True:
        found = consensus.verify_script(raw, input, spent, forced, known[True], known[False])
        if not isinstance(found, consensus.Triple):
            return None if found is None else found.name
        [verdict] = secp256k1([found.line])
        known[verdict] += found.line


# ---- rows


def _field(row: Row, place: int, kind: type, name: str) -> Any:
    if len(row.fields) <= place or type(row.fields[place]) is not kind:
        raise Unread(f"{name} must be the item {place + 1}")
    return row.fields[place]


def _bytes(text: str, name: str) -> bytes:
    if len(text) % 2 or not re.fullmatch("[0-9a-fA-F]*", text):
        raise Unread(f"{name} must be hexadecimal")
    return bytes.fromhex(text)


def _script(text: str, name: str) -> bytes:
    try:
        return read_script(text)
    except ValueError as error:
        raise Unread(f"{name}: {error}") from None


def spending(own: bytes, spent: bytes) -> bytes:
    """The transaction of a row of scripts, which spends one that has nothing else (Bitcoin Core's
    `BuildCreditingTransaction` and `BuildSpendingTransaction`)."""
    first = Transaction(1, [Input(bytes(32), 0xFFFFFFFF, b"\0\0", 0xFFFFFFFF)], [Output(0, spent)], 0)
    return write_transaction(Transaction(1, [Input(first.id, 0, own, 0xFFFFFFFF)], [Output(0, b"")], 0))


def play_script(row: Row) -> Optional[str]:
    """[input script, output script, flags, error or OK, comment..]"""
    if isinstance(row.fields[0], list):
        raise Skipped("a witness")
    own = _script(_field(row, 0, str, "the input's script"), "the input's script")
    spent = _script(_field(row, 1, str, "the output's script"), "the output's script")
    names, error = _names(_field(row, 2, str, "the flags")), _field(row, 3, str, "the error")
    forced = _forced(names)
    if error != "OK":
        _need(names, error)
    found = _failure(spending(own, spent), 0, spent, forced) or "OK"
    # A number that is too long has a name of its own in later versions.
    return None if found == ("UNKNOWN_ERROR" if error == "SCRIPTNUM" else error) else f"{found}, and not {error}"


def _read_transaction(row: Row) -> Tuple[bytes, consensus.Parts, str]:
    """A row's transaction, its parts, and the rule that it breaks by itself."""
    raw = _bytes(_field(row, 1, str, "the transaction"), "the transaction")
    try:
        read = consensus.transaction(raw)
        if read.size == len(raw):
            return raw, consensus.transaction_parts(raw), read.reason
        fault = "extra"
    except consensus.Refused as refused:
        fault = refused.fault
    if raw[4:6] == b"\0\1":
        raise Skipped("a witness")
    raise Unread(f"the transaction can't be read: {fault}")


def _outputs(row: Row, parts: consensus.Parts) -> List[bytes]:
    """The script that each input spends."""
    scripts = {}
    for given in _field(row, 0, list, "the list of outputs"):
        if not isinstance(given, list) or [type(own) for own in given[:3]] != [str, int, str]:
            raise Unread("an output must be [id, index, script]")
        id = consensus.read_id(given[0])
        if id is None:
            raise Unread("an output's id must have 64 digits")
        scripts[id, given[1] & 0xFFFFFFFF] = _script(given[2], "an output's script")
    points = [(own.id, own.index) for own in parts.inputs]
    if not set(points) <= set(scripts):
        raise Unread("an input spends an output that isn't listed")
    return [scripts[point] for point in points]


def _refused_input(raw: bytes, spent: List[bytes], forced: List[str]) -> Optional[int]:
    """The first input that may not spend."""
    return next((n for n, script in enumerate(spent) if _failure(raw, n, script, forced) is not None), None)


def play_valid(row: Row, is_excluded: bool) -> Optional[str]:
    """[[[id, index, script, value?]..], transaction, flags], with the flags that are in force, or all but which are."""
    names = _names(_field(row, 2, str, "the flags"))
    raw, parts, reason = _read_transaction(row)
    if reason:
        return f"refused by {reason}"
    spent = _outputs(row, parts)
    forced = [own for name, own in _OURS.items() if name not in names] if is_excluded else _forced(names)
    place = _refused_input(raw, spent, forced)
    return None if place is None else f"input {place} is refused"


def play_invalid(row: Row) -> Optional[str]:
    """The same with flags under which it isn't valid, or BADTX where it breaks a rule by itself."""
    names = _names(_field(row, 2, str, "the flags"))
    raw, parts, reason = _read_transaction(row)
    if "BADTX" in names:
        return None if reason else "it breaks no rule by itself"
    if reason:
        return None
    forced, others = _forced(names), _others(names)
    if others:
        raise Skipped(",".join(others))
    return "accepted" if _refused_input(raw, _outputs(row, parts), forced) is None else None


def play_sighash(row: Row) -> Optional[str]:
    """[transaction, script, input, hash type, digest], scripts in hexadecimal and the digest as an id is printed."""
    raw = _bytes(_field(row, 0, str, "the transaction"), "the transaction")
    code = _bytes(_field(row, 1, str, "the script"), "the script")
    place, kind = _field(row, 2, int, "the input"), _field(row, 3, int, "the hash type")
    expected = _field(row, 4, str, "the digest")
    try:
        found = consensus.signature_digest(raw, place, code, kind & 0xFFFFFFFF)[::-1].hex()
    except (consensus.Refused, ValueError) as error:
        raise Unread(f"the digest of input {place} can't be computed: {error}") from None
    return None if found == expected else f"the digest is {found}"


# ---- files


class Played(NamedTuple):
    """What came of a file: how many rows are as it says, where they aren't, and what was skipped how often."""

    right: int
    wrong: List[Tuple[int, str]]
    skipped: Dict[str, int]


#: Which rows a file has, by the beginning of its name.
KINDS = {"script_tests": "script", "tx_valid": "valid", "tx_invalid": "invalid", "sighash": "sighash"}


def play(text: str, kind: str) -> Played:
    """Plays the rows of a file's text: of `script`, `valid`, `invalid` or `sighash`. A row of one item is a comment;
    where one before valid transactions says "excluded", flags are those that aren't in force."""
    is_excluded, right = False, 0
    wrong: List[Tuple[int, str]] = []
    skipped: Dict[str, int] = {}
    players: Dict[str, Callable[[Row], Optional[str]]] = {
        "script": play_script, "valid": lambda row: play_valid(row, is_excluded), "invalid": play_invalid,
        "sighash": play_sighash,
    }  # fmt: skip
    for row in rows_of(text):
        if len(row.fields) < 2:
            is_excluded = is_excluded or "excluded" in str(row.fields)
            continue
        try:
            said = players[kind](row)
        except Skipped as why:
            skipped[str(why)] = skipped.get(str(why), 0) + 1
            continue
        except Unread as why:
            said = f"can't be read: {why}"
        if said is None:
            right += 1
        else:
            wrong.append((row.line, said))
    return Played(right, wrong, skipped)


def kind_of(path: str) -> Optional[str]:
    """The kind of a file by its name."""
    return next((kind for name, kind in KINDS.items() if os.path.basename(path).startswith(name)), None)


def play_file(path: str, kind: str) -> bool:
    """Plays a file, and prints what came of it; whether all of it is as it says, and something was played."""
    with open(path, encoding="utf-8") as file:
        text = file.read()
    try:
        played = play(text, kind)
    except json.JSONDecodeError as error:
        print(f"{path}:{error.lineno}: {error.msg}")
        return False
    except Unread as error:
        print(f"{path}:1: {error}")
        return False
    for line, said in played.wrong:
        print(f"{path}:{line}: {said}")
    skipped = ", ".join(f"{count} {name}" for name, count in sorted(played.skipped.items()))
    total = f"{played.right} as said, {len(played.wrong)} not, {sum(played.skipped.values())} skipped"
    print(f"{path}: {total}{skipped and f' ({skipped})'}")
    return played.right > 0 and not played.wrong


def _fail(text: str) -> NoReturn:
    print(f"wakotehu.vectors: {text}", file=sys.stderr)
    sys.exit(2)


def main(words: Optional[List[str]] = None) -> int:
    parser = argparse.ArgumentParser(
        prog="python3 -m wakotehu.vectors", allow_abbrev=False,
        description="Plays files of vectors in the shapes of Bitcoin Core's src/test/data over the proved rules, with"
        " real signatures by libsecp256k1. It prints the line of each row that isn't as it says, and counts the rows that"
        " need rules that aren't these (witnesses, policy), by their names.",
        epilog="The status is 1 where a row isn't as it says or can't be read, or a file has no row that is played.",
    )  # fmt: skip
    parser.add_argument("files", nargs="+", metavar="FILE", help="script_tests, tx_valid, tx_invalid or sighash .json")
    parser.add_argument("--kind", choices=sorted(KINDS.values()), help="what the files are, whatever their names")
    given = parser.parse_args(words)
    kinds = [given.kind or kind_of(path) for path in given.files]
    if None in kinds:
        _fail(f"{given.files[kinds.index(None)]}: the name says no kind: --kind does")
    try:
        return 0 if all([play_file(path, str(kind)) for path, kind in zip(given.files, kinds)]) else 1
    except (OSError, UnicodeDecodeError, Error) as error:
        _fail(str(error))


if __name__ == "__main__":
    sys.exit(main())
