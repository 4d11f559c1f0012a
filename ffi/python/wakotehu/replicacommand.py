"""The command `wakotehu-replica`: makes the tables of a replicated history, follows it, exports it and checks it.

    wakotehu-replica init postgresql://log.example/history --by-need
    wakotehu-replica follow postgresql://log.example/history
"""

import argparse
import os
import subprocess
import sys
import tempfile
import time
from functools import partial
from typing import IO, Dict, List, Optional, Sequence, Union

from . import arguments, errors
from .chainstate import REGTEST, read_heights, show
from .encoding import double_sha
from .following import call_of, read_verdicts
from .history import regular
from .replica import Replica
from .replicalog import FORMAT, Log, Lost, Refused, Row, Told
from .served import program_path
from .signatures import secp256k1
from .stopping import Signals

#: Regtest's mark before a record of a blk file.
_MAGIC = bytes.fromhex("fabfb5da")


def prepare(
    url: str, heights: Sequence[int] = REGTEST, table: Union[str, bytes] = b"", by_need: bool = False
) -> None:
    """Makes the tables and roles, under these rules. Tables that are there under the same rules stay as they are."""
    rules, signatures = list(read_heights(heights)), arguments.lines(table, "table")
    if by_need and signatures:
        raise ValueError("table must be empty where by_need is True")
    with open(os.path.join(os.path.dirname(os.path.abspath(__file__)), "replica.sql"), encoding="utf-8") as file:
        statements = file.read()
    with Log(url) as log:
        log.run(statements)
        log.ask(
            "INSERT INTO wakotehu.setting (format, heights, signatures, by_need) VALUES (%s, %s, %s, %s)"
            " ON CONFLICT DO NOTHING", FORMAT, rules, signatures, by_need,
        )  # fmt: skip
        found = log.setting()
    if found != (tuple(rules), signatures, by_need):
        raise errors.NoHistory("the database has a history under other rules")


#: Opens the files of an export, which others may read.
_opened = partial(regular, mode=0o666)


class Exported:
    """The files of a run (docs/PROGRAM.md), as a log's rows are written into them."""

    def __init__(self, folder: str) -> None:
        self.folder = folder
        #: How many places were written, how many of them have a line in the journal, and how many places there are.
        self.places = self.lines = self.newest = 0
        #: The verdicts, by their lines.
        self.known: Dict[str, bool] = {}

    def write(self, log: Log) -> None:
        """Writes all files; the journal last."""
        setting = log.setting()
        with open(os.path.join(self.folder, "heights.txt"), "w", encoding="ascii", opener=_opened) as file:
            file.write(",".join(map(str, setting.heights)) + "\n")
        with open(os.path.join(self.folder, "journal.txt"), "w", encoding="ascii", opener=_opened) as journal:
            with open(os.path.join(self.folder, "blocks.blk"), "wb", opener=_opened) as blocks:
                self.newest = log.newest()
                before = b""
                for place, row in enumerate(log.copied(0, self.newest), 1):
                    row.check(place, before)
                    call_of(row)
                    before = row.chain
                    # From the first row on that has no reply yet, nothing is written.
                    if row.told is not None and self.places == place - 1:
                        self._put(row, row.told, journal, blocks)
        valid = [line.encode() + b"\n" for line, verdict in self.known.items() if verdict]
        invalid = [line.encode() + b"\n" for line, verdict in self.known.items() if not verdict]
        with open(os.path.join(self.folder, "table.txt"), "wb", opener=_opened) as table:
            table.write(setting.signatures)
            table.writelines(valid)
        if invalid:
            with open(os.path.join(self.folder, "invalid.txt"), "wb", opener=_opened) as table:
                table.writelines(invalid)

    def _put(self, row: Row, told: Told, journal: IO[str], blocks: IO[bytes]) -> None:
        self.places += 1
        self.known.update(read_verdicts(row.place, told.verdicts))
        command = row.command
        # Bytes that are no block are no step.
        if told.reply == "decode-failed":
            return
        self.lines += 1
        words = [str(self.lines), command.seat, command.command]
        if command.command == "submit":
            blocks.write(_MAGIC + len(command.data).to_bytes(4, "little") + command.data)
            words += [show(double_sha(command.data[:80])), str(command.now)]
        else:
            words += [show(command.data)]
        journal.write(f"{' '.join(words)} = {told.reply}\n")


def export(url: str, folder: str) -> Exported:
    """Writes the files of a run into a folder without a journal, which is made where it isn't there."""
    os.makedirs(folder, exist_ok=True)
    if os.path.lexists(os.path.join(folder, "journal.txt")):
        raise errors.Error(f"{folder} has a journal: export wants a folder without one")
    exported = Exported(folder)
    with Log(url) as log:
        exported.write(log)
    return exported


# ---- the command line


def _check(given: argparse.Namespace) -> int:
    """Replays the table by the definition."""
    with tempfile.TemporaryDirectory(prefix="wakotehu-") as folder:
        exported = export(given.url, folder)
        words = [program_path(), "audit", "--saved", folder, *(["--quick"] if given.quick else [])]
        ended = subprocess.run([*words, "--explain"], stdout=subprocess.PIPE, text=True)
    print(f"{exported.places} of {exported.newest} places have their replies, {exported.places - exported.lines} are no steps")
    print(ended.stdout, end="", flush=True)
    with Log(given.url) as log:
        differences = log.ask("SELECT place, replica, reply FROM wakotehu.differences ORDER BY place, replica")
    for place, replica, reply in differences:
        print(f"place {place}: {replica} differs: {reply}")
    wrong = _wrong_verdicts(exported.known)
    for line in wrong:
        print(f"not {'valid' if exported.known[line] else 'invalid'}: {line}")
    return 0 if ended.returncode == 0 and ended.stdout == "agrees\n" and not differences and not wrong else 1


def _wrong_verdicts(known: Dict[str, bool]) -> List[str]:
    """The lines of verdicts that libsecp256k1 doesn't give."""
    lines = list(known)
    found = secp256k1([line.encode() for line in lines]) if lines else []
    return [line for line, valid in zip(lines, found) if valid is not known[line]]


def _follow(given: argparse.Namespace) -> int:
    """Follows, and says once a second where the replica is, until it is told to end."""
    signals, shown, asked = Signals(), -1, -2.0
    try:
        with Replica(given.url, 1, name=given.name, recheck=given.recheck, durable=not given.not_durable) as replica:
            signals.raises = False
            while not signals.came:
                if time.monotonic() - asked > 1:
                    asked, status = time.monotonic(), replica.status()
                    if status.place != shown or status.lost:
                        lost = f", the database can't be reached: {status.lost}" if status.lost else ""
                        print(f"place {status.place}, {status.behind:.1f} s behind at most{lost}", flush=True)
                        shown = status.place
                time.sleep(0.1)
    except KeyboardInterrupt:
        pass
    return 0


def _init(given: argparse.Namespace) -> int:
    table = b""
    if given.table is not None:
        with open(given.table, "rb") as file:
            table = file.read()
    prepare(given.url, given.heights, table, given.by_need)
    return 0


def _heights(text: str) -> Sequence[int]:
    """Four heights, as a word of the command line."""
    try:
        return read_heights([int(height) for height in text.split(",")])
    except ValueError:
        raise argparse.ArgumentTypeError(f"{text!r} isn't four heights, as 1,1,1,1") from None


def _export(given: argparse.Namespace) -> int:
    exported = export(given.url, given.folder)
    print(f"{exported.places} of {exported.newest} places, as {exported.lines} lines")
    return 0


def _parser() -> argparse.ArgumentParser:
    parser = argparse.ArgumentParser(prog="wakotehu-replica", description="One history on many machines (docs/REPLICAS.md).")
    subcommands = parser.add_subparsers(dest="subcommand", required=True, metavar="SUBCOMMAND")

    def add(name: str, text: str) -> argparse.ArgumentParser:
        own = subcommands.add_parser(name, help=text, description=text)
        own.add_argument("url", metavar="URL", help="the database, as libpq reads it")
        return own

    init = add("init", "Makes the tables and the roles.")
    init.add_argument("--heights", metavar="A,B,C,D", type=_heights, default=REGTEST, help="from which heights the soft forks are in force; 1,1,1,1 by default")
    init.add_argument("--table", metavar="F", help="the signatures that are valid, and no others")
    init.add_argument("--by-need", action="store_true", help="replicas find out which signatures are valid, by libsecp256k1")
    follow = add("follow", "Follows on a node of its own, compares all replies, and ends with status 1 where one differs.")
    follow.add_argument("--name", metavar="NAME", help="the replica's name")
    follow.add_argument("--not-durable", action="store_true", help="also where the database's settings may lose rows that it has confirmed")
    follow.add_argument("--recheck", metavar="SHARE", type=float, default=0.0, help="which share of verdicts is tested again, 0 to 1")
    exported = add("export", "Writes the history as the files of a run, which regchain audits and loads.")
    exported.add_argument("folder", metavar="FOLDER", help="a folder without a journal; it is made where it isn't there")
    check = add("check", "Replays the history by the definition (regchain audit), and tests all verdicts.")
    check.add_argument("--quick", action="store_true", help="replays with the chainstate of one thread instead")
    return parser


def main(words: Optional[Sequence[str]] = None) -> None:
    """The command."""
    given = _parser().parse_args(words)
    does = {"init": _init, "follow": _follow, "export": _export, "check": _check}
    try:
        sys.exit(does[given.subcommand](given))
    except (errors.Error, Lost, Refused, OSError, ValueError) as error:
        sys.exit(f"wakotehu-replica: {error}")


if __name__ == "__main__":
    main()
