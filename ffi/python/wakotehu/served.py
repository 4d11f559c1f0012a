"""What a served node is asked, and how its answers are read: what `Node` and `AsyncNode` have in common."""

import json
import os
import re
import shutil
import tempfile
from binascii import hexlify
from itertools import compress
from typing import (
    IO, Any, Callable, Dict, Generator, Generic, List, NamedTuple, Optional, Sequence, Tuple, Type, TypeVar, Union,
)  # fmt: skip

from . import arguments, errors
from .arguments import Path, id_of, number, octets
from .chainstate import REGTEST, BlockHeader, Coin, Moved, Reply, Tip, mark_of, moment_of, read_heights, show
from .deployments import GivenHeights, SoftForks, read_members
from .processor import chosen
from .signatures import Verify

T = TypeVar("T")

#: So many requests of a seat are under way at most; the program itself lets 64 wait.
UNDER_WAY = 60
#: As many seats, and as many workers, a node has at most.
MOST = 16
#: So many bytes of a block the program takes at most: what a record of a blk file holds (docs/SERVE.md, "Limits").
LONGEST_BLOCK = 33_554_432
#: How many seconds a call waits, where nobody says how many.
TIMEOUT = 60.0
#: So much of the end of the standard error is kept.
KEPT = 2000
#: So many verdicts are told by a request at most, whose line is then no longer than the program reads.
_VERDICTS = 50_000
#: Signatures are verified in at most so many parts, each of at least so many: one part is reported while the next is verified.
_PARTS, _LEAST = 4, 200


class Stamped(Generic[T]):
    """An answer, and its place in the history: for a read the number of steps before it, for a step its own, from 1."""

    __slots__ = ("at", "value")

    def __init__(self, at: int, value: T) -> None:
        self.at = at
        self.value = value

    def __repr__(self) -> str:
        return f"Stamped(at={self.at!r}, value={self.value!r})"

    def __eq__(self, other: object) -> bool:
        return isinstance(other, Stamped) and (self.at, self.value) == (other.at, other.value)

    def __hash__(self) -> int:
        return hash((self.at, self.value))


class UnspentOutput(NamedTuple):
    """An output that isn't spent: its value in satoshis, its script, the height of its block."""

    value: int
    script: bytes
    height: int
    coinbase: bool
    confirmations: int


class Entry(NamedTuple):
    """A step of the history. `now` is the moment of a submission; `reply` is "owed" where it was never told."""

    step: int
    client: str
    command: str
    block: bytes
    now: Optional[int]
    reply: str


class Info(NamedTuple):
    """How a node was opened. `loaded` is how many steps its folder had."""

    program: str
    version: str
    seats: int
    workers: int
    heights: SoftForks
    loaded: int


# ---- calls, and how their answers are read


class Wanted(Exception):
    """A command took no step: of the signatures of these lines, as of a table, isn't known whether they are valid."""

    def __init__(self, lines: Sequence[bytes]) -> None:
        super().__init__(f"{len(lines)} signatures have to be found out first")
        self.lines = lines


class Call(NamedTuple):
    """A call of a seat: its method, its parameters behind the seat's as JSON, and how its result is read. Where the last of them is
    a long text, its characters are in `text`, which `Pipe` writes without a copy; `params` then ends with the text's first quote."""

    method: str
    params: str
    read: Callable[[Dict[str, Any]], Any]
    text: Optional[bytes] = None


def _reply_of(text: str) -> Reply:
    """A reply by its text."""
    words = text.split()
    if words[0] in errors.BY_REASON:
        places = [int(place) for place in words[1].split(":")] if len(words) > 1 else [0, 0]
        return Reply(text, "rejected", words[0], places[0], places[1])
    return Reply(text, text, "", 0, 0)


def _read_id(digits: str) -> bytes:
    return bytes.fromhex(digits)[::-1]


def _read_reply(result: Dict[str, Any]) -> Stamped[Reply]:
    if isinstance(result["answer"], dict):
        raise Wanted([it if isinstance(it, bytes) else it.encode() for it in result["answer"]["wants"]])
    return Stamped(result["at"], _reply_of(result["answer"]))


def _read_output(result: Dict[str, Any]) -> Stamped[Optional[UnspentOutput]]:
    found = result["answer"]
    if found is None:
        return Stamped(result["at"], None)
    script = bytes.fromhex(found["script"])
    return Stamped(
        result["at"],
        UnspentOutput(found["value"], script, found["height"], found["coinbase"], found["confirmations"]),
    )


def _read_best(result: Dict[str, Any]) -> Stamped[bytes]:
    return Stamped(result["at"], _read_id(result["answer"]["hash"]))


def _read_block(result: Dict[str, Any]) -> Stamped[Optional[bytes]]:
    found = result["answer"]
    return Stamped(result["at"], None if found is None else bytes.fromhex(found))


def _read_header(result: Dict[str, Any]) -> Stamped[Optional[BlockHeader]]:
    found = result["answer"]
    if found is None:
        return Stamped(result["at"], None)
    header = BlockHeader(bytes.fromhex(found["header"]), found["height"], found["confirmations"])
    return Stamped(result["at"], header)


def _read_hash(result: Dict[str, Any]) -> Stamped[Optional[bytes]]:
    found = result["answer"]
    return Stamped(result["at"], None if found is None else _read_id(found["hash"]))


def _read_spent(result: Dict[str, Any]) -> Stamped[Optional[List[Coin]]]:
    found = result["answer"]
    if found is None:
        return Stamped(result["at"], None)
    coins = [Coin(it["value"], bytes.fromhex(it["script"]), it["height"], it["coinbase"]) for it in found]
    return Stamped(result["at"], coins)


def _read_coins(result: Dict[str, Any]) -> Stamped[List[Tuple[bytes, int, Coin]]]:
    coins = [
        (_read_id(it["txid"]), it["n"], Coin(it["value"], bytes.fromhex(it["script"]), it["height"], it["coinbase"]))
        for it in result["answer"]
    ]
    return Stamped(result["at"], coins)


def _read_tips(result: Dict[str, Any]) -> Stamped[List[Tip]]:
    tips = [Tip(_read_id(tip["hash"]), tip["height"], tip["branchlen"], tip["status"]) for tip in result["answer"]]
    return Stamped(result["at"], tips)


def _read_learnt(result: Dict[str, Any]) -> int:
    if isinstance(result["answer"], dict):
        error = errors.Contradiction(f"the other verdict is known of {result['answer']['contradicted']}")
        error.at = result["at"]
        raise error
    return int(result["at"])


def _read_place(result: Dict[str, Any]) -> int:
    return int(result["at"])


def _read_entries(result: Dict[str, Any]) -> Stamped[List[Entry]]:
    entries = [
        Entry(it["step"], it["client"], it["command"], _read_id(it["block"]), it.get("now"), it["reply"])
        for it in result["answer"]
    ]
    return Stamped(result["at"], entries)


def _read_info(result: Dict[str, Any]) -> Info:
    return Info(
        result["program"], result["version"], result["seats"], result["workers"], read_members(result["heights"]), result["loaded"],
    )  # fmt: skip


def submission(block: bytes, now: Optional[int]) -> Call:
    return _of_block("submit", block, now)


def dry_run(block: bytes, now: Optional[int]) -> Call:
    return _of_block("judge", block, now)


def _of_block(method: str, block: bytes, now: Optional[int]) -> Call:
    data = octets(block, "block")
    if len(data) > LONGEST_BLOCK:
        raise ValueError(f"block must have at most {LONGEST_BLOCK} bytes, not {len(data)}")
    return Call(method, f',"now":{moment_of(now)},"block":"', _read_reply, hexlify(data))


def mark(command: str, id: bytes) -> Call:
    return Call(mark_of(command), f',"id":"{show(id)}"', _read_reply)


def output(txid: bytes, n: int) -> Call:
    return Call("gettxout", f',"txid":"{show(id_of(txid, "txid"))}","n":{number(n, "n")}', _read_output)


def outputs(outpoints: Sequence[Tuple[bytes, int]]) -> List[Call]:
    pairs = [arguments.several(pair, "outpoints", 2) for pair in arguments.sequence(outpoints, "outpoints")]
    return [
        Call("gettxout", f',"txid":"{show(id_of(txid, "outpoints"))}","n":{number(n, "outpoints")}', _read_output)
        for txid, n in pairs
    ]


def block_of(id: bytes) -> Call:
    return Call("getblock", f',"id":"{show(id_of(id))}"', _read_block)


def header_of(id: bytes) -> Call:
    return Call("getblockheader", f',"id":"{show(id_of(id))}"', _read_header)


def hash_at(height: int) -> Call:
    return Call("getblockhash", f',"height":{number(height, "height", 64)}', _read_hash)


def ancestor_of(id: bytes, height: int) -> Call:
    return Call("getancestor", f',"id":"{show(id_of(id))}","height":{number(height, "height", 64)}', _read_hash)


def fork_of(one: bytes, other: bytes) -> Call:
    return Call("getfork", f',"id":"{show(id_of(one, "one"))}","other":"{show(id_of(other, "other"))}"', _read_hash)


def spent_by(id: bytes) -> Call:
    return Call("getspent", f',"id":"{show(id_of(id))}"', _read_spent)


def coins_above(above: Optional[Tuple[bytes, int]], most: int) -> Call:
    place = ""
    if above is not None:
        txid, n = arguments.several(above, "above", 2)
        place = f',"txid":"{show(id_of(txid, "above"))}","n":{number(n, "above")}'
    return Call("coins", f'{place},"most":{number(most, "most", 64)}', _read_coins)


def longer_than(steps: int) -> Call:
    return Call("wait", f',"after":{number(steps, "after", 64)}', _read_place)


def entries(first: int, last: int) -> Call:
    begin, end = number(first, "first", 64, least=1), number(last, "last", 64)
    return Call("journal", f',"from":{begin},"to":{end}', _read_entries)


def told(other: int) -> Call:
    return Call("told", f',"from":{other}', _read_place)


def parted(lines: Sequence[bytes]) -> List[Sequence[bytes]]:
    """The parts in which signatures are verified: one where they are few."""
    count = min(_PARTS, max(1, len(lines) // _LEAST))
    ends = [len(lines) * part // count for part in range(count + 1)]
    return [lines[begin:end] for begin, end in zip(ends, ends[1:])]


def verdicts(lines: Sequence[bytes], verify: Verify) -> List[Call]:
    """What a node is told of signatures."""
    found = [bool(verdict) for verdict in verify(lines)]
    if len(found) != len(lines):
        raise ValueError(f"verify must say of each of {len(lines)} signatures whether it is valid, not of {len(found)}")
    return learning(lines, found)


def learning(lines: Sequence[bytes], found: Sequence[bool]) -> List[Call]:
    """What tells a node verdicts on the signatures of lines."""
    return [
        _learning(lines[place : place + _VERDICTS], found[place : place + _VERDICTS])
        for place in range(0, len(lines), _VERDICTS)
    ]


def _learning(lines: Sequence[bytes], found: Sequence[bool]) -> Call:
    # The lines have hexadecimal digits, spaces and dashes alone.
    valid = lines if all(found) else list(compress(lines, found))
    invalid = b"\\n".join(line for line, verdict in zip(lines, found) if not verdict)
    return Call("learn", f',"invalid":"{invalid.decode()}","valid":"', _read_learnt, b"\\n".join(valid))


BEST = Call("getbestblockhash", "", _read_best)
TIPS = Call("getchaintips", "", _read_tips)
NOTE = Call("note", "", _read_place)
INFO = Call("info", "", _read_info)
SAVE = Call("save", "", _read_place)
FINISH = Call("finish", "", _read_place)


#: Calls of a seat, one after the other: each is sent its answer, and what all of them say is returned.
Asking = Generator[Call, Any, T]


def moving(before: bytes) -> Asking[Stamped[Moved]]:
    """What moved from an earlier best block to the best one, at whose place it is stamped."""
    before = id_of(before, "before")
    best: Stamped[bytes] = yield BEST
    fork: Stamped[Optional[bytes]] = yield fork_of(before, best.value)
    if fork.value is None:
        error = errors.NotFound("not-found")
        error.at = fork.at
        raise error
    disconnected = yield from _above(before, fork.value)
    connected = yield from _above(best.value, fork.value)
    return Stamped(best.at, Moved(fork.value, disconnected, connected[::-1]))


def _above(id: bytes, fork: bytes) -> Asking[List[bytes]]:
    """The ids from a block down to one of its branch, without that one."""
    found = []
    while id != fork:
        found.append(id)
        header: Stamped[Optional[BlockHeader]] = yield header_of(id)
        assert header.value is not None, "a kept block's parent is kept"
        id = header.value.parent
    return found


def request(id: int, call: Call, seat: Optional[int]) -> List[bytes]:
    """The parts of a line that asks for a call of a seat, or of none."""
    params = "" if seat is None else f'"seat":{seat}{call.params}'
    begins = f'{{"jsonrpc":"2.0","id":{id},"method":"{call.method}","params":{{{params}'.encode()
    return [begins + b"}}\n"] if call.text is None else [begins, call.text, b'"}}\n']


_decoder = json.JSONDecoder()
#: How an answer begins that wants signatures, and each of its lines, which have hexadecimal digits, spaces and dashes alone.
_WANTS = re.compile(rb'\{"jsonrpc":"2\.0","id":(\d+),"result":\{"at":(\d+),"answer":\{"wants":\[')
_WANTED = re.compile(rb'"([^"]*)"')


def read_answer(line: bytes) -> Dict[str, Any]:
    """The object of a line. What isn't JSON is a `ValueError`, except for wanted signatures, which may be many: only the front and
    the end of their line are checked, and they stay bytes."""
    wants = _WANTS.match(line)
    if wants and line.endswith(b'"]}}}'):
        lines = _WANTED.findall(line, wants.end())
        return {"id": int(wants[1]), "result": {"at": int(wants[2]), "answer": {"wants": lines}}}
    text = line.decode()
    found, end = _decoder.raw_decode(text)
    if not isinstance(found, dict) or end != len(text):
        raise ValueError("no object")
    return found


def checked(answered: Stamped[Reply]) -> Stamped[str]:
    """The reply's word; a refusal is raised, with its place as `at`."""
    try:
        return Stamped(answered.at, answered.value.check())
    except errors.Error as error:
        error.at = answered.at
        raise


_FAULTS: Dict[int, Type[errors.Error]] = {
    -32001: errors.Memory, -32002: errors.Owed, -32003: errors.Closed, -32006: errors.HistoryFull,
}  # fmt: skip
#: The history couldn't be saved.
_UNSAVED = -32004


def outcome(answer: Dict[str, Any], call: Call) -> Any:
    """What an answer says, or the exception that it is."""
    if "result" in answer:
        return call.read(answer["result"])
    error = answer["error"]
    if error["code"] in _FAULTS:
        raise _FAULTS[error["code"]](error["message"])
    kind = errors.NotSaved if error["code"] == _UNSAVED else errors.BadRequest
    raise kind(error["code"], error["message"], error.get("data"))


def outcome_behind(answers: Sequence[Dict[str, Any]], calls: Sequence[Call]) -> Any:
    """What the answer to a command says, the last one of those to calls, which went out behind verdicts before these were answered.
    Where one of these was refused that is raised, unless the command was taken all the same; a contradiction is raised
    then too, and has what was answered."""
    refused: Optional[errors.Error] = None
    try:
        for answer, call in zip(answers[:-1], calls):
            outcome(answer, call)
    except errors.Error as error:
        refused = error
    try:
        found = outcome(answers[-1], calls[-1])
    except (errors.Error, Wanted):
        if refused is None:
            raise
        raise refused from None
    if isinstance(refused, errors.Contradiction):
        refused.answered = found
        raise refused
    return found


# ---- the process


def program_path(named: Optional[Path] = None) -> str:
    """The program: the one that is named, or that WAKOTEHU_PROGRAM names, and no other then; else `regchain` in the
    package, or beside the library that WAKOTEHU_LIBRARY names, there the build for the machine's processor where it has one,
    or on the path."""
    given = os.environ.get("WAKOTEHU_PROGRAM") if named is None else arguments.path(named, "named")
    if given:
        if not os.access(given, os.X_OK) or os.path.isdir(given):
            raise errors.ProgramMissing(f"{given} can't be run")
        return given
    folders = [os.path.dirname(os.path.abspath(__file__))]
    if os.environ.get("WAKOTEHU_LIBRARY"):
        folders.append(os.path.dirname(os.path.abspath(os.environ["WAKOTEHU_LIBRARY"])))
    for folder in folders:
        place = os.path.join(folder, "regchain")
        if os.access(place, os.X_OK) and not os.path.isdir(place):
            return chosen(place)
    found = shutil.which("regchain")
    if found is None:
        raise errors.ProgramMissing("regchain isn't found: set WAKOTEHU_PROGRAM, or build it by ./build")
    return found


class Opening:
    """What a node is opened by. All of it is checked before a process is started."""

    def __init__(
        self, seats: int, workers: int, heights: Optional[GivenHeights], table: Optional[Union[str, bytes]],
        program: Optional[Path], blk: Optional[Path], load: Optional[Path], save: Optional[Path],
        datadir: Optional[Path], sync: bool, timeout: Optional[float], verify: Optional[Verify],
        history_memory: Optional[int] = None,
    ) -> None:  # fmt: skip
        self.seats, workers = _count(seats, "seats"), _count(workers, "workers")
        self.timeout = arguments.seconds(timeout, "timeout")
        sync = arguments.flag(sync, "sync")
        self.words = ["serve", "--seats", str(self.seats), "--workers", str(workers)]
        if load is not None and (heights is not None or table is not None):
            raise ValueError("load must be None where heights or table are given: the folder has its own")
        if datadir is not None and (load is not None or save is not None):
            raise ValueError("datadir must be None where load or save are given: the folder takes the place of both")
        if datadir is None and not sync:
            raise ValueError("sync must be True where datadir is None")
        if heights is not None or (load is None and datadir is None):
            chosen = read_heights(REGTEST if heights is None else heights)
            self.words += ["--heights", chosen.word]
        if not sync:
            self.words += ["--no-sync"]
        if history_memory is not None:
            self.words += ["--history-memory", str(number(history_memory, "history_memory", 64))]
        for name, value in (("blk", blk), ("load", load), ("save", save), ("datadir", datadir)):
            if value is not None:
                self.words += [f"--{name}", arguments.path(value, name)]
        if verify is not None:
            if not callable(verify):
                raise TypeError(f"verify must be a function, not {arguments.kind_of(verify)}")
            if table is not None or blk is not None:
                raise ValueError("verify must be None where table or blk are given: they are of a node with a table")
            self.words.append("--by-need")
        self.verify = verify
        self.table = b"" if table is None else arguments.lines(table, "table")
        # A folder that is there has to have the same table, also where that is empty.
        self._names_table = bool(self.table) or (table is not None and datadir is not None)
        if program is not None:
            program = arguments.path(program, "program")
        self.words.insert(0, program_path(program))
        self._save = None if save is None else arguments.path(save, "save")
        self._file: Optional[IO[bytes]] = None

    def __enter__(self) -> List[str]:
        """Makes the folder of `save`, and the table's file, which is there until `__exit__`: the command line."""
        if self._save is not None:
            os.makedirs(self._save, exist_ok=True)
        if not self._names_table:
            return self.words
        self._file = tempfile.NamedTemporaryFile(prefix="wakotehu-", suffix=".table")
        self._file.write(self.table)
        self._file.flush()
        return [*self.words, "--table", self._file.name]

    def __exit__(self, *raised: object) -> None:
        if self._file:
            self._file.close()
            self._file = None


def _count(value: int, name: str) -> int:
    found = number(value, name)
    if not 1 <= found <= MOST:
        raise ValueError(f"{name} must be from 1 to {MOST}")
    return found


def died(status: Optional[int], said: bytes) -> errors.Error:
    """Why a process ended that should not have."""
    text = said.decode("utf-8", "replace")
    found = re.match(r"regchain: table line (\d+)\n", text)
    return errors.BadTable(int(found.group(1))) if found else errors.NodeDied(status, text)
