"""The flags of bitcoind, and bitcoin.conf: what has an effect here, what has none, and what is refused since it would
promise something."""

import ipaddress
import os
import re
from typing import Callable, Dict, List, NamedTuple, Optional, Tuple

from ..history import regular

#: What may be published by ZeroMQ, in the order in which Bitcoin Core tells of one event.
TOPICS = ("hashblock", "hashtx", "rawblock", "rawtx", "sequence")
#: What the file may set that the server has flags for. Those of the second are read in its section [regtest] alone.
READ = (
    "rpcuser", "rpcpassword", "rpcauth", "rpccookiefile", "testactivationheight", "blocknotify", "maxmempool", "txindex",
    "blockfilterindex", "mempoolfullrbf", "persistmempool", "acceptnonstdtxn", "fallbackfee", "keypool",
    *(f"zmqpub{topic}{end}" for topic in TOPICS for end in ("", "hwm")),
)  # fmt: skip
READ_IN_SECTION = ("rpcport", "rpcbind", "wallet")
#: Those that are on or off.
SWITCHES = ("txindex", "blockfilterindex", "mempoolfullrbf", "persistmempool", "acceptnonstdtxn")


class BadSetting(Exception):
    """A flag, or a line of the file, that isn't taken, and why."""


def is_on(value: str) -> bool:
    """A truth value as bitcoind reads it."""
    found = re.match(r"\s*([+-]?[0-9]{1,9})", value)
    return not value or bool(found and int(found[1]))


def has_filters(value: str) -> bool:
    """Whether a value of -blockfilterindex asks for filters: as bitcoind's, which has one type of them."""
    if value not in ("", "0", "1", "basic"):
        raise BadSetting(f"Unknown -blockfilterindex value {value[:100]}.")
    return value != "0"


def _is_off(value: str) -> bool:
    return not is_on(value)


def _is_zero(value: str) -> bool:
    return value == "0"


def _is_loopback(value: str) -> bool:
    try:
        return ipaddress.ip_network(value, strict=False).is_loopback
    except ValueError:
        return False


def _is_number(value: str) -> bool:
    return re.fullmatch("[0-9]{1,9}", value) is not None


def _is_any(value: str) -> bool:
    return True


Rule = Tuple[Callable[[str], bool], str]
_ONLY: Rule = _is_off, "there is regtest alone"

#: Flags of bitcoind that change nothing here: the values that are taken, and why others aren't.
RULES: Dict[str, Rule] = {
    "regtest": (is_on, "there is regtest alone"), "chain": (lambda value: value == "regtest", "there is regtest alone"),
    "testnet": _ONLY, "signet": _ONLY,
    "server": (is_on, "there is nothing but the server"),
    "daemon": (_is_off, "the server stays in the foreground"), "daemonwait": (_is_off, "the server stays in the foreground"),
    **dict.fromkeys(
        ("listen", "dnsseed", "fixedseeds", "discover", "upnp", "natpmp", "listenonion"),
        (_is_off, "there are no peers"),
    ),
    "connect": (_is_zero, "there are no peers"), "debuglogfile": (_is_zero, "nothing is logged"),
    "addnode": (lambda value: False, "there are no peers"),
    "coinstatsindex": (_is_off, "there is no such index"),
    "rest": (_is_off, "there is no /rest/"), "prune": (_is_off, "nothing is pruned"),
    "rpcallowip": (_is_loopback, "the server answers this machine alone"),
    **dict.fromkeys(("rpcthreads", "rpcworkqueue", "rpcservertimeout", "dbcache"), (_is_number, "it is a number")),
    **dict.fromkeys(
        (
            "printtoconsole debug debugexclude loglevel logips logtimestamps logtimemicros logthreadnames"
            " logsourcelocations shrinkdebugfile disablewallet addresstype changetype minrelaytxfee"
            " maxconnections"
            " peertimeout blocksonly uacomment par checkblockindex checkmempool checkblocks checklevel rpcdoc"
        ).split(),
        (_is_any, ""),
    ),
}  # fmt: skip


def expect(name: str, value: str) -> None:
    """That a flag of bitcoind's is taken."""
    is_taken, why = RULES[name]
    if not is_taken(value):
        raise BadSetting(f"-{name}={value[:100]} isn't taken: {why}")


def positive(word: str) -> str:
    """A word of the command line; `-noNAME` is `-NAME=0`, as at bitcoind."""
    found = re.fullmatch(r"-{1,2}no([a-z]+)(?:=(.*))?", word, re.DOTALL)
    if found is None or found[1] not in (*RULES, *SWITCHES):
        return word
    return f"--{found[1]}={int(not is_on(found[2] or ''))}"


# ---- the file


class Line(NamedTuple):
    """A line of the file that sets something: its section, "" for none."""

    number: int
    section: str
    name: str
    value: str


class Settings(NamedTuple):
    """What a file sets: words as of the command line, of which the last counts; passwords; and what has no effect."""

    words: List[str]
    password: Optional[str]
    ignored: List[str]


def read(path: str, is_named: bool = True) -> Settings:
    """The settings of a file as bitcoin.conf. One that was named may be a pipe."""
    with open(path, encoding="utf-8", errors="surrogateescape", opener=None if is_named else regular) as file:
        lines = _lines(file.read(), path)
    # Those of the section go before the others, and of two the first counts.
    lines = [it for it in lines if it.section == "regtest"] + [it for it in lines if not it.section]
    passwords = [it.value for it in lines if it.name == "rpcpassword"]
    known = [it for it in lines if _is_known(it, path)]
    words = [f"--{it.name}={it.value}" for it in reversed(known) if it.name != "rpcpassword"]
    ignored = [f"{path} line {it.number}: {it.name[:100]} has no effect" for it in lines if it not in known]
    return Settings(words, passwords[0] if passwords else None, ignored)


def _is_known(line: Line, path: str) -> bool:
    """Whether a line sets something that there is here; one that may not be set is refused."""
    where = f"{path} line {line.number}"
    if line.name in ("conf", "datadir", "includeconf"):
        raise BadSetting(f"{where}: {line.name} is set on the command line alone")
    if line.name in READ_IN_SECTION and not line.section:
        raise BadSetting(f"{where}: {line.name} is set in the section [regtest] alone")
    if line.name in RULES:
        try:
            expect(line.name, line.value)
        except BadSetting as error:
            raise BadSetting(f"{where}: {error}")
    return line.name in RULES or line.name in READ or line.name in READ_IN_SECTION


def _lines(text: str, path: str) -> List[Line]:
    found, section = [], ""
    for number, line in enumerate(text.split("\n"), 1):
        bare, mark, _ = line.partition("#")
        bare = bare.strip()
        name, sign, value = (part.strip() for part in bare.partition("="))
        dotted, dot, rest = name.rpartition(".")
        if bare[:1] == "[" and bare[-1:] == "]":
            section = bare[1:-1]
        elif bare and not sign or bare[:1] == "-":
            raise BadSetting(f"{path} line {number} isn't NAME=VALUE")
        elif bare:
            if mark and rest == "rpcpassword" and not line.partition("#")[0][-1:].isspace():
                raise BadSetting(f"{path} line {number}: # in rpcpassword can be ambiguous and should be avoided")
            found.append(Line(number, dotted if dot else section, rest, value))
    return found


def file_of(conf: Optional[str], folder: Optional[str]) -> Optional[str]:
    """The file that is read: that of -conf, which is looked for from -datadir on, or bitcoin.conf there; None for none."""
    if conf is not None:
        return os.path.join(folder or "", conf)
    path = os.path.join(folder, "bitcoin.conf") if folder else ""
    return path if path and os.path.exists(path) else None
