"""From which heights soft forks are in force: four by their places, as these calls had from the first, and others by name."""

import re
from typing import Any, Dict, List, Mapping, Sequence, Tuple, Union

from . import arguments

#: The four, in the order of their places; csv has BIPs 68, 112 and 113.
PLACES = ("bip34", "bip65", "bip66", "csv")
#: Bitcoin Core's names for -testactivationheight, and a BIP's number.
_OTHER_NAMES = {"cltv": "bip65", "dersig": "bip66", "bip147": "nulldummy"}
_NAMED = re.compile("([a-z0-9]+)@([0-9]+)", re.ASCII)


#: What calls take for heights.
GivenHeights = Union[Sequence[int], Mapping[str, int]]


class SoftForks(Tuple[int, int, int, int]):
    """The heights of BIPs 34, 65, 66 and 68, and those of soft forks that were set by name, as nulldummy (BIP 147). One that isn't
    set is never in force."""

    further: Dict[str, int]

    def __new__(cls, four: Sequence[int], further: Mapping[str, int] = {}) -> "SoftForks":
        made = super().__new__(cls, four)  # type: ignore[arg-type]
        made.further = dict(sorted(further.items()))
        return made

    @property
    def word(self) -> str:
        """As `regchain --heights` takes them: 1,1,1,1,nulldummy@0."""
        return ",".join([*map(str, self), *(f"{name}@{height}" for name, height in self.further.items())])

    @property
    def named(self) -> Dict[str, int]:
        """All that are set, by their own names."""
        return {**dict(zip(PLACES, self)), **self.further}

    def height(self, name: str) -> Union[int, float]:
        """From which height on a soft fork is in force, by its own name; infinity is never."""
        return self.named.get(name, float("inf"))

    def __eq__(self, other: object) -> bool:
        return tuple.__eq__(self, other) is True and self.further == getattr(other, "further", {})

    def __ne__(self, other: object) -> bool:
        return not self == other

    def __hash__(self) -> int:
        return hash((*self, *self.further.items()))

    def __repr__(self) -> str:
        return f"SoftForks({self.word})"


def soft_forks(value: object, name: str = "heights") -> SoftForks:
    """Heights of 32 bits: four of BIPs 34, 65, 66 and 68; or by name, where those of the four that aren't named are 1, as on regtest.
    Names are those of Bitcoin Core's -testactivationheight, bip34 and so on, and nulldummy."""
    if isinstance(value, SoftForks):
        return value
    if not isinstance(value, Mapping):
        bip34, bip65, bip66, csv = (arguments.number(height, name) for height in arguments.several(value, name, 4))
        return SoftForks((bip34, bip65, bip66, csv))
    found = {arguments.text(fork, name): arguments.number(height, name) for fork, height in value.items()}
    if not all(re.fullmatch("[a-z0-9]+", fork, re.ASCII) for fork in found):
        raise ValueError(f"{name} must be named as soft forks are")
    own = {_OTHER_NAMES.get(fork, fork): height for fork, height in found.items()}
    return SoftForks([own.pop(fork, 1) for fork in PLACES], own)


def read_word(text: str) -> SoftForks:
    """What `word` says; a ValueError where it is no such text."""
    four, found = text.split(",")[:4], {}
    for part in text.split(",")[4:]:
        named = _NAMED.fullmatch(part)
        if named is None:
            raise ValueError(f"{part!r} isn't a soft fork's name, @ and a height")
        found[_OTHER_NAMES.get(named[1], named[1])] = int(named[2])
    return SoftForks(soft_forks([int(height) for height in four]), found)


def read_members(members: Dict[str, Any]) -> SoftForks:
    """Heights by name, as a served node tells them."""
    found = dict(members)
    four: List[int] = [found.pop(fork) for fork in PLACES]
    return SoftForks(four, found)
