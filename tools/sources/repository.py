"""The repository's files and crates, and the kit."""

import os
import shutil
import sys
from functools import lru_cache
from typing import Dict, Iterator, List, Tuple

ROOT = os.path.dirname(os.path.dirname(os.path.dirname(os.path.realpath(__file__))))


def text_of(path: str) -> str:
    with open(path, encoding="utf-8") as file:
        return file.read()


def read(path: str) -> str:
    """A file of the repository."""
    return text_of(f"{ROOT}/{path}")


def write(path: str, text: str) -> None:
    with open(f"{ROOT}/{path}", "w", encoding="utf-8") as file:
        file.write(text)


def files(folder: str, *endings: str) -> Iterator[str]:
    """The paths of all files below a folder that end so, in order."""
    for at, folders, names in os.walk(folder):
        folders.sort()
        yield from (os.path.join(at, name) for name in sorted(names) if name.endswith(endings))


@lru_cache(maxsize=None)
def listed(root: str) -> "Dict[str, Tuple[str, List[str]]]":
    """Each crate of a folder's crates.txt, those below first: its line, and what it uses, of the kit too."""
    found = {}
    for line in text_of(f"{root}/crates.txt").splitlines(keepends=True):
        head, colon, below = line.split("#")[0].partition(":")
        if colon:
            found[head.split()[0]] = (line, below.split())
    return found


def crates() -> List[str]:
    return list(listed(ROOT))


def uses(crate: str) -> List[str]:
    return listed(ROOT)[crate][1]


def below(crate: str) -> List[str]:
    """The repository's crates below one, in the order of crates.txt."""
    own = [it for it in uses(crate) if it in listed(ROOT)]
    found = set(own).union(*(below(it) for it in own))
    return [it for it in crates() if it in found]


def sources(crate: str) -> Iterator[str]:
    """The source files of a crate, as `src/NAME.rt`."""
    folder = f"{ROOT}/crates/{crate}"
    return (os.path.relpath(path, folder) for path in files(f"{folder}/src", ".rt"))


def kit() -> str:
    """The folder of the kit."""
    rt = shutil.which("rt") or sys.exit("rt isn't on the path: the Rattle kit is needed (README.md)")
    return os.path.dirname(os.path.dirname(os.path.realpath(rt)))
