"""Judges `rt plant`'s wrong bodies by the contracts of what they call, with nothing proved below.

    wrong/plants CRATE..        each plant of these crates, by default of every library, and how many there are of each kind
    wrong/plants --only WORD    only in functions whose file, line and path contain WORD
    wrong/plants --all          the refused ones too
    wrong/plants --jobs N       jobs of a check; by default one

`rt plant` first proves the crate and all below it. Here every other body is `unreachable!()`, and every proof a hole, as in
`wrong/run`. What a plant is, and how a check's lines are read, is the kit's: its scripts `rt-plant` and `rt-plant-bodies` are
loaded, which no page of the kit documents. So another kit may need changes here, and the gate doesn't use this.

The kinds are those of `rt plant --help`. The status is 0 unless a fault ends the run; plants that weren't judged are listed.
"""
import argparse
import collections
import os
import re
import subprocess
import sys
import tempfile
import time
import types
from typing import Any, Dict, Iterable, Optional

from . import repository
from .alone import Laid
from .edits import path_of
from .rattle import functions

# The plants of one check, and its seconds. A check reads all crates below first, so many go into one.
BATCH, SECONDS = 120, 3600
# More plants and minutes than any crate takes.
NO_END = 1 << 20


def kit_script(name: str) -> Any:
    """A script of the kit, as a module."""
    path = f"{repository.kit()}/bin/{name}"
    made = types.ModuleType(name)
    made.__file__ = path
    exec(compile(repository.text_of(path), path, "exec"), made.__dict__)
    return made


class Plants:
    """The kit's plants of one crate, in a copy whose other bodies and proofs are left out."""

    def __init__(self, crate: str, room: str, jobs: int) -> None:
        self.kit = kit_script("rt-plant")
        self.kit.BATCH, self.kit.SECONDS = BATCH, SECONDS
        self.kit.libraries = lambda _: libraries(crate, room)
        self.crate = types.SimpleNamespace(name=crate, is_program=False)
        self.laid = Laid(room, [crate])
        for it in self.laid.used:
            self.laid.leave_out(it, set())
        self.jobs, self.kept = jobs, f"{room}/kept"
        os.mkdir(self.kept)
        self.source = self.emptied()

    def emptied(self) -> Any:
        """The sources of the copy; for each function the kit sees the real body, from which it takes errors."""
        real, source = (self.kit.bodies.Source(it) for it in (f"{repository.ROOT}/crates/{self.crate.name}", self.folder()))
        for it in (real, source):
            it.read("src/lib.rt")
            it.read_specs()
        for made, of in zip(source.functions, real.functions):
            made.body = of.body
        for name, folder in self.kit.libraries(self.crate).items():
            source.add_library(name, f"{folder}/lang")
        return source

    def folder(self) -> str:
        return f"{self.laid.room}/{self.crate.name}"

    def symbols(self) -> Dict[str, str]:
        """The names that the prover has for the crate's functions, as far as the sources tell them."""
        found = {}
        for source in repository.sources(self.crate.name):
            for it in functions(repository.read(f"crates/{self.crate.name}/{source}")):
                path = path_of(self.crate.name, source, it)
                if path:
                    found[f"{self.crate.name}::{path}"] = "proved"
        return found

    def check(self, names: Iterable[str]) -> Optional[str]:
        """What a check of these functions prints. One that rests on a hole of another is proved for itself."""
        words = [*self.laid.words(), "--jobs", str(self.jobs), "--incremental", self.kept]
        for it in names:
            words += ["--only", it]
        try:
            ran = subprocess.run(
                words, cwd=f"{self.laid.room}/laid", stdin=subprocess.DEVNULL, stdout=subprocess.PIPE, stderr=subprocess.STDOUT,
                text=True, errors="replace", timeout=SECONDS)
        except subprocess.TimeoutExpired:
            return None
        told = re.sub(r"(?m)^(fn \S+: )(no holes|depends on a hole in .*)$", r"\1proved", ran.stdout)
        return told.replace(f"{self.folder()}/src/", "src/") if ran.returncode >= 0 else None

    def judged(self, only: str) -> Any:
        """The functions with plants, those without a clause, and the plants."""
        planted, bare = self.kit.chosen(self.crate, self.source, self.symbols(), only)
        copy = self.kit.Copy.__new__(self.kit.Copy)
        copy.crate, copy.source, copy.folder, copy.flags = self.crate, self.source, self.folder(), []
        copy.end, copy.lines, copy.check = time.monotonic() + 60 * NO_END, {}, self.check
        os.makedirs(f"{copy.folder}/out", exist_ok=True)
        return planted, bare, self.kit.plant(self.crate, copy, planted, planted, NO_END)


def libraries(crate: str, room: str) -> Dict[str, str]:
    """Where the sources of each library below stand, in a folder `lang`: ours through a link, the kit's beside what it built."""
    found: Dict[str, str] = {}
    names = list(repository.uses(crate))
    for name in names:
        if name in repository.crates():
            found[name] = f"{room}/linked/{name}"
            if not os.path.exists(found[name]):
                os.makedirs(found[name])
                os.symlink(f"{repository.ROOT}/crates/{name}", f"{found[name]}/lang")
            more = list(repository.uses(name))
        elif name in ("std", "core", "io", "libc", "os"):
            continue
        else:
            found[name] = f"{repository.kit()}/rlibs/{name}.rlib"
            more = re.findall(r"(?m)^dep (\w+)$", repository.text_of(f"{found[name]}/format"))
        names += [it for it in more if it not in names]
    return found


def printed(plants: Plants, only: str, shows_all: bool) -> Iterable[str]:
    """A line for each plant that its contract lets through or that wasn't judged, for each function without a clause; the counts."""
    planted, bare, found = plants.judged(only)
    tested = {it.f for it in found if it.kind in plants.kit.KINDS[:4] and it.form in plants.kit.GIVES_UP}
    for f in bare:
        yield f"no-ensures  {f.shown}"
    for f in (it for it in planted if it not in tested):
        yield f"untested    {f.shown}"
    quiet = () if shows_all else ("refused", "same", "not-source")
    for it in sorted(found, key=lambda it: (it.kind, it.f.shown)):
        if it.kind not in quiet:
            yield f"{it.kind:<10}  {it.f.shown}: {{ {it.body} }}" + f"  ({it.why})" * bool(it.why)
    count = collections.Counter(it.kind for it in found)
    given_up = collections.Counter(it.kind for it in found if it.form in plants.kit.GIVES_UP)
    for what, of in (("all", count), ("giving up", given_up)):
        yield f"plants {what} crate={plants.crate.name} " + " ".join(f"{it}={of[it]}" for it in plants.kit.KINDS)


def main() -> int:
    words = argparse.ArgumentParser(prog="wrong/plants", description=__doc__, formatter_class=argparse.RawDescriptionHelpFormatter)
    words.add_argument("crates", nargs="*", metavar="CRATE")
    words.add_argument("--only", default="", metavar="WORD")
    words.add_argument("--all", action="store_true")
    words.add_argument("--jobs", type=int, default=1, metavar="N")
    given = words.parse_args()
    libraries_alone = [it for it in repository.crates() if os.path.exists(f"{repository.ROOT}/crates/{it}/src/lib.rt")]
    unknown = [it for it in given.crates if it not in libraries_alone]
    if unknown:
        words.error(f"no library of this name: {unknown[0]}")
    for crate in given.crates or libraries_alone:
        with tempfile.TemporaryDirectory(prefix="plants-") as room:
            for line in printed(Plants(crate, room, given.jobs), given.only, given.all):
                print(line, flush=True)
    return 0


if __name__ == "__main__":
    sys.exit(main())
