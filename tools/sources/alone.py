"""Functions judged by the contracts of what they call: a copy of all crates in which every other body and proof is left out."""

import os
import re
import shutil
from typing import Iterable, Iterator, List

from . import repository
from .edits import PROOFS, Copy, Named, function_of, name_of, path_of, text_of
from .rattle import functions

HOLE = """use Rattle.{module}.Statement as stated

pub {name}_spec : {{M : Type 1}} → stated.statement M
{name}_spec = ?
"""
PARTS = ("src", "specs", "proofs")


class Laid:
    """A copy of the crates with texts of one's own, in which only some functions have their bodies and proofs."""

    def __init__(self, room: str, of: Iterable[str]) -> None:
        self.room = room
        self.used: List[str] = []
        for crate in of:
            self.add(crate)
        os.makedirs(f"{room}/laid/src")
        self.lay("laid", "src/lib.rt", "//! Nothing: what is judged stands below.\n")

    def add(self, crate: str) -> None:
        for it in repository.uses(crate):
            if it in repository.crates():
                self.add(it)
        if crate not in self.used:
            self.used.append(crate)
            for part in PARTS:
                if os.path.isdir(f"{repository.ROOT}/crates/{crate}/{part}"):
                    shutil.copytree(f"{repository.ROOT}/crates/{crate}/{part}", f"{self.room}/{crate}/{part}")

    def lay(self, crate: str, source: str, text: str) -> None:
        with open(f"{self.room}/{crate}/{source}", "w", encoding="utf-8") as file:
            file.write(text)

    def copy_proof(self, crate: str, it: Copy) -> None:
        """Lays the proof of a function for a copy of it, in whose name its modules stand."""
        function = function_of(text_of(crate, it.source), it.of)
        path = path_of(crate, it.source, function) if function else ""
        above, last, made = path.rpartition("::")[0], path.rpartition("::")[2], it.name.rpartition("::")[2]
        folder = f"{crate}/proofs/{above.replace('::', '/')}"
        modules = rf"\b(Rattle\.{crate}\.(?:proofs|specs\.contracts)\.{re.escape(above.replace('::', '.') + '.' * bool(above))}){last}(?=[.\s;]|$)"
        for name in PROOFS:
            of, to = f"{repository.ROOT}/crates/{folder}/{last}/{name}", f"{self.room}/{folder}/{made}/{name}"
            if os.path.exists(of):
                os.makedirs(os.path.dirname(to), exist_ok=True)
                text = re.sub(modules, rf"\g<1>{made}", repository.text_of(of))
                with open(to, "w", encoding="utf-8") as file:
                    file.write(re.sub(rf"\b{last}_spec\b", f"{made}_spec", text))

    def leave_out(self, crate: str, kept: Named) -> None:
        """Takes out every body and proof but those of these functions (source, name)."""
        for path in repository.files(f"{self.room}/{crate}/src", ".rt"):
            source = os.path.relpath(path, f"{self.room}/{crate}")
            self.lay(crate, source, self.emptied(crate, source, repository.text_of(path), kept))

    def emptied(self, crate: str, source: str, text: str, kept: Named) -> str:
        made, done = "", 0
        for it in functions(text):
            path, body = path_of(crate, source, it), it.body
            if (source, name_of(it)) in kept or not path or "const " in it.words or not body or body.start < done:
                continue
            if text[body.start : body.stop].strip():
                made, done = f"{made}{text[done:body.start]} unreachable!() ", body.stop
            self.hole(crate, path)
        return made + text[done:]

    def hole(self, crate: str, path: str) -> None:
        """A hole in the place of a function's proof."""
        folder, name = f"{self.room}/{crate}/proofs/{path.replace('::', '/')}", path.rpartition("::")[2]
        shutil.rmtree(f"{os.path.dirname(folder)}/+{name}", ignore_errors=True)
        os.makedirs(folder, exist_ok=True)
        for it in PROOFS:
            if os.path.exists(f"{folder}/{it}"):
                os.remove(f"{folder}/{it}")
        with open(f"{folder}/Proof.antt", "w", encoding="utf-8") as file:
            file.write(HOLE.format(module=f"{crate}.proofs.{path.replace('::', '.')}", name=name))

    def words(self) -> Iterator[str]:
        """How `rattle check` is given these crates."""
        kit = repository.kit()
        yield from (f"{kit}/bin/rattle", "check", "--crate-name", "laid", "src/lib.rt", "--links", "laid=", "--allow-holes")
        yield from ("--antt-project", f"{kit}/rattle/logic/antt-project.json", "--logic-built", f"{kit}/logic_built")
        yield from ("-L", f"dependency={kit}/rlibs")
        for it in sorted({"std", *(it for crate in self.used for it in repository.uses(crate) if it not in self.used)}):
            yield from ("--extern", f"{it}={kit}/rlibs/{it}.rlib")
        for it in self.used:
            yield from ("--lib", f"{it}:{','.join(['std', *repository.uses(it)])}={self.room}/{it}/src/lib.rt")
