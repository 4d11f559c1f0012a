#!/usr/bin/env python3
"""Proves a static library over the libraries below it that `rt ci` has just proved, and builds it.

    tools/static_library.py CRATE    leaves it as crates/CRATE/out/libCRATE.a, where `rt lib` does

`rt ci` builds no static library, and `rt lib` proves each library below once more where `rt ci` has built it. So this calls
the kit's compiler itself, as its help says (`rattle build --help`). If that fails, all that it prints is shown, else its last
line, which has the verdict.
"""

import argparse
import os
import subprocess
import sys
from typing import Iterator

from sources import repository


def rlib(crate: str) -> str:
    return f"{repository.ROOT}/crates/{crate}/out/rlib"


def words(crate: str) -> Iterator[str]:
    kit = repository.kit()
    yield from (f"{kit}/bin/rattle", "build", "--crate-name", crate, "src/lib.rt", "--crate-type", "staticlib")
    for it in ["std", *repository.uses(crate)]:
        yield from ("--extern", f"{it}={rlib(it) if it in repository.crates() else f'{kit}/rlibs'}/{it}.rlib")
    yield from ("-L", f"dependency={kit}/rlibs")
    for it in repository.below(crate):
        yield from ("-L", f"dependency={rlib(it)}")
    yield from ("--antt-project", f"{kit}/rattle/logic/antt-project.json", "--logic-built", f"{kit}/logic_built")
    # No C code is linked with it.
    yield from ("--links", f"{crate}=", "--jobs", "2", "--toolchain", f"{kit}/toolchain", "-o", f"out/lib{crate}.a")


def main() -> int:
    parser = argparse.ArgumentParser(description=__doc__, formatter_class=argparse.RawDescriptionHelpFormatter)
    parser.add_argument("crate", choices=[it for it in repository.crates() if " staticlib:" in repository.listed(repository.ROOT)[it][0]])
    crate = parser.parse_args().crate
    lacking = [it for it in repository.below(crate) if not os.path.isdir(f"{rlib(it)}/{it}.rlib")]
    if lacking:
        print(f"tools/static_library.py: not built yet, which rt ci does: {' '.join(lacking)}", file=sys.stderr)
        return 1
    folder = f"{repository.ROOT}/crates/{crate}"
    os.makedirs(f"{folder}/out", exist_ok=True)
    ran = subprocess.run(
        [*words(crate)], cwd=folder, stdin=subprocess.DEVNULL, stdout=subprocess.PIPE, stderr=subprocess.STDOUT, text=True, errors="replace")
    told = ran.stdout.strip().splitlines()
    print("\n".join(told if ran.returncode else told[-1:]), file=sys.stderr)
    return 1 if ran.returncode else 0


if __name__ == "__main__":
    sys.exit(main())
