#!/usr/bin/env python3
"""Looks at the scripts, and whether each crate has the kit's layout. It proves nothing.

    tools/lint.py           pyflakes and mypy --strict over the scripts in Python, shellcheck over those in bash, tools/tests, and
                            `rattle fmt --check`, which `rt ci` asks of each crate at its end
    tools/lint.py --needs   only sees that the checkers are there, and installs them where it runs as root and Debian has them

tools/lint.txt names the scripts that mypy doesn't pass. One that passes has to be taken from it, so that it only shrinks.
"""
import argparse
import os
import re
import shutil
import subprocess
import sys
import tempfile
import unittest
from concurrent.futures import ThreadPoolExecutor
from typing import Dict, Iterator, List, Tuple

sys.dont_write_bytecode = True
from sources import repository
from sources.repository import ROOT

LIST = f"{ROOT}/tools/lint.txt"
# Commands, each of the Debian package of its name.
CHECKERS = ["mypy", "pyflakes3", "shellcheck"]
# Where scripts look for modules behind their own folder.
TESTS = ("program", "player", "serve", "durable", "vectors", "refusals", "soak", "core", "replicas")
PATHS = ["tools", *(f"tests/{it}" for it in TESTS), "ffi/python"]
OTHERS = {"bench": ["ffi/python/tests"], "tests/replicas": ["ffi/python/tests"], "tests/program": ["bench"]}


def scripts(program: bytes, *folders: str) -> Iterator[str]:
    """The paths of all scripts in these folders, by default in all, whose first line names a program."""
    for top in sorted(folders or set(os.listdir(ROOT)) - {".git", "crates", "out"}):
        for path in repository.files(f"{ROOT}/{top}", "") if os.path.isdir(f"{ROOT}/{top}") else [f"{ROOT}/{top}"]:
            if os.path.isfile(path) and "/out/" not in path:
                with open(path, "rb") as file:
                    first = file.readline(60)
                if (first[:2] == b"#!" and program in first) or (program == b"python" and path.endswith(".py")):
                    yield os.path.relpath(path, ROOT)


def ran(words: List[str], paths: str = "") -> Tuple[int, List[str]]:
    """The status of a checker, and what it says."""
    done = subprocess.run(
        words, cwd=ROOT, env={**os.environ, "MYPYPATH": paths}, stdin=subprocess.DEVNULL, stdout=subprocess.PIPE,
        stderr=subprocess.STDOUT, text=True)
    told = done.stdout.splitlines() or [f"{words[0]} ends with the status {done.returncode}"]
    return done.returncode, told if done.returncode else []


def groups_of(names: List[str]) -> List[Dict[str, List[str]]]:
    """Scripts by their folders (of a package, by the one that it is in), those together whose modules have different names, and
    that look for others in the same places."""
    folders: Dict[str, List[str]] = {}
    for name in names:
        folder = os.path.dirname(name)
        while os.path.exists(f"{ROOT}/{folder}/__init__.py"):
            folder = os.path.dirname(folder)
        folders.setdefault(folder, []).append(name)
    modules = {folder: {it[len(folder):].split("/")[1] for it in own if it.endswith(".py")} for folder, own in folders.items()}
    groups: List[Dict[str, List[str]]] = []
    for folder, own in folders.items():
        fits = [group for group in groups if not any(modules[folder] & modules[it] or OTHERS.get(folder) != OTHERS.get(it) for it in group)]
        if not fits:
            groups.append({})
        (fits or groups[-1:])[0][folder] = own
    return groups


def typed(names: List[str]) -> List[str]:
    """What mypy says of scripts that aren't listed, and which listed ones it passes."""
    def check(group: Dict[str, List[str]]) -> List[str]:
        own = tempfile.mkdtemp(dir=room)
        # A script has no module's name, so it gets one of its own.
        links = {name if name.endswith(".py") else f"{own}/{name.replace('/', '_')}.py": name for each in group.values() for name in each}
        for link, name in links.items():
            if link != name:
                os.symlink(f"{ROOT}/{name}", link)
        words = ["mypy", "--strict", "--explicit-package-bases", "--no-error-summary", "--cache-dir", f"{own}/cache", *links]
        paths = [*group, *(it for folder in group for it in OTHERS.get(folder, [])), *PATHS, own]
        status, told = ran(words, ":".join(dict.fromkeys(paths)))
        if status > 1:
            return [f"mypy has stopped: {line}" for line in told]
        if any("Skipping most remaining errors" in line for line in told):
            return [f"mypy leaves errors out behind this: {line}" for line in told if line.endswith("[import]")]
        return [links[path] + line[len(path):] for line in told for path in [line.split(":")[0]] if path in links]

    groups = groups_of(names)
    with tempfile.TemporaryDirectory(prefix="mypy-") as room, ThreadPoolExecutor(len(groups)) as pool:
        lines = [line for told in pool.map(check, groups) for line in told]
    listed = [line for line in repository.text_of(LIST).splitlines() if line and line[0] != "#"]
    failed = {line.split(":")[0] for line in lines if ": error:" in line}
    passed = [f"{it}: mypy passes it now: take it from tools/lint.txt" for it in listed if it not in failed]
    return [line for line in lines if line.split(":")[0] not in listed] + passed


def laid_out() -> List[str]:
    """Which files aren't in the kit's layout, and what lays them out."""
    folders = [f"{ROOT}/crates/{crate}/{it}" for crate in repository.crates() for it in ("src", "specs", "proofs")]
    paths = [path for folder in folders for path in repository.files(folder, ".rt", ".antt")]
    told = ran([f"{repository.kit()}/bin/rattle", "fmt", "--check", *paths])[1]
    crates = re.findall(rf"(?m)^{re.escape(ROOT)}/crates/(\w+)/", "\n".join(told))
    return [line.replace(f"{ROOT}/", "") for line in told] + [f"(cd crates/{it} && rt fmt) does it" for it in sorted(set(crates))]


def tested() -> List[str]:
    """What fails in tools/tests."""
    suite = unittest.defaultTestLoader.discover(f"{ROOT}/tools/tests")
    with open(os.devnull, "w", encoding="utf-8") as nowhere:
        done = unittest.TextTestRunner(nowhere).run(suite)
    return [text for _, text in done.failures + done.errors] or ([] if done.testsRun else ["tools/tests has no test"])


def missing() -> List[str]:
    return [it for it in CHECKERS if not shutil.which(it)]


def install(names: List[str]) -> None:
    print(f"tools/lint.py: installs {' '.join(names)}", file=sys.stderr)
    os.environ["DEBIAN_FRONTEND"] = "noninteractive"
    act = ["apt-get", "install", "-y", "--no-install-recommends", *names]
    # The list of packages may be old, or not be there.
    if ran(act)[0] and not ran(["apt-get", "update"])[0]:
        ran(act)


def main() -> int:
    words = argparse.ArgumentParser(description=__doc__, formatter_class=argparse.RawDescriptionHelpFormatter)
    words.add_argument("--needs", action="store_true", help="only sees that the checkers are there")
    given = words.parse_args()
    if missing() and os.getuid() == 0 and shutil.which("apt-get"):
        install(missing())
    if missing():
        print(f"tools/lint.py: these packages are missing: {' '.join(missing())}", file=sys.stderr)
    if missing() or given.needs:
        return 1 if missing() else 0
    ours = list(scripts(b"python", "tools", "docs", "wrong", "bench", "tests"))
    told = ran(["pyflakes3", *ours])[1] + typed(ours) + tested() + laid_out()
    # Texts in single quotes are other programs', which expand them.
    told += ran(["shellcheck", "-x", "-P", "SCRIPTDIR", "-s", "bash", "-f", "gcc", "-e", "SC2016", "tools/needs", *scripts(b"bash")])[1]
    for line in told:
        print(f"tools/lint.py: {line}", file=sys.stderr)
    return 1 if told else 0


if __name__ == "__main__":
    sys.exit(main())
