#!/usr/bin/env python3
"""Sees that all who tell a version tell the one of the file VERSION, and the kit that tools/needs names.

    tools/version.py            fails where one tells another
    tools/version.py --write    writes it there
"""

import re
import sys
from typing import Iterator, Tuple

sys.dont_write_bytecode = True
from sources.repository import ROOT, read

if {"-h", "--help"} & set(sys.argv[1:]):
    print(__doc__)
    sys.exit()


def places(version: str, kit: str, logic: str) -> Iterator[Tuple[str, str, str]]:
    """The files that tell it, each with a pattern that stands there once, and the text for its group."""
    major, minor = version.split(".")
    yield "crates/console/src/options.rt", r'pub const VERSION: &str = "(.*)";', f"{version} ({kit} logic {logic})"
    yield "crates/gated/stdout", r"^regchain (.*)$", f"{version} ({kit} logic {logic})"
    yield "crates/gated/stdout", r"^out (.*)$", str(len(f"regchain {version} ({kit} logic {logic})\n"))
    yield "tests/program/test_command_line.py", r"^regchain (.* logic .*)$", f"{version} ({kit} logic {logic})"
    yield "ffi/include/wakotehu.h", r"^#define WAKOTEHU_VERSION_MAJOR (.*)$", major
    yield "ffi/include/wakotehu.h", r"^#define WAKOTEHU_VERSION_MINOR (.*)$", minor
    yield "ffi/include/wakotehu.h", r"The library's version, as \"(.*?)\"", version
    yield "ffi/python/wakotehu/version.py", r'^__version__ = "(.*)"$', version
    yield "README.md", r"`rt` of the kit `(.*?)`", kit
    yield "README.md", r"\(logic `(.*?)`\)", logic


def main() -> int:
    version = read("VERSION").strip()
    named = re.search(r"^KIT=(\S+) LOGIC=(\S+)$", read("tools/needs"), re.M)
    if not named or not re.fullmatch(r"\d+\.\d+", version):
        print("tools/version.py: VERSION or tools/needs can't be read", file=sys.stderr)
        return 1
    status = 0
    for path, pattern, wanted in places(version, *named.groups()):
        text = read(path)
        found = list(re.finditer(pattern, text, re.M))
        if len(found) == 1 and found[0][1] == wanted:
            continue
        if len(found) == 1 and "--write" in sys.argv[1:]:
            with open(f"{ROOT}/{path}", "w", encoding="utf-8") as file:
                file.write(text[:found[0].start(1)] + wanted + text[found[0].end(1):])
            continue
        print(f"{path} tells {found[0][1] if found else 'none'}, VERSION and tools/needs {wanted}", file=sys.stderr)
        status = 1
    return status


if __name__ == "__main__":
    sys.exit(main())
