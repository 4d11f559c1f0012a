"""Which build of a file this machine's processor takes: beside the default one there may be one for x86-64-v3. And with
which pages a program gets its memory.

glibc looks for libraries in the same folder below each of its own (`man ld.so`, glibc-hwcaps), but not where a whole path
is given, as this package gives it.
"""

import os
from functools import lru_cache
from typing import Dict

#: What /proc/cpuinfo calls the instructions that x86-64-v3 asks for, with those of v2.
V3 = frozenset(
    "pni ssse3 sse4_1 sse4_2 popcnt cx16 lahf_lm avx avx2 bmi1 bmi2 f16c fma abm movbe xsave".split()
)
FOLDER = os.path.join("glibc-hwcaps", "x86-64-v3")

#: Has malloc ask for pages of 2 MB (glibc's manual, "Memory Allocation Tunables"): coins lie all over the memory.
LARGE_PAGES = "glibc.malloc.hugetlb=1"


def environment() -> Dict[str, str]:
    """The environment for a program: this process's, with large pages unless it says something of glibc's settings itself."""
    return {"GLIBC_TUNABLES": LARGE_PAGES, **os.environ}


@lru_cache(maxsize=None)
def has_v3(cpuinfo: str = "/proc/cpuinfo") -> bool:
    """Whether each processor of the machine has all of them, by that file."""
    try:
        with open(cpuinfo, encoding="utf-8", errors="replace") as file:
            flags = [set(line.partition(":")[2].split()) for line in file if line.startswith("flags")]
    except OSError:
        return False
    return bool(flags) and all(V3 <= own for own in flags)


def chosen(place: str, cpuinfo: str = "/proc/cpuinfo") -> str:
    """The build for x86-64-v3 beside a file, where it is there and the processor takes it; else the file."""
    folder, name = os.path.split(place)
    if not folder or not has_v3(cpuinfo):
        return place
    better = os.path.join(folder, FOLDER, name)
    return better if os.path.isfile(better) else place


def home(place: str) -> str:
    """The folder of the default build, of a file that was chosen."""
    folder = os.path.dirname(place)
    ending = os.sep + FOLDER
    return folder[: -len(ending)] if folder.endswith(ending) else folder
