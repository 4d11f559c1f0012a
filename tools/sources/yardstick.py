"""Says how fast processors prove here and now, by one example of the kit that is checked from nothing.

    tests/yardstick                 checks it once, and prints the seconds of a processor that it took
    tests/yardstick --beside FILE   checks it again and again, with pauses of ten minutes, and writes the seconds of each
                                    as a line of FILE, until it is ended: how fast they are beside what runs meanwhile

The minutes that `./test` takes on one machine say nothing of another's, nor of the same one's with other work: the same
gate took 204 minutes of processors on one day and 315 on another. So `./test` divides them by how much longer this
example takes than the file `budget` says.
"""
import resource
import shutil
import subprocess
import sys
import tempfile
import time

from .repository import kit

PAUSE = 600  # seconds between two checks


def seconds() -> float:
    """The seconds of a processor, in user and system time, that a check of the example takes."""
    with tempfile.TemporaryDirectory(prefix="yardstick-") as room:
        shutil.copytree(f"{kit()}/rattle/examples/worked/ring", f"{room}/ring", ignore=shutil.ignore_patterns("out"))
        before = resource.getrusage(resource.RUSAGE_CHILDREN)
        words = ["rt", "check", "--jobs", "1"]
        ran = subprocess.run(words, cwd=f"{room}/ring", stdin=subprocess.DEVNULL, stdout=subprocess.PIPE, stderr=subprocess.STDOUT, text=True)
        after = resource.getrusage(resource.RUSAGE_CHILDREN)
    if ran.returncode:
        sys.exit(f"tests/yardstick: the kit's example isn't proved:\n{ran.stdout[-2000:]}")
    return after.ru_utime + after.ru_stime - before.ru_utime - before.ru_stime


def main() -> int:
    words = sys.argv[1:]
    if {"-h", "--help"} & set(words):
        print(__doc__)
        return 0
    if not words:
        print(f"{seconds():.1f}")
        return 0
    if len(words) != 2 or words[0] != "--beside":
        print(__doc__, file=sys.stderr)
        return 2
    while True:
        with open(words[1], "a", encoding="ascii") as file:
            file.write(f"{seconds():.1f}\n")
        time.sleep(PAUSE)
