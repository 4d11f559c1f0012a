"""Which commit was measured."""

import os
import subprocess

ROOT = os.path.dirname(os.path.dirname(os.path.realpath(__file__)))


def asked(*words: str) -> str:
    done = subprocess.run(["git", "-C", ROOT, *words], stdout=subprocess.PIPE, stderr=subprocess.DEVNULL, text=True)
    return done.stdout.strip() if done.returncode == 0 else ""


def named() -> str:
    """The commit, and whether files differ from it, but for the results themselves."""
    commit = asked("rev-parse", "--short=12", "HEAD")
    if not commit:
        return "a folder that is no clone"
    others = [name for name in asked("diff", "--name-only", "HEAD").split() if not name.startswith("bench/results.")]
    return f"commit `{commit}`" + (" with changes of its own" if others else "")
