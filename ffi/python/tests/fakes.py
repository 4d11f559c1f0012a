"""Programs that stand for a served node in tests."""

import os
import stat
import textwrap

BEGINS = """#!/usr/bin/env python3
import json, os, sys, time
def say(id, **more):
    print(json.dumps({'jsonrpc': '2.0', 'id': id, **more}), flush=True)
INFO = {'program': 'fake', 'version': '0', 'seats': 1, 'workers': 1, 'loaded': 0,
    'heights': {'bip34': 1, 'bip65': 1, 'bip66': 1, 'csv': 1}}
held = []
for line in sys.stdin:
    asked = json.loads(line)
    if asked['method'] == 'info':
        say(asked['id'], result=INFO)
        continue
"""


def fake(folder: str, body: str) -> str:
    """The path of a program that answers by this code: `asked` is a request, `say` answers it, `held` is a list."""
    path = os.path.join(folder, "fake")
    with open(path, "w", encoding="utf-8") as file:
        file.write(BEGINS + textwrap.indent(textwrap.dedent(body), "    "))
    os.chmod(path, os.stat(path).st_mode | stat.S_IXUSR)
    return path
