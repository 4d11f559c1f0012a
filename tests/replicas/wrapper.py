#!/usr/bin/python3
"""A program with a wrong rule: it runs `regchain`, and changes one answer to a submission.

    wrapper.py REGCHAIN NUMBER WORDS..    the answer of this number, from 1, is "inconclusive" in place of "accepted"
"""
import subprocess
import sys
import threading


def main() -> int:
    program, number, words = sys.argv[1], int(sys.argv[2]), sys.argv[3:]
    process = subprocess.Popen([program, *words], stdin=subprocess.PIPE, stdout=subprocess.PIPE, bufsize=0)
    assert process.stdin and process.stdout
    into = process.stdin

    def forward() -> None:
        for line in sys.stdin.buffer:
            into.write(line)
        into.close()

    threading.Thread(target=forward, daemon=True).start()
    for line in process.stdout:
        if b'"answer":"accepted"' in line:
            number -= 1
            if number == 0:
                line = line.replace(b'"accepted"', b'"inconclusive"')
        sys.stdout.buffer.write(line)
        sys.stdout.buffer.flush()
    return process.wait()


if __name__ == "__main__":
    sys.exit(main())
