"""Workers that have nothing to run: no thread is started for a block without scripts."""

import os
import subprocess
import unittest

import running


def processor_seconds(words: list[str], text: str) -> float:
    """How long all threads of a run used the processor."""
    command = [running.PROGRAM, *words]
    with subprocess.Popen(command, stdin=subprocess.PIPE, stdout=subprocess.DEVNULL, text=True) as run:
        assert run.stdin is not None
        run.stdin.write(text)
        run.stdin.close()
        _, status, used = os.wait4(run.pid, 0)
        run.returncode = os.waitstatus_to_exitcode(status)
    assert run.returncode == 0
    return float(used.ru_utime + used.ru_stime)


class Workers(unittest.TestCase):
    def test_blocks_without_scripts_cost_the_same_with_sixteen_workers(self) -> None:
        """Sixteen threads started for each of these blocks take a second of the processor."""
        text = "chain c 999 genesis\nclient a\neach c 1 999\n"
        one = processor_seconds(["run", "--workers", "1", "--scenario", "-"], text)
        sixteen = processor_seconds(["run", "--workers", "16", "--scenario", "-"], text)
        self.assertLess(sixteen, 2 * one + 0.3)
