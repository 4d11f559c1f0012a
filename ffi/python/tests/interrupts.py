"""Interrupts, as Ctrl-C is one, at a moment that a test chooses."""

import signal
import unittest
from typing import Any, Callable


class Interrupts:
    """Interrupts of the main thread by SIGALRM, as long as the test runs."""

    def __init__(self, test: unittest.TestCase) -> None:
        self.may_come = False
        kept = signal.signal(signal.SIGALRM, self._interrupt)
        test.addCleanup(signal.signal, signal.SIGALRM, kept)
        test.addCleanup(signal.setitimer, signal.ITIMER_REAL, 0)

    def _interrupt(self, number: int, frame: Any) -> None:
        if self.may_come:
            self.may_come = False
            raise KeyboardInterrupt

    def cut(self, call: Callable[[], Any], delay: float) -> bool:
        """Makes a call, and says whether it was interrupted, after so many seconds."""
        try:
            self.may_come = True
            signal.setitimer(signal.ITIMER_REAL, delay)
            call()
            self.may_come = False
        except KeyboardInterrupt:
            return True
        finally:
            self.may_come = False
        return False
