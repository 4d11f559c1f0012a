"""How commands that run until they are told to end take SIGINT and SIGTERM."""

import atexit
import signal
import sys

#: How long a thread runs at the end before another one may, in seconds.
SWITCH = 0.0002


class Signals:
    """SIGINT and SIGTERM, from now on. The first one raises KeyboardInterrupt as long as `raises` is true; later it is noted. All
    others change nothing, also while the interpreter ends."""

    def __init__(self) -> None:
        self.came = False
        self.raises = True
        for number in (signal.SIGINT, signal.SIGTERM):
            signal.signal(number, self._note)
        atexit.register(self._ignore)

    def _note(self, number: int, frame: object) -> None:
        is_first, self.came = not self.came, True
        # So that threads which go on let the end come soon: each waits for them some dozens of times.
        sys.setswitchinterval(SWITCH)
        if is_first and self.raises:
            raise KeyboardInterrupt

    @staticmethod
    def _ignore() -> None:
        # The interpreter would have them end the process again.
        for number in (signal.SIGINT, signal.SIGTERM):
            signal.signal(number, signal.SIG_IGN)
