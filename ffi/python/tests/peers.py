"""Debian's litecoind, Bitcoin Core's code, as a peer of tests."""

import shutil
import socket
import subprocess
import sys
import tempfile
import time

from servers import ROOT


sys.path.insert(0, f"{ROOT}/ffi/examples")
import fuzz_another  # noqa: E402

IS_THERE = shutil.which("litecoind") is not None


class Litecoind:
    """A litecoind on regtest before segregated witness, on genesis alone."""

    def __init__(self, *flags):
        with socket.create_server(("127.0.0.1", 0)) as probe:
            port = probe.getsockname()[1]
        self.folder = tempfile.TemporaryDirectory()
        words = ["litecoind", "-regtest", f"-datadir={self.folder.name}", "-segwitheight=-1", f"-rpcport={port}", "-rpcuser=u",
                 "-rpcpassword=p", "-listen=0", "-connect=0", "-dnsseed=0", "-printtoconsole=0", *flags]  # fmt: skip
        self.process = subprocess.Popen(words, stdout=subprocess.DEVNULL, stderr=subprocess.DEVNULL)
        self.url = f"http://u:p@127.0.0.1:{port}"

    def __enter__(self):
        """A peer that asks it, once it answers."""
        end = time.monotonic() + 60
        while time.monotonic() < end:
            self.peer = fuzz_another.Peer(self.url)
            try:
                if self.peer.call("getblockcount") == 0:
                    return self.peer
            except OSError:
                pass
            self.peer.link.close()
            time.sleep(0.1)
        self.__exit__()
        raise AssertionError("litecoind doesn't answer")

    def __exit__(self, *raised):
        self.peer.link.close()
        self.process.kill()
        self.process.wait()
        self.folder.cleanup()
