"""Calls about peers, of which there are none: beside litecoind, Bitcoin Core's code, without peers."""

import json
import unittest

import peers
from servers import Running

CALLS = (
    ["getaddednodeinfo"], ["getaddednodeinfo", "x"], ["getaddednodeinfo", 5], ["getaddednodeinfo", None], ["getnodeaddresses"],
    ["getnodeaddresses", -1], ["getnodeaddresses", 0], ["getnodeaddresses", "x"], ["listbanned"], ["clearbanned"],
    ["getpeerinfo"], ["getconnectioncount"], ["ping"], ["getnetworkinfo"], ["setnetworkactive", False], ["getnetworkinfo"],
    ["setnetworkactive", True], ["getnetworkinfo"], ["setnetworkactive", 5], ["setnetworkactive", None], ["disconnectnode", "x"], ["disconnectnode", "", 5],
    ["disconnectnode", "x", 5], ["disconnectnode"],
)  # fmt: skip
#: What tells which program it is.
NAMES = {"version", "subversion"}


@unittest.skipUnless(peers.IS_THERE, "litecoind isn't installed")
class BesideLitecoindTest(unittest.TestCase):
    def test_calls(self):
        running = Running()
        self.addCleanup(running.stop)
        with peers.Litecoind() as peer:
            for words in CALLS:
                peer.link.request("POST", "/", json.dumps({"method": words[0], "params": words[1:], "id": 1}), peer.head)
                reply = json.loads(peer.link.getresponse().read())
                found = [running.call(*words), reply["error"] or reply["result"]]
                if words == ["getnetworkinfo"]:
                    found = [{name: value for name, value in it.items() if name not in NAMES} for it in found]
                with self.subTest(words=words):
                    self.assertEqual(*found)


if __name__ == "__main__":
    unittest.main()
