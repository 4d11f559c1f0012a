"""Calls about addresses."""

from typing import Any

from .node import Node, call
from .scripts import address_script
from .values import Object, text

GROUP = "Util"


@call(GROUP, "address", needed=1)
def validateaddress(node: Node, address: Any) -> Object:
    """Whether an address is one of regtest without witnesses, and the script that it pays to."""
    given = text(address)
    with node.others():
        script = address_script(given)
    if script is None:
        return {"isvalid": False}
    return {"isvalid": True, "address": given.strip(), "scriptPubKey": script.hex(), "isscript": len(script) == 23,
            "iswitness": False}  # fmt: skip
