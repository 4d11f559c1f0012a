"""Rules by themselves: a script's opcodes, whether inputs may spend, and what a transaction breaks."""

from wakotehu import consensus
from wakotehu.encoding import Input, Output, Transaction, write_transaction

#: OP_ADD of two numbers, compared with 5.
SPENT = bytes([0x93, 0x55, 0x87])


def main() -> None:
    print("opcodes:", [opcode.number for opcode in consensus.opcodes(SPENT)[0]])
    for pushed in (b"\x52\x53", b"\x52\x52"):
        tx = Transaction(1, [Input(bytes(32), 0, pushed, 0)], [Output(1, b"\x51")], 0)
        print(f"{pushed.hex()} spends it:", consensus.verify(write_transaction(tx), 0, SPENT))
    many = Transaction(1, [Input(bytes(32), n, bytes([0x51, 0x51 + n]), 0) for n in range(5)], [Output(1, b"\x51")], 0)
    with consensus.ParsedTransaction(write_transaction(many)) as parsed:
        print("read once:", [parsed.verify(n, SPENT) for n in range(5)], parsed.verify_input(0, SPENT))
    empty = Transaction(1, [], [Output(1, b"\x51")], 0)
    print("without inputs:", consensus.transaction(write_transaction(empty)).reason)
    print("new coins at height 150:", consensus.subsidy(150))


if __name__ == "__main__":
    main()
