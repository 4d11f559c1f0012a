"""The node by Python, with real signatures: one thread submits a payment, and another, whose seat hears of that, reads its
coin, and submits a forged one."""

from threading import Event, Thread

from sample import CHAIN, COIN, FORGED, NOW, PAYMENT
from wakotehu import Node, secp256k1


def main() -> None:
    with Node(seats=2, verify=secp256k1) as node:
        writer, reader = node.seats
        submitted = Event()

        def submit() -> None:
            for block in CHAIN:
                writer.submit(block, NOW)
            print("submit:", writer.submit(PAYMENT, NOW))
            submitted.set()

        def read() -> None:
            submitted.wait()
            reader.told(writer)
            coin = reader.gettxout(COIN, 0)
            print("coin:", coin.value.value, "satoshis, after", coin.at, "steps")
            print("forged:", reader.try_submit(FORGED, NOW).value.text)

        threads = [Thread(target=submit), Thread(target=read)]
        for thread in threads:
            thread.start()
        for thread in threads:
            thread.join()
        print("history:", [(entry.command, entry.reply) for entry in reader.journal(len(CHAIN) + 1).value])


if __name__ == "__main__":
    main()
