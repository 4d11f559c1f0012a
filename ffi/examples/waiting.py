"""Transactions that wait to be mined: a payment, another one of the same coin, a block, and its end."""

from payments import Chain, pay_to
from wakotehu import Bench, NotAccepted, Pool
from wakotehu.encoding import write_transaction


def main() -> None:
    chain = Chain()
    with Bench() as bench:
        for block in chain.blocks:
            bench.submit(block)
        payment, other = (write_transaction(chain.payment(0, pay_to(name), 700)) for name in (b"anna", b"ben"))

        pool = Pool(bench)
        id = pool.add(payment)
        print("it waits:", pool.coin(id, 0), "for a fee of", pool.entry(id).fee)
        try:
            pool.add(other)
        except NotAccepted as error:
            print("another one of the same coin:", error.reason)
        [block] = pool.mine()
        print("mined:", len(pool), "wait, and the coin's height is", bench.coin(id, 0).height)
        bench.invalidate(block)
        print("taken back:", len(pool), "waits")


if __name__ == "__main__":
    main()
