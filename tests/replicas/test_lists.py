"""Random lists: three replicas in processes of their own, six clients each, which write, read and tell one another places."""
from __future__ import annotations

import unittest
from concurrent.futures import ThreadPoolExecutor

import running
from checker import WRITES, Asked, Row, Wrong, check
from database import Database
from playing import CLIENTS, REPLICAS, History

#: So many histories, each of 18 lists with so many commands: 306 lists and 10,098 commands.
HISTORIES, COMMANDS = 68 if running.LONG else 17, 33


class Lists(unittest.TestCase):
    def test_random_lists(self) -> None:
        """All answers are those of one sequential chainstate, of replicas of which one is for asyncio; and each answer with one
        thing changed is refused."""
        database = Database.shared()
        lists = commands = reads = 0
        with ThreadPoolExecutor(2) as pool:
            played = list(pool.map(lambda number: self.played(database, number), range(HISTORIES)))
        for rows, clients in played:
            lists += len(clients)
            commands += sum(own.what["asks"] in WRITES for each in clients.values() for own in each)
            reads += sum(own.what["asks"] not in WRITES for each in clients.values() for own in each)
        self.assertEqual((lists, commands), (HISTORIES * REPLICAS * CLIENTS, HISTORIES * REPLICAS * CLIENTS * COMMANDS))
        self.assertGreater(reads, commands // 2)
        print(f"{lists} lists, {commands} commands, {reads} reads")
        self.changed(*played[0])

    def played(self, database: Database, number: int) -> tuple[list[Row], dict[str, list[Asked]]]:
        """The rows of a history, and what its clients were answered, which the checker takes."""
        history = History(database, f"lists{number}", running.PROGRAM)
        self.addCleanup(history.remove)
        for worker in [history.start(replica, seed=number, commands=COMMANDS, is_async=replica == 1) for replica in range(REPLICAS)]:
            worker.ended(240)
        rows, clients = history.rows(), history.clients()
        check(rows, clients, running.PROGRAM)
        self.assertEqual([row.place for row in rows if row.reply is None], [])
        return rows, clients

    def changed(self, rows: list[Row], clients: dict[str, list[Asked]]) -> None:
        """The checker refuses what isn't so."""
        for what, other_rows, other_clients in changes(rows, clients):
            with self.subTest(what):
                with self.assertRaises(Wrong):
                    check(other_rows, other_clients, running.PROGRAM)


def changes(rows: list[Row], clients: dict[str, list[Asked]]):
    """The same rows and answers with one thing changed, which then are of no such chainstate."""
    name, each = next((name, each) for name, each in sorted(clients.items()) if len(each) > 10)

    def first(*kinds: str) -> int:
        return next(n for n, own in enumerate(each) if own.what["asks"] in kinds and (own.at or 0) > 2 and n > 2)

    def answered(n: int, **more):
        return rows, {**clients, name: [*each[:n], each[n]._replace(**more), *each[n + 1 :]]}

    def row(n: int, **more):
        return [*rows[:n], rows[n]._replace(**more), *rows[n + 1 :]], clients

    write, best, tips, coin = first(*WRITES), first("best"), first("tips"), first("txout")
    told = next(n for n, own in enumerate(each) if own.what["asks"] == "told" and own.what["place"] > 2)
    yield "a write at the place before", *answered(write, at=each[write].at - 1)
    yield "a write at the place after", *answered(write, at=each[write].at + 1)
    yield "a write with another reply", *answered(write, value="tree-full")
    yield "a write that was answered unavailable", *answered(write, at=None, error="unavailable")
    for n, other in ((best, "0" * 64), (tips, []), (coin, [1, "51", 1, True, 1])):
        yield f"{each[n].what['asks']} with another value", *answered(n, value=other)
        yield f"{each[n].what['asks']} of a place that isn't there", *answered(n, at=len(rows) + 1)
        yield f"{each[n].what['asks']} before what was seen", *answered(n, at=-1)
    yield "told, and seen less", *answered(told, at=each[told].what["place"] - 1)
    later = next(n for n in range(told + 1, len(each)) if each[n].what["asks"] not in ("told", *WRITES))
    yield "a read before what was told", *answered(later, at=each[told].what["place"] - 1)
    middle = len(rows) // 2
    yield "a row that isn't there", rows[:middle] + rows[middle + 1 :], clients
    yield "a row less at the end", rows[:-1], clients
    yield "two rows in each other's place", *row(middle, **rows[middle + 1]._replace(place=middle + 1)._asdict())
    yield "a row of another client", *row(middle, seat="r0g0_9")
    yield "a row with another command", *row(middle, command="precious" if rows[middle].command != "precious" else "reconsider")
    yield "a row with other bytes", *row(middle, data=rows[middle].data[:-2] + "77")
    submitted = next(n for n, own in enumerate(rows) if own.now is not None)
    yield "a row of another moment", *row(submitted, now=rows[submitted].now + 1)
    yield "a row with another reply", *row(middle, reply="genesis")
    yield "a row that nobody asked for", *row(middle, token="00000000-0000-0000-0000-000000000000")
    silent = {other: [own._replace(at=None, error="undecided") for own in each] for other, each in clients.items()}
    yield "a row with another reply of which nobody was answered", [*rows[:submitted], rows[submitted]._replace(reply="genesis"), *rows[submitted + 1 :]], silent
    yield "one more row with the token of another", [*rows, rows[0]._replace(place=len(rows) + 1)], clients


if __name__ == "__main__":
    unittest.main()
