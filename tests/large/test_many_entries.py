"""Four clients that write at once, 4,000 blocks and 70,000 entries in all."""
from collections import Counter

from running import Played, ProgramTest, lines

CLIENTS = ["a", "b", "c", "d"]
# Chains of 1,000 blocks, one on the other. Each client submits all of them four times, and then some once more.
CHAINS = ["k", "l", "m", "n"]
TIMES, MORE = 4, 1500


def scenario() -> str:
    text, parent = "", "genesis"
    for chain in CHAINS:
        text += lines(f"chain {chain} 1000 {parent}")
        parent = f"{chain}1000"
    for client in CLIENTS:
        text += lines(f"client {client}")
        for _ in range(TIMES):
            for chain in CHAINS:
                text += lines(f"each {chain} 1 1000", "best")
        text += lines("each k 1 1000", f"each l 1 {MORE - 1000}", "best")
    return text


def sections(out: str) -> tuple[dict[str, list[str]], list[str]]:
    """The answers of each client, and the journal's lines."""
    answers: dict[str, list[str]] = {}
    here: list[str] = []
    for line in out.splitlines():
        if line.startswith("client "):
            here = answers.setdefault(line.removeprefix("client "), [])
        elif line == "journal":
            here = answers.setdefault("journal", [])
        else:
            here.append(line)
    return answers, answers.pop("journal")


class ManyEntries(ProgramTest):
    def expect_answers(self, client: str, answers: list[str], journal: list[str]) -> None:
        """Each submission stands in the journal at its stamp, with its client and its reply, and the stamps rise; those
        of reads never fall."""
        last = 0
        for line in answers:
            asked, answer = line.split(" = ")
            reply, stamp = answer.rsplit(" @", 1)
            at = int(stamp)
            if asked == "best":
                self.assertGreaterEqual(at, last)
            else:
                self.assertGreater(at, last)
                block = asked.removeprefix("submit ")
                self.assertEqual(journal[at - 1], f"{at} {client} submit {block} 1296688602 = {reply}")
            last = at

    def test_seventy_thousand_entries(self) -> None:
        self.make_folder("many")
        played = self.play(["run", "--scenario", "-", "--save", "many"], scenario())
        self.assertEqual((played.status, played.err), (0, ""))
        answers, journal = sections(played.out)
        self.assertEqual(list(answers), CLIENTS)
        self.assertEqual(len(journal), 70_000)
        for client in CLIENTS:
            self.assertEqual(len(answers[client]), 17_500 + TIMES * len(CHAINS) + 1)
            self.expect_answers(client, answers[client], journal)
        owners = Counter(line.split(" ", 2)[1] for line in journal)
        self.assertEqual(owners, {client: 17_500 for client in CLIENTS})
        self.expect(["audit", "--quick", "--saved", "many"], "", Played(0, "agrees\n", ""))
