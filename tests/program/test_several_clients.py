"""Two clients at one node, and the audit of what they saved."""
from playing import another, reply_of, with_reply
from running import Played, ProgramTest, lines


def scenario() -> str:
    """Two chains of 20 from genesis, submitted by two clients, each of whom asks for the best block after every
    submission."""
    text = lines("chain p 20 genesis", "chain q 20 genesis")
    for client, chain in [("a", "p"), ("b", "q")]:
        text += lines(f"client {client}")
        for height in range(1, 21):
            text += lines(f"submit {chain}{height}", "best")
    return text


def stamps(out: str, client: str) -> list[int]:
    """The stamps of a client's section."""
    found, is_inside = [], False
    for line in out.splitlines():
        if line.startswith("client "):
            is_inside = line == f"client {client}"
        elif line == "journal":
            is_inside = False
        elif is_inside:
            found.append(int(line.split(" @")[1]))
    return found


def submissions(out: str, front: str) -> list[int]:
    """The heights of a client's submissions in the journal."""
    found = []
    for line in out.split("journal\n")[1].splitlines():
        rest = line.split(" ", 1)[1]
        if rest.startswith(front):
            found.append(int(rest.removeprefix(front).split(" ")[0]))
    return found


class SeveralClients(ProgramTest):
    def expect_sections(self, out: str) -> None:
        """Each client has 40 answers whose stamps never fall, and 20 submissions in the journal, one above the
        other."""
        for client, front in [("a", "a submit p"), ("b", "b submit q")]:
            found = stamps(out, client)
            self.assertEqual(len(found), 40)
            self.assertEqual(found, sorted(found))
            self.assertEqual(submissions(out, front), list(range(1, 21)))

    def expect_finding(self, line: str, status: int) -> None:
        self.expect(["audit", "--saved", "two_clients"], "", Played(status, line, ""))

    def test_two_clients(self) -> None:
        """By each number of workers. With any one reply of the last journal changed to another of its kind that line is
        named."""
        self.make_folder("two_clients")
        for workers in ["1", "2", "8", "16"]:
            with self.subTest(workers=workers):
                words = ["run", "--scenario", "-", "--workers", workers, "--save", "two_clients"]
                played = self.play(words, scenario())
                self.assertEqual((played.status, played.err), (0, ""))
                self.expect_sections(played.out)
                self.expect_finding("agrees\n", 0)
        journal = self.read("two_clients/journal.txt")
        for place in range(40):
            self.write("two_clients/journal.txt", with_reply(journal, place, another(reply_of(journal, place))))
            self.expect_finding(f"line {place + 1}\n", 1)
