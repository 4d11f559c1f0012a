"""Scenarios through the program, and what their runs save."""
from __future__ import annotations

from running import Played, ProgramTest
from scenarios import Scenario


class ScenarioTest(ProgramTest):
    def play_scenario(self, scenario: Scenario, options: list[str]) -> Played:
        """Plays a scenario, with more words of the command line."""
        return self.play([*words_of(scenario), *options], scenario.text())

    def expect_scenario(self, scenario: Scenario, options: list[str]) -> None:
        """Plays a scenario with more words of the command line, and compares the whole output."""
        with self.subTest(scenario=scenario.name):
            self.expect([*words_of(scenario), *options], scenario.text(), Played(0, scenario.output(), ""))


def words_of(scenario: Scenario) -> list[str]:
    return ["run", "--scenario", "-", "--heights", scenario.heights]


class SavedTest(ScenarioTest):
    """A test with the folder `saved`, in which a run was saved, and audits of it."""

    def save(self, scenario: Scenario) -> None:
        """Saves a run: `journal` is the text of its journal.txt, `blocks` the bytes of its blocks.blk."""
        self.make_folder("saved")
        played = self.play_scenario(scenario, ["--save", "saved"])
        self.assertEqual(played.err, "")
        self.assertEqual(played.status, 0)
        self.journal = self.read("saved/journal.txt")
        self.blocks = self.read_bytes("saved/blocks.blk")

    def expect_audit(self, journal: str, blocks: bytes, wanted: Played) -> None:
        """Audits this journal and these blocks in place of those that were saved."""
        self.write("saved/other.txt", journal)
        self.write_bytes("saved/other.blk", blocks)
        words = ["audit", "--journal", "saved/other.txt", "--blk", "saved/other.blk", "--table", "saved/table.txt"]
        with self.subTest(journal=journal):
            self.expect(words, "", wanted)

    def expect_finding(self, journal: str, blocks: bytes, line: str) -> None:
        """Audits, and compares the line on the standard output and the status."""
        self.expect_audit(journal, blocks, Played(0 if line == "agrees\n" else 1, line, ""))

    def expect_audit_fault(self, journal: str, blocks: bytes, line: str) -> None:
        """Audits, and compares the line on the standard error. There is nothing on the standard output."""
        self.expect_audit(journal, blocks, Played(1, "", line))

    def expect_line_counts(self, place: int) -> None:
        """With another reply in the line of this place, from 0, that line is named."""
        changed = with_reply(self.journal, place, another(reply_of(self.journal, place)))
        self.expect_finding(changed, self.blocks, f"line {place + 1}\n")

    def expect_each_line_counts(self) -> None:
        """The journal agrees as it is, and with any one of its replies owed. With any one changed to another of its
        kind that line is named."""
        self.expect_finding(self.journal, self.blocks, "agrees\n")
        for place in range(len(self.journal.splitlines())):
            self.expect_line_counts(place)
            self.expect_finding(with_reply(self.journal, place, "owed"), self.blocks, "agrees\n")


def reply_of(journal: str, place: int) -> str:
    """The reply in the journal's line of this place, from 0."""
    return journal.splitlines()[place].split(" = ")[1]


def with_reply(journal: str, place: int, reply: str) -> str:
    """The journal with another reply in the line of this place, from 0."""
    changed = journal.splitlines()
    front = changed[place].split(" = ")[0]
    changed[place] = f"{front} = {reply}"
    return "".join(line + "\n" for line in changed)


def another(reply: str) -> str:
    """Another reply of the same kind."""
    return {"done": "not-found", "not-found": "done", "genesis": "done", "accepted": "inconclusive"}.get(
        reply, "accepted"
    )
