"""Standard streams that fail: a folder in the place of the input, a full device, and a pipe that nobody reads."""
import os
from subprocess import PIPE

from running import Played, ProgramTest


class Streams(ProgramTest):
    def test_an_input_that_fails(self) -> None:
        folder = os.open(self.folder, os.O_RDONLY)
        self.addCleanup(os.close, folder)
        played = self.play_on([], stdin=folder, stdout=PIPE, stderr=PIPE)
        self.assertEqual(played, Played(1, "", "regchain: cannot read -\ncannot read -: Is a directory\n"))

    def test_an_output_that_is_full(self) -> None:
        with open("/dev/full", "wb") as full:
            played = self.play_on([], input=b"client a\n", stdout=full, stderr=PIPE)
        self.assertEqual(played, Played(1, "", "regchain: cannot write -\ncannot write -: No space left on device\n"))

    def test_both_outputs_are_full(self) -> None:
        with open("/dev/full", "wb") as full:
            played = self.play_on([], input=b"client a\n", stdout=full, stderr=full)
        self.assertEqual(played.status, 1)

    def test_a_pipe_that_nobody_reads(self) -> None:
        """The run ends with its fault, after what happened was saved, and an audit agrees with that."""
        self.make_folder("closed_output")
        reading, writing = os.pipe()
        os.close(reading)
        text = b"block b1 genesis\nclient a\nsubmit b1\nbest\ninvalidate b1\n"
        words = ["run", "--scenario", "-", "--save", "closed_output"]
        with open(writing, "wb") as out:
            played = self.play_on(words, input=text, stdout=out, stderr=PIPE)
        self.assertEqual(played, Played(1, "", "regchain: cannot write -\ncannot write -: Broken pipe\n"))
        self.expect(["audit", "--saved", "closed_output"], "", Played(0, "agrees\n", ""))
