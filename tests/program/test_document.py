"""The examples of docs/PROGRAM.md, played."""
from document import PAGE, examples
from running import ProgramTest


class Document(ProgramTest):
    def test_each_example_of_the_document(self) -> None:
        for example in examples():
            with self.subTest(scenario=example.scenario):
                for name, data in example.files.items():
                    self.write_bytes(name, data)
                played = self.play(example.words, example.scenario)
                self.assertEqual(example.filtered(played.out), example.output)
                self.assertEqual((played.status, played.err), (0, ""))

    def test_all_examples_are_read(self) -> None:
        """There are eight; each is a scenario that ends with a line of its own."""
        with open(PAGE, encoding="utf-8") as file:
            ends = file.read().split("\n").count("    END")
        self.assertEqual((len(examples()), ends), (8, 8))
