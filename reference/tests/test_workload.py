"""The command `gen`: the numbers of small workloads, and words that name none."""

import unittest

from .runs import Runs


class Workloads(Runs):
    """What it writes, and what it refuses."""

    def lines(self, *words):
        """Status and lines."""
        status, output = self.ran("gen", *words)
        return status, output.decode().split("\n")

    def test_one_step(self):
        """A table of one row; the same again."""
        status, lines = self.lines("1", "0")
        self.assertEqual(lines[:4], ["commands 2", "version 2", "rows 1", "answers 16"])
        self.assertEqual((status, lines[5], lines[7:]), (0, "exact 16", [""]))
        self.assertEqual(self.lines("1", "0"), (0, lines))

    def test_three_batches(self):
        """250 steps, the last 50 in a batch of their own, and the record of version 4."""
        status, lines = self.lines("250", "7")
        self.assertEqual(lines[:2], ["commands 251", "version 4"])
        self.assertEqual((status, lines[3], lines[5]), (0, "answers 16", "exact 16"))
        front = (b"VREC" + bytes(16) + (4).to_bytes(8, "big")).hex()
        self.assertRegex(lines[6], f"^last {front}[0-9a-f]{{64}}$")

    def test_refused_words(self):
        """Numbers out of their range, not written as they must be, missing, or one too many."""
        refused = 2, ["refused: words", ""]
        for steps in ("0", "100001", "01", "+1", "-1", "", "1.0", "one"):
            self.assertEqual(self.lines(steps, "0"), refused, steps)
        for number in (str(1 << 64), "00", "+0", "-1", "", "0x1"):
            self.assertEqual(self.lines("1", number), refused, number)
        for words in ([], ["1"], ["1", "0", "0"], ["1", "0", "--height", "10"]):
            self.assertEqual(self.lines(*words), refused, words)


if __name__ == "__main__":
    unittest.main()
