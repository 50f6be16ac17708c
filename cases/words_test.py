#!/usr/bin/env python3
"""What cases/words.py takes and what it refuses, on documents that are made up."""

import os
import subprocess
import sys
import tempfile
import unittest

import words

WORDS = os.path.abspath(words.__file__)


def run_on(counts):
    """The status and the lines where each document has as many words as its measure says, but these have so many; None: it isn't there."""
    with tempfile.TemporaryDirectory() as root:
        for name, count in {**words.MEASURES, **counts}.items():
            os.makedirs(os.path.dirname(f"{root}/{name}"), exist_ok=True)
            if count is not None:
                with open(f"{root}/{name}", "w", encoding="utf-8") as file:
                    file.write("| a  word\n\n    ≡ 1\n" * (count // 5) + "word " * (count % 5))
        ran = subprocess.run([sys.executable, WORDS, root], capture_output=True, text=True, check=False)
        return ran.returncode, ran.stdout.splitlines()


class Words(unittest.TestCase):
    def assert_refused(self, counts, told):
        status, lines = run_on(counts)
        self.assertEqual((status, lines[:-1]), (1, [told]))

    def test_up_to_a_tenth_more_is_taken(self):
        for counts in ({}, {"docs/GLOSSARY.md": 439, "README.md": 1}):
            status, lines = run_on(counts)
            self.assertEqual((status, len(lines)), (0, 1), lines)

    def test_a_tenth_more_is_refused(self):
        self.assert_refused({"docs/GLOSSARY.md": 440}, "docs/GLOSSARY.md: 440 words, its measure is 400")
        self.assert_refused({"README.md": 2000}, "README.md: 2000 words, its measure is 1500")
        self.assert_refused({"bindings/README.md": 1650}, "bindings/README.md: 1650 words, its measure is 1500")

    def test_a_document_without_a_measure_is_refused(self):
        for name in ("docs/MORE.md", "bindings/MORE.md"):
            self.assert_refused({name: 3}, f"{name}: 3 words, and no measure")

    def test_a_measure_without_a_document_is_refused(self):
        self.assert_refused({"docs/PAPER.md": None}, "docs/PAPER.md: its measure is 700, and there is no such document")


if __name__ == "__main__":
    unittest.main()
