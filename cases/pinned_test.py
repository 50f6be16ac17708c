#!/usr/bin/env python3
"""What cases/pinned.py takes and what it refuses, on a crate that is made up."""

import os
import subprocess
import sys
import tempfile
import unittest

PINNED = os.path.join(os.path.dirname(os.path.abspath(__file__)), "pinned.py")
FILES = {
    "crates.txt": "# crates\nlow: std_alloc\n",
    "crates/low/src/lib.rt": "mod count;\n\npub use count::{Count, law_even};\n",
    "crates/low/src/count.rt": """
impl Count {
    /// How many there are: `result ≡ self.now.number`, says a comment.
    pub fn number(&self) -> u32
        ensures { CLAUSE }
    {
        self.number
    }
}

pub fn law_even()
    ensures { (n : ℕ) → IsEven (n + n) }
{}

pub fn is_inside() {}
""",
}
OF_LAW = "file: src/count.rt\nold: IsEven (n + n)\nnew: IsOdd (n + n)\n"
OF_BODY = "file: src/count.rt\nold:         self.number\nnew:         0\n"
ELSEWHERE = "file: src/lib.rt\nold: mod count;\nnew: mod other;\n"
OF_ANOTHER = "file: src/count.rt\nold: pub fn is_inside() {}\nnew: fn is_inside() {}\n"


def run_on(clause, *edits, turned="# edits\n"):
    """The status and the lines for that crate, where its function has the clause, with these edits, named by their places."""
    with tempfile.TemporaryDirectory() as root:
        files = FILES | {f"crates/low/must-fail/{i}.edit": edit for i, edit in enumerate(edits)} | {"cases/turned.txt": turned}
        for name, text in files.items():
            os.makedirs(os.path.dirname(f"{root}/{name}"), exist_ok=True)
            with open(f"{root}/{name}", "w", encoding="utf-8") as file:
                file.write(text.replace("CLAUSE", clause))
        ran = subprocess.run([sys.executable, PINNED, root], capture_output=True, text=True, check=False)
        return ran.returncode, ran.stdout


class Pinned(unittest.TestCase):
    def assert_taken(self, clause, *edits, **turned):
        status, lines = run_on(clause, OF_LAW, *edits, **turned)
        self.assertEqual((status, lines.count("\n")), (0, 1), lines)

    def assert_refused(self, clause, *edits):
        status, lines = run_on(clause, OF_LAW, *edits)
        self.assertEqual(status, 1, lines)
        self.assertTrue(lines.startswith("crates/low/src/count.rt: Count::number: no clause equates"), lines)

    def test_an_equation_pins(self):
        for clause in ("result ≡ self.now.number", "IfSome result (λ n. n ≡ count self.now)", "self.new ≡ counted self.old",
                       "OnOk result (Adds text.old text.new (count_text self.now))", "IsTrue result ↔ (0 < self.now.number)",
                       "(k : ℕ) → count_at self.new k ≡ counted self.old k", "OnOk result (IsTrue (has_room self.new 1))",
                       "taken self.old ≡ Some (record { after = self.new; mail = result })"):
            self.assert_taken(clause)

    def test_a_weaker_clause_does_not(self):
        for clause in ("result < 2 ^ 32", "self.now.open ≡ true → result ≡ self.now.number", "self.new.number ≡ self.old.number",
                       "IfErr result (λ fault. fault ≡ Fault.Memory)", "length result ≡ 4", "IsCount result self.now",
                       "self.new ≡ record self.old { open = self.new.open }", "(k : ℕ) → count_at self.new k ≡ count_at self.old k",
                       "(k : ℕ) → IsOdd k → count_at self.new k ≡ 0", "IsTrue self.old.has_room → IsTrue self.new.has_room",
                       "taken self.old ≡ Some (record { after = self.old; mail = 0 })"):
            self.assert_refused(clause)

    def test_an_edit_of_the_function_pins(self):
        self.assert_taken("result < 2 ^ 32", OF_BODY)
        self.assert_taken("result < 2 ^ 32", ELSEWHERE, turned="low/1: Count::number\n")

    def test_an_edit_of_another_does_not(self):
        self.assert_refused("result < 2 ^ 32", OF_ANOTHER)

    def test_what_is_named_has_to_be_there(self):
        for line, said in (
            ("low/1: Count::number", "low/1: there is no such edit"),
            ("low/0: Count::size", "low: Count::size is no exported function"),
        ):
            status, lines = run_on("result ≡ self.now.number", OF_LAW, turned=f"{line}\n")
            self.assertEqual((status, lines.splitlines()[0]), (1, f"cases/turned.txt: {said}"))

    def test_a_law_needs_an_edit(self):
        status, lines = run_on("result ≡ self.now.number", OF_BODY)
        self.assertEqual(status, 1, lines)
        self.assertTrue(lines.startswith("crates/low/src/count.rt: law_even: no clause equates"), lines)


if __name__ == "__main__":
    unittest.main()
