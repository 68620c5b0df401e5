"""What the guide and the reference show of the linter and the shell."""
import re
import subprocess
import sys
import unittest

from rollback_client.lint import CODES, ERRORS
from tests.lint_faults import FAULTS
from tests.program import PROGRAM, TOP, InFolder
from tests.pseudo_terminal import PseudoTerminal

PROMPT = "rollback> "


def blocks(document):
    """The blocks of a document, without their margin."""
    found = [[]]
    for line in (TOP / "docs" / document).read_text().split("\n"):
        if line.startswith("    "):
            found[-1].append(line[4:])
        elif found[-1]:
            found.append([])
    return [block for block in found if block]


class Linter(unittest.TestCase):
    def test_the_reference_has_each_code(self):
        text = (TOP / "docs/REFERENCE.md").read_text()
        rows = dict(re.findall(r"^\| ([A-Z][A-Z0-9_]+) \| (.*?) \|", text, re.M))
        self.assertEqual({code: rows.get(code) for code in CODES}, CODES)

    def test_it_says_what_define_answers_of_each(self):
        text = (TOP / "docs/REFERENCE.md").read_text()
        answers = dict(re.findall(r"^\| ([A-Z][A-Z0-9_]+) \| .*? \| (.*?) \|$", text, re.M))
        self.assertLessEqual(set(ERRORS), set(answers))
        for _, code, _, refusal in FAULTS:
            if refusal:
                self.assertIn(f"`no {refusal[:3]}`", answers[code], code)

    def test_the_guide_shows_what_it_answers(self):
        (shown,) = [
            block for block in blocks("USER_GUIDE.md") if block[1:2] and block[1].startswith("$ rollback-lint ")
        ]
        file = TOP / "examples/from-aws" / shown[1].split()[2].replace(".asl.json", ".txt")
        self.assertEqual(shown[-1], "...")
        self.assertEqual(shown[1:-1], file.read_text().split("\n")[: len(shown) - 2])


class Shell(InFolder):
    def test_the_guide_shows_what_it_answers(self):
        (shown,) = [block for block in blocks("USER_GUIDE.md") if block[0] == f"{PROMPT}show order-2"]
        lines = (TOP / "examples/wrong-bill.txt").read_text().split("\n")
        begin = lines[: lines.index("rollback billing-7#0")]
        given = "".join(line + "\n" for line in begin)
        subprocess.run(
            [PROGRAM, "--journal", self.path("shop.db")], input=given, text=True, stdout=subprocess.PIPE, check=True
        )
        words = [sys.executable, "-m", "rollback_client.shell", "--program", PROGRAM, "--journal", "shop.db"]
        terminal = PseudoTerminal(words, self.room, 120, PYTHONPATH=str(TOP / "clients/python"))
        self.addCleanup(terminal.close)
        terminal.expect(PROMPT)
        seen = PROMPT
        for line in shown:
            asked = re.match(r"rollback> (.*)|.*\[y/N\] (.*)", line)
            if asked:
                terminal.send((asked[1] or asked[2]) + "\r")
                ends = "[y/N] " if (asked[1] or "").startswith("rollback ") else PROMPT
                seen += terminal.expect(ends) + ends
        self.assertEqual(seen.split("\n"), [*shown, PROMPT])


if __name__ == "__main__":
    unittest.main()
