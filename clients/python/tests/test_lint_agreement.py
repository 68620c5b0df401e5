"""The linter and the program agree: an error exactly if `define` refuses, and the one that it names among the errors.

Ten thousand definitions are drawn from the machines of the examples and the rows. ROLLBACK_DEFINITIONS and
ROLLBACK_SEED draw more, or others.
"""
import os
import subprocess
import unittest

from rollback_client.lint import lint_text
from tests.lint_drawing import Drawing, sources
from tests.program import PATIENCE, PROGRAM

COUNT = int(os.environ.get("ROLLBACK_DEFINITIONS", "10000"))
SEED = int(os.environ.get("ROLLBACK_SEED", "1"))
AT_ONCE = 2500


def answers(texts):
    """What the program answers to definitions, each on a line of one session."""
    lines = ["table items id:S []"] + [f"define m{number} {text}" for number, text in enumerate(texts)]
    data = "".join(line + "\n" for line in lines).encode()
    served = subprocess.run([PROGRAM], input=data, stdout=subprocess.PIPE, timeout=PATIENCE, check=True)
    return served.stdout.decode().splitlines()[1:]


def difference(text, answer):
    """Why the linter and the program differ, or nothing."""
    refusals = [finding.refusal for finding in lint_text(text) if finding.severity == "error"]
    if answer == "ok":
        return f"taken, and the linter has {refusals}" if refusals else None
    if answer[len("no ") :] in refusals:
        return None
    return f"answered {answer!r}, and the linter has {refusals}"


class Agreement(unittest.TestCase):
    def agree(self, texts):
        found = answers(texts)
        self.assertEqual(len(found), len(texts))
        differences = [
            f"{why}: {text}" for text, answer in zip(texts, found) for why in [difference(text, answer)] if why
        ]
        self.assertEqual(differences[:5], [], f"{len(differences)} differ, seed {SEED}")
        return found

    def test_the_sources(self):
        self.agree(sources())

    def test_drawn_definitions(self):
        print(f"\n{COUNT} definitions of seed {SEED}", flush=True)
        drawing = Drawing(SEED)
        answered = set()
        for start in range(0, COUNT, AT_ONCE):
            texts = [drawing.text() for _ in range(min(AT_ONCE, COUNT - start))]
            answered |= {" ".join(answer.split(" ")[:3]) for answer in self.agree(texts)}
        if COUNT >= 10000:
            # else the drawing has lost its variety
            self.assertEqual(answered, {"ok", "no 25 1", *(f"no 3 {fault}" for fault in range(1, 9))})


if __name__ == "__main__":
    unittest.main()
