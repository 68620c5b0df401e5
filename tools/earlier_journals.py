#!/usr/bin/env python3
"""Opens journals that earlier programs made, and compares what is answered of them with what those programs answered.

usage: earlier_journals.py [--program PATH]

Each rows/earlier/NAME.db is copied, checked and served. rows/earlier/NAME.txt has the questions, behind `>`, and the answers of the program that made
it. The last line is `N passed, M failed`.
"""
import argparse
import pathlib
import shutil
import subprocess
import sys
import tempfile

TOP = pathlib.Path(__file__).resolve().parent.parent
PROGRAM = TOP / "crates/rollback_program/out/rollback_program"


def ran(program, words, text=""):
    found = subprocess.run([str(program), *words], input=text, text=True, capture_output=True, check=False)
    return found.stdout if found.returncode == 0 else f"status {found.returncode}: {found.stderr}"


def parts(path):
    """The wanted answer to the check, the questions, and the wanted answers to these."""
    check, questions, wanted, into = [], [], [], None
    for line in path.read_text().splitlines():
        if line.startswith("$ "):
            into = check if "--check" in line else wanted
        elif line.startswith("> "):
            questions.append(line[2:])
        elif line and not line.startswith("#"):
            into.append(line)
    return [text + "\n" for text in ("\n".join(check), "\n".join(questions), "\n".join(wanted))]


def differs(program, journal):
    """What is answered otherwise of a journal, if anything."""
    check, questions, wanted = parts(journal.with_suffix(".txt"))
    with tempfile.TemporaryDirectory() as folder:
        copy = str(pathlib.Path(folder, "copy.db"))
        shutil.copy(journal, copy)
        if (found := ran(program, ["--check", copy])) != check:
            return f"the check answers {found}, wanted {check}"
        if (found := ran(program, ["--journal", copy], questions)) != wanted:
            return f"it answers\n{found}wanted\n{wanted}"
    return None


def main():
    parser = argparse.ArgumentParser(description=__doc__, formatter_class=argparse.RawDescriptionHelpFormatter)
    parser.add_argument("--program", default=PROGRAM)
    given = parser.parse_args()
    passed = failed = 0
    for journal in sorted((TOP / "rows/earlier").glob("*.db")):
        why = differs(given.program, journal)
        passed, failed = passed + (why is None), failed + (why is not None)
        if why:
            print(f"{journal.name}: {why}")
    print(f"{passed} passed, {failed} failed")
    return failed != 0 or not passed


sys.exit(main())
