#!/usr/bin/env python3
"""Says which names two definition files share: each name in a crate's specs/ is defined in one file of the repository.

usage: definitions.py

The last line is 'N passed, M failed', of names. Fields of records, and the types that a crate's code declares, are no definitions here.
"""
import pathlib
import re
import sys

TOP = pathlib.Path(__file__).resolve().parent.parent
# (a field of a record has `pub` alone and is indented; so is a lemma of a module, which has no name to be cited by)
DEFINITION = re.compile(r"(?:pub|\s*(?:abbrev|unfoldable) pub|\s*pub (?:record|data)) (?:record |data )?([^\s:(]+)\s*[:(]")


def definitions():
    """The files that define each name."""
    found = {}
    for path in sorted(TOP.glob("crates/*/specs/**/*.antt")):
        for line in path.read_text(encoding="utf-8").splitlines():
            if defined := DEFINITION.match(line):
                found.setdefault(defined.group(1), set()).add(path.relative_to(TOP).as_posix())
    return found


def main():
    found = definitions()
    shared = {name: sorted(files) for name, files in found.items() if len(files) > 1}
    for name, files in sorted(shared.items()):
        print(f"definitions: {name} is defined in {' and in '.join(files)}")
    print(f"{len(found) - len(shared)} passed, {len(shared)} failed")
    return 1 if shared or not found else 0


if __name__ == "__main__":
    sys.exit(main())
