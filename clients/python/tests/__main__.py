"""Runs all tests of the client, with the programs that the gate leaves, or those that the environment names.

    python3 clients/python/tests [-v] [NAME ..]

ROLLBACK_PROGRAM and ROLLBACK_GRAPH are paths of the programs. ROLLBACK_ALARMS, ROLLBACK_COMMANDS and ROLLBACK_COPIES are how many
alarms, lines of each caller and copies there are, for a longer run by hand. A NAME is that of a file here, as test_turns.

What a machine lacks is said, and counted as skipped. The last line is `N passed, M failed, K skipped`.
"""
import os
import pathlib
import signal
import sys
import unittest

FOLDER = pathlib.Path(__file__).resolve().parent
sys.path.insert(0, str(FOLDER.parent))


def main() -> int:
    from tests.program import PROGRAM

    # A shell that runs this behind `&` lets it ignore Ctrl-C, and so would every process that the tests begin.
    signal.signal(signal.SIGINT, signal.default_int_handler)
    if not os.access(PROGRAM, os.X_OK):
        print(f"no program {os.path.relpath(PROGRAM)}: run rt run in crates/rollback_program first", file=sys.stderr)
        print("0 passed, 0 failed")
        return 1
    names = [word for word in sys.argv[1:] if not word.startswith("-")]
    loader = unittest.defaultTestLoader
    if names:
        suite = loader.loadTestsFromNames([f"tests.{name}" for name in names])
    else:
        suite = loader.discover(str(FOLDER), top_level_dir=str(FOLDER.parent))
    found = unittest.TextTestRunner(verbosity=2 if "-v" in sys.argv else 1).run(suite)
    for test, why in found.skipped:
        print(f"skipped: {test.id().removeprefix('tests.')}: {why}")
    failed = len(found.failures) + len(found.errors) + len(found.unexpectedSuccesses)
    passed = found.testsRun - failed - len(found.skipped)
    print(f"{passed} passed, {failed} failed" + (f", {len(found.skipped)} skipped" if found.skipped else ""))
    return 1 if failed or not passed else 0


if __name__ == "__main__":
    sys.exit(main())
