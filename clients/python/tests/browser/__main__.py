"""Tests of the console and of the page in a real browser: headless Chromium, by selenium.

    python3 clients/python/tests/browser [--pictures] [-v] [NAME ..]

They need Debian's packages chromium, chromium-driver, python3-selenium and python3-aiohttp, which are installed if they are missing and this
runs as root. If they can't be had, that is said and counted as skipped. With --pictures it writes the pictures of docs/ instead. A NAME is
that of a file here, as `repairing`. The last line is `N passed, M failed, K skipped`.
"""
import os
import pathlib
import shutil
import subprocess
import sys
import unittest

FOLDER = pathlib.Path(__file__).resolve().parent
PACKAGES = ("chromium", "chromium-driver", "python3-selenium", "python3-aiohttp")
PARTS = ("looking", "keys", "living", "repairing", "refusing", "giving", "hostile", "many", "files", "clustered")
SYSTEM = "/usr/bin/python3"


def has_modules(python):
    done = subprocess.run([python, "-c", "import selenium, aiohttp"], stderr=subprocess.DEVNULL, check=False)
    return done.returncode == 0


def found_python():
    """A Python that has what is needed, or nothing."""
    if shutil.which("chromedriver") is None or shutil.which("chromium") is None:
        return None
    return next(
        (python for python in (sys.executable, SYSTEM) if os.access(python, os.X_OK) and has_modules(python)), None
    )


def install():
    """Installs Debian's packages, if that can be done."""
    if os.geteuid() != 0 or shutil.which("apt-get") is None:
        return
    for words in (("update",), ("install", "-y", "--no-install-recommends", *PACKAGES)):
        subprocess.run(
            ["apt-get", "-qq", *words],
            env={**os.environ, "DEBIAN_FRONTEND": "noninteractive"},
            stdin=subprocess.DEVNULL,
            stdout=subprocess.DEVNULL,
            stderr=subprocess.DEVNULL,
            check=False,
        )


def main():
    python = found_python()
    if python is None:
        install()
        python = found_python()
    if python is None:
        print(f"skipped: a browser's tests need {', '.join(PACKAGES)} (on Debian: apt-get install)")
        print("0 passed, 0 failed, 1 skipped")
        return 0
    if python != sys.executable:
        os.execv(python, [python, str(FOLDER), *sys.argv[1:]])
    sys.path.insert(0, str(FOLDER.parents[1]))
    sys.dont_write_bytecode = True
    return run()


def run():
    from tests.browser.driving import quit_browser
    from tests.program import PROGRAM

    if not os.access(PROGRAM, os.X_OK):
        print(f"no program {os.path.relpath(PROGRAM)}: run rt run in crates/rollback_program first", file=sys.stderr)
        print("0 passed, 0 failed")
        return 1
    words = [word for word in sys.argv[1:] if not word.startswith("-")]
    parts = ("pictures",) if "--pictures" in sys.argv else tuple(words) or PARTS
    suite = unittest.defaultTestLoader.loadTestsFromNames([f"tests.browser.{part}" for part in parts])
    try:
        found = unittest.TextTestRunner(verbosity=2 if "-v" in sys.argv else 1).run(suite)
    finally:
        quit_browser()
    for test, why in found.skipped:
        print(f"skipped: {test.id().removeprefix('tests.')}: {why}")
    failed = len(found.failures) + len(found.errors) + len(found.unexpectedSuccesses)
    passed = found.testsRun - failed - len(found.skipped)
    print(f"{passed} passed, {failed} failed" + (f", {len(found.skipped)} skipped" if found.skipped else ""))
    return 1 if failed or not passed else 0


if __name__ == "__main__":
    sys.exit(main())
