"""Takes the place of the program: takes any number of steps, and takes its time for it.

Of a long line it answers the first piece after a moment, and each further one only once there is a file `go`. It answers
`items` never. While it waits there is a file `asked`. It has no other answers than the tests of long work need.
"""
import pathlib
import sys
import time

MOMENT = 0.3
ASKED, GO = pathlib.Path("asked"), pathlib.Path("go")


def wait():
    """Waits until it may go on."""
    ASKED.touch()
    while not GO.exists():
        time.sleep(0.01)
    ASKED.unlink()
    GO.unlink()


def main():
    taken, before = 0, ""
    for line in sys.stdin:
        words = line.split()
        count = int(words[-1]) if words[0] in ("drive", "work") else 0
        if words[0] == "items" or count and words[0] == before:
            wait()
        elif count:
            time.sleep(MOMENT)
        before = words[0]
        names = [f"a#{taken + number}" for number in range(1, count + 1)]
        taken += count
        print("\n".join([f"ok {len(names)}", *names]), flush=True)


main()
