"""Is the program, but waits before the second piece of a drive until there is a file `go`. Meanwhile there is a file `asked`.

    held_program.py PROGRAM FOLDER [WORD ..]

So a test knows that a drive is under way, and does what it tries amid that, however slow the machine is.
"""
import pathlib
import subprocess
import sys
import time


def main():
    program, folder, *words = sys.argv[1:]
    asked, go = pathlib.Path(folder, "asked"), pathlib.Path(folder, "go")
    process = subprocess.Popen([program, *words], stdin=subprocess.PIPE)
    drives = 0
    for line in sys.stdin.buffer:
        if line.startswith(b"drive "):
            drives += 1
            if drives == 2:
                asked.touch()
                while not go.exists():
                    time.sleep(0.01)
        process.stdin.write(line)
        process.stdin.flush()
    process.stdin.close()
    return process.wait()


if __name__ == "__main__":
    sys.exit(main())
