#!/usr/bin/env python3
"""Gives rows to the program value_rows, and compares each answer with the one that stands there.

    python3 tools/value_rows.py [--program PATH] [FILE..]
    python3 tools/value_rows.py --refuse [--most N] [--program PATH] [FILE..]

Without files all of rows/values/*.txt are given. A file has rows, between them empty lines and comments, which begin with `#`:

    > pick $.a[0] | {"a":[7]}
    7

A row is a word, a space and its inputs with ` | ` between them, and under it stands its one line of answer, or no line where the
answer is empty. In a row and in an answer `%(127*[%)` is 127 times `[`, `%(xff%)` is one byte, and `%(%)` is an input that is empty.
The rows of a file are given to one run of the program. What each word does is said at its function in crates/value_rows/src.

With --refuse each row is run by itself, with each of its requests for memory refused in turn, or with N of them, evenly chosen,
where it has more (400 where no N is given). Then it is answered `memory`, is asked again, and has its own answer. The rows behind a
`store` belong to it, up to the next. This wants a C compiler (cc, or what CC names) and the GNU C library.

Each failure is printed. The last line is `N passed, M failed`, of rows, and the status is 1 where one failed or none was run.
"""
import argparse
import concurrent.futures
import os
import pathlib
import re
import subprocess
import sys
import tempfile

TOP = pathlib.Path(__file__).resolve().parent.parent
PROGRAM = TOP / "crates/value_rows/out/value_rows"
PART_END, ROW_END = b"\x1f", b"\x1e"
OF_A_STORE = (b"get", b"put", b"delete", b"items", b"slots", b"swap")
# a run whose own request was refused, before or behind its rows
OWN = re.compile(rb"[Oo]ut of memory|OutOfMemory|AllocError|AllocFailed")


def inserted(text):
    """A text with its insertions made."""

    def made(found):
        count, star, again = found.group(1).partition(b"*")
        if star and count.isdigit():
            return again * int(count)
        if re.fullmatch(rb"x[0-9a-f]{2}", count) and not star:
            return bytes([int(count[1:], 16)])
        if not found.group(1):
            return b""
        raise SystemExit(f"no insertion: {found.group(0).decode()}")

    return re.sub(rb"%\((.*?)%\)", made, text)


class Row:
    def __init__(self, place, text):
        self.place, self.text = place, text
        word, _, rest = text.partition(b" ")
        self.word = word
        self.parts = [word] + [inserted(part) for part in rest.split(b" | ")]
        self.wanted = []

    def sent(self):
        return PART_END.join(self.parts) + ROW_END

    def answer(self):
        return b"\n".join(self.wanted)


def read_rows(path):
    rows, name = [], os.path.relpath(path)
    for number, line in enumerate(pathlib.Path(path).read_bytes().split(b"\n"), 1):
        if line.startswith(b"> "):
            rows.append(Row(f"{name}:{number}", line[2:]))
        elif line and not line.startswith(b"#"):
            if not rows or rows[-1].wanted:
                raise SystemExit(f"{name}:{number}: an answer to no row")
            rows[-1].wanted.append(inserted(line))
    return rows


def shown(text):
    return text.decode(errors="backslashreplace")[:300]


def failures(rows, found, why):
    """What is wrong with the answers of a run to its rows."""
    lines = found.split(b"\n")
    for row, line in zip(rows, lines):
        if line != row.answer():
            yield row, f"{row.place}: {shown(row.text)}\n  wanted {shown(row.answer())}\n  found  {shown(line)}"
    for row in rows[len(lines) - 1 :]:
        yield row, f"{row.place}: {shown(row.text)}\n  not answered{why}"


def run(program, rows):
    told = subprocess.run([program], input=b"".join(row.sent() for row in rows), capture_output=True)
    why = f", and status {told.returncode}: {shown(told.stderr)}" if told.returncode else ""
    return list(failures(rows, told.stdout, why)), why


def blocks(rows):
    """The rows that are run together where memory is refused."""
    made = []
    for row in rows:
        if made and row.word in OF_A_STORE:
            made[-1].append(row)
        else:
            made.append([row])
    return made


def refused_run(program, room, rows, number):
    """A run with one request refused, none where the number is 0: how it ended, and how many requests it made."""
    with tempfile.NamedTemporaryFile(dir=room) as count:
        words = [f"LD_PRELOAD={room}/refusing.so", f"REFUSE={number}", program, "again"]
        told = subprocess.run(
            ["sh", "-c", 'exec 3>"$1" && shift && exec env "$@"', "sh", count.name, *words],
            input=b"".join(row.sent() for row in rows),
            capture_output=True,
        )
        return told, int(count.read() or 0)


def chosen(requests, most):
    """The numbers of the requests that are refused: all, or as many as may be, evenly from the first to the last."""
    if requests <= most:
        return range(1, requests + 1)
    return sorted({1 + at * (requests - 1) // (most - 1) for at in range(most)})


def refuse_each(program, room, rows, most):
    """Refuses the requests of a run in turn. How many there are, how many were refused, and what is wrong."""
    _, requests = refused_run(program, room, rows, 0)
    if not requests:
        return 0, 0, [(rows[0], f"{rows[0].place}: no request was counted: a program with an allocator of its own?")]
    numbers = chosen(requests, most)
    for number in numbers:
        told, _ = refused_run(program, room, rows, number)
        if told.returncode and not OWN.search(told.stderr):
            return requests, number, [(rows[0], f"{rows[0].place}: request {number}: status {told.returncode}: {shown(told.stderr)}")]
        wrong = [] if told.returncode else list(failures(rows, told.stdout, ""))
        if wrong:
            return requests, number, [(row, f"request {number} refused, {why}") for row, why in wrong]
    return requests, len(numbers), []


def compile_library(room):
    compiler = os.environ.get("CC", "cc")
    words = [compiler, "-O2", "-shared", "-fPIC", "-o", f"{room}/refusing.so", TOP / "tools/refusing_malloc.c"]
    subprocess.run(words, check=True)


def refuse_all(program, rows, most):
    requests, refused, wrong = 0, 0, []
    with tempfile.TemporaryDirectory() as room, concurrent.futures.ThreadPoolExecutor(os.cpu_count()) as pool:
        compile_library(room)
        for made, tried, found in pool.map(lambda block: refuse_each(program, room, block, most), blocks(rows)):
            requests, refused = requests + made, refused + tried
            wrong += found
    print(f"{refused} of {requests} requests refused, one a run")
    return wrong


def main():
    parser = argparse.ArgumentParser(description=__doc__.split("\n")[0])
    parser.add_argument("--program", type=pathlib.Path, default=PROGRAM)
    parser.add_argument("--refuse", action="store_true")
    parser.add_argument("--most", type=int, default=400)
    parser.add_argument("files", nargs="*", type=pathlib.Path)
    asked = parser.parse_args()
    program = str(asked.program.resolve())
    if not os.access(program, os.X_OK):
        raise SystemExit(f"no program {program}: run rt run in crates/value_rows first")
    files = asked.files or sorted((TOP / "rows/values").glob("*.txt"))
    passed = failed = 0
    for file in files:
        rows = read_rows(file)
        wrong, why = (refuse_all(program, rows, asked.most), "") if asked.refuse else run(program, rows)
        for _, text in wrong:
            print(text)
        if why and not wrong:
            print(f"{file}{why}")
            failed += 1
        bad = len({row.place for row, _ in wrong})
        failed += bad
        passed += len(rows) - bad
    print(f"{passed} passed, {failed} failed")
    sys.exit(1 if failed or not passed else 0)


main()
