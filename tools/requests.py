#!/usr/bin/env python3
"""Counts the requests for memory that lines make, and looks whether they are those of the line and its reply, whatever the book holds.

    python3 tools/requests.py [--program PATH] [--most N] [--jobs N]

tools/refusing_malloc.c counts them line by line, from the reading of a line to the end of its reply. From outside nobody sees which request
is whose. So counts of lines are compared whose own needs are alike, in further runs of the same lines up to there.

- Of a question that is given twice the second counts, since the first may have made room for the longest reply so far.
- In books without further executions, and with 100 and --most of them (2000), each question and each refused line makes as many requests.
- A `history`, a `held` without a hold, and a `show` of a thread that isn't there make none, in each of these books.
- An accepted undoing makes as many more than a refused one as a rollback makes more than its plan. Each pair has one need apart from taking
  back, which is the line in the journal; a settlement of nothing makes as many. An undoing also copies the name of its step for its entry,
  which is a request more if that is a branch's; a rollback's entry takes the names of its plan. It is so in each of these books, of the first
  and of the last step, and where a rollback takes all steps but one: so to take back makes no request, neither for what is
  taken nor for what stays.
- In the sessions of rows/*.txt that are one run without workers, each `history` makes none; each `show` and each `items` as many as any other with
  that reply, in whatever session, and with as many branches in its thread's name; and of each accepted `undo` and `rollback` the
  pairs differ by one number.

It wants a C compiler (cc, or what CC names), the GNU C library, and a program without a sanitizer's allocator. --jobs is how many
processes run at a time; as many as there are processors where nothing is said. Each comparison of books is printed, and what fails. The
last line is `N passed, M failed`, of comparisons, and the status is 1 where one failed or none was made.
"""
import argparse
import collections
import concurrent.futures
import glob
import multiprocessing
import os
import shutil
import subprocess
import sys
import tempfile

sys.dont_write_bytecode = True
import rows  # noqa: E402: beside this file
from refused_sessions import COUNT, begin, compiled, forget_counts  # noqa: E402: beside this file

PASS = b'{"StartAt":"P","States":{"P":{"Type":"Pass","Next":"Q"},"Q":{"Type":"Pass","Result":7,"End":true}}}'
FAIL = b'{"StartAt":"F","States":{"F":{"Type":"Fail","Error":"X","Cause":"y"}}}'
PUT = (
    b'{"StartAt":"W","States":{"W":{"Type":"Task","Resource":"arn:aws:states:::dynamodb:putItem","Parameters":'
    b'{"TableName":"items","Item":{"id":{"S":"k"},"v":{"S":"new"}}},"End":true}}}'
)
GET = (
    b'{"StartAt":"G","States":{"G":{"Type":"Task","Resource":"arn:aws:states:::dynamodb:getItem","Parameters":'
    b'{"TableName":"items","Key":{"id":{"S":"k"}}},"End":true}}}'
)
FORK = b'{"StartAt":"S","States":{"S":{"Type":"Parallel","Branches":[' + PASS + b"," + FAIL + b'],"End":true}}}'
HEAD = [
    b'table items id:S [{"id":{"S":"a"},"n":{"N":"1.50"}},{"id":{"S":"b"},"l":{"L":[{"BOOL":true}]}}]',
    *(b"define " + name + b" " + text for name, text in ((b"p", PASS), (b"f", FAIL), (b"w", PUT), (b"g", GET), (b"m", FORK))),
]
# a thread of each kind, and an item that is put and got
SUBJECT = [
    *(b"start " + line for line in (b"ready p {}", b"done p {}", b"failed f {}", b"parked m {}", b"put w {}", b"get g {}")),
    *(b"step " + name for name in (b"done", b"done", b"failed", b"parked", b"parked/1.1", b"put", b"get")),
]
QUESTIONS = [
    *(b"show " + name for name in (b"ready", b"done", b"failed", b"parked", b"parked/1.0", b"parked/1.1", b"get", b"nobody")),
    *(b"items", b"held", b"plan done#2", b"plan done#0", b"plan put#1", b"plan parked#1", b"plan nobody#0"),
]
REFUSED = [
    *(b"undo done#0", b"undo nobody#0", b"undo put#1", b"rollback nobody#0", b"hold nobody#0", b"step nobody", b"step done", b"step failed"),
    *(b"start done p {}", b"start nobody nothing {}", b"start nobody p {", b"define p {}", b"define q {", b"table items id:S []", b"undo"),
]
NONE = (b"history", b"held", b"show nobody")
# a step that isn't there
UNKNOWN = b"#4294967295"
FILLED = 100
# no session of rows with more lines
LINES = 400


class Odd(Exception):
    """A run that isn't as it has to be."""


PROGRAM = LIBRARY = None


def counted(lines):
    """How many requests each line makes, and what it is answered."""
    forget_counts()
    found = subprocess.run(
        [PROGRAM],
        input=b"".join(line + b"\n" for line in lines),
        capture_output=True,
        pass_fds=(COUNT,),
        env=dict(os.environ, LD_PRELOAD=LIBRARY, BY_LINES="1"),
        timeout=600,
        check=False,
    )
    os.lseek(COUNT, 0, os.SEEK_SET)
    with os.fdopen(os.dup(COUNT), "rb") as file:
        counts = [int(count) for count in file.read().split()]
    # one before each line, one before the end of the input, and one at the end of the program
    if found.returncode or found.stderr or len(counts) != len(lines) + 2:
        raise Odd(f"status {found.returncode}, {len(counts)} counts of {len(lines)} lines, {rows.short(found.stderr)!r}")
    commands = [rows.Command("", 0, line) for line in lines]
    replies, _ = rows.replies_of(commands, found.stdout)
    return [after - before for before, after in zip(counts, counts[1:])], replies


def of_last(lines, asked, last):
    """The requests of some lines that change nothing and of a last one, behind these lines, and their replies. A `history` before them
    has made room for a long reply."""
    counts, replies = counted([*lines, b"history", *asked, last])
    at = len(lines) + 1
    return counts[at : at + len(asked) + 1], replies[at : at + len(asked) + 1]


# ---- books of several sizes


def others(name, machine, count):
    """Further executions with a step each."""
    names = [b"%s%05d" % (name, number) for number in range(count)]
    return [b"start %s %s {}" % (other, machine) for other in names] + [b"step " + other for other in names]


def asked_twice(count):
    """Each question and each refused line in a book with so many further executions: what the second one makes, and its reply."""
    before = [*HEAD, *SUBJECT, *others(b"e", b"p", count)]
    lines = [line for line in (b"history", *QUESTIONS, *REFUSED) for _ in range(2)]
    counts, replies = counted(before + lines)
    second = range(len(before) + 1, len(before) + len(lines), 2)
    return {lines[at - len(before)]: (counts[at], replies[at]) for at in second}


def excess(lines, step, root):
    """How many more requests an undoing of a step makes than a refused one, a rollback of another step than its plan, and how many steps
    that takes."""
    asked = [b"undo " + step.split(b"#")[0] + UNKNOWN, b"plan " + root]
    (refused, _, undoing), told = of_last(lines, asked, b"undo " + step)
    (_, plan, rollback), also_told = of_last(lines, asked, b"rollback " + root)
    if told[0] != [b"no 7"] or told[2] != [b"ok"] or also_told[1] != also_told[2] or not also_told[1][0].startswith(b"ok"):
        raise Odd(f"undo {step.decode()} and rollback {root.decode()}: {told}, {also_told}")
    of_name = 1 if b"/" in step else 0
    return undoing - refused - of_name, rollback - plan, len(also_told[2]) - 1


def taken_of_many(count, is_first):
    """Of further executions, none of which depends on another, the first or the last has its step taken back."""
    step = b"e%05d#1" % (0 if is_first else count - 1)
    return excess([*HEAD, *SUBJECT, *others(b"e", b"p", count)], step, step)


def taken_together(count):
    """All steps but starts depend on a put; the last of them is undone."""
    lines = [*HEAD, b"start put w {}", b"step put", *others(b"g", b"g", count)]
    return excess(lines, b"g%05d#1" % (count - 1), b"put#1")


def settled():
    """The least of eight settlements of nothing: those in between make room for later ones too."""
    counts, _ = counted([*HEAD, *[b"settle"] * 9])
    return min(counts[len(HEAD) + 1 : len(HEAD) + 9])


# ---- sessions of rows


def questions_of(session):
    """The questions of a session, each given twice: what the second one makes."""
    lines, places = [], []
    for command in session.commands:
        lines.append(command.text)
        if command.text.split(b" ")[0] in (b"show", b"items", b"history") and command.wanted[0].startswith(b"ok"):
            places.append(len(lines))
            lines.append(command.text)
    counts, replies = counted(lines)
    return [(lines[at], replies[at], counts[at], session.title) for at in places]


def taken_of(session):
    """Each undoing and each rollback of a session that is accepted: by how many requests its pairs differ. A line that begins a page of the
    journal makes more, so where they differ otherwise they are counted again behind a further line."""
    lines, found = [command.text for command in session.commands], []
    for at, command in enumerate(session.commands):
        word, _, root = command.text.partition(b" ")
        if word in (b"undo", b"rollback") and command.wanted[0].startswith(b"ok"):
            step = root if word == b"undo" else command.wanted[1]
            pairs = excess(lines[:at], step, root)
            if pairs[0] != pairs[1]:
                pairs = excess([*lines[:at], b"define further " + PASS], step, root)
            found.append((command.place(), *pairs))
    return found


def is_taken(session):
    """Whether a session is one run, ends its last line, isn't long, and has no workers: a round of theirs takes its memory in some order."""
    commands = session.commands
    if session.parts or len(commands) > LINES:
        return False
    return all(command.ended and command.text.split(b" ")[0] != b"work" for command in commands)


# ---- what is told


class Told:
    def __init__(self):
        self.passed = self.failed = 0

    def so(self, is_so, text, is_shown=True):
        self.passed, self.failed = self.passed + is_so, self.failed + (not is_so)
        if is_shown or not is_so:
            print(text if is_so else f"FAILED {text}", flush=True)


def numbers(counts):
    return ", ".join(map(str, counts))


def tell_questions(told, sizes, books):
    print(f"requests in books with {numbers(sizes)} further executions:")
    for line in (*QUESTIONS, *REFUSED):
        counts = [book[line][0] for book in books]
        is_so = len(set(counts)) == 1 and all(book[line][1] == books[0][line][1] for book in books)
        told.so(is_so, f"    {line.decode()}: {numbers(counts)}")
    for line in NONE:
        counts = [book[line][0] for book in books]
        told.so(not any(counts), f"    {line.decode()}, none: {numbers(counts)}")


def tell_taken(told, name, found, journal):
    for size, (undoing, rollback, count) in found:
        text = f"    {name}, with {size} further executions: undoing +{undoing}, rollback of {count} +{rollback}"
        told.so(undoing == rollback == journal, text)


def tell_rows(told, asked, taken):
    counts = collections.defaultdict(lambda: collections.defaultdict(list))
    for line, reply, count, title in asked:
        word, _, name = line.partition(b" ")
        if word == b"history":
            told.so(count == 0, f"    {title}: a history that was asked before makes {count}", False)
        else:
            counts[word, name.count(b"/"), tuple(reply)][count].append(title)
    for (word, _, reply), by_count in counts.items():
        told.so(len(by_count) == 1, f"    {word.decode()} answered {rows.short(reply[0], 80)}: {dict(by_count)}", False)
    for place, undoing, rollback, count in taken:
        told.so(undoing == rollback, f"    {place}: undoing +{undoing}, rollback of {count} +{rollback}", False)
    print(f"rows: {len(asked)} questions with {len(counts)} replies but of history, {len(taken)} undoings and rollbacks")


def compare(told, jobs, most):
    sizes = (0, FILLED, most)
    sessions = [session for session in rows.read_all(sorted(glob.glob(str(rows.TOP / "rows/*.txt"))), LINES) if is_taken(session)]
    with concurrent.futures.ProcessPoolExecutor(jobs, multiprocessing.get_context("fork"), begin) as workers:
        together = [(size, workers.submit(taken_together, size)) for size in (1, *sizes[:0:-1])]
        first = [(size, workers.submit(taken_of_many, size, True)) for size in (1, *sizes[1:])]
        last = [(size, workers.submit(taken_of_many, size, False)) for size in sizes[1:]]
        books = [workers.submit(asked_twice, size) for size in sizes]
        least = workers.submit(settled)
        asked = [workers.submit(questions_of, session) for session in sessions]
        taken = [workers.submit(taken_of, session) for session in sessions]
        tell_questions(told, sizes, [book.result() for book in books])
        journal = least.result()
        print(f"a settlement of nothing: {journal}; more than what is alike but takes nothing back:")
        for name, found in (("the first of many steps", first), ("the last of many steps", last), ("steps behind a put", together)):
            tell_taken(told, name, [(size, job.result()) for size, job in found], journal)
        tell_rows(told, sum((job.result() for job in asked), []), sum((job.result() for job in taken), []))


def main():
    global PROGRAM, LIBRARY
    words = argparse.ArgumentParser(description="Counts the requests for memory that lines make.")
    words.add_argument("--program", default=str(rows.PROGRAM), help="the program; that of rollback_program where it is left out")
    words.add_argument("--most", type=int, default=2000, help="how many further executions the largest book has")
    words.add_argument("--jobs", type=int, default=os.cpu_count(), help="how many processes run at a time")
    asked = words.parse_args()
    # taken before anything else is opened, and the workers have it too
    os.dup2(os.open(os.devnull, os.O_RDWR), COUNT)
    program = shutil.which(asked.program)
    if program is None:
        print(f"no program: {asked.program}", file=sys.stderr)
        return 1
    told = Told()
    with tempfile.TemporaryDirectory() as room:
        PROGRAM, LIBRARY = os.path.abspath(program), compiled(room, "refusing_malloc.c")
        try:
            compare(told, asked.jobs, asked.most)
        except (Odd, rows.Fault, OSError) as odd:
            print(odd)
            told.failed += 1
    print(f"{told.passed} passed, {told.failed} failed")
    return 1 if told.failed or not told.passed else 0


if __name__ == "__main__":
    sys.exit(main())
