#!/usr/bin/env python3
"""Tries what a machine does to a program: processes that are killed, files that are damaged, disks that are full.

usage: faults.py [PART..] [--program PATH] [--kills N] [--damages N] [--disks N] [--rounds N] [--seed S] [--jobs N] [--limit SECONDS]

A session is drawn (tools/drawn.py): some 200 lines, of starts, steps, drives, rounds of workers, undoings and rollbacks, and in some
sessions of holds or settlements. PART is

- `kills`: it is served on a file, each line once the one before was answered or several at once, and its process is killed at a drawn
  moment, by SIGKILL or SIGTERM. Opened again, the journal has to hold the lines of a beginning of what was given, with all that was
  answered, and its book has to answer as those lines do in memory;
- `damages`: bytes of its file are turned, cut off, cleared or written over, in the file or in its write-ahead log. Checked and opened
  again it has to be refused with status 3 and one of the texts for journals, or to answer as the lines do that it holds;
- `disks`: the file may grow no further at a drawn moment. Each line is then answered `no 24`, or is a question, and none of
  them is in the journal; once there is room again they are taken. A round of workers ends the session with status 3 there;
- `rounds`: as `kills`, in sessions which are mostly rounds of workers: all steps of a round are in the journal, or none;
- `files`: what is no journal, can't be read, can't be written, or is another session's: status 3, and the file is as it was.

Trial I of seed S is the same each time, but for the moments. A trial that takes more than a quarter of an hour, or than SECONDS, has failed. The
last line is `N passed, M failed`; the status is 1 where one failed, or none was run.
"""
import argparse
import concurrent.futures
import os
import random
import resource
import shutil
import signal
import sqlite3
import subprocess
import sys
import tempfile
import time

import drawn
from drawn_steps import Difference, Session, bytes_of, replies_of, served

PARTS = ("kills", "damages", "disks", "rounds", "files")
TEXTS = (b"rollback: damaged ", b"rollback: gap ", b"rollback: store\n")
QUESTIONS = ("show", "items", "history", "plan", "held")
NOBODY = 65534
PATIENCE = 900  # seconds, which no slow machine needs: it only ends what hangs


# ---- Sessions ----


class Recorded(drawn.Drawer):
    """Draws lines, and for a part of them rounds of workers."""

    def __init__(self, chance, count, rounds):
        super().__init__(chance, count, random.Random(chance.random()))
        self.before, self.rounds = 0, rounds

    def drawn(self, session):
        if session.history and self.chance.random() < self.rounds:
            return f"work {self.chance.choice((1, 2, 3, 8))} {self.chance.choice((1, 2, 5, 20))}"
        return super().drawn(session)


class Followed(drawn.Checked):
    """A session that is only noted, not checked."""

    def check_forward(self, order=None):
        pass

    def check_plans(self):
        pass

    def left(self):
        return self.live.ask(["held"])[0][1:]

    def take(self, line):
        reply = self.live.ask([line])[0]
        self.lines.append(line)
        word = line.split(" ", 1)[0]
        if word != "hold" and reply and reply[0].startswith("ok"):
            self.keep(word, line, reply)
            if word in ("undo", "rollback"):
                self.look()
        return reply


def drawn_lines(program, chance, count, rounds):
    """The lines of a drawn session. The replies to them are as before wherever no round of workers stands among them."""
    session = Followed(program, chance, None)
    try:
        drawer = Recorded(chance, count, rounds)
        while (line := drawer.line(session)) is not None:
            session.take(line)
        return [line for line in session.lines if line and "\udcff" not in line], sorted(session.seen)
    finally:
        session.live.process.kill()
        session.live.close()


def journal_lines(path):
    """The lines that a journal holds, read by another SQLite from a copy, or None where that can't read it."""
    with tempfile.TemporaryDirectory() as room:
        for end in ("", "-wal"):
            if os.path.exists(path + end):
                shutil.copy(path + end, os.path.join(room, "journal.db" + end))
        try:
            with sqlite3.connect(os.path.join(room, "journal.db")) as store:
                rows = store.execute("SELECT no, line FROM entry ORDER BY no").fetchall()
        except sqlite3.DatabaseError:
            return None
        finally:
            store.close()
    if [number for number, _ in rows] != list(range(len(rows))):
        return None
    return [line for _, line in rows]


def entries_of(line, reply):
    """The lines that stand in the journal for one that was answered so."""
    word = line.split(" ", 1)[0]
    if not reply or not reply[0].startswith("ok") or word in QUESTIONS:
        return []
    if word in ("drive", "work"):
        return ["step " + name.rsplit("#", 1)[0] for name in reply[1:]]
    return [line]


def picture_of(seen):
    return ["history", "items", *("show " + thread for thread in seen)]


def check_book(program, path, lines, seen, what):
    """Compares the book of a journal with what its lines give in memory."""
    picture = picture_of(seen)
    wanted = served(program, lines + picture)[len(lines) :]
    found = served(program, picture, ("--journal", path))
    for line, right, here in zip(picture, wanted, found):
        if right != here:
            raise Difference(f"{what}: {line} is answered {here}, and the journal's lines give {right}")


# ---- Killed processes ----


def try_kill(program, chance, room, rounds):
    lines, seen = drawn_lines(program, chance, chance.choice((40, 200)), rounds)
    path = os.path.join(room, "killed.db")
    sent = chance.choice((signal.SIGKILL, signal.SIGKILL, signal.SIGTERM))
    at_once = chance.choice((1, 1, 4, len(lines)))
    last, wait = chance.randrange(len(lines)), chance.random() * 0.02
    answered, given, ended = serve_until(program, lines, path, at_once, last, wait, sent)
    if not os.path.exists(path):
        if answered:
            raise Difference(f"{len(answered)} lines were answered, and there is no file")
        return "before the file"
    found = journal_lines(path)
    if found is None:
        # The table is made by the first transaction, which may be cut off.
        if answered:
            raise Difference("the journal can't be read")
        return "before the table"
    sure = [entry for line, reply in zip(lines, answered) for entry in entries_of(line, reply)]
    if found[: len(sure)] != sure:
        raise Difference(f"{len(sure)} entries were answered, and the journal's first are others, {len(found)} in all")
    check_rest(program, lines[len(answered) : given], sure, found)
    check_book(program, path, found, seen, "killed")
    if subprocess.run([program, "--check", path], stdout=subprocess.PIPE, check=False).returncode != 0:
        raise Difference("--check refuses a journal whose process was killed")
    return "at the end" if ended else "before the end"


def check_rest(program, lines, sure, found):
    """What stands behind the answered entries has to be that of a beginning of the lines that were given beyond them."""
    at = len(sure)
    for line in lines:
        if at == len(found):
            return
        word, *words = line.split(" ")
        if word in QUESTIONS:
            continue
        reply = served(program, found[:at] + [line])[-1]
        if not reply or not reply[0].startswith("ok") or reply == ["ok 0"]:
            continue
        if word == "work":
            at += round_of(program, found[:at], found[at:], int(words[1]))
        elif word == "drive":
            # The process may have ended between two steps.
            steps = entries_of(line, reply)
            at += next((same for same, (here, step) in enumerate(zip(found[at:], steps)) if here != step), min(len(steps), len(found) - at))
        elif found[at] == line:
            at += 1
        else:
            break
    if at != len(found):
        raise Difference(f"the journal goes on by {found[at]}, and {len(lines)} lines from {lines[:1]} on were given")


def round_of(program, before, found, most):
    """How many of the lines that follow are one whole round of at most so many steps: so many, or as many as leave nothing that can move."""
    steps = 0
    while steps < min(most, len(found)) and found[steps].startswith("step "):
        steps += 1
    for count in range(steps, 0, -1):
        if count == most or served(program, before + found[:count] + ["drive 1"])[-1] == ["ok 0"]:
            return count
    raise Difference(f"{steps} steps of a round of {most} are in the journal, and threads could move on")


def serve_until(program, lines, path, at_once, last, wait, sent):
    """Serves lines on a file, some of them at once, and kills the process so long after a line was given: what was answered, how many were given, and whether all was answered."""
    process = subprocess.Popen([program, "--journal", path], stdin=subprocess.PIPE, stdout=subprocess.PIPE)
    given, data = 0, b""
    for stream in (process.stdin, process.stdout):
        os.set_blocking(stream.fileno(), False)
    try:
        while given <= last:
            group = lines[given : min(given + at_once, last + 1)]
            given += len(group)
            data += give(process, bytes_of(group))
            if given <= last:
                data = read_replies(process, data, lines[:given])
        time.sleep(wait)
    except BrokenPipeError:
        pass
    except Difference:
        process.kill()
        process.wait()
        raise
    process.send_signal(sent)
    process.wait()
    os.set_blocking(process.stdout.fileno(), True)
    data += process.stdout.read() or b""
    process.stdout.close()
    try:
        process.stdin.close()
    except BrokenPipeError:
        pass
    answered = whole_replies(lines, data)
    return answered, given, len(answered) == len(lines)


def give(process, data):
    """Writes lines, and reads replies while the process takes no more of them: it may be waiting for its own to be read."""
    left, read, ends = memoryview(data), b"", time.monotonic() + PATIENCE
    while left:
        try:
            left = left[os.write(process.stdin.fileno(), left) :]
        except BlockingIOError:
            read += process.stdout.read() or b""
            if time.monotonic() > ends:
                raise Difference(f"no lines taken in {PATIENCE} s") from None
            time.sleep(0.0005)
    return read


def read_replies(process, data, lines):
    """Reads until all of these lines are answered."""
    ends = time.monotonic() + PATIENCE
    while len(whole_replies(lines, data)) < len(lines):
        more = process.stdout.read()
        if more:
            data += more
        elif process.poll() is not None:
            raise BrokenPipeError
        elif time.monotonic() > ends:
            raise Difference(f"no reply in {PATIENCE} s")
        else:
            time.sleep(0.0005)
    return data


def whole_replies(lines, data):
    """The replies that stand whole in these bytes."""
    left, replies = iter(data.decode("utf-8").split("\n")[:-1]), []
    for line in lines:
        try:
            replies += replies_of([line], lambda _: next(left))
        except (StopIteration, RuntimeError):
            break
    return replies


# ---- Damaged files ----


def try_damage(program, chance, room):
    lines, seen = drawn_lines(program, chance, chance.choice((20, 100)), 0)
    path = os.path.join(room, "journal.db")
    in_log = chance.random() < 0.3
    if in_log:
        # A process that is killed leaves its write-ahead log.
        serve_until(program, lines, path, len(lines), len(lines) - 1, 0.2, signal.SIGKILL)
    else:
        served(program, lines, ("--journal", path))
    sizes = {name: os.path.getsize(name) for name in (path, path + "-wal") if os.path.exists(name)}
    hit = path + "-wal" if in_log and sizes.get(path + "-wal") else path
    if not sizes.get(hit):
        return "nothing to damage yet"
    kind = damage(chance, hit)
    copy = os.path.join(room, "copy.db")
    for end in ("", "-wal"):
        if os.path.exists(path + end):
            shutil.copy(path + end, copy + end)
    checked = subprocess.run([program, "--check", path], stdout=subprocess.PIPE, stderr=subprocess.PIPE, timeout=PATIENCE, check=False)
    if checked.returncode == 3:
        if checked.stdout or not checked.stderr.startswith(TEXTS):
            raise Difference(f"{kind}: refused by {checked.stderr!r} after {checked.stdout!r}")
        opened = status_of(program, ("--journal", copy))
        if opened != (3, b"", checked.stderr):
            raise Difference(f"{kind}: checked it is {checked.stderr!r}, and served it ends with {opened}")
        return f"{kind}, refused"
    if checked.returncode != 0:
        raise Difference(f"{kind}: --check ends with {checked.returncode}, {checked.stderr!r}")
    found = journal_lines(copy)
    if found is None:
        served(program, picture_of(seen), ("--journal", copy))
        return f"{kind}, opened where another SQLite refuses"
    if found:
        check_book(program, copy, found, seen, kind)
    return f"{kind}, opened"


def damage(chance, path):
    """Damages a file at a drawn place, and tells how."""
    with open(path, "rb") as file:
        data = bytearray(file.read())
    kind, at = chance.choice(("a bit turned", "a byte", "a stretch cleared", "a stretch drawn", "cut off")), chance.randrange(len(data))
    size = min(chance.choice((2, 100, 4096)), len(data) - at)
    if kind == "a bit turned":
        data[at] ^= 1 << chance.randrange(8)
    elif kind == "a byte":
        data[at] = chance.randrange(256)
    elif kind == "a stretch cleared":
        data[at : at + size] = bytes(size)
    elif kind == "a stretch drawn":
        data[at : at + size] = chance.randbytes(size)
    else:
        del data[at:]
    with open(path, "wb") as file:
        file.write(data)
    return kind


# ---- Full disks ----


def try_disk(program, chance, room, rounds):
    """Serves lines while the files may grow no further, and again when they may."""
    lines, seen = drawn_lines(program, chance, 60, rounds)
    path = os.path.join(room, "full.db")
    early = chance.randrange(1, len(lines))
    process = subprocess.Popen([program, "--journal", path], stdin=subprocess.PIPE, stdout=subprocess.PIPE, stderr=subprocess.PIPE,
                               preexec_fn=lambda: signal.signal(signal.SIGXFSZ, signal.SIG_IGN))
    live = Session.__new__(Session)
    live.process = process
    try:
        return follow_disk(program, live, lines, early, path, seen)
    finally:
        if process.poll() is None:
            process.kill()
            process.communicate()


def follow_disk(program, live, lines, early, path, seen):
    process = live.process
    kept = [entry for line, reply in zip(lines, live.ask(lines[:early])) for entry in entries_of(line, reply)]
    sizes = [os.path.getsize(path + end) for end in ("", "-wal") if os.path.exists(path + end)]
    resource.prlimit(process.pid, resource.RLIMIT_FSIZE, (max(sizes), resource.RLIM_INFINITY))
    refused, ended = 0, False
    for line in lines[early:]:
        try:
            reply = live.ask([line])[0]
        except Difference:
            ended = True
            break
        if reply and reply[0] == "no 24":
            refused += 1
            if line.startswith("work "):
                ended = True
                break
        else:
            kept += entries_of(line, reply)
    if ended:
        errors = process.communicate(timeout=PATIENCE)[1]
        if process.returncode != 3 or errors != b"rollback: store\n":
            raise Difference(f"a round that the disk refused: status {process.returncode}, {errors!r}")
    else:
        resource.prlimit(process.pid, resource.RLIMIT_FSIZE, (resource.RLIM_INFINITY, resource.RLIM_INFINITY))
        start = f"start after {lines_machine(lines)} {{}}"
        reply = live.ask([start])[0]
        if reply[0] == "no 24":
            raise Difference("a line is refused though there is room again")
        kept += entries_of(start, reply)
        if live.close() != 0:
            raise Difference(f"the session ended with {process.returncode}")
        process.stderr.close()
    found = journal_lines(path)
    if found != kept:
        raise Difference(f"{len(kept)} entries were answered, and the journal has {None if found is None else len(found)}")
    check_book(program, path, found, seen, "after a full disk")
    return f"{'a round refused' if ended else 'refused' if refused else 'nothing refused'}"


def lines_machine(lines):
    return next((line.split(" ")[1] for line in lines if line.startswith("define m")), "m0")


# ---- Files that are no journal of this session ----


def status_of(program, words, data=b"history\n", user=None):
    done = subprocess.run([program, *words], input=data, stdout=subprocess.PIPE, stderr=subprocess.PIPE, timeout=PATIENCE, user=user, check=False)
    return done.returncode, done.stdout, done.stderr


def refused(program, words, what, user=None):
    found = status_of(program, words, user=user)
    if found != (3, b"", b"rollback: store\n"):
        raise Difference(f"{what}: {found}")


def good_journal(program, path):
    served(program, ["table items id:S []"], ("--journal", path))


def try_another_kind(program, room):
    path = os.path.join(room, "text.db")
    text = b"this is no database, but a text of some length\n" * 50
    with open(path, "wb") as file:
        file.write(text)
    refused(program, ("--journal", path), "a text")
    refused(program, ("--check", path), "a text checked")
    with open(path, "rb") as file:
        if file.read() != text:
            raise Difference("a text was changed")
    refused(program, ("--journal", room), "a folder")
    refused(program, ("--journal", os.path.join(room, "nowhere", "journal.db")), "a folder that isn't there")


def try_two_sessions(program, room):
    path = os.path.join(room, "journal.db")
    with Session(program, ("--journal", path)) as first:
        first.ask(["table items id:S []"])
        refused(program, ("--journal", path), "a second session")
        if first.ask(['define p {"StartAt":"P","States":{"P":{"Type":"Pass","End":true}}}'])[0] != ["ok"]:
            raise Difference("the first session is refused once there was a second")
    if status_of(program, ("--check", path))[1] != b"ok 2 0\n":
        raise Difference("the first session's lines aren't there")


def try_no_rights(program, room):
    """As a user who may read and not write, and who may do neither."""
    user = NOBODY if os.geteuid() == 0 else None
    os.chmod(room, 0o755)
    mine = os.path.join(room, "rollback")
    shutil.copy(program, mine)
    os.chmod(mine, 0o755)
    path = os.path.join(room, "journal.db")
    good_journal(program, path)
    with open(path, "rb") as file:
        before = file.read()
    os.chmod(path, 0o000)
    refused(mine, ("--journal", path), "a file that can't be read", user)
    os.chmod(path, 0o444)
    os.chmod(room, 0o555)
    status, output, errors = status_of(mine, ("--journal", path), b'define p {"StartAt":"P","States":{"P":{"Type":"Succeed"}}}\n', user)
    if (status, output) not in ((3, b""), (0, b"no 24\n"), (3, b"no 24\n")):
        raise Difference(f"a file that can't be written: {status}, {output!r}, {errors!r}")
    os.chmod(room, 0o755)
    with open(path, "rb") as file:
        if file.read() != before:
            raise Difference("a file that can't be written was")


FILES = (try_another_kind, try_two_sessions, try_no_rights)


# ---- Trials, one after another ----


def trial(program, part, seed, number, limit):
    chance = random.Random(f"{part} {seed} {number}")
    signal.signal(signal.SIGALRM, drawn.too_long)
    signal.alarm(limit)
    with tempfile.TemporaryDirectory() as room:
        try:
            if part == "damages":
                return part, number, try_damage(program, chance, room), None
            if part == "disks":
                return part, number, try_disk(program, chance, room, 0.1), None
            if part == "files":
                FILES[number](program, room)
                return part, number, FILES[number].__name__[4:].replace("_", " "), None
            return part, number, try_kill(program, chance, room, 0.6 if part == "rounds" else 0.05), None
        except (Difference, OSError, subprocess.SubprocessError) as fault:
            return part, number, "failed", str(fault)
        finally:
            signal.alarm(0)


def main():
    parser = argparse.ArgumentParser(description="Tries kills, damaged files and full disks.")
    parser.add_argument("parts", nargs="*", help=" ".join(PARTS))
    parser.add_argument("--program", default=drawn.PROGRAM)
    parser.add_argument("--kills", type=int, default=500)
    parser.add_argument("--damages", type=int, default=500)
    parser.add_argument("--disks", type=int, default=100)
    parser.add_argument("--rounds", type=int, default=200)
    parser.add_argument("--seed", default="1")
    parser.add_argument("--jobs", type=int, default=os.cpu_count() or 1)
    parser.add_argument("--limit", type=int, default=PATIENCE, metavar="SECONDS")
    asked = parser.parse_args()
    program = os.path.abspath(asked.program)
    if not os.access(program, os.X_OK):
        print(f"faults: no program {os.path.relpath(program)}: run rt run in crates/rollback_program first", file=sys.stderr)
        print("0 passed, 0 failed")
        return 1
    counts = {"kills": asked.kills, "damages": asked.damages, "disks": asked.disks, "rounds": asked.rounds, "files": len(FILES)}
    passed, failed, ways = 0, 0, {}
    with concurrent.futures.ProcessPoolExecutor(asked.jobs) as pool:
        running = [pool.submit(trial, program, part, asked.seed, number, asked.limit) for part in asked.parts or PARTS for number in range(counts[part])]
        for one in concurrent.futures.as_completed(running):
            part, number, way, fault = one.result()
            if fault is None:
                passed += 1
                ways[part, way] = ways.get((part, way), 0) + 1
            else:
                failed += 1
                print(f"{part} {number} of seed {asked.seed}: {fault}", flush=True)
    for (part, way), count in sorted(ways.items()):
        print(f"{part}: {count} {way}")
    print(f"{passed} passed, {failed} failed")
    return 1 if failed or not passed else 0


if __name__ == "__main__":
    sys.exit(main())
