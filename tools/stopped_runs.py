"""Runs of the program under tools/stopping_files.c, and what its journal has afterwards. For tools/stopped_sessions.py."""
import contextlib
import os
import re
import shutil
import sqlite3
import subprocess
import tempfile

import rows
from refused_sessions import COUNT, PICTURE, QUESTIONS, Wrong, forget_counts, is_round

SECONDS = 600
IN_MEMORY = "/dev/shm" if os.access("/dev/shm", os.W_OK) and shutil.disk_usage("/dev/shm").free > 1 << 30 else None
KILLED = -9
WELL = (0, b"")
STORE = (3, b"rollback: store\n")
INPUT = (4, b"rollback: input\n")
OUTPUT = (4, b"rollback: output\n")


class Found:
    """What a run wrote, how it ended, and what it left in the file of counts: of stopping_files.c, a letter for each call."""

    def __init__(self, run):
        self.output, self.end, self.calls = run.stdout, (run.returncode, run.stderr), calls_made()

    def text(self):
        return f"status {self.end[0]}, {rows.short(self.end[1])!r} on standard error, and the output\n{rows.lines_of(self.output.splitlines())}"


def calls_made():
    return os.pread(COUNT, os.fstat(COUNT).st_size, 0).decode()


def ran(program, library, words, data, **settings):
    """A run over this input, which is a file, with these settings of stopping_files.c."""
    forget_counts()
    variables = dict(os.environ, LD_PRELOAD=library, **{name: str(value) for name, value in settings.items()})
    with tempfile.TemporaryFile() as file:
        file.write(data)
        file.seek(0)
        return Found(
            subprocess.run([program, *words], stdin=file, capture_output=True, pass_fds=(COUNT,), env=variables, timeout=SECONDS, check=False)
        )


@contextlib.contextmanager
def room():
    """The place of a journal in a folder of its own, in memory if there is much room."""
    with tempfile.TemporaryDirectory(dir=IN_MEMORY) as folder:
        yield os.path.join(folder, "journal.db")


# ---- journals


def copied(journal, other, has_log=True):
    for end in ("", "-wal") if has_log else ("",):
        if os.path.exists(journal + end):
            shutil.copyfile(journal + end, other + end)


def lines_in(journal, has_log=True):
    """The lines of a journal, read from a copy by another SQLite, or None if that finds no such table. Without its log, those of the
    file alone."""
    with room() as other:
        copied(journal, other, has_log)
        try:
            with contextlib.closing(sqlite3.connect(other)) as store:
                found = store.execute("SELECT no, line FROM entry ORDER BY no").fetchall()
                whole = store.execute("PRAGMA integrity_check").fetchall()
        except sqlite3.DatabaseError:
            return None
    if whole != [("ok",)] or [number for number, _ in found] != list(range(len(found))):
        raise Wrong(f"the journal isn't whole: {whole}, numbers {[number for number, _ in found][:20]}")
    return [line.encode() for _, line in found]


def entries_of(command, reply):
    """The lines that the journal has of a command that was answered so."""
    word = command.text.removesuffix(b"\r").split(b" ")[0]
    if word in QUESTIONS or not reply or not reply[0].startswith(b"ok"):
        return []
    if word in (b"drive", b"work"):
        return [b"step " + step.rpartition(b"#")[0] for step in reply[1:]]
    return [command.text.removesuffix(b"\r") if command.ended else command.text]


def is_drive(command):
    return command.text.startswith(b"drive ")


def are_entries(command, found, wanted, is_answered):
    """Whether these are a command's lines. Those of a round that wasn't answered may have another order."""
    return sorted(found) == sorted(wanted) if is_round(command) and not is_answered else found == wanted


def point_of(commands, replies, lines):
    """The first command of which the journal hasn't all lines, and how many it has. It has some but not all of a drive alone."""
    at = 0
    for place, command in enumerate(commands):
        is_answered = place < len(replies)
        wanted = entries_of(command, replies[place] if is_answered else command.wanted)
        found = lines[at : at + len(wanted)]
        if are_entries(command, found, wanted, is_answered):
            at += len(wanted)
        elif at + len(found) == len(lines) and (not found or is_drive(command) and found == wanted[: len(found)]):
            return place, len(found)
        else:
            raise Wrong(f"{command.place()}: {rows.short(command.text, 120)}\n    the journal has other lines:\n{rows.lines_of(found)}")
    if at < len(lines):
        raise Wrong(f"the journal has more lines than were given:\n{rows.lines_of(lines[at:])}")
    return len(commands), 0


def drive_on(command, kept):
    """A drive of which so many steps were taken."""
    other = rows.Command(command.file, command.at, b"drive %d" % (int(command.text.split(b" ")[1]) - kept), command.ended)
    other.wanted = [b"ok %d" % (len(command.wanted) - 1 - kept), *command.wanted[1 + kept :]]
    return other


def left_of(commands, replies, took, lines):
    """What is left of a session whose first commands were answered so, of the next one, a drive, some steps, and whose journal has these
    lines."""
    counts = [len(entries_of(command, reply)) for command, reply in zip(commands, replies)]
    if len(lines) < sum(counts) + took:
        raise Wrong(f"{sum(counts) + took} entries were answered, and the journal has {len(lines)} lines:\n{rows.lines_of(lines)}")
    place, part = point_of(commands, replies, lines)
    if part:
        return [drive_on(commands[place], part), *commands[place + 1 :]]
    kept = [at for at in range(len(replies), place) if entries_of(commands[at], commands[at].wanted)]
    return commands[kept[-1] + 1 if kept else len(replies) :]


# ---- replies


def answered(commands, output):
    """The replies to the first commands, of which an output has no more than a beginning, and the commands with a whole one."""
    whole = output[: output.rfind(b"\n") + 1]
    replies, left = rows.replies_of(commands, whole)
    count = len(replies)
    while count and not is_whole(commands[count - 1], replies[count - 1]):
        count -= 1
    while count < len(commands) and commands[count].is_empty():
        count += 1
    for command, reply in zip(commands[:count], replies):
        if not rows.is_wanted(command, reply):
            raise Wrong(
                f"{command.place()}: {rows.short(command.text, 120)}\n    wanted:\n{rows.lines_of(command.wanted)}\n"
                f"    found:\n{rows.lines_of(reply)}"
            )
    begun = b"".join(line + b"\n" for reply in replies[count : count + 1] for line in reply) + output[len(whole) :]
    if left or any(replies[count + 1 :]) or not is_begun(commands[count:], begun):
        raise Wrong(f"more was answered than was given, or something else: {rows.short(begun)!r}")
    return replies[:count]


def is_whole(command, reply):
    """Whether a reply has all its lines. An empty line has none, and counts as answered with the line before it."""
    found = re.fullmatch(rb"ok (\d+)", reply[0]) if reply else None
    is_list = found and command.text.split(b" ")[0] in rows.LISTS
    return bool(reply) and len(reply) == (1 + int(found.group(1)) if is_list else 1)


def is_begun(commands, begun):
    """Whether a beginning of a reply is one to the first command that has a reply. Of a round the order is open."""
    for command in commands:
        if command.wanted:
            wanted = b"".join(line + b"\n" for line in command.wanted)
            return wanted.startswith(begun[: len(command.wanted[0])] if is_round(command) else begun)
    return not begun


def data_of(commands):
    return b"".join(command.input() for command in commands)


def questions():
    """What a book shows, as commands."""
    return b"".join(line + b"\n" for line in PICTURE)
