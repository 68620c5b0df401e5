#!/usr/bin/env python3
"""Runs the sessions of rows/*.txt against the program, and compares each reply with the one that stands there.

    tools/rows.py [--program PATH] [--only TITLE].. [--no-files] [--no-streams] [--cuts N] [FILE..]

Without files all of rows/*.txt are run. Each session is served in memory, as one input; and on a journal's file, where the
program ends and is started again on the same file after each line, or at 60 places where a session has more lines: the replies
have to be the same. Each run has to end with status 0 and nothing on standard error, but where a row says otherwise. A `--check`
that ends with status 3 leaves the file as it was. Three short sessions are also served as input that is cut after each byte, that
comes byte by byte and that fails after each byte, and to an output that fails after each byte. With --cuts each session of one run is cut so, after each byte, or after N evenly spaced ones of
a longer input; that takes minutes. Each failure is told; the last line is `N passed, M failed`, of sessions. The status is 1
where one failed or none was run. rows/README.md says how rows are written.
"""
import argparse
import concurrent.futures
import glob
import os
import pathlib
import re
import resource
import shutil
import signal
import sqlite3
import subprocess
import sys
import tempfile
import tty

TOP = pathlib.Path(__file__).resolve().parent.parent
PROGRAM = TOP / "crates/rollback_program/out/rollback_program"
LISTS = (b"items", b"history", b"plan", b"rollback", b"drive", b"work", b"held")
PLACES = 60
CUT = ("first-path", "rollback-of-a-put", "terminate")


class Command:
    """A command line, its wanted reply, and where it stands. What comes last may have no end."""

    def __init__(self, file, at, text, ended=True):
        self.file, self.at, self.text, self.ended, self.wanted = file, at, text, ended, []

    def input(self):
        return self.text + b"\n" if self.ended else self.text

    def is_empty(self):
        return self.text in (b"", b"\r") if self.ended else self.text == b""

    def place(self):
        return f"{self.file}:{self.at}"


class Run:
    """One run of the program with these words: its input, and what it has to write and to end with."""

    def __init__(self, file, at, words):
        self.file, self.at, self.words = file, at, words
        self.commands, self.output, self.status, self.errors = [], [], 0, b""

    def place(self):
        return f"{self.file}:{self.at}"


class Change:
    """A change of the session's file between two runs."""

    def __init__(self, file, at, text):
        self.file, self.at, self.text = file, at, text


class Session:
    def __init__(self, title, file, at):
        self.title, self.file, self.at = title, file, at
        self.commands, self.parts = [], []


class Fault(Exception):
    """A line of a file of rows that can't be read."""


# ---- reading rows


def inserted(text, n):
    """A text with its insertions made; n is the number of the line among those that are repeated."""

    def made(found):
        word = found.group(1)
        count, star, again = word.partition(b"*")
        if star and (count == b"n" or count.isdigit()):
            return again * (n if count == b"n" else int(count))
        count, mark, again = word.partition(b"#")
        if mark and count.isdigit():
            return b"".join(again.replace(b"#", b"%04d" % k) for k in range(int(count)))
        if word == b"n":
            return b"%d" % n
        if re.fullmatch(rb"x[0-9a-f]{2}", word):
            return bytes([int(word[1:], 16)])
        raise Fault(f"no insertion: {word.decode()}")

    return re.sub(rb"%\((.*?)%\)", made, text)


def joined(data):
    """The lines of a file with their numbers; one that begins with a space goes on with the one before it."""
    lines = []
    for number, line in enumerate(data.split(b"\n"), 1):
        if line.startswith(b" ") and line.strip() and lines:
            lines[-1] = (lines[-1][0], lines[-1][1] + line.lstrip(b" "))
        else:
            lines.append((number, line))
    return lines


class Reader:
    """Reads the lines of a file of rows, one by one. A reply goes to `last`: a run, or commands, one by one for a line that is repeated."""

    def __init__(self, file, most):
        self.file, self.most = file, most
        self.sessions, self.machines = [], {}
        self.session = self.header = Session("", file, 0)
        self.last, self.inserts = [], False

    def fail(self, number, why):
        raise Fault(f"{self.file}:{number}: {why}")

    def add(self, command):
        """Adds a command to the session, and to its latest run."""
        parts = self.session.parts
        if parts and isinstance(parts[-1], Run):
            parts[-1].commands.append(command)
        self.session.commands.append(command)

    def take(self, number, line):
        """Takes a line, by its kind. A comment changes nothing."""
        mark, rest = line[:1], line[1:].removeprefix(b" ")
        if not line:
            self.last = []
        elif mark == b"#":
            pass
        elif mark == b"=":
            self.begin(number, rest.decode())
        elif mark == b"@":
            self.machine_line(number, rest)
        elif line.startswith(b">*"):
            self.repeated(number, rest)
        elif mark == b">":
            self.command(number, line, rest)
        elif mark == b"$":
            self.run(number, rest)
        elif mark == b"!":
            self.end_of_run(rest)
        elif mark == b"~":
            self.session.parts.append(Change(self.file, number, rest.decode()))
            self.last = []
        else:
            self.reply(number, line)

    def begin(self, number, title):
        """Begins a session with the header's commands, or a new header."""
        self.session = Session(title, self.file, number)
        if title:
            self.sessions.append(self.session)
            self.session.commands = [copied(command) for command in self.header.commands]
        else:
            self.header = self.session
        self.last = []

    def machine_line(self, number, rest):
        """Keeps a machine's definition, or defines machines that are kept."""
        name, space, definition = rest.partition(b" ")
        if space and definition.startswith(b"{"):
            self.machines[name] = definition
            return
        for name in rest.split(b" "):
            if name not in self.machines:
                self.fail(number, f"no machine {name.decode()}")
            command = Command(self.file, number, b"define " + name + b" " + self.machines[name])
            command.wanted = [b"ok"]
            self.add(command)
        self.last = []

    def repeated(self, number, rest):
        """Adds a command so many times, with its number inserted."""
        count, _, text = rest[1:].lstrip(b" ").partition(b" ")
        count = int(count) if self.most is None else min(int(count), self.most)
        self.last = [Command(self.file, number, inserted(text, n)) for n in range(count)]
        for command in self.last:
            self.add(command)
        self.inserts = True

    def command(self, number, line, rest):
        """Adds a command: as it is, with insertions, or with these and without an end."""
        kind = line[1:2]
        self.inserts = kind in (b"%", b".")
        text = inserted(line[2:].removeprefix(b" "), 0) if self.inserts else rest
        self.last = [Command(self.file, number, text, kind != b".")]
        self.add(self.last[0])

    def run(self, number, rest):
        """Begins a run. The first one leaves out the commands before it."""
        if not self.session.parts:
            self.session.commands = []
        self.last = [Run(self.file, number, os.fsdecode(inserted(rest, 0)).split())]
        self.session.parts.append(self.last[0])
        self.inserts = False

    def end_of_run(self, rest):
        """Says how the latest run has to end."""
        status, _, errors = rest.partition(b" ")
        run = self.session.parts[-1]
        run.status, run.errors = int(status), errors + b"\n" if errors else b""

    def reply(self, number, line):
        """Adds a line to what the last commands have to answer, or to what the last run has to write."""
        if not self.last:
            self.fail(number, f"a reply to no line: {line[:60].decode(errors='replace')}")
        for n, command in enumerate(self.last):
            wanted = command.output if isinstance(command, Run) else command.wanted
            wanted.append(inserted(line, n) if self.inserts else line)


def read_sessions(path, most=None):
    """The sessions of a file of rows, with at most so many of the lines that are repeated."""
    reader = Reader(os.path.relpath(path), most)
    for number, line in joined(pathlib.Path(path).read_bytes()):
        reader.take(number, line)
    return reader.sessions


def copied(command):
    other = Command(command.file, command.at, command.text, command.ended)
    other.wanted = command.wanted
    return other


def read_all(files, most=None):
    """All sessions of these files; titles are said once. `most` is as that of read_sessions."""
    sessions, titles = [], {}
    for file in files:
        for session in read_sessions(file, most):
            if session.title in titles:
                raise Fault(f"{session.file}:{session.at}: the title {session.title} is {titles[session.title]}'s")
            titles[session.title] = f"{session.file}:{session.at}"
            sessions.append(session)
    return sessions


# ---- comparing


def replies_of(commands, output):
    """The lines of an output by the commands that they answer, and those that are left."""
    lines = output.split(b"\n")
    if lines[-1] == b"":
        lines.pop()
    else:
        lines[-1] += b" (no line end)"
    replies, at = [], 0
    for command in commands:
        count = 0 if command.is_empty() else 1
        if count and at < len(lines) and command.text.split(b" ")[0] in LISTS:
            found = re.fullmatch(rb"ok (\d+)", lines[at])
            count += int(found.group(1)) if found else 0
        replies.append(lines[at : at + count])
        at += count
    return replies, lines[at:]


def short(text, room=300):
    text = text if isinstance(text, str) else text.decode(errors="backslashreplace")
    return text if len(text) <= room else f"{text[:room]}.. ({len(text)} characters)"


def lines_of(lines, room=12):
    shown = [f"        {short(line)}" for line in lines[:room]]
    if len(lines) > room:
        shown.append(f"        .. {len(lines)} lines")
    return "\n".join(shown) if shown else "        nothing"


def is_in_order(steps):
    """Whether each step comes behind the one before it in its thread, and a branch's between its fork and its join."""
    places = {step: place for place, step in enumerate(steps)}
    for step, place in places.items():
        thread, _, count = step.partition(b"#")
        before = b"%s#%d" % (thread, int(count) - 1)
        if places.get(before, -1) > place:
            return False
        above, slash, branch = thread.rpartition(b"/")
        fork = int(branch.partition(b".")[0]) if slash else 0
        if slash and not places.get(b"%s#%d" % (above, fork), -1) < place < places.get(b"%s#%d" % (above, fork + 1), len(steps)):
            return False
    return True


def is_wanted(command, found):
    """Whether a reply is the wanted one. The steps of a round of workers may have another order."""
    if command.text.split(b" ")[0] == b"work":
        return found[:1] == command.wanted[:1] and sorted(found[1:]) == sorted(command.wanted[1:]) and is_in_order(found[1:])
    return found == command.wanted


def differences(commands, output, way):
    """What is told of replies that aren't those that are wanted."""
    told = []
    replies, left = replies_of(commands, output)
    for command, found in zip(commands, replies):
        if not is_wanted(command, found):
            told.append(
                f"{command.place()}: {way}: {short(command.text, 120)}\n    wanted:\n{lines_of(command.wanted)}\n"
                f"    found:\n{lines_of(found)}"
            )
    if left:
        told.append(f"{commands[-1].place() if commands else ''}: {way}: more lines:\n{lines_of(left)}")
    return told


def ran(program, words, data, **more):
    return subprocess.run([str(program), *words], input=data, capture_output=True, timeout=600, check=False, **more)


def ended(place, way, found, status=0, errors=b""):
    """What is told of an end that isn't the wanted one."""
    if found.returncode == status and found.stderr == errors:
        return []
    return [
        f"{place}: {way}: status {found.returncode}, wanted {status}; standard error {short(found.stderr)!r}, "
        f"wanted {short(errors)!r}"
    ]


# ---- ways to run a session


def run_in_memory(program, session):
    commands = session.commands
    found = ran(program, [], b"".join(command.input() for command in commands))
    place = f"{session.file}:{session.at}"
    return differences(commands, found.stdout, "in memory") + ended(place, "in memory", found)


def run_reopened(program, session):
    """The session on a file, which is opened again after each line, or at some places of a long session."""
    told, commands = [], session.commands
    size = -(-len(commands) // PLACES) if len(commands) > PLACES else 1
    with tempfile.TemporaryDirectory() as folder:
        journal = os.path.join(folder, "journal.db")
        for at in range(0, len(commands), size):
            part = commands[at : at + size]
            found = ran(program, ["--journal", journal], b"".join(command.input() for command in part))
            told += differences(part, found.stdout, "opened again")
            told += ended(part[0].place(), "opened again", found)
            if told:
                break
    return told


def changed(folder, change):
    """Makes a change of the session's file: SQL, or bytes of the file or its log."""
    journal = os.path.join(folder, "FILE")
    word, _, text = change.text.partition(" ")
    if word == "text":
        pathlib.Path(journal).write_text(text + "\n")
    elif word == "log":
        pathlib.Path(journal + "-wal").write_text(text + "\n")
    elif word == "cut":
        with open(journal, "r+b") as file:
            file.truncate(int(text))
    elif word == "byte":
        at, byte = text.split(" ")
        with open(journal, "r+b") as file:
            file.seek(int(at))
            file.write(bytes([int(byte)]))
    else:
        connection = sqlite3.connect(journal, isolation_level=None)
        connection.executescript(change.text)
        connection.execute("pragma wal_checkpoint(truncate)").fetchall()
        connection.close()


def run_part(program, folder, run):
    """One run of a session of runs; its words may name other streams."""
    words, streams, limit = [], {}, None
    for word in run.words:
        if word == "</":
            streams["stdin"] = os.open("/", os.O_RDONLY)
        elif word == ">/dev/full":
            streams["stdout"] = os.open("/dev/full", os.O_WRONLY)
        elif word == "2>/dev/full":
            streams["stderr"] = os.open("/dev/full", os.O_WRONLY)
        elif word == "(no-room)":
            limit = no_room
        else:
            words.append(word)
    data, before = b"".join(command.input() for command in run.commands), bytes_in(folder)
    given = dict({"stdout": subprocess.PIPE, "stderr": subprocess.PIPE}, **streams)
    if "stdin" not in given:
        given["input"] = data
    found = subprocess.run(
        [str(program), *words], cwd=folder, timeout=600, check=False, preexec_fn=limit, **given
    )
    for stream in streams.values():
        os.close(stream)
    found.stdout, found.stderr = found.stdout or b"", found.stderr or b""
    told, way = [], "run"
    if "stdout" in streams:
        pass
    elif run.commands:
        told += differences(run.commands, found.stdout, way)
    else:
        told += compared(run, found.stdout)
    if run.status == 3 and "--check" in run.words and bytes_in(folder) != before:
        told.append(f"{run.place()}: a check that is refused has changed the file")
    return told + ended(run.place(), way, found, run.status, b"" if "stderr" in streams else run.errors)


def bytes_in(folder):
    """The bytes of a session's file, if there is one."""
    journal = pathlib.Path(folder, "FILE")
    return journal.read_bytes() if journal.is_file() else None


def no_room():
    """No file may be written, as where a disk is full."""
    signal.signal(signal.SIGXFSZ, signal.SIG_IGN)
    resource.setrlimit(resource.RLIMIT_FSIZE, (0, 0))


def compared(run, output):
    """What is told of an output without input: its lines, where those that begin with `..` have to stand in some line."""
    parts = [line.removeprefix(b"..").strip() for line in run.output if line.startswith(b"..")]
    if parts:
        return [f"{run.place()}: not in the output: {part.decode()}" for part in parts if part not in output]
    lines = output.split(b"\n")[:-1] if output.endswith(b"\n") else output.split(b"\n")
    if output == b"":
        lines = []
    if lines == run.output:
        return []
    return [f"{run.place()}: run\n    wanted:\n{lines_of(run.output)}\n    found:\n{lines_of(lines)}"]


def run_parts(program, session):
    told = []
    with tempfile.TemporaryDirectory() as folder:
        for part in session.parts:
            if isinstance(part, Change):
                changed(folder, part)
            else:
                told += run_part(program, folder, part)
            if told:
                break
    return told


# ---- streams that are cut, slow or fail


def whole_replies(commands, data):
    """The wanted replies to the whole lines of a beginning of the input, and whether a line is cut."""
    count = data.count(b"\n")
    wanted = b"".join(b"".join(line + b"\n" for line in command.wanted) for command in commands[:count])
    return wanted, not data.endswith(b"\n") and data != b""


def cut_after(commands, size):
    """The commands whose lines stand whole in so many bytes of the input, and what stands there of the next line."""
    for at, command in enumerate(commands):
        line = command.input()
        if size < len(line):
            return commands[:at], Command(command.file, command.at, line[:size], False)
        size -= len(line)
    return commands, Command("", 0, b"", False)


def run_cut(program, session, most=None):
    """The input cut after each byte, or so many: each whole line is answered, and what is left of one has one reply."""
    told, data = [], b"".join(command.input() for command in session.commands)
    count = len(data) + 1 if most is None else min(most, len(data) + 1)
    for cut in (at * len(data) // max(1, count - 1) for at in range(count)):
        before, left = cut_after(session.commands, cut)
        found = ran(program, [], data[:cut])
        replies, more = replies_of([*before, left], found.stdout)
        are_met = all(is_wanted(command, reply) for command, reply in zip(before, replies))
        is_told = replies[-1] == [] if left.is_empty() else re.fullmatch(rb"ok( .*)?|no \d+( .*)?", b"".join(replies[-1][:1]))
        if not are_met or not is_told or more or found.returncode or found.stderr:
            told.append(f"{session.file}:{session.at}: input cut after {cut} bytes: {short(found.stdout)}")
    return told


def run_slow(program, session):
    """The input byte by byte."""
    data = b"".join(command.input() for command in session.commands)
    with subprocess.Popen([str(program)], stdin=subprocess.PIPE, stdout=subprocess.PIPE, bufsize=0) as process:
        for at in range(len(data)):
            process.stdin.write(data[at : at + 1])
        process.stdin.close()
        return differences(session.commands, process.stdout.read(), "byte by byte")


def run_failing_input(program, session):
    """An input that fails after each byte: the near end of a terminal whose far end is closed. The whole lines are answered."""
    told, data = [], b"".join(command.input() for command in session.commands)
    for cut in range(len(data) + 1):
        near, far = os.openpty()
        tty.setraw(far)
        os.write(far, data[:cut])
        os.close(far)
        found = subprocess.run([str(program)], stdin=near, capture_output=True, timeout=600, check=False)
        os.close(near)
        wanted, _ = whole_replies(session.commands, data[:cut])
        if found.stdout != wanted or found.returncode != 4 or found.stderr != b"rollback: input\n":
            told.append(
                f"{session.file}:{session.at}: input that fails after {cut} bytes: status {found.returncode}, "
                f"{short(found.stderr)!r}, {short(found.stdout)}"
            )
    return told


def run_failing_output(program, session):
    """An output that fails after each byte: a file that may have so many. What is written is a beginning of the replies."""
    told, data = [], b"".join(command.input() for command in session.commands)
    wanted, _ = whole_replies(session.commands, data)

    def limit(room):
        signal.signal(signal.SIGXFSZ, signal.SIG_IGN)
        resource.setrlimit(resource.RLIMIT_FSIZE, (room, room))

    with tempfile.TemporaryDirectory() as folder:
        path = os.path.join(folder, "output")
        for room in range(len(wanted) + 1):
            with open(path, "wb") as file:
                found = subprocess.run(
                    [str(program)],
                    input=data,
                    stdout=file,
                    stderr=subprocess.PIPE,
                    timeout=600,
                    check=False,
                    preexec_fn=lambda: limit(room),
                )
            written = pathlib.Path(path).read_bytes()
            end = (0, b"") if room == len(wanted) else (4, b"rollback: output\n")
            if written != wanted[:room] or (found.returncode, found.stderr) != end:
                told.append(
                    f"{session.file}:{session.at}: output that fails after {room} bytes: status {found.returncode}, "
                    f"{short(found.stderr)!r}, {short(written)}"
                )
    return told


def run_session(program, session, on_files, on_streams, cuts):
    """What is told of a session."""
    try:
        if session.parts:
            return run_parts(program, session)
        told = run_in_memory(program, session)
        if on_files and not told:
            told += run_reopened(program, session)
        if on_streams and not told and session.title in CUT:
            for way in (run_cut, run_slow, run_failing_input, run_failing_output):
                told += way(program, session)
        if cuts and not told:
            told += run_cut(program, session, cuts)
        return told
    except (OSError, subprocess.SubprocessError, sqlite3.Error) as error:
        return [f"{session.file}:{session.at}: {session.title}: {error}"]


def main():
    words = argparse.ArgumentParser(description="Runs the sessions of rows/*.txt.")
    words.add_argument("--program", default=str(PROGRAM), help="the program; that of rollback_program where it is left out")
    words.add_argument("--only", action="append", default=[], metavar="TITLE", help="only this session")
    words.add_argument("--no-files", action="store_true", help="in memory alone")
    words.add_argument("--no-streams", action="store_true", help="no inputs and outputs that fail")
    words.add_argument("--cuts", type=int, default=0, metavar="N", help="each session's input cut after each byte, or after N of them")
    words.add_argument("files", nargs="*", metavar="FILE", help="files of rows; all of rows/*.txt where there is none")
    asked = words.parse_args()
    program = shutil.which(asked.program)
    if program is None:
        print(f"no program: {asked.program}", file=sys.stderr)
        return 1
    program = os.path.abspath(program)
    try:
        sessions = read_all(asked.files or sorted(glob.glob(str(TOP / "rows/*.txt"))))
    except (Fault, OSError) as fault:
        print(fault, file=sys.stderr)
        return 1
    if asked.only:
        sessions = [session for session in sessions if session.title in asked.only]
    failed = 0
    with concurrent.futures.ThreadPoolExecutor(os.cpu_count()) as workers:
        jobs = [
            workers.submit(run_session, program, session, not asked.no_files, not asked.no_streams, asked.cuts) for session in sessions
        ]
        for session, job in zip(sessions, jobs):
            told = job.result()
            if told:
                failed += 1
                print(f"= {session.title}")
                for text in told[:20]:
                    print(text)
                sys.stdout.flush()
    lines = sum(len(session.commands) for session in sessions)
    print(f"{len(sessions)} sessions of {lines} lines")
    print(f"{len(sessions) - failed} passed, {failed} failed")
    return 1 if failed or not sessions else 0


if __name__ == "__main__":
    sys.exit(main())
