#!/usr/bin/env python3
"""Serves the sessions of rows/*.txt while one request for memory is refused: the first, then the second, until there is none left.

    tools/refused_sessions.py [--program PATH] [--files] [--only TITLE].. [--lines N] [--most N] [--seconds N] [--jobs N] [FILE..]

Without files all of rows/*.txt are served. A session's lines are given to the program one by one, each once the one before it is
answered. Where the refusal falls may be told once in a run, in one of these ways:

- the reply is `no 11`, or `no 24` where it was the store's. What the book shows is as before the line: `history`, `items`, `held`. The
  line is given again, and is answered as the row says;
- a `drive` or a `work` takes fewer steps. It is given again with the number of those that are left, and the steps together are those of
  the row;
- a `work` is told `no 24`, and the program ends with status 3 and `rollback: store`: the steps of its round are lost;
- the program ends with status 4 and `rollback: memory`; or, before it answers, with status 3 and `rollback: store`.

Each other reply has to be the one that stands in the row, so a line that was refused has changed nothing. With --files the first half
of a session is served on a journal's file, which is opened then, and refused memory from there on. Where the program ends, it is
started again on the same file, which has to give the rest of the replies. In the end the file has one line for each entry of the row.

Of a session with more than --most requests (1000), or which would take more than --seconds (30), only so many are refused, evenly
spaced: long tables of definitions ask for memory as short ones do, each time behind all the lines before. Of those of worked.txt each
request is refused, and one that has more than 1,500 fails. In the end it says of which sessions only some requests were refused. Left
out are sessions of more than --lines lines (200), and those of several runs, which say themselves how each of them ends. --jobs is how many
processes serve at a time: without it as many as there are processors.

It wants a C compiler (cc, or what CC names), the GNU C library, and a program without a sanitizer's allocator. What fails is told.
The last line is `N passed, M failed`, of sessions, and the status is 1 where one failed or none was served.
"""
import argparse
import collections
import concurrent.futures
import glob
import multiprocessing
import os
import re
import shutil
import subprocess
import sys
import tempfile
import threading
import time

sys.dont_write_bytecode = True
import rows  # noqa: E402: beside this file

COUNT = 3
CHUNK = 50
SECONDS = 300
WHOLE = "worked.txt"
MOST_WHOLE = 1500
PICTURE = (b"history", b"items", b"held")
QUESTIONS = (b"show", b"items", b"history", b"plan", b"held")
ENDS = ((4, b"rollback: memory\n"),)
ENDS_WHERE_LOST = ((3, b"rollback: store\n"),)
ENDS_AT_OPENING = (*ENDS, *ENDS_WHERE_LOST)


class Wrong(Exception):
    """What is told of a run that isn't as it has to be."""


class Served:
    """The running program, with the request of this number refused; 0 refuses none. Further settings are a library's own."""

    def __init__(self, program, words, library, number, **settings):
        self.answered = False
        self.process = subprocess.Popen(
            [program, *words],
            stdin=subprocess.PIPE,
            stdout=subprocess.PIPE,
            stderr=subprocess.PIPE,
            pass_fds=(COUNT,),
            env=dict(os.environ, LD_PRELOAD=library, REFUSE=str(number), **settings),
        )
        self.clock = threading.Timer(SECONDS, self.process.kill)
        self.clock.start()

    def ask(self, text, has_end=True):
        """The lines of the reply, or None where the program ended."""
        try:
            self.process.stdin.write(text + b"\n" if has_end else text)
            self.process.stdin.flush()
            if not has_end:
                self.process.stdin.close()
        except BrokenPipeError:
            return None
        if rows.Command("", 0, text, has_end).is_empty():
            return []
        lines = [self.process.stdout.readline()]
        found = re.fullmatch(rb"ok (\d+)\n", lines[0])
        if found and text.split(b" ")[0] in rows.LISTS:
            lines += [self.process.stdout.readline() for _ in range(int(found.group(1)))]
        if lines == [b""]:
            return None
        self.answered = True
        return [line.removesuffix(b"\n") for line in lines]

    def end(self):
        """What it wrote beyond the replies, its status, and what it told on standard error, once its input ends."""
        try:
            self.process.stdin.close()
        except BrokenPipeError:
            pass
        rest, errors = self.process.stdout.read(), self.process.stderr.read()
        status = self.process.wait()
        self.drop()
        return rest, status, errors

    def drop(self):
        self.clock.cancel()
        self.process.kill()
        self.process.wait()
        for stream in (self.process.stdin, self.process.stdout, self.process.stderr):
            try:
                stream.close()
            except BrokenPipeError:
                pass

    def end_for_memory(self, command, is_lost):
        """Its end at this line, which has to be one for want of memory, or of a session whose round is lost."""
        rest, status, errors = self.end()
        ends = ENDS_WHERE_LOST if is_lost else ENDS if self.answered else ENDS_AT_OPENING
        if rest or (status, errors) not in ends:
            raise Wrong(ended_at(command, rest, status, errors))


def ended_at(command, rest, status, errors):
    return (
        f"{command.place()}: {rows.short(command.text, 120)}\n    ended with status {status}, {rows.short(errors)!r} on standard error, "
        f"and further output {rows.short(rest)!r}"
    )


def joined(front, rest):
    """The reply to a drive or a round that was given in two parts."""
    if rest is None or not re.fullmatch(rb"ok \d+", rest[0]):
        return rest
    return [b"ok %d" % (len(front) + len(rest) - 2), *front[1:], *rest[1:]]


def shown(served):
    """What a book shows. Rounds of workers take steps in several orders, so it is in none."""
    return [sorted(served.ask(line) or []) for line in PICTURE]


def entries_of(command, reply):
    """How many entries a line makes that is answered so."""
    word = command.text.removesuffix(b"\r").split(b" ")[0]
    if word in QUESTIONS or not reply or not reply[0].startswith(b"ok"):
        return 0
    return len(reply) - 1 if word in (b"drive", b"work") else 1


def asked_again(served, command, found, before):
    """How the refusal is told by a reply that isn't the row's, and the reply to what is given again then."""
    if found in ([b"no 11"], [b"no 24"]):
        if not command.ended:
            # behind a last line without its end nothing can be given
            return "told", command.wanted
        if shown(served) != before():
            raise Wrong(f"{command.place()}: {rows.short(command.text, 120)}\n    answered {found[0].decode()}, and something has changed")
        return "told", served.ask(command.text)
    several = re.fullmatch(rb"(drive|work \d+) (\d+)", command.text)
    if several and re.fullmatch(rb"ok \d+", found[0]) and is_beginning(command, found[1:]):
        return "early", joined(found, served.ask(b"%s %d" % (several.group(1), int(several.group(2)) - len(found) + 1)))
    return "", found


def is_beginning(command, steps):
    """Whether these are some of the steps that are wanted; of a drive, the first of them."""
    wanted = command.wanted[1:]
    return len(steps) < len(wanted) and (steps == wanted[: len(steps)] or is_round(command) and set(steps) <= set(wanted))


def is_round(command):
    return command.text.split(b" ")[0] == b"work"


def forget_counts():
    os.ftruncate(COUNT, 0)
    os.lseek(COUNT, 0, os.SEEK_SET)


def run(program, library, commands, words, number, before=None):
    """Serves these lines with the request of this number refused: how many there were, and how that one was told. What the book shows
    before the line at a place is asked of `before`."""
    forget_counts()
    served, told = Served(program, words, library, number), ""
    try:
        for at, command in enumerate(commands):
            found = served.ask(command.text, command.ended)
            if number and not told and (found is None or not rows.is_wanted(command, found)):
                is_lost = is_round(command) and found == [b"no 24"]
                if found is not None and not is_lost:
                    told, found = asked_again(served, command, found, lambda at=at: before(at))
                else:
                    told = "ended"
                    served.end_for_memory(command, is_lost)
                    if not words:
                        return counted(), told
                    served = Served(program, words, library, 0)
                    found = served.ask(command.text, command.ended)
            if found is None:
                raise Wrong(ended_at(command, *served.end()))
            if not rows.is_wanted(command, found):
                raise Wrong(
                    f"{command.place()}: {rows.short(command.text, 120)}\n    wanted:\n{rows.lines_of(command.wanted)}\n"
                    f"    found:\n{rows.lines_of(found)}"
                )
        end = served.end()
        if end != (b"", 0, b""):
            raise Wrong(ended_at(commands[-1], *end))
        return counted(), told
    finally:
        served.drop()


def lines_in(program, journal):
    """How many lines a journal has, none where it is refused."""
    found = re.fullmatch(rb"ok (\d+) \d+\n", rows.ran(program, ["--check", journal], b"").stdout)
    return int(found.group(1)) if found else None


def counted():
    """How many requests the programs of a run have told, the first of them."""
    os.lseek(COUNT, 0, os.SEEK_SET)
    return int((os.read(COUNT, 40).split() or [0])[0])


# ---- many runs


class Pictures:
    """What the book shows before lines of sessions in which nothing is refused, each asked for once."""

    def __init__(self, program, library, sessions):
        self.program, self.library, self.sessions = program, library, sessions
        self.pictures = {}

    def picture(self, index, at):
        """What the book shows before the line at a place of a session."""
        if (index, at) not in self.pictures:
            served = Served(self.program, [], self.library, 0)
            try:
                for command in self.sessions[index].commands[:at]:
                    served.ask(command.text, command.ended)
                self.pictures[index, at] = shown(served)
            finally:
                served.drop()
        return self.pictures[index, at]


class Work(Pictures):
    """What all runs share; if sessions are served on files, `halves` has those of their first halves."""

    def __init__(self, program, library, sessions, halves):
        super().__init__(program, library, sessions)
        self.halves = halves

    def refuse(self, index, number):
        commands = self.sessions[index].commands
        if self.halves is None:
            return run(self.program, self.library, commands, [], number, lambda at: self.picture(index, at))
        half = len(commands) // 2
        with tempfile.TemporaryDirectory() as folder:
            shutil.copytree(os.path.join(self.halves, str(index)), folder, dirs_exist_ok=True)
            journal = os.path.join(folder, "journal.db")
            found = run(self.program, self.library, commands[half:], ["--journal", journal], number, lambda at: self.picture(index, half + at))
            lines = sum(entries_of(command, command.wanted) for command in commands)
            if lines_in(self.program, journal) != lines:
                raise Wrong(f"{commands[-1].place()}: the journal has not the {lines} lines of the row")
            return found

    def count(self, index):
        """How many requests a session has, after its first half; how many seconds that took; and what is wrong."""
        commands = self.sessions[index].commands
        try:
            if self.halves is not None:
                folder = os.path.join(self.halves, str(index))
                os.mkdir(folder)
                run(self.program, self.library, commands[: len(commands) // 2], ["--journal", os.path.join(folder, "journal.db")], 0)
            begun = time.monotonic()
            requests, _ = self.refuse(index, 0)
            return requests, time.monotonic() - begun, [] if requests else ["no request for memory was counted"]
        except (Wrong, OSError) as wrong:
            return 0, 0, [f"with no request refused: {wrong}"]

    def refuse_each(self, index, numbers):
        """How often each way of telling was met, and what is wrong."""
        ways, wrongs = collections.Counter(), []
        for number in numbers:
            try:
                ways[self.refuse(index, number)[1]] += 1
            except (Wrong, OSError) as wrong:
                wrongs.append(f"with request {number} refused: {wrong}")
                if len(wrongs) == 3:
                    break
        return ways, wrongs

    def said(self, ways, count):
        return (
            f"{sum(ways.values())} of {count} requests refused: {ways['told']} times told, {ways['early']} times a drive or a round stopped, "
            f"{ways['ended']} times the program ended, {ways['']} times all was answered"
        )


WORK = None


def begin():
    """A process that serves has its own file for the counts, open as 3."""
    with tempfile.TemporaryFile() as file:
        os.dup2(file.fileno(), COUNT)


def count_of(index):
    return WORK.count(index)


def refused_each(index, numbers):
    return WORK.refuse_each(index, numbers)


def spaced(count, most):
    """The numbers of the requests that are refused: all, or so many of them."""
    most = max(1, min(count, most))
    return [1 + at * count // most for at in range(most)] if count else []


def is_whole(session):
    return os.path.basename(session.file) == WHOLE


def numbers_of(session, count, seconds, asked):
    """The numbers of the requests of a session that are refused."""
    return spaced(count, count if is_whole(session) else min(asked.most, int(asked.seconds / max(seconds, 0.001))))


def compiled(room, source):
    library = os.path.join(room, source.removesuffix(".c") + ".so")
    subprocess.run([os.environ.get("CC", "cc"), "-O2", "-shared", "-fPIC", "-o", library, rows.TOP / "tools" / source], check=True)
    return library


def serve_all(asked):
    """How many sessions failed, each of which is told."""
    failed, some = 0, []
    with concurrent.futures.ProcessPoolExecutor(asked.jobs, multiprocessing.get_context("fork"), begin) as workers:
        counts = list(workers.map(count_of, range(len(WORK.sessions))))
        jobs = []
        for index, (count, seconds, wrongs) in enumerate(counts):
            session = WORK.sessions[index]
            numbers = numbers_of(session, count, seconds, asked)
            if is_whole(session) and count > MOST_WHOLE:
                wrongs.append(f"it has {count} requests, and one of {WHOLE} may have {MOST_WHOLE}")
            some += [session.title] if len(numbers) < count else []
            jobs.append([workers.submit(refused_each, index, numbers[at : at + CHUNK]) for at in range(0, len(numbers), CHUNK)])
        for session, (count, _, wrongs), chunks in zip(WORK.sessions, counts, jobs):
            ways = collections.Counter()
            for chunk in chunks:
                more, wrong = chunk.result()
                ways += more
                wrongs += wrong
            print(f"{session.title}: {WORK.said(ways, count)}")
            for wrong in wrongs[:3]:
                print(wrong)
            sys.stdout.flush()
            failed += bool(wrongs)
    print(f"of {len(WORK.sessions) - len(some)} sessions each request was refused, and of {len(some)} only some: {', '.join(some) or 'none'}")
    return failed


def words_of(description):
    words = argparse.ArgumentParser(description=description)
    words.add_argument("--program", default=str(rows.PROGRAM), help="the program; that of rollback_program where it is left out")
    words.add_argument("--only", action="append", default=[], metavar="TITLE", help="only this session")
    words.add_argument("--lines", type=int, default=200, help="no session of more lines")
    words.add_argument("--most", type=int, default=1000, help="how often one session is served")
    words.add_argument("--seconds", type=float, default=30, help="how long one session is served, by one process")
    words.add_argument("--jobs", type=int, default=os.cpu_count(), help="how many processes serve at a time")
    words.add_argument("rows", nargs="*", metavar="FILE", help="files of rows; all of rows/*.txt where there is none")
    return words


def serve(asked, source, work_of):
    """Serves the sessions that are asked for, by the work that is made of the program, of what is compiled from the source, of the
    sessions, and of a folder. The status."""
    global WORK
    # taken before anything else is opened, and the workers have it too
    os.dup2(os.open(os.devnull, os.O_RDWR), COUNT)
    program = shutil.which(asked.program)
    if program is None:
        print(f"no program: {asked.program}", file=sys.stderr)
        return 1
    try:
        sessions = rows.read_all(asked.rows or sorted(glob.glob(str(rows.TOP / "rows/*.txt"))))
    except (rows.Fault, OSError) as fault:
        print(fault, file=sys.stderr)
        return 1
    sessions = [session for session in sessions if not session.parts and (not asked.only or session.title in asked.only)]
    served = [session for session in sessions if len(session.commands) <= asked.lines]
    for session in sessions:
        if session not in served:
            print(f"{session.title}: left out, for its {len(session.commands)} lines")
    with tempfile.TemporaryDirectory() as room:
        WORK = work_of(os.path.abspath(program), compiled(room, source), served, room)
        failed = serve_all(asked)
    print(f"{len(served) - failed} passed, {failed} failed")
    return 1 if failed or not served else 0


def main():
    words = words_of("Serves the sessions of rows/*.txt while requests for memory are refused.")
    words.add_argument("--files", action="store_true", help="on a file, opened after the first half of the session")
    asked = words.parse_args()
    return serve(
        asked,
        "refusing_malloc.c",
        lambda program, library, sessions, room: Work(program, library, sessions, room if asked.files else None),
    )


if __name__ == "__main__":
    sys.exit(main())
