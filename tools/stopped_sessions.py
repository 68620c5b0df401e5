#!/usr/bin/env python3
"""Serves the sessions of rows/*.txt on files, and stops the disk or the program at one call after the other.

    tools/stopped_sessions.py [--program PATH] [--all] [--each N] [--only TITLE].. [--lines N] [--jobs N] [--lie WHAT] [FILE..]

tools/stopping_files.c comes before the C library's calls on files and on the standard streams. It counts them, and strikes the call of a
number. The session `each-kind-of-line` is struck at each of its calls, in each of these ways. So is the opening of a journal that its first
half has left, after a clean end and after none, and a `--check` of that. Each other session is struck at some evenly spaced calls in each
way: --each says at how many, and with --all it is at all of them.

    refused, then ..  from the struck call on all calls on files are refused, or those that write, or those on one of the two files; what
                      wasn't synced when the program ends is kept, lost or drawn
    once              the struck call alone is refused, by a fault of the disk or for lack of room, or it moves half of what it could
    killed            the program ends at the struck call, which may be a read of its input or a write of a reply
    cut, torn         the same, and what wasn't synced is lost; or some sectors of it, drawn by the number of the call

The program gets a line once the one before it is answered; in the last way it gets all at once. If a call is refused

- the line is answered `no 24`. What the book shows is as before the line: `history`, `items`, `held`. Given again it is answered as the
  row says, and so is the rest; or it is `no 24` again;
- a `drive` takes fewer steps, and the next `drive` goes on, or is `no 24`;
- a `work` is answered `no 24`, and the program ends with status 3 and `rollback: store`;
- the program ends so before it answers a line; or at the end of its input, for it can't copy the log into the file.

Then another SQLite reads the journal, and the program is started again on it, on a disk that works. The journal has a beginning of the
accepted lines, with all that was answered, no line behind the one at hand, and no part of a round. The session's further lines are
answered as the row says. After each clean end the file alone has all lines.

tools/stopped_streams.py tries the streams, and is run with this. --lie is a test of this test: with `syncs` no sync keeps anything, with
`late` each comes one sync too late, and with `writes` each write lacks its last byte. Then each session has to fail. With `rounds` the
steps of a round are written one by one, and each session with a round of several steps has to fail, if enough of its calls are struck.

It needs a C compiler (cc, or what CC names) and the GNU C library. The last line is `N passed, M failed`, of sessions and of cases of
streams, and the status is 1 if one failed or none was tried.
"""
import argparse
import collections
import concurrent.futures
import contextlib
import glob
import multiprocessing
import os
import re
import shutil
import subprocess
import sys
import tempfile

sys.dont_write_bytecode = True
import rows  # noqa: E402: beside this file
import stopped_streams  # noqa: E402: beside this file
from refused_sessions import (  # noqa: E402: beside this file
    COUNT, Pictures, Served, Wrong, begin, compiled, ended_at, forget_counts, is_beginning, is_round, shown,
)
from stopped_runs import (  # noqa: E402: beside this file
    KILLED, STORE, WELL, answered, calls_made, copied, data_of, entries_of, is_drive, left_of, lines_in, point_of, questions, ran, room,
)

WHOLE = ("each-kind-of-line",)
CHUNK = 20
NEW, CLOSED, LEFT = "new", "opened after a clean end", "opened after none"
WRITES, FILES, ALL = "wts", "wtsrln", "wtsnio"
EACH = "wtsrlnio"


class Way:
    """A way to strike, by the settings of stopping_files.c."""

    def __init__(self, title, how, calls, is_at_once=False, **settings):
        self.title, self.how, self.calls, self.is_at_once, self.more = title, how, calls, is_at_once, settings

    def settings(self, number):
        more = {name: number if value == "drawn" else value for name, value in self.more.items()}
        return dict(more, CALLS=self.calls, HOW=self.how, STRIKE=number)

    def count(self, made):
        """How many of these calls count."""
        files = {"log": self.calls.upper(), "db": self.calls}.get(self.more.get("ON"), self.calls + self.calls.upper())
        return sum(letter in files for letter in made)


WAYS = {
    way.title: way
    for way in (
        Way("refused, then kept", "refuse", FILES),
        Way("writes refused, then drawn", "refuse", WRITES, LOSES="drawn"),
        Way("log refused, then lost", "refuse", FILES, ON="log", LOSES="all"),
        Way("file refused, then lost", "refuse", FILES, ON="db", LOSES="all"),
        Way("once", "once", FILES, LOSES="all"),
        Way("once without room", "once", "wt", ERROR=28),
        Way("once short", "short", "wr"),
        Way("killed", "end", ALL),
        Way("cut", "end", ALL, LOSES="all"),
        Way("torn", "end", ALL, LOSES="drawn"),
        Way("torn, all at once", "end", ALL, True, LOSES="drawn"),
    )
}


class Begun:
    """How the runs of a session begin: on a new file, or on one that has its first half, answered so."""

    def __init__(self, index, start, replies):
        self.index, self.start, self.replies = index, start, replies


class Work(Pictures):
    """What all runs share."""

    def __init__(self, program, library, sessions, folder, lie):
        super().__init__(program, library, sessions)
        self.folder, self.lie = folder, lie

    # ---- before the strikes

    def begin(self, index, start):
        """Serves the first half of a session on a file of its own, and ends well, or with the log as it is."""
        if start == NEW:
            return Begun(index, start, [])
        half = self.sessions[index].commands[: len(self.sessions[index].commands) // 2]
        data = data_of(half)
        settings = {"IN_ROOM": len(data)} if start == LEFT else {}
        os.makedirs(self.folder_of(index, start))
        found = ran(self.program, self.library, ["--journal", os.path.join(self.folder_of(index, start), "journal.db")], data, **settings)
        wanted = (4, b"rollback: input\n") if start == LEFT else WELL
        replies = answered(half, found.output)
        if found.end != wanted or len(replies) < len(half):
            raise Wrong(f"the first half: {found.text()}")
        return Begun(index, start, replies)

    def folder_of(self, index, start):
        return os.path.join(self.folder, f"{index}", start)

    def made(self, begun, is_at_once, is_checked):
        """The letters of the calls that a session makes, of one that is opened again those of the opening, or of a check."""
        way = Way("", "once", EACH, is_at_once, LOSES="all")
        with self.file_of(begun) as journal:
            made, end = (self.check_begun if is_checked else self.serve_input)(begun, way, 0, journal)
        if end or not made:
            raise Wrong(f"{end or 'no call'} was counted")
        return made if is_checked or begun.start == NEW else made.split("i")[0]

    @contextlib.contextmanager
    def file_of(self, begun):
        with room() as journal:
            if begun.start != NEW:
                copied(os.path.join(self.folder_of(begun.index, begun.start), "journal.db"), journal)
            yield journal

    # ---- a strike

    def strike(self, begun, title, is_checked, number):
        """Strikes the call of this number, and says how it was met."""
        way = WAYS[title]
        act = self.check_begun if is_checked else self.serve_input if way.how == "end" else self.serve_lines
        with self.file_of(begun) as journal:
            return act(begun, way, number, journal)[1]

    def settings(self, way, number):
        return dict(way.settings(number), **({"LIE": self.lie} if self.lie else {}))

    def serve_input(self, begun, way, number, journal):
        """The rest of a session, which is in the input from the start."""
        commands = self.sessions[begun.index].commands
        more = {} if way.is_at_once else {"IN_MOVES": "line"}
        rest = commands[len(begun.replies) :]
        found = ran(self.program, self.library, ["--journal", journal], data_of(rest), **self.settings(way, number), **more)
        replies = answered(rest, found.output)
        if found.end not in (WELL, (KILLED, b"")) or found.end == WELL and any(command.wanted for command in rest[len(replies) :]):
            raise Wrong(found.text())
        if found.end == WELL:
            self.look_at_file(commands, begun.replies + replies, journal)
        self.go_on(begun.index, journal, begun.replies + replies, 0, None if way.is_at_once else sys.maxsize, number)
        return found.calls, "ended" if found.end != WELL else ""

    def serve_lines(self, begun, way, number, journal):
        """The rest of a session, line by line, so that a line which is refused can be given again."""
        commands = self.sessions[begun.index].commands
        replies, took, met = list(begun.replies), 0, ""
        forget_counts()
        settings = {name: str(value) for name, value in self.settings(way, number).items()}
        served = Served(self.program, ["--journal", journal], self.library, 0, **settings)
        try:
            for at in range(len(replies), len(commands)):
                found = served.ask(commands[at].text, commands[at].ended)
                if found is None or not rows.is_wanted(commands[at], found):
                    if met or number == 0:
                        raise Wrong(f"{commands[at].place()}: a second line isn't answered as the row says: {found}")
                    met, took, found = self.struck(served, way, begun.index, at, found)
                if found is None:
                    break
                replies.append(found)
            end = served.end()
        finally:
            served.drop()
        is_well = end == (b"", *WELL) and len(replies) == len(commands)
        if not is_well and (end != (b"", *STORE) or number == 0):
            raise Wrong(ended_at(commands[min(len(replies), len(commands) - 1)], *end))
        most = took + 1 if met == "early" else sys.maxsize
        if is_well:
            self.look_at_file(commands, replies, journal)
        self.go_on(begun.index, journal, replies, took, most, number)
        return calls_made(), met or ("" if is_well else "closing")

    def struck(self, served, way, index, at, found):
        """How the strike was met at this line, how many steps a drive has answered, and its reply if it was answered after all."""
        command = self.sessions[index].commands[at]
        if found is None and not served.answered:
            return "opening", 0, None
        if found == [b"no 24"] and is_round(command):
            return "lost", 0, None
        if found == [b"no 24"]:
            if not command.ended:
                return "refused", 0, None
            if shown(served) != self.picture(index, at):
                raise Wrong(f"{command.place()}: {rows.short(command.text, 120)}\n    answered no 24, and something has changed")
            return "refused", 0, self.again(served, way, command, served.ask(command.text), command.wanted)
        if found and is_drive(command) and re.fullmatch(rb"ok \d+", found[0]) and is_beginning(command, found[1:]):
            took = len(found) - 1
            if not command.ended:
                return "early", took, None
            rest = b"drive %d" % (int(command.text.split(b" ")[1]) - took)
            wanted = [b"ok %d" % (len(command.wanted) - 1 - took), *command.wanted[1 + took :]]
            reply = self.again(served, way, command, served.ask(rest), wanted)
            return "early", took if reply is None else 0, reply and command.wanted
        raise Wrong(
            f"{command.place()}: {rows.short(command.text, 120)}\n    wanted:\n{rows.lines_of(command.wanted)}\n"
            f"    found:\n{rows.lines_of(found or [])}"
        )

    def again(self, served, way, command, found, wanted):
        """The reply to a line that was refused and given again, or None if it is refused again."""
        if found == [b"no 24"] or way.how != "refuse" and found == wanted:
            return None if found == [b"no 24"] else found
        raise Wrong(f"{command.place()}: {rows.short(command.text, 120)}\n    refused, and given again answered\n{rows.lines_of(found or [])}")

    def check_begun(self, begun, way, number, journal):
        """A check of the journal that a first half has left."""
        commands = self.sessions[begun.index].commands
        lines = sum(len(entries_of(command, reply)) for command, reply in zip(commands, begun.replies))
        wanted = b"ok %d %d\n" % (lines, len(self.picture(begun.index, len(begun.replies))[0]) - 1)
        found = ran(self.program, self.library, ["--check", journal], b"history\n", **self.settings(way, number))
        ends = {WELL: wanted, STORE: b"", (KILLED, b""): wanted[: len(found.output)]}
        if found.output != ends.get(found.end) or found.end != WELL and number == 0:
            raise Wrong(found.text())
        self.go_on(begun.index, journal, begun.replies, 0, 0, number)
        return found.calls, {KILLED: "ended", 0: "", 3: "opening"}[found.end[0]]

    # ---- behind a strike

    def go_on(self, index, journal, replies, took, most, number):
        """Opens the file again and serves what is left of the session, of whose next line the journal may have so many lines."""
        commands = self.sessions[index].commands
        lines = lines_in(journal) or []
        self.look_at(commands, replies, lines, most)
        if number % 4 == 1:
            self.check(journal, lines)
        rest = left_of(commands, replies, took, lines)
        can_ask = commands[-1].ended
        shows = [rows.Command("", 0, line) for line in questions().split(b"\n")[:-1]] if can_ask else []
        found = ran(self.program, self.library, ["--journal", journal], data_of(rest + shows), LOSES="all")
        parts, left = rows.replies_of(rest + shows, found.output)
        for command, reply in zip(rest, parts):
            if not rows.is_wanted(command, reply):
                raise Wrong(f"opened again: {command.place()}: {rows.short(command.text, 120)}\n    found:\n{rows.lines_of(reply)}")
        if found.end != WELL or left:
            raise Wrong(f"opened again: {found.text()}")
        if can_ask and [sorted(reply) for reply in parts[len(rest) :]] != self.picture(index, len(commands)):
            raise Wrong(f"opened again, the book shows something else: {found.text()}")
        self.look_at_file(commands, replies, journal)

    def look_at_file(self, commands, replies, journal):
        """After a clean end the file alone has all lines."""
        lines = lines_in(journal, has_log=False)
        if lines is None or point_of(commands, replies, lines) != (len(commands), 0):
            raise Wrong(f"after a clean end the file alone has not the lines of the row:\n{rows.lines_of(lines or [])}")

    def look_at(self, commands, replies, lines, most):
        """The journal may have no line of a command that wasn't given yet."""
        before = sum(len(entries_of(command, reply)) for command, reply in zip(commands, replies))
        if most is None:
            return
        following = [len(entries_of(command, command.wanted)) for command in commands[len(replies) : len(replies) + 1]]
        if len(lines) > before + min(most, sum(following)):
            raise Wrong(f"{before} entries were answered, and the journal has {len(lines)} lines:\n{rows.lines_of(lines)}")

    def check(self, journal, lines):
        """A check answers how many lines there are, and is refused if there is no file."""
        is_there = os.path.exists(journal)
        found = ran(self.program, self.library, ["--check", journal], b"")
        reply = re.fullmatch(rb"ok (\d+) \d+\n", found.output)
        if found.end != (WELL if is_there else STORE) or is_there and (not reply or int(reply.group(1)) != len(lines)):
            raise Wrong(f"a check of {len(lines)} lines: {found.text()}")


# ---- many runs

WORK = STREAMS = None
FAULTS = (Wrong, OSError, subprocess.SubprocessError)


def begun_of(index, start):
    try:
        return WORK.begin(index, start), []
    except FAULTS as wrong:
        return None, [f"{start}: {wrong}"]


def made_of(begun, is_at_once, is_checked):
    try:
        return WORK.made(begun, is_at_once, is_checked), []
    except FAULTS as wrong:
        return "", [f"{begun.start}, with no call struck: {wrong}"]


def struck_each(begun, title, is_checked, numbers):
    """How often each end was met, and what is wrong."""
    ends, wrongs = collections.Counter(), []
    for number in numbers:
        try:
            ends[WORK.strike(begun, title, is_checked, number)] += 1
        except FAULTS as wrong:
            what = "a check, " if is_checked else ""
            wrongs.append(f"{title}, {what}{begun.start}, call {number} struck: {wrong}")
            if len(wrongs) == 3:
                break
    return ends, wrongs


def streamed(name, title, numbers):
    """What is said of a part of a case, and what is wrong."""
    try:
        return getattr(STREAMS, name)(title, numbers) or "", []
    except FAULTS as wrong:
        return "", [str(wrong)]


def numbers_of(index, title, count, asked):
    """The calls that are struck: all, or some that are evenly spaced, others for each session and way."""
    if asked.all or WORK.sessions[index].title in WHOLE:
        return range(1, count + 1)
    most = min(count, asked.each)
    shift = (index + 1) * (list(WAYS).index(title) + 1) * 0.618 % 1
    return [1 + int((at + shift) * count / most) for at in range(most)]


def said_of(ends):
    return (
        f"{sum(ends.values())} strikes: {ends['opening']} in the opening, {ends['refused']} lines refused, {ends['early']} drives stopped, "
        f"{ends['lost']} rounds lost, {ends['ended']} times the program ended, {ends['closing']} in the closing, {ends['']} without effect"
    )


class Runs:
    """The sessions that are served by many processes, in three rounds: their beginnings, their counts, and their strikes."""

    def __init__(self, asked, workers):
        self.asked, self.workers = asked, workers
        self.wrongs = [[] for _ in WORK.sessions]
        self.strikes = self.strikes_of(self.counts_of(self.begins()))

    def begins(self):
        jobs = []
        for index, session in enumerate(WORK.sessions):
            starts = (NEW, CLOSED, LEFT) if session.title in WHOLE else (NEW,)
            jobs += [(index, self.workers.submit(begun_of, index, start)) for start in starts]
        return jobs

    def counts_of(self, jobs):
        """The calls that are made, of a journal that is opened again those of a check too."""
        counts = []
        for index, job in jobs:
            begun, wrongs = job.result()
            self.wrongs[index] += wrongs
            kinds = [(is_at_once, False) for is_at_once in (False, True)] if begun else []
            if begun and begun.start != NEW:
                kinds.append((False, True))
            counts += [(index, begun, kind, self.workers.submit(made_of, begun, *kind)) for kind in kinds]
        return counts

    def strikes_of(self, counts):
        strikes = [[] for _ in WORK.sessions]
        for index, begun, (is_at_once, is_checked), job in counts:
            made, wrongs = job.result()
            self.wrongs[index] += wrongs
            for title, way in WAYS.items():
                if way.is_at_once != is_at_once and not is_checked:
                    continue
                numbers = numbers_of(index, title, way.count(made), self.asked)
                for at in range(0, len(numbers), CHUNK):
                    strikes[index].append(self.workers.submit(struck_each, begun, title, is_checked, numbers[at : at + CHUNK]))
        return strikes

    def failed(self):
        """How many sessions failed, each of which is reported."""
        failed = 0
        for session, strikes, wrongs in zip(WORK.sessions, self.strikes, self.wrongs):
            ends = collections.Counter()
            for job in strikes:
                more, wrong = job.result()
                ends += more
                wrongs += wrong
            report(session.title, said_of(ends), wrongs)
            failed += bool(wrongs)
        return failed


def report(title, said, wrongs):
    print(f"{title}: {said}")
    for wrong in wrongs[:3]:
        print(wrong)
    sys.stdout.flush()


def serve_all(asked, workers):
    """How many sessions and cases were served, and how many failed."""
    cases = []
    if STREAMS:
        for title, calls in stopped_streams.cases(STREAMS, asked.all):
            cases.append((title, [workers.submit(streamed, *call) for call in calls]))
    runs = Runs(asked, workers)
    failed = 0
    for title, jobs in cases:
        found = [job.result() for job in jobs]
        wrongs = [wrong for _, more in found for wrong in more]
        report(title, found[0][0] or "tried", wrongs)
        failed += bool(wrongs)
    return len(cases) + len(WORK.sessions), failed + runs.failed()


def words():
    words = argparse.ArgumentParser(description="Serves the sessions of rows/*.txt on files, and stops the disk or the program.")
    words.add_argument("--program", default=str(rows.PROGRAM), help="the program; that of rollback_program if it is left out")
    words.add_argument("--all", action="store_true", help="each call of each session is struck, and each byte of the streams")
    words.add_argument("--each", type=int, default=2, metavar="N", help="how many calls of a session are struck in each way")
    words.add_argument("--only", action="append", default=[], metavar="TITLE", help="only this session, and no streams")
    words.add_argument("--lines", type=int, default=200, help="no session of more lines")
    words.add_argument("--jobs", type=int, default=os.cpu_count(), help="how many processes serve at a time")
    words.add_argument("--lie", choices=("syncs", "late", "writes", "rounds"), help="what is wrong, and has to be found")
    words.add_argument("rows", nargs="*", metavar="FILE", help="files of rows; all of rows/*.txt if there is none")
    return words.parse_args()


def sessions_of(asked):
    """The sessions that are served, and those whose streams are tried."""
    sessions = rows.read_all(asked.rows or sorted(glob.glob(str(rows.TOP / "rows/*.txt"))))
    sessions = [session for session in sessions if not session.parts and (not asked.only or session.title in asked.only)]
    for session in sessions:
        if len(session.commands) > asked.lines:
            print(f"{session.title}: left out, for its {len(session.commands)} lines")
    is_streamed = not (asked.rows or asked.only or asked.lie)
    streamed = [session for session in sessions if is_streamed and session.title in stopped_streams.TITLES]
    return [session for session in sessions if len(session.commands) <= asked.lines], streamed


def main():
    global WORK, STREAMS
    # taken before anything else is opened, and the workers have it too
    os.dup2(os.open(os.devnull, os.O_RDWR), COUNT)
    asked = words()
    program = shutil.which(asked.program)
    if program is None or shutil.which(os.environ.get("CC", "cc")) is None:
        print(f"no program: {asked.program}" if program is None else "no C compiler", file=sys.stderr)
        return 1
    try:
        sessions, streamed = sessions_of(asked)
    except (rows.Fault, OSError) as fault:
        print(fault, file=sys.stderr)
        return 1
    with tempfile.TemporaryDirectory() as folder:
        program, library = os.path.abspath(program), compiled(folder, "stopping_files.c")
        WORK = Work(program, library, sessions, folder, asked.lie)
        if streamed:
            STREAMS = stopped_streams.Streams(program, library, compiled(folder, "refusing_malloc.c"), streamed)
        with concurrent.futures.ProcessPoolExecutor(asked.jobs, multiprocessing.get_context("fork"), begin) as workers:
            count, failed = serve_all(asked, workers)
    print(f"{count - failed} passed, {failed} failed")
    return 1 if failed or not count else 0


if __name__ == "__main__":
    sys.exit(main())
