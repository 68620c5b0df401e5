"""The program over standard streams that move a byte at a time, are interrupted, or fail. tools/stopped_sessions.py runs these cases.

Some sessions are served on a file, by tools/stopping_files.c,

- in pieces: the streams move a byte a call, or are interrupted before each, or a write of the journal's files moves few bytes. Nothing
  changes;
- with an input that fails after k bytes, for each k: the lines that are whole before it are answered and kept, and no other, and the
  program ends with status 4 and `rollback: input`;
- with an output that fails, or takes nothing, after k bytes, for each k: so many bytes of the replies are written, and the program ends
  with status 4 and `rollback: output`. The line whose reply can't be written is kept, and no further one; so too if one write alone
  fails. If the whole input is there at once, replies are written together, and the journal may have any further lines.

Then come a round whose lines are refused and whose reply can't be written; a file that another process has; the output of `--check`,
`--help` and `--version`, and the words on standard error, which break off after each byte; and such runs with one request for memory after
the other refused, by tools/refusing_malloc.c, and with no room on standard error.
"""
import contextlib
import sqlite3
import sys

import rows
from refused_sessions import Served, Wrong, spaced
from stopped_runs import INPUT, OUTPUT, STORE, WELL, answered, data_of, entries_of, lines_in, point_of, ran, room

# Sessions, and after how many bytes their streams fail next. The last has a reply that is longer than what is kept back.
STEPS = {"rollback-of-a-put": 1, "first-path": 1, "each-kind-of-line": 7, "an-item-of-1200-attributes": 1500}
FIRST = "first-path"
ROUND = "a-round-of-workers"
TITLES = (*STEPS, ROUND)
MEMORY = (4, b"rollback: memory\n")
USAGE = (2, b"usage: rollback [--journal FILE | --check FILE]\n")
SIZE = 40

PIECES = (
    {"IN_MOVES": 1},
    {"OUT_MOVES": 1},
    {"IN_MOVES": 1, "OUT_MOVES": 1},
    {"INTERRUPT": 1},
    {"INTERRUPT": 1, "IN_MOVES": 1, "OUT_MOVES": 1},
    {"IN_MOVES": "line"},
    {"IN_MOVES": 7, "OUT_MOVES": 3, "MOVES": 1000},
    {"MOVES": 100, "IN_MOVES": 1, "OUT_MOVES": 1},
)


def bytes_of(replies):
    return b"".join(line + b"\n" for reply in replies for line in reply)


def whole_before(commands, size):
    """The commands whose lines are whole in so many bytes of the input."""
    return commands[: data_of(commands)[:size].count(b"\n")]


def ended_so(found, end, what):
    if found.end != end:
        raise Wrong(f"{what}: {found.text()}")


class Streams:
    def __init__(self, program, library, memory_library, sessions):
        self.program, self.library, self.memory_library = program, library, memory_library
        self.sessions = {session.title: session.commands for session in sessions}

    def serve(self, journal, data, **settings):
        return ran(self.program, self.library, ["--journal", journal], data, **settings)

    def look_at(self, journal, commands, replies):
        """The journal has the lines of these commands, and no others."""
        lines = lines_in(journal) or []
        wanted = sum(len(entries_of(command, command.wanted)) for command in commands)
        point_of(commands, replies, lines)
        if len(lines) != wanted:
            raise Wrong(f"the journal has {len(lines)} lines and not {wanted}:\n{rows.lines_of(lines)}")

    # ---- sessions

    def pieces(self, title, numbers):
        """A session over streams and files that move so much at once."""
        commands = self.sessions[title]
        for number in numbers:
            with room() as journal:
                found = self.serve(journal, data_of(commands), **PIECES[number])
                replies = answered(commands, found.output)
                ended_so(found, WELL, PIECES[number])
                if len(replies) < len(commands):
                    raise Wrong(f"{PIECES[number]}: {found.text()}")
                self.look_at(journal, commands, replies)

    def failing_inputs(self, title, sizes):
        """The session's input fails after so many bytes. It comes a byte at a time, or all at once."""
        commands = self.sessions[title]
        for size in sizes:
            before = whole_before(commands, size)
            for more in ({"IN_MOVES": 1, "OUT_MOVES": 1}, {}):
                with room() as journal:
                    found = self.serve(journal, data_of(commands), IN_ROOM=size, **more)
                    ended_so(found, INPUT, f"input of {size} bytes, {more}")
                    replies = answered(before, found.output)
                    if len(replies) < len(before):
                        raise Wrong(f"input of {size} bytes, {more}: {found.text()}")
                    self.look_at(journal, before, replies)

    def failing_outputs(self, title, sizes):
        """The session's output fails, or takes nothing, after so many bytes."""
        commands = self.sessions[title]
        whole = len(bytes_of(command.wanted for command in commands))
        for size in sizes:
            for more in ({"OUT_MOVES": 1}, {"OUT_ERROR": 0}):
                with room() as journal:
                    found = self.serve(journal, data_of(commands), IN_MOVES="line", OUT_ROOM=size, **more)
                    ended_so(found, OUTPUT if size < whole else WELL, f"output of {size} bytes, {more}")
                    replies = answered(commands, found.output)
                    if len(found.output) != size:
                        raise Wrong(f"output of {size} bytes, {more}: {found.text()}")
                    self.look_at(journal, self.given(commands, size), replies)

    def outputs_once(self, title, numbers):
        """One write of the session's output is refused, and those behind it wouldn't be."""
        commands = self.sessions[title]
        for number in numbers:
            with room() as journal:
                found = self.serve(journal, data_of(commands), IN_MOVES="line", CALLS="o", HOW="once", STRIKE=number)
                ended_so(found, OUTPUT, f"write {number} refused")
                replies = answered(commands, found.output)
                places = [place for place, command in enumerate(commands) if command.wanted]
                self.look_at(journal, commands[: places[number - 1] + 1], replies)

    def given(self, commands, size):
        """The commands that were read until the output failed: the last of them is the one whose reply has no room."""
        for place, command in enumerate(commands):
            size -= len(bytes_of([command.wanted]))
            if size < 0:
                return commands[: place + 1]
        return commands

    def outputs_at_once(self, title, sizes):
        """The same if the whole input is there: the replies are written together, so the journal may have any further lines."""
        commands = self.sessions[title]
        whole = len(bytes_of(command.wanted for command in commands))
        for size in sizes:
            with room() as journal:
                found = self.serve(journal, data_of(commands), OUT_ROOM=size, OUT_ERROR=0)
                ended_so(found, OUTPUT if size < whole else WELL, f"output of {size} bytes")
                replies = answered(commands, found.output)
                if len(found.output) != size:
                    raise Wrong(f"output of {size} bytes: {found.text()}")
                lines = lines_in(journal) or []
                point_of(commands, replies, lines)
                if len(lines) < sum(len(entries_of(command, reply)) for command, reply in zip(commands, replies)):
                    raise Wrong(f"output of {size} bytes, of whose lines the journal lacks some:\n{rows.lines_of(lines)}")

    # ---- a round

    def refused_rounds(self, title, numbers):
        """A round whose reply has no room, with each write of the journal refused from one on."""
        commands = self.sessions[title]
        place = next(at for at, command in enumerate(commands) if command.text.startswith(b"work "))
        before, lost = len(bytes_of(command.wanted for command in commands[:place])), 0
        for number in numbers:
            for more in (0, 3):
                with room() as journal:
                    settings = {"CALLS": "wts", "HOW": "refuse", "STRIKE": number, "OUT_ROOM": before + more}
                    found = self.serve(journal, data_of(commands), IN_MOVES="line", **settings)
                    lost += self.is_lost(commands, place, found, journal)
            if len(found.calls) < number:
                break
        if not lost:
            raise Wrong("no round was lost")

    def is_lost(self, commands, place, found, journal):
        """Whether the round was begun and refused. Then the journal has all of its lines or none; if it wasn't refused, all."""
        replies = [command.wanted for command in commands[:place]]
        if found.end not in (STORE, OUTPUT):
            raise Wrong(f"a round whose reply has no room: {found.text()}")
        if not found.output.startswith(bytes_of(replies)):
            return False
        behind = found.output[len(bytes_of(replies)) :]
        lines = lines_in(journal) or []
        is_kept = point_of(commands, replies, lines)[0] > place
        if found.end == OUTPUT and not is_kept or found.end == STORE and not b"no 24\n".startswith(behind):
            raise Wrong(f"a round whose reply has no room, and {len(lines)} lines: {found.text()}")
        return found.end == STORE

    # ---- words

    def taken_files(self, title, _):
        """A file that another process has: it can't be opened, can be looked at, and that process goes on with it."""
        with self.journal_of(title) as journal:
            alone = ran(self.program, self.library, ["--check", journal], b"")
            ended_so(alone, WELL, "--check")
            other = Served(self.program, ["--journal", journal], self.library, 0)
            try:
                before = other.ask(b"history")
                for words, wanted in ((["--journal", journal], (STORE, b"")), (["--check", journal], (WELL, alone.output))):
                    found = ran(self.program, self.library, words, b"settle\n")
                    if (found.end, found.output) != wanted:
                        raise Wrong(f"{words}, of a file that another process has: {found.text()}")
                if other.ask(b"history") != before or other.end() != (b"", *WELL):
                    raise Wrong("the process that has the file doesn't go on")
            finally:
                other.drop()

    def words_out(self, title, _):
        """What is shown breaks off after each byte."""
        with self.journal_of(title) as journal:
            for words in (["--help"], ["--version"], ["--check", journal]):
                whole = ran(self.program, self.library, words, b"")
                ended_so(whole, WELL, words)
                for size in range(len(whole.output) + 2):
                    for more in ({"OUT_MOVES": 1}, {"OUT_ERROR": 0}):
                        found = ran(self.program, self.library, words, b"", OUT_ROOM=size, **more)
                        ended_so(found, WELL if size >= len(whole.output) else OUTPUT, f"{words}, output of {size} bytes")
                        if found.output != whole.output[:size]:
                            raise Wrong(f"{words}, output of {size} bytes: {found.text()}")

    def errors_out(self, title, _):
        """The words on standard error break off after each byte. The status is the same."""
        with self.journal_of(title) as journal:
            for words, data, settings, (status, errors) in self.faults(journal):
                for size in range(len(errors) + 2):
                    found = ran(self.program, self.library, words, data, ERR_ROOM=size, ERR_MOVES=1, **settings)
                    if found.end != (status, errors[:size]) or found.output:
                        raise Wrong(f"{words}, standard error of {size} bytes: {found.text()}")

    def faults(self, journal):
        """Runs that end with each of these words."""
        damaged, gap = journal + "-damaged", journal + "-gap"
        for other, change in ((damaged, "UPDATE entry SET line = 'ste' WHERE no = 1"), (gap, "DELETE FROM entry WHERE no = 1")):
            with contextlib.closing(sqlite3.connect(other, isolation_level=None)) as store:
                store.executescript("CREATE TABLE entry(no INTEGER PRIMARY KEY, line TEXT NOT NULL) STRICT")
                store.executemany("INSERT INTO entry VALUES (?, ?)", enumerate(line.decode() for line in lines_in(journal)))
                store.execute(change)
        return (
            (["--nothing"], b"", {}, USAGE),
            (["--check", journal + "-absent"], b"", {}, STORE),
            (["--check", damaged], b"", {}, (3, b"rollback: damaged 1\n")),
            (["--journal", damaged], b"items\n", {}, (3, b"rollback: damaged 1\n")),
            (["--journal", gap], b"items\n", {}, (3, b"rollback: gap 1\n")),
            (["--journal", journal], b"items\n", {"IN_ROOM": 0}, INPUT),
            ([], b"items\n", {"OUT_ROOM": 0}, OUTPUT),
        )

    @contextlib.contextmanager
    def journal_of(self, title):
        """A file with the journal of this session."""
        with room() as journal:
            commands = self.sessions[title]
            ended_so(self.serve(journal, data_of(commands)), WELL, title)
            yield journal

    # ---- memory

    def memory(self, title, most):
        """Runs of which one request for memory after the other is refused, or some of them, evenly spaced."""
        with self.journal_of(title) as journal:
            for words in (["--help"], ["--version"], ["--nothing"], [], ["--check", journal], ["--journal", journal]):
                whole = ran(self.program, self.memory_library, words, b"items\n")
                if int(whole.calls or 0) == 0:
                    return "left out, for the program has an allocator of its own"
                for number in spaced(int(whole.calls), most):
                    found = ran(self.program, self.memory_library, words, b"items\n", REFUSE=number)
                    is_same = (found.end, found.output) == (whole.end, whole.output)
                    if not is_same and not self.is_refused(words, whole, found):
                        raise Wrong(f"{words}, request {number} for memory refused: {found.text()}")
                    both = f"{self.memory_library}:{self.library}"
                    untold = ran(self.program, both, words, b"items\n", REFUSE=number, ERR_ROOM=0)
                    if untold.end != (found.end[0], b"") or untold.output != found.output:
                        raise Wrong(f"{words}, request {number} for memory refused, and no room on standard error: {untold.text()}")
        return ""

    def is_refused(self, words, whole, found):
        """Whether a run ends as one that is out of memory may. A journal may be refused then, and a line is answered."""
        is_beginning = whole.output.startswith(found.output)
        is_store = found.end == STORE and words[:1] in (["--check"], ["--journal"])
        return is_beginning and (found.end == MEMORY or is_store) or (found.end, found.output) == (WELL, b"no 11\n")


def cases(streams, is_all):
    """Each case with its calls, which may be made in any order."""
    for title, step in STEPS.items():
        commands = streams.sessions[title]
        replies = [command.wanted for command in commands if command.wanted]
        step = 1 if is_all else step
        yield f"{title} in pieces", [("pieces", title, [number]) for number in range(len(PIECES))]
        yield f"{title}, whose input fails", parts("failing_inputs", title, range(0, len(data_of(commands)) + 1, step))
        yield f"{title}, whose output fails", parts("failing_outputs", title, range(0, len(bytes_of(replies)) + 1, step))
        yield f"{title}, given at once, whose output fails", parts("outputs_at_once", title, range(0, len(bytes_of(replies)) + 1, step))
        yield f"{title}, whose output fails once", parts("outputs_once", title, range(1, len(replies) + 1))
    yield "a refused round whose reply has no room", [("refused_rounds", ROUND, range(1, 1000))]
    yield "a file that another process has", [("taken_files", FIRST, None)]
    yield "help, version and a check break off", [("words_out", FIRST, None)]
    yield "standard error breaks off", [("errors_out", FIRST, None)]
    yield "memory is refused", [("memory", FIRST, sys.maxsize if is_all else SIZE)]


def parts(name, title, numbers):
    return [(name, title, numbers[at : at + SIZE]) for at in range(0, len(numbers), SIZE)]
