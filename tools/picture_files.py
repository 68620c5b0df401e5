#!/usr/bin/env python3
"""Has pictures written to files, and to a terminal.

usage: picture_files.py [--program PATH] [--graph PATH]

`rollback_graph FILE --dot -o PICTURE` writes what it writes to standard output else, and so does `--html`. If it can't write, or the step of
`--from` doesn't remain, PICTURE stays as it was, and nothing is left beside it. A device is written in place. The journal isn't written over by
any of its names. A terminal gets a picture only with `--force`. Wrong words are refused.

The last line is `N passed, M failed`.
"""
import argparse
import os
import pathlib
import pty
import resource
import shutil
import signal
import subprocess
import sys
import tempfile

TOP = pathlib.Path(__file__).resolve().parent.parent
PROGRAM = TOP / "crates/rollback_program/out/rollback_program"
GRAPH = TOP / "crates/rollback_graph/out/rollback_graph"
LINES = 'table t id:S []\ndefine m {"StartAt":"P","States":{"P":{"Type":"Pass","End":true}}}\nstart e m {}\nstep e\n'


def small_files():
    """Files may have 300 bytes at most."""
    signal.signal(signal.SIGXFSZ, signal.SIG_IGN)
    resource.setrlimit(resource.RLIMIT_FSIZE, (300, 300))


class Trial:
    def __init__(self, graph, journal, room):
        self.graph, self.journal, self.room = graph, journal, room
        self.picture = os.path.join(room, "picture")

    def run(self, *words, before=None):
        done = subprocess.run([self.graph, self.journal, *words], stdin=subprocess.DEVNULL, capture_output=True, preexec_fn=before, check=False)
        return done.returncode, done.stdout, done.stderr

    def on_terminal(self, *words):
        """The status, and what the terminal showed."""
        ours, theirs = pty.openpty()
        process = subprocess.Popen([self.graph, self.journal, *words], stdin=subprocess.DEVNULL, stdout=theirs, stderr=subprocess.PIPE)
        os.close(theirs)
        shown = b""
        try:
            while True:
                part = os.read(ours, 65_536)
                if not part:
                    break
                shown += part
        except OSError:  # the terminal's end
            pass
        os.close(ours)
        said = process.stderr.read()
        return process.wait(), shown, said

    def written(self):
        with open(self.picture, "rb") as file:
            return file.read()

    def beside(self):
        return sorted(os.listdir(self.room))

    # ---- what is tried

    def writes_what_it_shows(self):
        for kind in ("--dot", "--html"):
            shown = self.run(kind)
            assert shown[0] == 0 and shown[1], shown
            assert self.run(kind, "-o", self.picture) == (0, b"", b""), kind
            assert self.written() == shown[1], kind
        assert self.run("-o", self.picture, "--dot", "--from", "e#1") == (0, b"", b"")
        assert self.written() == self.run("--dot", "--from", "e#1")[1]

    def keeps_the_file_if_it_cannot_write(self):
        with open(self.picture, "wb") as file:
            file.write(b"before")
        status, shown, said = self.run("--html", "-o", self.picture, before=small_files)
        assert (status, shown) == (4, b"") and said, (status, said)
        assert self.written() == b"before"
        status, shown, said = self.run("--dot", "-o", os.path.join(self.room, "nowhere", "picture"))
        assert (status, shown) == (4, b"") and said, (status, said)
        assert self.run("--dot", "-o", self.room)[0] == 4

    def keeps_the_file_if_there_is_no_picture(self):
        with open(self.picture, "wb") as file:
            file.write(b"before")
        assert self.run("--dot", "--from", "e#7", "-o", self.picture) == (1, b"e#7 is no remaining step\n", b"")
        assert self.written() == b"before"

    def writes_a_device_in_place(self):
        assert self.run("--dot", "-o", "/dev/null") == (0, b"", b"")
        assert not os.path.isfile("/dev/null")
        assert self.run("--dot", "-o", "/dev/full")[0] == 4

    def spares_the_journal(self):
        link, part = os.path.join(self.room, "link"), self.picture + ".part"
        os.symlink(self.journal, link)
        shutil.copy(self.journal, part)
        names = (self.journal, self.journal + "-wal", part)
        before = {name: pathlib.Path(name).read_bytes() for name in names if os.path.exists(name)}
        for journal, picture in ((self.journal, self.journal), (self.journal, self.journal + "-wal"), (self.journal, link), (part, self.picture)):
            words = [self.graph, journal, "--dot", "-o", picture]
            done = subprocess.run(words, stdin=subprocess.DEVNULL, capture_output=True, check=False)
            assert (done.returncode, done.stdout) == (2, b"") and b"over the journal" in done.stderr, (picture, done)
        assert {name: pathlib.Path(name).read_bytes() for name in names if os.path.exists(name)} == before
        os.remove(link)
        os.remove(part)

    def spares_a_terminal(self):
        status, shown, said = self.on_terminal("--dot")
        assert (status, shown) == (2, b"") and b"-o FILE" in said, (status, shown, said)
        status, shown, said = self.on_terminal("--dot", "--force")
        assert (status, said) == (0, b"") and shown.startswith(b"digraph"), (status, shown, said)
        assert self.on_terminal("--list")[0] == 0

    def refuses_other_words(self):
        for words in (("--dot", "-o"), ("--dot", "-o", "a", "-o", "b"), ("--list", "-o", "a"), ("--list", "--force"), ("--dot", "--html", "-o", "a")):
            assert self.run(*words)[0] == 2, words

    def all(self):
        return [
            self.writes_what_it_shows,
            self.keeps_the_file_if_it_cannot_write,
            self.keeps_the_file_if_there_is_no_picture,
            self.writes_a_device_in_place,
            self.spares_the_journal,
            self.spares_a_terminal,
            self.refuses_other_words,
        ]


def main():
    words = argparse.ArgumentParser(description=__doc__, formatter_class=argparse.RawDescriptionHelpFormatter)
    words.add_argument("--program", default=PROGRAM, metavar="PATH")
    words.add_argument("--graph", default=GRAPH, metavar="PATH")
    words = words.parse_args()
    passed = failed = 0
    with tempfile.TemporaryDirectory() as room:
        journal = os.path.join(room, "journal.db")
        subprocess.run([words.program, "--journal", journal], input=LINES, text=True, capture_output=True, check=True)
        with tempfile.TemporaryDirectory() as own:
            trial = Trial(words.graph, journal, own)
            for part in trial.all():
                try:
                    part()
                    assert trial.beside() in ([], ["picture"]), trial.beside()
                    passed += 1
                except AssertionError as wrong:
                    failed += 1
                    print(f"picture_files: {part.__name__}: {wrong}")
    print(f"{passed} passed, {failed} failed")
    return int(failed > 0)


if __name__ == "__main__":
    sys.exit(main())
