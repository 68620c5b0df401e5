#!/usr/bin/env python3
"""Compares the plain book of tools/plain_book with the program, by sessions that are drawn at random.

usage: plain_rows.py [--program PATH] [--graph PATH] [--sessions N] [--seed S] [--session I] [--lines L]

tools/drawn.py draws the lines: starts, steps, drives, rounds of workers, undoings, plans, rollbacks, holds, settlements, and lines that are
refused. Both are given each line, and answer the same, but that the plain book doesn't say which fault of a definition it is. At the end
both show each thread, the items and the history alike. Rows of threads that are kept by `threads since` alone are those of all threads.
If rollback_graph can follow (--graph, else the one that the gate leaves), it is fed the same lines, and answers drawn questions of all kinds
as the plain book does: `causes`, `plan`, `why`, `item`, `show`, `list`, `threads`, `log`, `steps`, `find`, and of `explain` whether something
is said, of which state, error and step, and which path picks nothing of what. In one session of fifty it is asked the same about a journal of the
same lines, without following, and answers the same, in JSON and as text.

Session I of seed S is the same each time. The last line is `N passed, M failed`.
"""
import argparse
import json
import os
import random
import subprocess
import sys
import tempfile

sys.dont_write_bytecode = True
from drawn import PROGRAM, Drawer  # noqa: E402: beside this file
from drawn_steps import Difference, Session  # noqa: E402: beside this file
from plain_book.book import JOURNALED, Book, path_of, reason  # noqa: E402: beside this file
from plain_book.following import answered  # noqa: E402: beside this file
from plain_book.questions import answer, thread_row  # noqa: E402: beside this file


GRAPH = os.path.join(os.path.dirname(PROGRAM), "..", "..", "rollback_graph", "out", "rollback_graph")


class Both:
    """The program and the plain book, which are given the same lines."""

    def __init__(self, program):
        self.live, self.book, self.lines, self.rows = Session(program), Book(), [], {}

    @property
    def history(self):
        return [step.name for step in self.book.steps]

    @property
    def shown(self):
        return {name: self.book.ask(f"show {name}")[0] for name in sorted(self.book.threads, key=path_of)}

    def left(self):
        return [step.name for step in self.book.left]

    def take(self, line, followed=None):
        """Gives a line to both. Which steps a round of workers takes is for the program to say."""
        self.lines.append(line)
        before = len(self.book.entries)
        (reply,) = self.live.ask([line])
        if line.startswith("work ") and reply[0].startswith("ok "):
            found = [self.book.ask("step " + name.rsplit("#", 1)[0])[0].split(" ")[1] for name in reply[1:]]
            found.insert(0, f"ok {len(found)}")
        elif line.startswith("work ") and reply == ["no 20"]:
            found = reply
        elif line.startswith("work ") and reply == ["no 21"]:
            found = ["no 21"] if self.book.schema is None else ["ok 0"]
        else:
            found = self.book.ask(line)
        said = ["no 3"] if reply and reply[0].startswith("no 3 ") else reply
        if found != said:
            raise Difference(f"{line}: the program answers {reply}, and the plain book {found}")
        if followed and line and line.split(" ", 1)[0] in ("drive", "work") and found[0].startswith("ok "):
            for name in found[1:]:
                followed.feed("step " + name.rsplit("#", 1)[0], ["ok"])
        elif followed and line and "\udcff" not in line:
            followed.feed(line, found)
        self.follow(before)

    def follow(self, before):
        """Takes over what changed since so many entries. A second question in pages comes to the same."""
        told = answer(self.book, f"threads since {before - 1}") if before else {"gone": [], "threads": []}
        for name in told["gone"]:
            self.rows.pop(name, None)
        rows, after = [], ""
        while before:
            page = answer(self.book, f"threads since {before - 1}{after} most 2")
            rows += page["threads"]
            if not page["more"]:
                break
            after = f" after {rows[-1]['thread']}"
        if rows != told["threads"]:
            raise Difference(f"other pages: {rows}, wanted {told['threads']}")
        self.rows.update((row["thread"], row) for row in rows)
        wanted = {name: thread_row(self.book, name) for name in self.book.threads}
        if self.rows != wanted:
            raise Difference(f"by what changed the threads are {self.rows}, wanted {wanted}")

    def end(self):
        for line in ("items", "history", "held", *(f"show {name}" for name in self.book.threads)):
            self.take(line)
        self.live.close()


class Followed:
    """A follower that is fed what the plain book accepts, and whose answers are compared with the plain book's."""

    def __init__(self, graph):
        self.process = subprocess.Popen([graph, "--serve"], stdin=subprocess.PIPE, stdout=subprocess.PIPE, text=True)
        self.graph, self.compared, self.accepted = graph, 0, []

    def ask(self, line):
        self.process.stdin.write(line + "\n")
        self.process.stdin.flush()
        return self.process.stdout.readline().rstrip("\n")

    def feed(self, line, reply):
        """Gives a line as a journal has it, accepted or refused."""
        wanted = "ok" if reply[0].startswith("ok") else " ".join(reply[0].split(" ")[:2])
        if line.split(" ", 1)[0] not in JOURNALED:
            wanted = "no 20"
        found = self.ask(f"= {line}")
        if found != wanted:
            raise Difference(f"= {line}: the follower answers {found}, and {wanted} is right")
        if wanted == "ok":
            self.accepted.append(line)

    def compare(self, book, question):
        """Asks the follower and the plain book."""
        found = self.ask(f"? {question}")
        wanted = answered(book, f"? {question}")
        if in_any_order(without_unborn(book, json.loads(found))) != in_any_order(json.loads(wanted)):
            raise Difference(f"? {question}: the follower answers\n{found}\nand the plain book\n{wanted}")
        if json.dumps(json.loads(found), separators=(",", ":"), ensure_ascii=False, sort_keys=True) != found:
            raise Difference(f"? {question}: another spelling: {found}")
        self.check_dependents(book, json.loads(found))
        self.compared += 1

    @staticmethod
    def check_dependents(book, answer):
        """That a step has dependents just if a later step depends directly on it, pair by pair."""
        if "dependents" not in answer:
            return
        names = [step.name for step in book.steps]
        at = names.index(answer["step"]["step"])
        direct = {later.name for later in book.steps[at + 1 :] if reason(later, book.steps[at])}
        told = {row["step"] for row in answer["dependents"]}
        if not told <= direct or bool(told) != bool(direct):
            raise Difference(f"{names[at]}: {sorted(told)} are told to depend on it, and {sorted(direct)} do")

    def compare_at_once(self, program, questions):
        """Asks about a journal of the same lines, without following, in JSON and as text."""
        with tempfile.TemporaryDirectory() as folder:
            journal = os.path.join(folder, "journal.db")
            lines = "".join(line + "\n" for line in self.accepted)
            subprocess.run([program, "--journal", journal], input=lines, text=True, stdout=subprocess.DEVNULL, check=True)
            for question in questions:
                head, _, rest = question.partition(" ")
                words = [self.graph, journal, f"--{head}", *([rest] if rest else [])]
                found = subprocess.run([*words, "--json"], capture_output=True, text=True, check=False)
                wanted = self.ask(f"? {question}")
                if json.loads(wanted) == {"error": "no question", "rollback_graph": 1}:
                    if (found.stdout, found.returncode) != ("", 2):
                        raise Difference(f"{question} at once: {found.stdout}, though it is no question")
                    continue
                if found.stdout != wanted + "\n" or found.returncode != ("error" in json.loads(wanted) and "entries" not in json.loads(wanted)):
                    raise Difference(f"{question} at once: {found.stdout} {found.stderr}, the follower answers {wanted}")
                text = json.loads(self.ask(f"? text {question}")).get("text")
                if text is not None and head not in ("list", "plan", "why"):
                    found = subprocess.run(words, capture_output=True, text=True, check=False)
                    if found.stdout != text:
                        raise Difference(f"{question} as text, at once: {found.stdout}, the follower answers {text}")

    def close(self):
        self.process.stdin.close()
        self.process.stdout.close()
        if self.process.wait() != 0:
            raise Difference("the follower ends with a status")


def without_unborn(book, told):
    """An answer without the branches that are named as gone and never were: a rollback of a fork over an empty list names one."""
    if "gone" in told:
        told["gone"] = [name for name in told["gone"] if book.was_there(name)]
    return told


def in_any_order(told):
    """An answer, with the nearest dependences of a step in one order, and only the checked fields of an explanation."""
    if isinstance(told, dict):
        found = {name: in_any_order(value) for name, value in told.items()}
        if isinstance(found.get("on"), list):
            found["on"] = sorted(found["on"], key=lambda on: on["step"])
        if "why" in found and found["why"] is not None:
            names = ("state", "error", "step") + (("path", "of") if found["why"]["case"] in ("picks_nothing", "path") else ())
            found["why"] = {name: found["why"].get(name) for name in names}
        if found.get("to") == "caught":  # a catcher that leads to where the transition does can't be seen
            found["to"] = "next"
        return found
    return [in_any_order(value) for value in told] if isinstance(told, list) else told


def drawn_questions(chance, book):
    """Questions of all kinds about the book as it is."""
    steps = [step.name for step in book.steps] or ["e0#0"]
    threads = sorted(book.threads) or ["e0"]
    keys = sorted({step.access.key for step in book.steps if step.access} | set(book.items))
    some = lambda names: chance.choice(names)  # noqa: E731
    found = ["threads ready", f"threads since {chance.randrange(len(book.entries) + 1)}", f"threads {some(threads)}", "machines"]
    found += [f"causes {some(steps)}", f"causes {some(steps)} writes", f"plan {some(steps)}", f"why {some(steps)} {some(steps)}"]
    found += [f"show {some(steps)}", f"show {some(threads)}", f"show {some(threads).split('/')[0]}", f"explain {some(threads)}"]
    found += ["list", "list failed", "list open", "list done", f"list since {chance.randrange(len(book.entries) + 1)}", "list machine m0"]
    found += ["item", "item most 1", f"log {chance.randrange(len(book.entries) + 2)} {chance.randrange(9)}", "machine m0 definition"]
    found += [f"steps {chance.randrange(len(steps) + 1)} {chance.randrange(5)}", f"find {some(('get', 'E0', 'k1', 'X', 's1 '))}", "nothing"]
    found += paged_questions(chance, some(steps), some(threads), keys)
    return found + [f"item {key}" for key in keys] + [f"explain {thread}" for thread in threads]


def paged_questions(chance, step, thread, keys):
    """Questions for a page of their answers."""
    most = chance.randrange(4)
    found = [f"machines most {most}", f"machines after m0 most {most}", f"list after {thread.split('/')[0]} most {most}"]
    found += [f"show {thread.split('/')[0]} most {most}", f"show {step.split('#')[0].split('/')[0]} after {step} most {most}"]
    found += [f"show {thread} after {step} most {most}", f"show {thread} most", f"show {step} most 1", "item after most 1"]
    if keys:
        key = chance.choice(keys)
        found += [f"item most {most} {key}", f"item after {step} most {most} {key}", f"item after {key} most {most}"]
    return found


def check(program, graph, seed, number, count):
    """Draws a session, and says what differs, if something does."""
    chance = random.Random(f"plain {seed} {number}")
    drawer = Drawer(chance, chance.randrange(count // 2, count + count // 2 + 1), random.Random(f"aside {seed} {number}"))
    asking = random.Random(f"asked {seed} {number}")
    both, followed = Both(program), Followed(graph) if graph else None
    try:
        while (line := drawer.line(both)) is not None:
            both.take(line, followed)
            if followed and asking.random() < 0.15:
                followed.compare(both.book, asking.choice(drawn_questions(asking, both.book)))
        if followed:
            for question in drawn_questions(asking, both.book):
                followed.compare(both.book, question)
            if number % 50 == 0:
                questions = [question for question in drawn_questions(asking, both.book) if question != "nothing"]
                followed.compare_at_once(program, questions)
            followed.close()
        both.end()
    except Difference as difference:
        both.live.process.kill()
        print(f"session {number} of seed {seed}: {difference}")
        print("\n".join("    " + line for line in both.lines))
        return False, len(both.lines)
    return True, len(both.lines)


def follower_of_gate():
    """The rollback_graph that the gate leaves, if it can follow."""
    graph = os.environ.get("ROLLBACK_GRAPH", GRAPH)
    try:
        done = subprocess.run([graph, "--serve"], stdin=subprocess.DEVNULL, capture_output=True, check=False)
    except OSError:
        return None
    return graph if done.returncode == 0 else None


def main():
    parser = argparse.ArgumentParser(description="Compares the plain book with the program, and with a follower.")
    parser.add_argument("--program", default=os.environ.get("ROLLBACK_PROGRAM", PROGRAM))
    parser.add_argument("--graph", help="rollback_graph, whose answers are compared too; that of the gate if it can follow")
    parser.add_argument("--sessions", type=int, default=200)
    parser.add_argument("--seed", type=int, default=1)
    parser.add_argument("--session", type=int)
    parser.add_argument("--lines", type=int, default=60)
    given = parser.parse_args()
    graph = given.graph or follower_of_gate()
    passed = failed = lines = 0
    for number in [given.session] if given.session is not None else range(given.sessions):
        is_same, count = check(given.program, graph, given.seed, number, given.lines)
        passed, failed, lines = passed + is_same, failed + (not is_same), lines + count
    print(f"{lines} lines in drawn sessions" + ("" if graph else "; no rollback_graph here follows, so no answers are compared"))
    print(f"{passed} passed, {failed} failed")
    return 1 if failed or not passed else 0


if __name__ == "__main__":
    sys.exit(main())
