"""The shell without a terminal: lines from a pipe, from words and from scripts."""
import contextlib
import io
import json
import os
import subprocess
import sys
import unittest

from rollback_client import Book
from rollback_client.shell.__main__ import main
from tests.program import PASS, PATIENCE, PROGRAM, TOP, InFolder, Server

DEFINE = "define p " + json.dumps(PASS)
BEGIN = ["table items id:S", DEFINE, "start a p {}", "step a"]
PLAN = ["a rollback of a#0 takes back: 2 steps of 1 execution", "  a  a#1 a#0"]
NOBODY = "nothing was done, since nobody can be asked here: write -y behind the word to do it"


class InShell(InFolder):
    def shell(self, *words, lines=()):
        """The status, the lines written, and what is on standard error."""
        said, errors, before = io.StringIO(), io.StringIO(), (os.getcwd(), sys.stdin)
        sys.stdin = io.StringIO("".join(line + "\n" for line in lines))
        os.chdir(self.room)
        try:
            with contextlib.redirect_stdout(said), contextlib.redirect_stderr(errors):
                status = main(["--program", PROGRAM, *words])
        except SystemExit as end:
            status = end.code
        finally:
            sys.stdin = before[1]
            os.chdir(before[0])
        return status, said.getvalue().splitlines(), errors.getvalue()

    def said(self, *lines):
        """What is written for lines behind those of the beginning."""
        status, said, errors = self.shell(lines=[*BEGIN, *lines])
        self.assertEqual(errors, "")
        self.assertEqual(said[:2], ["the book begins with the table items", "the machine p is defined"])
        self.assertEqual(said[2:4], ["a is started (a#0)", "a#1 is taken, a plain step"])
        return status, said[4:]

    def write(self, name, text):
        with open(self.path(name), "w", encoding="utf-8") as stream:
            stream.write(text)


class Replies(InShell):
    def test_looking(self):
        status, said = self.said("show a", "history", "plan a#0", "held", "items", "list")
        self.assertEqual(status, 0)
        table = ["execution  status  steps  where", "a          done    2      7", "1 execution with steps that remain"]
        self.assertEqual(
            said,
            [
                "a is done, with the output 7",
                "a#0",
                "a#1",
                "2 steps remain",
                *PLAN,
                "nothing is held",
                "0 items",
                *table,
            ],
        )

    def test_frames(self):
        fork = {"StartAt": "S", "States": {"S": {"Type": "Parallel", "End": True, "Branches": [PASS, PASS]}}}
        fail = {"StartAt": "F", "States": {"F": {"Type": "Fail", "Error": "E", "Cause": "why"}}}
        lines = [
            "define s " + json.dumps(fork),
            "define f " + json.dumps(fail),
            "start b s {}",
            "show b",
            "step b",
            "show b",
        ]
        _, said = self.said(*lines, "step b/1.1", "start c f {}", "step c", "show c", "list", "plan b#0")
        self.assertIn("b is before the state S, after 0 moves", said)
        self.assertIn("b waits for its 2 branches in the state S, after 1 move: b/1.0, b/1.1", said)
        self.assertIn("c has failed with E: why", said)
        self.assertIn("b          open    3      in S, waits for its 2 branches", said)
        self.assertIn("c          failed  2      E: why", said)
        self.assertEqual(said[-2:], ["a rollback of b#0 takes back: 3 steps of 1 execution", "  b  b/1.1#1 b#1 b#0"])

    def test_a_plan_is_grouped_by_execution(self):
        put = {"TableName": "items", "Item": {"id": {"S": "k"}}}
        task = {"Type": "Task", "Resource": "arn:aws:states:::dynamodb:putItem", "Parameters": put, "End": True}
        machine = json.dumps({"StartAt": "C", "States": {"C": task}})
        _, said = self.said(f"define w {machine}", "start x w {}", "start y w {}", "step x", "step y", "plan x#0")
        self.assertEqual(
            said[-3:], ["a rollback of x#0 takes back: 3 steps of 2 executions", "  y  y#1", "  x  x#1 x#0"]
        )

    def test_items_are_a_table(self):
        items = (
            '[{"id":{"S":"b"},"n":{"N":"1.50"},"more":{"L":[{"S":"x"},{"NULL":true}]}},{"id":{"S":"a"},"n":{"N":"2"}}]'
        )
        status, said, _ = self.shell(lines=[f"table items id:S {items}", "items"])
        self.assertEqual(said[1:], ["id  n    more", "a   2", 'b   1.5  ["x",null]', "2 items"])

    def test_changes_are_asked_about(self):
        for line in ("rollback a#0", "hold a#0", "settle"):
            status, said = self.said(line, "history")
            self.assertEqual((status, said[-4:]), (1, [NOBODY, "a#0", "a#1", "2 steps remain"]), line)
        self.assertEqual(self.said("rollback a#0")[1], [*PLAN, NOBODY])

    def test_a_yes_behind_the_word(self):
        status, said = self.said("rollback -y a#1", "hold -y a#0", "held", "undo a#0", "history", "settle -y")
        self.assertEqual(
            (status, said),
            (
                0,
                [
                    "taken back: 1 step of 1 execution",
                    "  a  a#1",
                    "1 step held: undo them one by one, in the order of held",
                    "left of the hold: 1 step of 1 execution",
                    "  a  a#0",
                    "a#0 is taken back",
                    "0 steps remain",
                    "all steps that remained are settled",
                ],
            ),
        )

    def test_long_work_lists_its_steps(self):
        loop = json.dumps({"StartAt": "A", "States": {"A": {"Type": "Pass", "Next": "A"}}})
        status, said = self.said(f"define l {loop}", "start z l {}", "drive 600", "work 2 600")
        self.assertEqual(said[3:603], [f"z#{number}" for number in range(1, 601)])
        self.assertEqual(said[603], "600 steps taken")
        self.assertTrue(said[-1].endswith(" taken"), said[-1])
        self.assertEqual(self.said("drive 5")[1], ["no step taken: nothing can move now, but for what a hold stops"])

    def test_raw(self):
        lines = [*BEGIN, "show a", "show b", "plan a#0", "rollback a#0", "rollback -y a#0", "define q {}", "work 1 1"]
        status, said, _ = self.shell("--raw", lines=lines)
        plan = ["ok 2", "a#1", "a#0"]
        nobody = [*plan, NOBODY]
        self.assertEqual(status, 1)
        self.assertEqual(
            said,
            [
                "ok",
                "ok",
                "ok a#0",
                "ok a#1 plain",
                "ok done 7",
                "no 5",
                *plan,
                *nobody,
                *plan,
                'no 3 1 "StartAt"',
                "ok 0",
            ],
        )


class Refusals(InShell):
    def test_in_words(self):
        wanted = (
            ("start b q {}", "there is no machine q: define it first"),
            ("start b pp {}", "there is no machine pp (did you mean p?): define it first"),
            (DEFINE, "there is a machine p: take another name, since a machine can't be changed or removed"),
            ("start a p {}", "there is an execution a: take another name, or roll back a#0 if all of it is wrong"),
            ("show zz", "there is no thread zz: look at history"),
            ("show aa", "there is no thread aa (did you mean a?): look at history"),
            ("step a", "a is done and has no step left: show a has its output"),
            ("undo a#7", "no step a#7 remains (did you mean a#1?): it was taken back, or never taken: look at history"),
            ("undo a#0", "a#1 depends on a#0: undo a#1 first, or see plan a#0 and roll it back"),
            ("table items id:S", "the book has its table: go on: a book has one table"),
            ("shwo a", "there is no command shwo (did you mean show?): help lists them"),
            ("drive 0", "the number of steps is from 1 to 65536, and not 0"),
            ("drive 65537", "the number of steps is from 1 to 65536, and not 65537"),
            ("drive x", "the number of steps is a whole number from 1 to 65536, and not x"),
            ("work 9 1", "the number of workers is from 1 to 8, and not 9"),
            ("undo a", "a step is a thread, # and a number, as order-1#3, and not 'a'"),
            ("show", "this command has 1 word, and no words were given: write show THREAD"),
            ("start b p", "the input is missing: write it as JSON, or @ and a file's name"),
            (
                "start b p @none.json",
                "the file none.json can't be read: No such file or directory: look at its name and its rights",
            ),
            (
                "start b p {x}",
                "the input, line 1, column 2: a field's name is due here, and not 'x': look for a quote or a comma that is missing before it",
            ),
            (
                'start b p {"x":0.5}',
                "the input, line 1, column 6: the number 0.5 isn't whole, or doesn't fit 64 bits: write it as a text",
            ),
        )
        status, said = self.said(*(line for line, _ in wanted))
        self.assertEqual((status, said), (1, [words for _, words in wanted]))

    def test_before_a_table(self):
        _, said, _ = self.shell(lines=["history", 'table items id:S [{"id":{"N":"1"}}]', "table items id"])
        self.assertEqual(
            said,
            [
                "there is no table yet: begin the book, as by: table orders id:S []",
                "the table can't begin: an item's key is of another type: correct the items",
                "a table has a name and a key: write table NAME KEY:TYPE [KEY:TYPE] [JSON | @FILE], a type is S or N",
            ],
        )

    def test_under_a_hold(self):
        _, said = self.said("hold -y a#1", "undo a#1", "hold -y a#0", "step a", "hold -y a#0", "settle -y")
        self.assertEqual(
            said[-3:],
            [
                "a needs a#0, which is held: see held, and undo what is left, or go on with other threads",
                "a#0 is held, and there is one hold at a time: undo what is left of it, or roll back a#0",
                "a#0 is held, and there is one hold at a time: undo what is left of it, or roll back a#0",
            ],
        )

    def test_of_what_is_settled(self):
        _, said = self.said("settle -y", "undo a#1")
        self.assertEqual(said[-1], "a#1 is settled and can't be taken back: put right what it did by new steps")

    def test_a_refused_definition_shows_all_its_faults(self):
        self.write(
            "m.asl.json",
            '{\n  "StartAt": "A",\n  "States": {\n    "A": {"Type": "Pass", "Result": 0.5, "Next": "B"}\n  }\n}\n',
        )
        status, said = self.said("define m @m.asl.json", "define m {", '"StartAt":"A"}')
        line = '     4 | "A": {"Type": "Pass", "Result": 0.5, "Next": "B"}'
        self.assertEqual(status, 1)
        self.assertEqual(said[1], line)
        self.assertEqual(said[3], line)
        self.assertTrue(said[0].startswith("error: States.A.Result (line 4): "), said[0])
        self.assertTrue(said[2].startswith("error: States.A.Next (line 4): no state B at this level"), said[2])
        self.assertTrue(
            said[4].startswith("the definition of m.asl.json is refused, so there is no machine m (2 errors"), said[4]
        )
        self.assertTrue(said[-1].startswith("the definition is refused, so there is no machine m (1 error"), said[-1])

    def test_a_file_that_is_no_json(self):
        self.write("m.asl.json", '{"StartAt": "A",\n "States": {},}')
        _, said = self.said("define m @m.asl.json")
        self.assertTrue(said[0].startswith("error: the definition (line 2): a comma before '}'"), said[0])

    def test_bytes_that_are_no_utf8(self):
        command = [sys.executable, "-m", "rollback_client.shell", "--program", PROGRAM]
        around = {**os.environ, "PYTHONPATH": str(TOP / "clients/python")}
        done = subprocess.run(
            command, input=b"show \xff\nhistory\n", capture_output=True, timeout=PATIENCE, check=False, env=around
        )
        self.assertEqual((done.returncode, done.stderr), (1, b""))
        self.assertEqual(len(done.stdout.splitlines()), 2)

    def test_a_pipe(self):
        command = [sys.executable, "-m", "rollback_client.shell", "--program", PROGRAM]
        around = {**os.environ, "PYTHONPATH": str(TOP / "clients/python")}
        text = "".join(line + "\n" for line in [*BEGIN, "show a"])
        done = subprocess.run(
            command, input=text, capture_output=True, text=True, timeout=PATIENCE, check=False, env=around
        )
        self.assertEqual((done.returncode, done.stderr), (0, ""))
        self.assertEqual(done.stdout.splitlines()[-1], "a is done, with the output 7")

    def test_what_is_not_there_yet(self):
        for word in ("causes a#1", "item k", "explain a", "log", "pause", "resume", "waits"):
            status, said = self.said(word)
            self.assertEqual(status, 1)
            self.assertIn(f"so there is no {word.split()[0]} here", said[-1])


class Texts(InShell):
    def test_json_over_several_lines(self):
        lines = [
            "table items id:S [",
            "]",
            "define p {",
            *json.dumps(PASS, indent=1).splitlines()[1:],
            "start a p {",
            '"x":"{"',
            "}",
            "step a",
        ]
        status, said, _ = self.shell(lines=lines)
        self.assertEqual(said[-1], "a#1 is taken, a plain step")
        self.assertEqual(status, 0)

    def test_json_that_does_not_end(self):
        status, said, _ = self.shell(lines=["table items id:S", "define p {", '"a":'])
        self.assertEqual((status, said[-1]), (1, "the definition isn't whole: close its brackets"))

    def test_files(self):
        self.write("items.json", '[\n {"id": {"S": "k"}}\n]\n')
        self.write("m.asl.json", json.dumps(PASS, indent=2))
        self.write("input.json", '{\n "text": "two  blanks"\n}')
        task = {"Type": "Succeed"}
        self.write("s.asl.json", json.dumps({"StartAt": "A", "States": {"A": task}}, indent=2))
        lines = [
            "table items id:S @items.json",
            "define p @m.asl.json",
            "define s @s.asl.json",
            "start a s @input.json",
            "step a",
            "show a",
            "items",
        ]
        status, said, _ = self.shell(lines=lines)
        self.assertEqual(status, 0)
        self.assertIn('  "text": "two  blanks"', said)
        self.assertEqual(said[-3:], ["id", "k", "1 item"])

    def test_a_long_line(self):
        status, said = self.said("start b p " + json.dumps("x" * 200_000), "start c p " + json.dumps("x" * 1_100_000))
        self.assertEqual(said[0], "b is started (b#0)")
        self.assertEqual(said[1], "the line has more than 1048576 bytes: give it less text")


class Scripts(InShell):
    def test_it_stops_at_the_first_refusal(self):
        self.write("s.txt", "show a\n# a comment\n\nshow b\nhistory\n")
        status, said = self.said("script s.txt", "show a")
        shown = ["> show a", "a is done, with the output 7", "> # a comment", "> ", "> show b"]
        refused = [
            "there is no thread b: look at history",
            "the script s.txt was stopped at this line: the lines before it are done",
        ]
        self.assertEqual((status, said), (1, [*shown, *refused, "a is done, with the output 7"]))

    def test_it_keeps_going(self):
        self.write("s.txt", "show b\nstart b p {\n}\n")
        status, said = self.said("script --keep-going s.txt")
        shown = ["> show b", "there is no thread b: look at history", "> start b p {", "> }", "b is started (b#0)"]
        self.assertEqual((status, said), (1, shown))

    def test_nothing_is_asked(self):
        self.write("s.txt", "rollback a#0\n")
        self.assertEqual(self.said("script s.txt")[1][:4], ["> rollback a#0", *PLAN, NOBODY])

    def test_scripts_within_each_other_have_a_bound(self):
        self.write("s.txt", "script s.txt\n")
        status, said = self.said("script s.txt")
        self.assertEqual(status, 1)
        self.assertIn("scripts run each other more than 8 deep", said)

    def test_a_script_may_end_the_shell(self):
        self.write("s.txt", "exit\nshow a\n")
        self.assertEqual(self.said("script s.txt", "show b"), (0, ["> exit"]))


class Words(InShell):
    def test_lines_as_words(self):
        status, said, errors = self.shell("-c", *BEGIN, "show a")
        self.assertEqual((status, said[-1], errors), (0, "a is done, with the output 7", ""))
        self.assertEqual(self.shell("-c", "show a")[0], 1)

    def test_exit_and_quit(self):
        for word in ("exit", "quit"):
            self.assertEqual(self.shell(lines=[word, "show a"]), (0, [], ""))

    def test_help(self):
        status, said, _ = self.shell(lines=["help", "help drive", "help hold", "help nothing"])
        for word in (
            "table",
            "define",
            "start",
            "step",
            "drive",
            "work",
            "plan",
            "rollback",
            "undo",
            "settle",
            "hold",
            "held",
        ):
            self.assertTrue([line for line in said if line.startswith(f"  {word} ")], word)
        self.assertIn(
            "  K is from 1 to 65536. Ctrl-C stops between pieces of 256 steps; what was taken stays taken.", said
        )
        self.assertIn("  A hold ends only when its own step is taken back.", said)
        self.assertEqual(status, 1)

    def test_faulty_words(self):
        for words in (["--journal", "a.db", "socket"], ["--nothing"]):
            self.assertEqual(self.shell(*words)[0], 2)


class Places(InShell):
    def test_a_journal(self):
        self.assertEqual(self.shell("--journal", "a.db", lines=BEGIN)[0], 0)
        self.assertEqual(self.shell("--journal", "a.db", "-c", "show a")[1], ["a is done, with the output 7"])

    def test_a_journal_that_can_not_be_opened(self):
        held = Book.open(self.path("held.db"), PROGRAM)
        self.addCleanup(held.close)
        held.table("items", {"id": "S"})
        self.write("text.db", "a text, and no database, of more than a few bytes")
        folder = os.path.join(os.path.realpath(self.room), "none")
        for journal, why in (
            ("none/a.db", f"there is no folder {folder}"),
            (self.room, f"{self.room} is a folder"),
            ("held.db", "held.db is in use by another process"),
            ("text.db", "text.db is no journal: it is no SQLite database"),
        ):
            status, said, errors = self.shell("--journal", journal, lines=["history"])
            self.assertEqual((status, said), (1, []))
            self.assertEqual(errors, f"rollback-shell: the program has ended with status 3: {why}\n")

    @unittest.skipIf(os.geteuid() == 0, "whoever is root has every right")
    def test_a_journal_without_a_right(self):
        self.write("a.db", "")
        os.chmod(self.path("a.db"), 0)
        status, _, errors = self.shell("--journal", "a.db", lines=["history"])
        self.assertEqual(status, 1)
        self.assertIn("there is no right to read and write a.db", errors)

    def test_no_program_and_no_server(self):
        for words in (["--program", "none/rollback"], ["socket"], ["127.0.0.1:1"]):
            status, said, errors = self.shell(*words, lines=["history"])
            self.assertEqual((status, said), (1, []))
            self.assertTrue(errors.startswith("rollback-shell: "), errors)

    def test_a_server(self):
        server = Server(self.room)
        self.addCleanup(server.end)
        self.assertEqual(self.shell(server.address, lines=BEGIN)[0], 0)
        self.assertEqual(self.shell(server.address, "-c", "show a")[1], ["a is done, with the output 7"])


if __name__ == "__main__":
    unittest.main()
