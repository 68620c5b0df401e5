"""The shell at a pseudo-terminal: prompts, history, completion, questions, and Ctrl-C."""
import json
import os
import stat
import sys
import unittest

from rollback_client import Book
from tests.program import PASS, PROGRAM, TOP, InFolder, Server
from tests.pseudo_terminal import CONTROL_C, CONTROL_D, CONTROL_U, TAB, UP, PseudoTerminal

PROMPT, MORE = "rollback> ", "     ... "
BEGIN = ["table items id:S", "define p " + json.dumps(PASS), "start a p {}", "step a"]


class AtTerminal(InFolder):
    def open(self, *words, columns=100, **environment):
        """A shell at its first prompt."""
        places = words if words else ("--program", PROGRAM)
        command = [sys.executable, "-m", "rollback_client.shell", *places]
        around = {"PYTHONPATH": str(TOP / "clients/python"), **environment}
        terminal = PseudoTerminal(command, self.room, columns, **around)
        self.addCleanup(terminal.close)
        terminal.expect(PROMPT)
        return terminal

    def give(self, terminal, line):
        """What is written for a line, without the line itself."""
        terminal.send(line + "\r")
        return terminal.expect(PROMPT).partition("\n")[2].rstrip("\n")

    def interrupt(self, terminal, text):
        """Presses Ctrl-C, waits for a text, and then for a prompt behind which nothing is shown."""
        terminal.interrupt(text)
        terminal.send("help exit\r")
        terminal.expect("  ends the shell\n")
        terminal.expect(PROMPT)

    def begun(self, *words, **more):
        terminal = self.open(*words, **more)
        for line in BEGIN:
            self.give(terminal, line)
        return terminal


class Lines(AtTerminal):
    def test_a_session(self):
        terminal = self.begun()
        self.assertEqual(self.give(terminal, "show a"), "a is done, with the output 7")
        self.assertEqual(self.give(terminal, "show b"), "there is no thread b: look at history")
        terminal.send("exit\r")
        self.assertEqual(terminal.ended(), 0)

    def test_control_d_ends_it(self):
        terminal = self.open()
        terminal.send(CONTROL_D)
        self.assertEqual(terminal.ended(), 0)

    def test_control_c_drops_what_was_typed(self):
        terminal = self.begun()
        terminal.send("nonsense")
        terminal.expect("nonsense")
        self.interrupt(terminal, PROMPT)
        self.assertEqual(self.give(terminal, "history"), "a#0\na#1\n2 steps remain")
        terminal.send("start b p {\r")
        terminal.expect(MORE)
        terminal.send('"x":')
        terminal.expect('"x":')
        self.interrupt(terminal, PROMPT)
        self.assertEqual(self.give(terminal, "history"), "a#0\na#1\n2 steps remain")

    def test_json_over_several_lines_has_a_prompt_of_its_own(self):
        terminal = self.begun()
        for line in ("start b p", "{", '"x": [1,'):
            terminal.send(line + "\r")
            terminal.expect(MORE)
        self.assertEqual(self.give(terminal, "2]}"), "b is started (b#0)")

    def test_a_paste_of_more_than_a_terminal_keeps(self):
        terminal = self.begun()
        text = json.dumps({"x": "y" * 20_000})
        terminal.send(f"start b p {text}\r")
        terminal.expect("b is started (b#0)")
        terminal.expect(PROMPT)
        # as terminals mark what is pasted
        pasted = json.dumps({"x": ["z" * 90] * 100}, indent=1)
        terminal.send(f"\x1b[200~start c p {pasted}\x1b[201~\r")
        terminal.expect("c is started (c#0)")

    def test_a_refused_definition_shows_the_lines_of_its_file(self):
        with open(self.path("m.asl.json"), "w", encoding="utf-8") as stream:
            stream.write('{"StartAt": "A",\n "States": {\n  "A": {"Type": "Pass", "Result": 0.5, "Next": "A"}}}\n')
        terminal = self.begun()
        said = self.give(terminal, "define m @m.asl.json")
        self.assertIn("error: States.A.Result (line 3): ", said)
        self.assertIn('     3 | "A": {"Type": "Pass", "Result": 0.5, "Next": "A"}}}', said)


class Remembered(AtTerminal):
    def test_lines_are_remembered_in_a_file_of_ones_own(self):
        terminal = self.open()
        self.give(terminal, "help step")
        terminal.send("exit\r")
        self.assertEqual(terminal.ended(), 0)
        about = os.stat(self.path(".rollback_history"))
        self.assertEqual(stat.S_IMODE(about.st_mode), 0o600)
        again = self.open()
        again.send(UP + UP + "\r")
        self.assertIn("step THREAD", again.expect(PROMPT))


class Completed(AtTerminal):
    def completed(self, terminal, typed, wanted):
        """A word that is the only one comes with a blank."""
        terminal.send(typed + TAB)
        terminal.expect(wanted)
        terminal.send(CONTROL_U)

    def test_words(self):
        terminal = self.begun()
        with open(self.path("order.asl.json"), "w", encoding="utf-8") as stream:
            stream.write("{}")
        self.completed(terminal, "sett", "settle ")
        self.completed(terminal, "step ", "step a ")
        self.completed(terminal, "undo a#1", "undo a#1 ")
        self.completed(terminal, "start b ", "start b p ")
        self.completed(terminal, "define o @ord", "define o @order.asl.json ")
        self.completed(terminal, "help drv", "help drv")
        self.completed(terminal, "help dri", "help drive ")
        # what all have in common comes first, and then the list
        terminal.send("undo " + TAB)
        terminal.expect("undo a#")
        terminal.send(TAB + TAB)
        terminal.expect("a#0")
        terminal.expect("a#1")


class Asked(AtTerminal):
    PLAN = "a rollback of a#0 takes back: 2 steps of 1 execution\n  a  a#1 a#0\ntake back 2 steps? [y/N] "

    def test_an_empty_answer_is_no(self):
        terminal = self.begun()
        for answer in ("", "n", "what"):
            terminal.send("rollback a#0\r")
            self.assertEqual(terminal.expect("[y/N] ").partition("\n")[2] + "[y/N] ", self.PLAN)
            self.assertIn("nothing was done", self.give(terminal, answer))
        terminal.send("rollback a#0\r")
        terminal.expect("[y/N] ")
        self.interrupt(terminal, "nothing was done")
        self.assertEqual(self.give(terminal, "history"), "a#0\na#1\n2 steps remain")

    def test_yes(self):
        terminal = self.begun()
        terminal.send("rollback a#1\r")
        terminal.expect("take back 1 step? [y/N] ")
        self.assertIn("1 step taken back", self.give(terminal, "y"))
        terminal.send("hold a#0\r")
        terminal.expect("hold 1 step? [y/N] ")
        self.assertIn("1 step held", self.give(terminal, "yes"))
        self.give(terminal, "undo a#0")
        self.give(terminal, "start b p {}")
        terminal.send("settle\r")
        terminal.expect("settle 1 step for good? [y/N] ")
        self.assertIn("all steps that remained are settled", self.give(terminal, "y"))

    def test_a_yes_behind_the_word(self):
        terminal = self.begun()
        self.assertEqual(self.give(terminal, "rollback -y a#0"), "taken back: 2 steps of 1 execution\n  a  a#1 a#0")

    def test_a_plan_that_has_grown_is_asked_again(self):
        server = Server(self.room)
        self.addCleanup(server.end)
        terminal = self.open(server.address)
        for line in BEGIN[:-1]:
            self.give(terminal, line)
        terminal.send("rollback a#0\r")
        terminal.expect("take back 1 step? [y/N] ")
        with Book.connect(server.address) as other:
            other.step("a")
        terminal.send("y\r")
        terminal.expect("there are more by now:")
        terminal.expect("  a  a#1 a#0\ntake back 2 steps? [y/N] ")
        self.assertIn("2 steps taken back", self.give(terminal, "y"))

    def test_a_script_asks_nothing(self):
        terminal = self.begun()
        with open(self.path("s.txt"), "w", encoding="utf-8") as stream:
            stream.write("rollback a#0\n")
        self.assertIn("nobody can be asked here", self.give(terminal, "script s.txt"))


class LongWork(AtTerminal):
    def slow(self):
        """A shell at a program that takes its time."""
        place = self.path("slow")
        with open(place, "w", encoding="utf-8") as stream:
            stream.write(f"#!{sys.executable}\n" + (TOP / "clients/python/tests/slow_program.py").read_text())
        os.chmod(place, 0o700)
        return self.open("--program", place)

    def test_control_c_stops_between_pieces(self):
        terminal = self.slow()
        for line in ("drive 65536", "work 8 65536"):
            terminal.send(line + "\r")
            terminal.expect(" a second")
            # the second piece is with the program, and is answered once Ctrl-C has come
            terminal.until(lambda: os.path.exists(self.path("asked")))
            terminal.send(CONTROL_C)
            terminal.expect("^C")
            with open(self.path("go"), "w", encoding="utf-8"):
                pass
            said = terminal.expect(PROMPT)
            self.assertIn("and 492 more\nstopped: 512 steps taken, which stay taken\n", said)
            # the session goes on
            self.assertEqual(self.give(terminal, "history"), "0 steps remain")

    def test_a_second_control_c_breaks_a_line_off(self):
        terminal = self.slow()
        terminal.send("items\r")
        terminal.until(lambda: os.path.exists(self.path("asked")))
        self.interrupt(terminal, "the line was broken off")
        self.assertEqual(self.give(terminal, "history"), "0 steps remain")

    def test_twenty_steps_are_listed_and_all_are_counted(self):
        terminal = self.begun()
        loop = {"StartAt": "A", "States": {"A": {"Type": "Pass", "Next": "A"}}}
        self.give(terminal, "define l " + json.dumps(loop))
        self.give(terminal, "start z l {}")
        wanted = [*(f"z#{number}" for number in range(1, 21)), "and 580 more", "600 steps taken"]
        said = self.give(terminal, "drive 600").split("\n")
        # what shows how far it is is cleared, and so it is before a line
        self.assertEqual([line.rpartition("a second")[2] for line in said], wanted)
        self.assertEqual(self.give(terminal, "drive 2"), "z#601\nz#602\n2 steps taken")


class Shown(AtTerminal):
    def test_colour(self):
        for environment, has_colour in (({}, True), ({"NO_COLOR": "1"}, False), ({"TERM": "dumb"}, False)):
            terminal = self.open(**environment)
            self.give(terminal, "show a")
            self.assertEqual(b"\x1b[31m" in terminal.raw, has_colour, environment)

    def test_tables_are_as_wide_as_the_terminal(self):
        terminal = self.open(columns=60)
        items = [{"id": {"S": "k" * 100}, "note": {"S": "n" * 100}, "n": {"N": "1"}}]
        self.give(terminal, "table items id:S " + json.dumps(items))
        said = self.give(terminal, "items").split("\n")
        self.assertEqual(len(said), 3)
        self.assertEqual(max(map(len, said)), 60)
        self.assertTrue(said[0].startswith("id"), said)

    def test_a_server_that_is_gone(self):
        server = Server(self.room)
        terminal = self.begun(server.address)
        server.end()
        said = self.give(terminal, "start b p {}")
        self.assertIn("whether this command is done isn't known, so look at history: start b p {}", said)
        self.assertIn("no server at", self.give(terminal, "history"))
        again = Server(self.room)
        self.addCleanup(again.end)
        self.assertEqual(self.give(terminal, "history"), "a#0\na#1\n2 steps remain")


if __name__ == "__main__":
    unittest.main()
