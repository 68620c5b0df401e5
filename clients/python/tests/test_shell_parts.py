"""Parts of the shell by themselves: tables, JSON over several lines, names that nearly fit, and a server that goes."""
import io
import json
import os
import signal
import unittest
from unittest import mock

from rollback_client.faults import refusal_of
from rollback_client.shell import Output, Place, Session, Shell
from rollback_client.shell.__main__ import COMMANDS
from rollback_client.shell.looking import cell
from rollback_client.shell.output import columns_of, laid_out
from rollback_client.shell.reading import Brackets, one_line
from rollback_client.shell.refusing import Names, explained, meant
from rollback_client.shell.undoing import grouped
from tests.program import PASS, PATIENCE, PROGRAM, InFolder, Server, follower


class Tables(unittest.TestCase):
    def test_columns_are_as_wide_as_what_is_in_them(self):
        self.assertEqual(laid_out(["a", "bb"], [["1", "2"], ["333", ""]], None), ["a    bb", "1    2", "333"])

    def test_a_table_fits_its_width(self):
        rows = [["k" * 50, "short", "n" * 30], ["\u4e2d" * 40, "x\ny", ""]]
        for width in range(20, 140):
            for line in laid_out(["key", "value", "note"], rows, width)[:3]:
                self.assertLessEqual(columns_of(line), width)

    def test_columns_that_find_no_room_are_named(self):
        heads = [f"column{number}" for number in range(10)]
        lines = laid_out(heads, [["x" * 20] * 10], 40)
        self.assertEqual(len(lines), 3)
        self.assertIn("(left out: column4, ", lines[2])

    def test_cells(self):
        for value, wanted in (
            ({"S": "a b"}, "a b"),
            ({"N": "1.5"}, "1.5"),
            ({"BOOL": True}, "true"),
            ({"NULL": True}, "null"),
            ({"SS": ["a", "b"]}, '["a","b"]'),
            ({"M": {"x": {"L": [{"N": "1"}]}}}, '{"x":["1"]}'),
        ):
            self.assertEqual(cell(value), wanted)


class Texts(unittest.TestCase):
    def test_what_goes_on_in_the_next_line(self):
        for text in ("{", '{"a":[1,', '{"a":"}",', "[\n", '{"a":"\\"{",', "{\n}\n{"):
            self.assertTrue(self.are_open(text), text)
        for text in ("{}", "7", '"{"', "", '{"a":"x', "}", '{"a":1}}', "{\n[\n]\n}", '{"a\n'):
            self.assertFalse(self.are_open(text), text)

    def are_open(self, text):
        brackets = Brackets()
        for line in text.split("\n"):
            brackets.add(line)
        return brackets.are_open

    def test_one_line_has_the_same_value(self):
        value = {"a b": ["x  y", 'q"\\ \t', {"n": -1, "é": None}], "": {}}
        line = one_line(json.dumps(value, indent=3).replace("\n", "\r\n"))
        self.assertEqual(line, json.dumps(value, separators=(",", ":")))

    def test_names_that_nearly_fit(self):
        self.assertEqual(meant("ordr-1", ["order-1", "billing-7"]), " (did you mean order-1?)")
        self.assertEqual(meant("x", ["order-1"]), "")

    def test_refusals_of_a_cluster(self):
        nobody = Names(lambda: (), lambda: ())
        for detail, part in (
            ("leader 10.0.0.2:7070", "rollback-shell 10.0.0.2:7070"),
            ("election", "no server leads now"),
            ("quorum", "members of etcd"),
            ("space", "quota"),
            ("other", "other"),
        ):
            said = str(explained(refusal_of(f"no 40 {detail}", "step a"), "step a", nobody))
            self.assertIn(part, said)
            self.assertNotIn("no 40", said)

    def test_groups_keep_the_order(self):
        self.assertEqual(grouped(["b#1", "a/1.0#2", "b#0", "a#0"]), {"b": ["b#1", "b#0"], "a": ["a/1.0#2", "a#0"]})


class OfFile(InFolder):
    """Questions of a shell that has the program on a journal's file: rollback_graph answers them, of the file that is open."""

    def setUp(self):
        super().setUp()
        self.journal, self.written = self.path("orders.db"), io.StringIO()

    def shell(self, journal, graph=True):
        """A shell whose program has rollback_graph beside it, or none."""
        program = self.path("rollback")
        os.symlink(PROGRAM, program)
        if graph:
            os.symlink(follower(), self.path("rollback_graph"))
        found = Shell(Session(Place(program, journal=journal)), Output(self.written), COMMANDS)
        self.addCleanup(found.session.close)
        for line in ("table items id:S []", f"define p {json.dumps(PASS)}", "start a p {}", "step a"):
            self.assertTrue(found.line(line))
        return found

    def said(self, shell, line):
        """Whether a line is done, and what is said then."""
        before = len(self.written.getvalue())
        return shell.line(line), self.written.getvalue()[before:]

    def test_each_is_answered(self):
        shell = self.shell(self.journal)
        for line, part in (
            ("causes a#1", "a#1 depends on 1 step"),
            ("causes a#1 writes", "a#1 depends on 1 step that wrote an item, or started an execution"),
            ("list done", "executions: 1 done, 0 failed, 0 open"),
            ("list machine p", "executions: 1 done, 0 failed, 0 open"),
            ("explain a", "nothing of a fails"),
            ("log", "define p"),
        ):
            is_done, said = self.said(shell, line)
            self.assertTrue(is_done, said)
            self.assertIn(part, said)
        self.assertTrue(shell.line("start b p {}"))
        self.assertIn("1 done, 0 failed, 1 open", self.said(shell, "list open")[1])  # the file is read anew
        for line in ("causes b#7", "item nothing", "explain nobody"):
            self.assertFalse(self.said(shell, line)[0])

    def test_without_a_file_or_a_program_that_answers(self):
        for journal, part in ((None, "keep the book in a journal"), (self.journal, "rollback_graph answers it")):
            for path in ("rollback", "rollback_graph"):
                if os.path.lexists(self.path(path)):
                    os.unlink(self.path(path))
            with mock.patch.dict(os.environ, {"PATH": self.room}):
                shell = self.shell(journal, graph=journal is None)
                with mock.patch("rollback_client.server.follower.graph_beside", side_effect=ValueError):
                    is_done, said = self.said(shell, "causes a#1 writes")
            self.assertFalse(is_done)
            self.assertIn(part, said)
            self.assertIn("--causes a#1 --writes" if journal else "answers no questions", said)


class Going(InFolder):
    def shell(self, address):
        """A shell of a server, and what it has written."""
        written = io.StringIO()
        shell = Shell(Session(Place(address=address)), Output(written), COMMANDS)
        self.addCleanup(shell.session.close)
        return shell, written

    def test_a_program_that_is_killed(self):
        server = Server(self.room)
        shell, written = self.shell(server.address)
        for line in ("table items id:S", "define p " + json.dumps(PASS), "start a p {}"):
            self.assertTrue(shell.line(line), written.getvalue())
        os.kill(server.child(), signal.SIGKILL)
        server.process.wait(PATIENCE)
        self.assertFalse(shell.line("step a"))
        self.assertIn("whether this command is done isn't known, so look at history: step a", written.getvalue())
        server.end()
        again = Server(self.room)
        self.addCleanup(again.end)
        # nothing was given again by itself
        self.assertTrue(shell.line("history"), written.getvalue())
        self.assertIn("a#0\n1 step remain\n", written.getvalue())
        self.assertEqual(shell.refusals, 1)

    def test_a_question_changes_nothing(self):
        server = Server(self.room)
        shell, written = self.shell(server.address)
        self.assertTrue(shell.line("table items id:S"))
        server.end()
        self.assertFalse(shell.line("history"))
        self.assertNotIn("whether this command", written.getvalue())


if __name__ == "__main__":
    unittest.main()
