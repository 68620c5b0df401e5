"""`rollback-lint`: its words, its formats and its status."""
import json
import os
import subprocess
import sys

from tests.program import PATIENCE, TOP, InFolder

FAULTY = """{
  "StartAt": "A",
  "States": {
    "A": {"Type": "Pass", "Result": 1.0, "Next": "B"},
    "B": {"Type": "Wait", "Seconds": "ten", "End": true}
  }
}
"""
WARNED = FAULTY.replace("1.0", "1")
PLAIN = WARNED.replace('"ten"', "10")


class Command(InFolder):
    def setUp(self):
        super().setUp()
        for name, text in (("faulty", FAULTY), ("warned", WARNED), ("plain", PLAIN)):
            with open(self.path(f"{name}.asl.json"), "w", encoding="utf-8") as stream:
                stream.write(text)

    def lint(self, *words, text=""):
        """The status, the output and what is on standard error."""
        command = [sys.executable, "-m", "rollback_client.lint", *words]
        around = {**os.environ, "PYTHONPATH": str(TOP / "clients/python")}
        done = subprocess.run(
            command,
            input=text,
            capture_output=True,
            text=True,
            timeout=PATIENCE,
            check=False,
            cwd=self.room,
            env=around,
        )
        return done.returncode, done.stdout, done.stderr

    def test_statuses(self):
        for words, status in (
            (["plain.asl.json"], 0),
            (["warned.asl.json"], 0),
            (["warned.asl.json", "--strict"], 1),
            (["plain.asl.json", "--strict"], 0),
            (["faulty.asl.json"], 2),
            (["plain.asl.json", "faulty.asl.json", "--strict"], 2),
            (["warned.asl.json", "--strict", "--ignore", "BAD_MOMENT"], 0),
            (["nothing.asl.json"], 2),
            (["."], 2),
        ):
            found, said, errors = self.lint(*words)
            self.assertEqual((found, errors), (status, ""), words)

    def test_text(self):
        status, said, _ = self.lint("faulty.asl.json", "plain.asl.json")
        self.assertEqual(
            said.splitlines(),
            [
                "faulty.asl.json: 1 error, 1 warning",
                "error: States.A.Result (line 4): Result has the number 1.0, which isn't whole: write 1 [NOT_WHOLE]",
                "warning: States.B.Seconds (line 5): Seconds isn't a whole number of seconds: write a number without quotes [BAD_MOMENT]",
                "plain.asl.json: 0 errors, 0 warnings",
            ],
        )

    def test_gcc(self):
        _, said, _ = self.lint("--format", "gcc", "faulty.asl.json")
        self.assertEqual(
            said.splitlines(),
            [
                "faulty.asl.json:4:37: error: States.A.Result: Result has the number 1.0, which isn't whole: write 1 [NOT_WHOLE]",
                "faulty.asl.json:5:38: warning: States.B.Seconds: Seconds isn't a whole number of seconds: write a number without quotes [BAD_MOMENT]",
            ],
        )

    def test_json(self):
        _, said, _ = self.lint("--json", "faulty.asl.json", "nothing.asl.json")
        whole, moment, unread = json.loads(said)["faults"]
        self.assertEqual(json.loads(said)["rollback_lint"], 1)
        self.assertEqual(
            whole,
            {
                "file": "faulty.asl.json",
                "pointer": "/States/A/Result",
                "line": 4,
                "column": 37,
                "severity": "error",
                "code": "NOT_WHOLE",
                "found": "1.0",
                "message": "Result has the number 1.0, which isn't whole",
                "help": "write 1",
                "replacement": "1",
            },
        )
        self.assertNotIn("replacement", moment)
        self.assertEqual(
            (unread["code"], unread["file"], unread["pointer"], unread["line"]),
            ("UNREADABLE_FILE", "nothing.asl.json", "", 1),
        )

    def test_what_is_no_json_is_found_at_its_line_in_each_format(self):
        with open(self.path("broken.asl.json"), "wb") as stream:
            stream.write(b'{\n"StartAt": NaN\n}')
        self.assertIn("(line 2): NaN isn't JSON", self.lint("broken.asl.json")[1])
        self.assertIn("broken.asl.json:2:12: error: ", self.lint("broken.asl.json", "--format", "gcc")[1])
        faults = json.loads(self.lint("broken.asl.json", "--json")[1])["faults"]
        self.assertIn(("NOT_JSON", 2, 12), [(fault["code"], fault["line"], fault["column"]) for fault in faults])

    def test_standard_input(self):
        status, said, _ = self.lint("-", text=FAULTY)
        self.assertEqual((status, said.splitlines()[0]), (2, "-: 1 error, 1 warning"))

    def test_words_behind_the_table_are_files(self):
        task = {"Type": "Task", "Resource": "arn:aws:states:::dynamodb:getItem", "End": True}
        call = {"TableName": "other", "Key": {"id": {"S": "k"}}}
        with open(self.path("call.asl.json"), "w", encoding="utf-8") as stream:
            json.dump({"StartAt": "A", "States": {"A": {**task, "Parameters": call}}}, stream)
        for words in (
            ["--table", "items", "id:S", "call.asl.json"],
            ["--table", "items", "id:S", "at:N", "call.asl.json", "--strict"],
            ["call.asl.json", "--table", "items", "id:S"],
            ["--ignore", "NO_EFFECT", "call.asl.json", "--table", "items", "id:S"],
        ):
            status, said, errors = self.lint(*words)
            self.assertIn(
                "call.asl.json: 0 errors, 1 warning\nwarning: States.A.Parameters.TableName (line 1): other ", said
            )
            self.assertEqual((status, errors), (1 if "--strict" in words else 0, ""))

    def test_faulty_words(self):
        for words in (
            [],
            ["--table", "items"],
            ["--table", "items", "plain.asl.json"],
            ["--table", "items", "id:S", "id:S", "plain.asl.json"],
            ["--table", "items", "id:S", "at:N", "more:S", "plain.asl.json"],
            ["--ignore", "NOT_WHOLE", "plain.asl.json"],
            ["--ignore", "NO_SUCH_CODE", "plain.asl.json"],
            ["--format", "xml", "plain.asl.json"],
        ):
            status, said, errors = self.lint(*words)
            self.assertEqual((status, said), (2, ""), words)
            self.assertTrue(errors.startswith("usage: rollback-lint"), errors)

    def test_help_lists_the_codes(self):
        status, said, _ = self.lint("--help")
        self.assertEqual(status, 0)
        self.assertIn("NEEDS_RUNNER", said)


if __name__ == "__main__":
    import unittest

    unittest.main()
