"""The linter's table of fields is the program's."""
import subprocess
import sys
import unittest

from tests.program import TOP


class Fields(unittest.TestCase):
    def test_the_table_is_the_programs(self):
        done = subprocess.run(
            [sys.executable, str(TOP / "tools/lint_fields.py"), "--check"],
            stderr=subprocess.PIPE,
            text=True,
            check=False,
        )
        self.assertEqual((done.returncode, done.stderr), (0, ""))


if __name__ == "__main__":
    unittest.main()
