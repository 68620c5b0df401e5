"""The tests of Amazon's tools in a Python that has boto3, if this one has none."""
import os
import pathlib
import subprocess
import sys
import unittest

from tests.amazon import MISSING, has_boto3
from tests.pages import python_with

FOLDER = pathlib.Path(__file__).resolve().parent


class Elsewhere(unittest.TestCase):
    def test_in_a_python_with_boto3(self):
        if has_boto3():
            self.skipTest("this Python has boto3, so the tests are run by it")
        python = python_with("boto3")
        if python is None:
            self.skipTest(MISSING)
        names = [path.stem for path in sorted(FOLDER.glob("test_aws_*.py"))]
        done = subprocess.run(
            [python, str(FOLDER), *names],
            stdout=subprocess.PIPE,
            stderr=subprocess.STDOUT,
            text=True,
            timeout=7200,
            env=dict(os.environ),
            check=False,
        )
        self.assertEqual(done.returncode, 0, done.stdout)
        print(done.stdout.strip().splitlines()[-1], file=sys.stderr)
