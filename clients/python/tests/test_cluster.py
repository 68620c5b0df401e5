"""Trials of three servers and three members of etcd, some at a time, and what a server refuses to begin with."""
import concurrent.futures
import os
import subprocess
import sys
import unittest

from tests.cluster_machines import what_is_missing
from tests.program import PATIENCE, TOP

MISSING = what_is_missing()
AT_A_TIME = max(2, min(4, len(os.sched_getaffinity(0))))
# The longest first, so that the last ones to end are short.
NAMES = (
    "space_used_up",
    "majority_lost",
    "journal_damaged",
    "reply_differs",
    "nearest_stopped",
    "member_killed",
    "idle_leader_stopped",
    "leader_stopped",
    "answers_lost",
    "client_follows",
    "questions",
    "runner_follows",
    "runner_beside",
    "pages_follow",
    "secured",
    "begins_and_refuses",
    "leader_killed",
    "rolling_restart",
    "drives",
)


def tried(name):
    """The status of a trial, and what it says."""
    command = [sys.executable, "-m", "tests.cluster_trials", name]
    done = subprocess.run(
        command,
        stdout=subprocess.PIPE,
        stderr=subprocess.STDOUT,
        text=True,
        cwd=TOP / "clients/python",
        timeout=4 * PATIENCE,
        check=False,
    )
    return done.returncode, done.stdout


@unittest.skipIf(MISSING, MISSING or "")
class Trials(unittest.TestCase):
    """Each trial is a process of its own, and begun before the first test waits for it."""

    @classmethod
    def setUpClass(cls):
        cls.pool = concurrent.futures.ThreadPoolExecutor(AT_A_TIME)
        cls.coming = {name: cls.pool.submit(tried, name) for name in NAMES}

    @classmethod
    def tearDownClass(cls):
        cls.pool.shutdown(wait=True, cancel_futures=True)


def _test_of(name):
    def test(self):
        status, said = self.coming[name].result()
        self.assertEqual(status, 0, said)
        if "-v" in sys.argv:
            print(said.strip(), file=sys.stderr)

    return test


for _name in NAMES:
    setattr(Trials, f"test_{_name}", _test_of(_name))

if __name__ == "__main__":
    unittest.main()
