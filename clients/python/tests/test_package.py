"""The package as a whole: its types, its layout, what it imports, how it is installed, and the unit of the guide."""
import ast
import os
import pathlib
import re
import shutil
import subprocess
import sys
import tempfile
import unittest

import rollback_client
from tests.program import PATIENCE, PROGRAM, TOP

PYTHON = TOP / "clients/python"
FILES = sorted((PYTHON / "rollback_client").rglob("*.py"))
PYTHONS = (sys.executable, "/usr/bin/python3")


def run(*command, **more):
    return subprocess.run(
        command, stdout=subprocess.PIPE, stderr=subprocess.STDOUT, text=True, check=False, timeout=PATIENCE, **more
    )


class Files(unittest.TestCase):
    def test_files_and_functions_are_short(self):
        for path in FILES:
            text = path.read_text(encoding="utf-8")
            self.assertLess(len(text.splitlines()), 500, path)
            for node in ast.walk(ast.parse(text)):
                if isinstance(node, (ast.FunctionDef, ast.AsyncFunctionDef)):
                    self.assertLess(node.end_lineno - node.lineno, 40, f"{path}: {node.name}")

    def test_what_is_public_says_what_it_is(self):
        for path in FILES:
            tree = ast.parse(path.read_text(encoding="utf-8"))
            self.assertTrue(ast.get_docstring(tree), path)
            for node in tree.body:
                if isinstance(node, (ast.FunctionDef, ast.AsyncFunctionDef, ast.ClassDef)) and not node.name.startswith(
                    "_"
                ):
                    self.assertTrue(ast.get_docstring(node), f"{path}: {node.name}")

    def test_types(self):
        mypy = shutil.which("mypy")
        if mypy is None:
            self.skipTest("there is no mypy")
        with tempfile.TemporaryDirectory() as room:
            done = run(mypy, "--strict", "--cache-dir", room, "rollback_client", cwd=PYTHON)
        self.assertEqual(done.returncode, 0, done.stdout)


class Imports(unittest.TestCase):
    def modules(self, script):
        done = run(
            sys.executable,
            "-c",
            f"import sys\n{script}\nprint(*sorted(name for name in sys.modules if name.startswith('rollback_client')))",
            cwd=PYTHON,
        )
        self.assertEqual(done.returncode, 0, done.stdout)
        return done.stdout.split()

    def test_the_client_imports_no_other_part(self):
        found = self.modules("import rollback_client")
        for name in found:
            part = name.split(".")[1:2]
            self.assertNotIn(
                part,
                [
                    [other]
                    for other in (
                        "server",
                        "serve",
                        "copy",
                        "look",
                        "lint",
                        "runner",
                        "shell",
                        "console",
                        "aws",
                        "cluster",
                    )
                ],
            )

    def test_the_server_imports_what_it_is_asked_for(self):
        found = self.modules("import rollback_client.serve")
        self.assertIn("rollback_client.server.turns", found)
        self.assertNotIn("rollback_client.server.log", found)
        self.assertNotIn("rollback_client.server.copy", found)
        self.assertEqual([name for name in found if "cluster" in name or "following" in name or "secured" in name], [])


def python_with_pip():
    """A Python that has what an installation without a network needs, or nothing."""
    needed = "import setuptools, wheel, pip; assert int(setuptools.__version__.split('.')[0]) >= 61"
    return next(
        (python for python in PYTHONS if os.path.exists(python) and run(python, "-c", needed).returncode == 0), None
    )


class Installed(unittest.TestCase):
    def setUp(self):
        self.python = python_with_pip()
        if self.python is None:
            self.skipTest("there is no pip with setuptools and wheel")
        held = tempfile.TemporaryDirectory()
        self.addCleanup(held.cleanup)
        self.checkout, self.place = pathlib.Path(held.name) / "checkout", pathlib.Path(held.name) / "place"
        made = shutil.ignore_patterns("build", "*.egg-info", "__pycache__", ".mypy_cache")
        shutil.copytree(PYTHON, self.checkout / "clients/python", ignore=made)
        shutil.copy(TOP / ".gitignore", self.checkout)

    def installed(self, *words):
        done = run(self.python, *words, cwd=self.checkout.parent, env={**os.environ, "PYTHONPATH": str(self.place)})
        self.assertEqual(done.returncode, 0, done.stdout)
        return done.stdout

    def test_pip_installs_it_without_a_network(self):
        has_git = shutil.which("git") is not None
        if has_git:
            run("git", "init", "-q", ".", cwd=self.checkout)
            run("git", "add", "-A", cwd=self.checkout)
        words = ("--no-index", "--no-deps", "--no-build-isolation", "--target", str(self.place), "./clients/python")
        done = run(self.python, "-m", "pip", "install", *words, cwd=self.checkout)
        self.assertEqual(done.returncode, 0, done.stdout)
        if has_git:
            # Git ignores all that this leaves in the checkout.
            self.assertEqual(run("git", "ls-files", "--others", "--exclude-standard", cwd=self.checkout).stdout, "")
        script = "import rollback_client as client, rollback_client.server.log as log; print(client.__version__, log.__file__)"
        found = [rollback_client.__version__, str(self.place / "rollback_client/server/log.py")]
        self.assertEqual(self.installed("-c", script).split(), found)
        self.assertTrue((self.place / "rollback_client/py.typed").exists())
        for name in ("serve", "copy", "look"):
            self.assertIn("usage", self.installed(str(self.place / "bin" / f"rollback-{name}"), "--help"))


class Unit(unittest.TestCase):
    def units(self):
        guide = "".join((TOP / f"docs/{name}.md").read_text(encoding="utf-8") for name in ("SERVER", "CLUSTER"))
        found = re.findall(r"(?m)^    \[Unit\]\n(?:    .*\n|\n)*?    WantedBy=.*\n", guide)
        return ["\n".join(line[4:] for line in unit.splitlines()) + "\n" for unit in found]

    def test_systemd_takes_the_unit_of_the_guide(self):
        text = self.units()[0]
        for line in ("RuntimeDirectoryMode=0750", "KillMode=mixed", "ProtectSystem=strict", "NoNewPrivileges=yes"):
            self.assertIn(line, text.splitlines())
        for key in ("User", "Group", "StateDirectory", "RuntimeDirectory", "UMask"):
            self.assertRegex(text, f"(?m)^{key}=")
        self.assertRegex(text, r"(?m)^ExecStart=\S*rollback-serve .*--mode 0660")
        self.verify(text, "rollback.service")

    def test_systemd_takes_the_unit_of_three_machines(self):
        text = next(unit for unit in self.units() if "--cluster" in unit)
        for line in ("KillMode=mixed", "Restart=always", "RestartPreventExitStatus=2 5 6"):
            self.assertIn(line, text.splitlines())
        # The words are those that the server takes.
        words = re.search(r"(?m)^ExecStart=\S+ (.*)$", text)[1].replace("%i", "orders").split(" ")
        files = [word for word in words if word.startswith("/etc/rollback/")]
        self.assertEqual(len(files), 2)
        with tempfile.TemporaryDirectory() as room:
            there = pathlib.Path(room) / "there"
            there.touch()
            words = [",".join([str(there)] * 3) if word in files else word for word in words]
            command = [
                sys.executable,
                "-c",
                "from rollback_client.server.words import read_words; read_words()",
                *words,
            ]
            done = run(*command, cwd=PYTHON)
        self.assertTrue(done.returncode == 0 or "needs aiohttp" in done.stdout, done.stdout)
        self.verify(text, "rollback@orders.service")

    def verify(self, text, name):
        """Has systemd look at a unit, whose programs are there in the place of the guide's."""
        analyze = shutil.which("systemd-analyze")
        if analyze is None:
            self.skipTest("there is no systemd-analyze")
        text = re.sub(r"(?m)^ExecStart=\S+", f"ExecStart={sys.executable}", text).replace(
            "--program /usr/local/bin/rollback", f"--program {PROGRAM}"
        )
        with tempfile.TemporaryDirectory() as room:
            place = pathlib.Path(room) / name
            place.write_text(text, encoding="utf-8")
            done = run(analyze, "verify", "--man=no", str(place))
        about = [line for line in done.stdout.splitlines() if "rollback" in line]
        self.assertEqual(about, [], done.stdout)


if __name__ == "__main__":
    unittest.main()
