"""The console's requests: who may ask and give, and what comes back."""
import http.client
import json
import os
import stat

from rollback_client import Book
from tests.pages import JSON, WithPages, python_with
from tests.program import PATIENCE, follower


class Guards(WithPages):
    """Nothing is shown or done for who has no token, names another host, or comes from another page."""

    def setUp(self):
        super().setUp()
        self.server = self.served()
        self.who = self.page(self.server)
        self.who.line("table items id:S []")

    def statuses(self, headers, method="GET", path="/ask?q=list"):
        body = b'{"line":"settle"}' if method == "POST" else None
        found = self.who.ask(method, path, {**({"Content-Type": JSON} if body else {}), **headers}, body)
        if found.status != 200:
            self.assertEqual(list(found.value), ["error"])
        return found.status

    def test_token(self):
        self.assertEqual(self.statuses({}), 200)
        for method, path in (("GET", "/ask?q=list"), ("POST", "/line")):
            self.assertEqual(self.statuses({"Cookie": None}, method, path), 401)
            wrong = self.who.cookie[:-1] + ("A" if self.who.cookie[-1] != "A" else "B")
            self.assertEqual(self.statuses({"Cookie": wrong}, method, path), 403)

    def test_link(self):
        taken = self.who.ask("GET", f"/?token={self.who.token}", {"Cookie": None})
        self.assertEqual((taken.status, taken.headers["Location"]), (303, "/"))
        name, port = self.who.cookie.split("=")[0], self.who.host.split(":")[1]
        self.assertEqual(name, f"rollback-{port}")
        self.assertIn("HttpOnly", taken.headers["Set-Cookie"])
        self.assertIn("SameSite=Strict", taken.headers["Set-Cookie"])
        for query in ("token=x", "token=", f"token={self.who.token}&token={self.who.token}"):
            self.assertEqual(self.who.ask("GET", f"/?{query}").status, 403)

    def test_host(self):
        port = self.who.host.split(":")[1]
        for host in (f"localhost:{port}", "127.0.0.1", "[::1]:1234", "LOCALHOST:80"):
            self.assertEqual(self.statuses({"Host": host, "Origin": f"http://{host}"}), 200, host)
        for host in ("evil.example", f"evil.example:{port}", "127.0.0.1.evil.example", "", "localhost:x", "127.0.0.2"):
            for path in ("/", "/ask?q=list"):
                self.assertEqual(self.statuses({"Host": host, "Origin": None}, path=path), 403, host)

    def test_origin(self):
        self.assertEqual(self.statuses({"Origin": None}), 200)
        for origin in ("null", "http://evil.example", f"https://{self.who.host}", "http://127.0.0.1:1", ""):
            self.assertEqual(self.statuses({"Origin": origin}), 403, origin)
            self.assertEqual(self.statuses({"Origin": origin}, "POST", "/line"), 403, origin)
        self.assertEqual(self.statuses({"Origin": None}, "POST", "/line"), 403)
        self.assertEqual(self.who.question("log 0 9")["entries"], 1)  # nothing was settled

    def test_site(self):
        for site in ("cross-site", "same-site", "none", None):
            self.assertEqual(self.statuses({"Sec-Fetch-Site": site}), 403, site)
            self.assertEqual(self.statuses({"Sec-Fetch-Site": site}, "POST", "/line"), 403, site)

    def test_headers(self):
        for path in ("/", "/ask?q=list", "/nothing"):
            headers = self.who.ask("GET", path).headers
            self.assertIn("default-src 'none'; script-src 'self';", headers["Content-Security-Policy"])
            self.assertIn("require-trusted-types-for 'script'", headers["Content-Security-Policy"])
            self.assertEqual(headers["X-Content-Type-Options"], "nosniff")
            self.assertEqual(headers["Referrer-Policy"], "no-referrer")
            self.assertEqual(headers["Cache-Control"], "no-store")
            self.assertNotIn("Server", headers)

    def test_nothing_there(self):
        self.assertEqual(self.who.get("/nothing").status, 404)
        found = self.who.ask("POST", "/", {"Content-Type": JSON}, b"{}")
        self.assertEqual((found.status, found.headers["Allow"]), (405, "GET,HEAD"))
        for path in ("/events", "/ask?q=list"):
            self.assertEqual(self.who.ask("HEAD", path).status, 405)


class Gives(WithPages):
    """Lines that are given, and bodies that can't be read."""

    def setUp(self):
        super().setUp()
        self.log = self.path("log")
        self.server = self.served("--log", self.log)
        self.who = self.page(self.server)

    def test_line(self):
        done = self.who.line("table items id:S []")
        self.assertEqual((done.status, done.value["reply"]), (200, "ok\n"))
        refused = self.who.line("table items id:S []")
        self.assertEqual((refused.status, refused.value["reply"]), (409, "no 22\n"))
        with open(self.log, encoding="utf-8") as file:
            first = json.loads(file.readline())
        self.assertEqual((first["caller"], first["line"]), ("token console", "table items id:S []"))

    def test_not_connected(self):
        for line in ("!copy", "!runner", "!none", "x" * 1_048_577):
            found = self.who.line(line)
            self.assertEqual((found.status, found.value["reply"]), (409, "no 20\n"), line[:9])

    def test_bodies(self):
        for body in (
            b"",
            b"{",
            b"[]",
            b"\xff",
            b'{"line":1}',
            b"{}",
            b'{"line":""}',
            b'{"line":"a\\nb"}',
            b'{"line":"a\\r"}',
        ):
            found = self.who.ask("POST", "/line", {"Content-Type": JSON}, body)
            self.assertEqual(found.status, 400, body)
        self.assertEqual(self.who.ask("POST", "/line", {"Content-Type": JSON}, b"[" * 100_000).status, 400)
        self.assertEqual(self.who.ask("POST", "/line", {"Content-Type": JSON}, b'{"line":"\\ud800"}').status, 400)
        self.assertEqual(self.who.ask("POST", "/line", {"Content-Type": "text/plain"}, b'{"line":"held"}').status, 400)
        self.assertEqual(self.who.ask("POST", "/line", {"Content-Type": JSON}, b" " * (9 << 20)).status, 413)
        self.assertEqual(self.who.line("held").status, 409)  # before a table, and the server is as before

    def test_long_drive(self):
        """A drive of more than a piece is one line, as it is for a caller of the socket."""
        self.who.line("table items id:S []")
        loop = {"StartAt": "A", "States": {"A": {"Type": "Pass", "Next": "A"}}}
        self.who.line("define loop " + json.dumps(loop))
        self.who.line("start one loop {}")
        found = self.who.line("drive 1000").value["reply"]
        self.assertEqual(found.split("\n")[0], "ok 1000")
        self.assertEqual(len(found.split("\n")), 1002)

    def test_a_drive_that_nobody_waits_for(self):
        """It ends with the piece at hand, as that of a caller of the socket who disconnects."""
        self.server.end()
        self.server = self.served("--log", self.log, program=self.held_program(), journal="held.db")
        self.who = self.page(self.server)
        self.who.line("table items id:S []")
        self.who.line("define loop " + json.dumps({"StartAt": "A", "States": {"A": {"Type": "Pass", "Next": "A"}}}))
        self.who.line("start one loop {}")
        connection = http.client.HTTPConnection(self.who.host, timeout=PATIENCE)
        headers = {"Content-Type": JSON, "Cookie": self.who.cookie, "Origin": f"http://{self.who.host}"}
        connection.request("POST", "/line", b'{"line":"drive 65000"}', {**headers, "Sec-Fetch-Site": "same-origin"})
        self.until_held()
        connection.close()
        self.let_go()
        self.until(lambda: self.log_has("drive 65000"))
        with Book.connect(self.server.address, timeout=PATIENCE) as book:
            self.assertLess(book.show("one").moves, 60_000)

    def log_has(self, line):
        with open(self.log, encoding="utf-8") as file:
            return any(json.loads(entry)["line"] == line for entry in file if entry.endswith("\n"))

    def test_questions(self):
        self.assertEqual(self.who.get("/ask").status, 400)
        self.assertEqual(self.who.get("/ask", q="").status, 400)
        self.assertEqual(self.who.get("/ask", q="none").value["error"], "no question")
        self.assertEqual(self.who.get("/ask", q="list\nsettle").status, 400)
        self.assertEqual(self.who.ask("GET", "/ask?q=list&q=list").status, 400)


class Tokens(WithPages):
    """The file of tokens, and what it is when it isn't as it should be."""

    def test_kept(self):
        server = self.served("--token", "ann", "--token", "bob")
        links, path = dict(server.links), server.address + ".token"
        self.assertEqual(stat.S_IMODE(os.stat(path).st_mode), 0o600)
        with open(path, encoding="ascii") as file:
            self.assertEqual(file.read(), "".join(f"{name} {link}\n" for name, link in links.items()))
        self.assertNotEqual(links["ann"].split("=")[1], links["bob"].split("=")[1])
        self.assertEqual(len(links["ann"].split("=")[1]), 43)
        server.end()
        again = self.served("--token", "bob")
        self.assertEqual(again.links["bob"].split("=")[1], links["bob"].split("=")[1])
        who = self.page(again, "bob")
        forgotten = f"{who.cookie.split('=')[0]}={links['ann'].split('=')[1]}"
        self.assertEqual(who.ask("GET", "/ask?q=list", {"Cookie": forgotten}).status, 403)
        again.end()
        new = self.served("--token", "bob", "--new-tokens")
        self.assertNotEqual(new.links["bob"].split("=")[1], links["bob"].split("=")[1])

    def test_beside_a_port(self):
        """With --listen the file is beside the journal; a book in memory has none there."""
        server = self.served("--listen", "127.0.0.1:0")
        self.assertEqual(stat.S_IMODE(os.stat(server.journal + ".token").st_mode), 0o600)
        self.assertEqual(self.page(server).question("list")["entries"], 0)
        server.end()
        before = sorted(os.listdir(self.room))
        memory = self.served("--listen", "127.0.0.1:0", "--no-link", journal=None)
        self.assertEqual(self.page(memory).get("/book").value["file"], None)
        self.assertEqual(sorted(os.listdir(self.room)), before)

    def test_no_link(self):
        server = self.served("--no-link")
        self.assertIn(server.address + ".token", server.said_last)
        self.assertNotIn("token=", server.said_last)

    def test_refused_files(self):
        path = self.path("socket.token")
        made = self.path("other")
        words = ("--socket", self.path("socket"), "--ask", "--graph", "/bin/true", "--http", "127.0.0.1:0")
        for make in ("link", "open", "folder", "name"):
            with open(made, "w", encoding="ascii") as file:
                os.fchmod(file.fileno(), 0o644 if make == "open" else 0o600)
            if make == "link":
                os.symlink(made, path)
            elif make == "folder":
                os.mkdir(path)
            elif make == "name":
                os.link(made, path)
            else:
                os.rename(made, path)
            for more in ((), ("--new-tokens",)):
                status, said = self.refused_with(words + more)
                self.assertEqual(status, 2)
                self.assertIn("socket.token", said, make)
            (os.rmdir if make == "folder" else os.unlink)(path)

    def refused_with(self, words):
        python = python_with("aiohttp")
        if python is None:
            self.skipTest("no Python with aiohttp")
        words = tuple(follower() if word == "/bin/true" else word for word in words)
        return self.refused(*words, python=python)


class Words(WithPages):
    """Words that can't be served."""

    def test_words(self):
        path = self.path("socket")
        for words, sentence in (
            (("--http", "127.0.0.1:0"), "--ask or --run"),
            (("--http", "0.0.0.0:0", "--ask"), "127.0.0.1"),
            (("--http", "127.0.0.1:70000", "--ask"), "127.0.0.1"),
            (("--http", "127.0.0.1:0", "--ask", "--token", "a b"), "--token"),
            (("--read-only",), "--http"),
            (("--http", "127.0.0.1:0", "--ask", "--cluster", "http://127.0.0.1:1"), "--cluster"),
        ):
            status, said = Tokens.refused_with(self, ("--socket", path) + words)
            self.assertEqual(status, 2)
            self.assertIn(sentence, said)

    def test_without_aiohttp(self):
        """A Python without it runs all else."""
        folder = self.path("shadow")
        os.mkdir(folder)
        with open(os.path.join(folder, "sitecustomize.py"), "w", encoding="ascii") as file:
            file.write(
                "import importlib.util as u\nfind = u.find_spec\n"
                "u.find_spec = lambda name, *more: None if name == 'aiohttp' else find(name, *more)\n"
            )
        os.environ["PYTHONPATH"] = folder
        self.addCleanup(os.environ.pop, "PYTHONPATH")
        status, said = self.refused("--socket", self.path("socket"), "--ask", "--http", "127.0.0.1:0")
        self.assertEqual(status, 2)
        self.assertIn("aiohttp", said)
        self.assertIn("python3-aiohttp", said)

    def test_unix_socket(self):
        server = self.served(http=self.path("http"))
        self.assertEqual(stat.S_IMODE(os.stat(self.path("http")).st_mode), 0o600)
        who = self.page(server, path=self.path("http"))
        self.assertEqual(who.question("list")["entries"], 0)
        self.assertEqual(server.end()[0], 0)
        self.assertFalse(os.path.exists(self.path("http")))

    def test_beside_the_socket(self):
        server = self.served()
        who = self.page(server)
        with Book.connect(server.address, timeout=PATIENCE) as book:
            book.table("items", {"id": "S"})
        self.assertEqual(who.question("log 0 5")["log"][0]["command"], "table")
        self.assertEqual(server.end()[0], 0)
