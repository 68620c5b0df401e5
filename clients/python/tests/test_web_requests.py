"""What a page asks of a running book, and what it gives: plans that are compared, who did what, events, a runner."""
import http.client
import json
import os
import pathlib
import signal
import threading

from rollback_client import Book
from tests.pages import WithPages
from tests.program import ECHO, LOOP, PATIENCE, PUT

GET = {
    "StartAt": "G",
    "States": {
        "G": {
            "Type": "Task",
            "Resource": "arn:aws:states:::dynamodb:getItem",
            "Parameters": {"TableName": "items", "Key": {"id": {"S": "k"}}},
            "End": True,
        }
    },
}


def begin(book):
    """A book in which `reader` reads what `writer` wrote."""
    book.table("items", {"id": "S"})
    book.define("put", PUT)
    book.define("get", GET)
    book.start("writer", "put", {"v": "1"})
    book.step("writer")
    book.start("reader", "get", {})
    book.step("reader")


PLAN = ["reader#1", "writer#1", "writer#0"]


class Repair(WithPages):
    """What was shown is taken back, and nothing else."""

    def setUp(self):
        super().setUp()
        self.server = self.served("--log", self.path("log"))
        self.who = self.page(self.server)
        self.book = Book.connect(self.server.address, timeout=PATIENCE)
        self.addCleanup(self.book.close)
        begin(self.book)

    def test_rollback(self):
        shown = [row["step"] for row in self.who.question("plan writer#0")["steps"]]
        self.assertEqual(shown, PLAN)
        done = self.who.post("/rollback", step="writer#0", plan=shown)
        self.assertEqual((done.status, done.value), (200, {"reply": "ok 3\nreader#1\nwriter#1\nwriter#0\n"}))
        self.assertEqual([str(step) for step in self.book.history()], ["reader#0"])

    def test_a_plan_that_grew(self):
        self.book.start("other", "get", {})
        self.book.step("other")
        refused = self.who.post("/rollback", step="writer#0", plan=PLAN)
        self.assertEqual(refused.status, 409)
        self.assertTrue(refused.value["changed"])
        self.assertEqual(sorted(refused.value["plan"]), sorted([*PLAN, "other#1"]))
        self.assertEqual(len(self.book.history()), 6)  # nothing was taken back
        self.assertEqual(self.who.post("/rollback", step="writer#0", plan=refused.value["plan"]).status, 200)

    def test_a_step_that_is_gone(self):
        self.book.rollback("writer#0")
        refused = self.who.post("/rollback", step="writer#0", plan=PLAN)
        self.assertEqual((refused.status, refused.value["reply"]), (409, "no 7\n"))
        self.assertIn("no step writer#0 remains", refused.value["sentence"])
        taken = self.who.get("/taken", step="reader#1").value["by"]
        self.assertEqual((taken["command"], taken["entry"]), ("rollback", 7))
        self.assertTrue(taken["who"].startswith("user "))
        self.assertTrue(self.is_of_this_test(taken["when"] / 1000))
        self.assertIsNone(self.who.get("/taken", step="reader#0").value["by"])

    def test_hold(self):
        held = self.who.post("/rollback", step="writer#1", plan=["reader#1", "writer#1"], hold=True)
        self.assertEqual((held.status, held.value["reply"]), (200, "ok 2\n"))
        self.assertEqual(self.who.question("list")["held"], {"left": 2, "step": "writer#1"})

    def test_bodies(self):
        for body in ({}, {"step": "writer#0"}, {"step": "writer#0", "plan": "x"}, {"step": "writer#0", "plan": [1]}):
            self.assertEqual(self.who.post("/rollback", **body).status, 400, body)
        for step in ("writer", "writer#0\nsettle", "", "a#01x"):
            self.assertEqual(self.who.post("/rollback", step=step, plan=[]).status, 400, step)
        self.assertEqual(len(self.book.history()), 4)

    def test_with_no_line_between(self):
        """Others give lines without a pause. A plan that they changed is never taken back by the names that were shown."""
        self.book.define("echo", ECHO)
        stopped = threading.Event()

        def go_on(number):
            with Book.connect(self.server.address, timeout=PATIENCE) as other:
                for count in range(60):
                    if stopped.wait(0.02):
                        return
                    other.start(f"r{number}-{count}", "get", {})
                    other.step(f"r{number}-{count}")

        threads = [threading.Thread(target=go_on, args=(number,)) for number in range(4)]
        for thread in threads:
            thread.start()
        try:
            for _ in range(8):
                shown = [row["step"] for row in self.who.question("plan writer#1")["steps"]]
                found = self.who.post("/rollback", step="writer#1", plan=shown)
                if found.status == 200:
                    self.assertEqual(sorted(found.value["reply"].split("\n")[1:-1]), sorted(shown))
                    self.assertEqual(self.who.line("step writer").status, 200)
                else:
                    self.assertTrue(found.value["changed"])
                    self.assertGreater(len(found.value["plan"]), len(shown))
        finally:
            stopped.set()
            for thread in threads:
                thread.join()

    def test_refusals_in_words(self):
        self.assertIn("depends on writer#1", self.who.line("undo writer#1").value["sentence"])
        self.assertIn("there is no machine none", self.who.line("start x none {}").value["sentence"])
        self.assertIn("isn't whole", self.who.line('start x put {"v":0.5}').value["sentence"])


class Happened(WithPages):
    """Who did what, and when."""

    def entries(self, who, **query):
        return who.get("/entries", **query).value

    def test_who_and_when(self):
        server = self.served("--log", self.path("log"), "--token", "ann", "--token", "bob")
        ann, bob = self.page(server, "ann"), self.page(server, "bob")
        ann.line("table items id:S []")
        ann.line("define loop " + json.dumps(LOOP))
        bob.line("start one loop {}")
        ann.line("drive 300")
        said = self.entries(ann)
        self.assertEqual(said["from"], 203)
        self.assertTrue(said["has_log"])
        self.assertEqual({row["who"] for row in said["log"]}, {"ann"})
        first = self.entries(ann, before=3, count=10)["log"]
        self.assertEqual(
            [(row["command"], row["who"]) for row in first], [("table", "ann"), ("define", "ann"), ("start", "bob")]
        )
        self.assertEqual(server.end()[0], 0)
        # the log says it to the next server, too
        again = self.served("--log", self.path("log"))
        rows = self.entries(self.page(again), before=4, count=2)["log"]
        self.assertEqual([row["who"] for row in rows], ["bob", "ann"])
        self.assertTrue(self.is_of_this_test(rows[0]["when"] / 1000))

    def test_without_a_log(self):
        server = self.served()
        with Book.connect(server.address, timeout=PATIENCE) as book:
            book.table("items", {"id": "S"})
        self.assertEqual(server.end()[0], 0)
        who = self.page(self.served())
        said = self.entries(who)
        self.assertFalse(said["has_log"])
        self.assertEqual((said["log"][0]["who"], said["log"][0]["when"]), (None, None))
        for query in ({"count": "x"}, {"before": "-1"}, {"count": "1" * 30}):
            self.assertEqual(who.get("/entries", **query).status, 400, query)

    def test_another_book(self):
        """A log of another book says nothing of this one."""
        server = self.served("--log", self.path("log"))
        self.page(server).line("table items id:S []")
        server.end()
        other = self.served("--log", self.path("log"), journal="other.db")
        who = self.page(other)
        with Book.connect(other.address, timeout=PATIENCE) as book:
            book.table("items", {"id": "S"})
        self.assertTrue(self.entries(who)["log"][0]["who"].startswith("user "))


class Lints(WithPages):
    """The linter's findings, of a text that isn't given."""

    def test_findings(self):
        who = self.page(self.served("--read-only"))
        text = '{\n "StartAt": "A",\n "States": {"A": {"Type": "Pass", "Nxt": "B"}}\n}'
        found = who.post("/lint", definition=text).value
        self.assertGreater(found["count"], 0)
        self.assertIn(3, {finding["line"] for finding in found["findings"]})
        self.assertIn("error", {finding["severity"] for finding in found["findings"]})
        self.assertEqual(who.post("/lint", definition=1).status, 400)


class ReadOnly(WithPages):
    """A console that gives nothing, beside a socket that is as before."""

    def test_read_only(self):
        server = self.served("--read-only")
        who = self.page(server)
        with Book.connect(server.address, timeout=PATIENCE) as book:
            begin(book)
            for path, body in (("/line", {"line": "held"}), ("/rollback", {"step": "writer#0", "plan": PLAN})):
                refused = who.post(path, **body)
                self.assertEqual(refused.status, 403)
                self.assertIn("--read-only", refused.value["error"])
            self.assertEqual(len(book.history()), 4)
        self.assertTrue(who.get("/book").value["read_only"])
        self.assertEqual(who.question("plan writer#0")["count"], 3)


class Streams(WithPages):
    """Events: what moved is heard of, and the end at once."""

    def listen(self, who):
        """A stream of events as an iterator of what they say."""
        connection = http.client.HTTPConnection(who.host, timeout=PATIENCE)
        self.addCleanup(connection.close)
        connection.request(
            "GET", "/events", headers={"Cookie": who.cookie, "Host": who.host, "Sec-Fetch-Site": "same-origin"}
        )
        response = connection.getresponse()
        self.assertEqual((response.status, response.headers["Content-Type"]), (200, "text/event-stream"))
        return (json.loads(line[6:]) for line in response if line.startswith(b"data: "))

    def test_live(self):
        server = self.served()
        who = self.page(server)
        said = self.listen(who)
        self.assertEqual(next(said)["entries"], 0)
        with Book.connect(server.address, timeout=PATIENCE) as book:
            book.table("items", {"id": "S"})
            self.assertEqual(next(said)["entries"], 1)
            book.pause()
            self.assertEqual(next(said)["paused"], [["all", ""]])

    def test_no_token(self):
        who = self.page(self.served())
        self.assertEqual(who.ask("GET", "/events", {"Cookie": None}).status, 401)

    def test_the_end(self):
        """It isn't held up by streams that are open: callers of lines would be waited for without an end."""
        server = self.served("--grace", str(100 * PATIENCE))
        who = self.page(server)
        said = [self.listen(who) for _ in range(8)]
        for stream in said:
            next(stream)
        self.assertEqual(server.end()[0], 0)
        for stream in said:
            self.assertEqual(list(stream), [])

    def test_another_server(self):
        """Who comes back sees that it is another one."""
        begun = [self.page(server).get("/book").value["begun"] for server in self.one_after_the_other()]
        self.assertNotEqual(begun[0], begun[1])

    def one_after_the_other(self):
        for _ in range(2):
            server = self.served()
            yield server
            server.end()

    def test_the_follower_is_lost(self):
        server = self.served()
        who = self.page(server)
        said = self.listen(who)
        next(said)
        follower = int(self.children(server)[-1])
        os.kill(follower, signal.SIGKILL)
        self.assertFalse(next(said)["follows"])
        self.assertTrue(next(said)["follows"])
        self.assertEqual(who.question("list")["entries"], 0)

    def children(self, server):
        pid = server.process.pid
        return pathlib.Path(f"/proc/{pid}/task/{pid}/children").read_text(encoding="ascii").split()


class Runs(WithPages):
    """A runner within the server: what waits, and what is paused."""

    def test_waits_and_pauses(self):
        server = self.served(asks="--run")
        who = self.page(server)
        about = who.get("/book").value
        self.assertTrue(about["runs"])
        wait = {"StartAt": "W", "States": {"W": {"Type": "Wait", "Seconds": 600, "End": True}}}
        who.line("table items id:S []")
        who.line("define wait " + json.dumps(wait))
        who.line("start slow wait {}")
        self.until(lambda: who.get("/waits").value["waits"])
        (waiting,) = who.get("/waits").value["waits"]
        self.assertEqual(waiting["thread"], "slow")
        self.assertEqual(who.line("!pause execution slow").status, 200)
        self.assertEqual(who.get("/book").value["paused"], [["execution", "slow"]])
        self.assertEqual(who.line("!resume").status, 200)
        self.assertEqual(who.get("/book").value["paused"], [])

    def test_a_runner_that_is_at_work_from_the_beginning(self):
        """Numbers of lines are right, though the runner gave some before the console began."""
        server = self.served()
        with Book.connect(server.address, timeout=PATIENCE) as book:
            book.table("items", {"id": "S"})
            book.define("loop", LOOP)
            for number in range(5):
                book.start(f"e{number}", "loop", {})
        self.assertEqual(server.end()[0], 0)
        who = self.page(self.served("--rate", "500", asks="--run"))
        self.until(lambda: who.get("/book").value["entries"] > 50)
        who.line("!pause")
        self.assertEqual(who.get("/book").value["entries"], who.question("log 0 0")["entries"])
        rows = who.get("/entries", count=20).value["log"]
        self.assertEqual({(row["command"], row["who"]) for row in rows}, {("step", "runner")})

    def test_no_runner(self):
        who = self.page(self.served())
        self.assertIsNone(who.get("/waits").value["waits"])
        self.assertFalse(who.get("/book").value["runs"])
        self.assertEqual(who.line("!waits").status, 409)
