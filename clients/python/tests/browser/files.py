"""The page of `--html`: one file that needs nothing, and from which nothing is done."""
import base64
import hashlib
import json
import re

from tests.browser.driving import InBrowser
from tests.program import PLAIN_FOLLOWER, follower


class OneFile(InBrowser):
    """A page from a file, as it is written for a journal."""

    def setUp(self):
        super().setUp()
        self.made = self.file_page(self.book_of("wrong-bill.txt", until="plan"))

    def test_views(self):
        self.driver.get(self.made.as_uri())
        self.becomes(lambda: self.count("tbody tr:not(.space)"), 4)
        self.assertEqual(self.texts("nav a"), ["Executions", "Items"])
        self.click("order-2")
        self.press(self.box("order-2#3"))
        self.click("What led to it", "#panel a")
        self.sees("order-2#3 depends on 8 steps of 3 executions")
        self.go("step=billing-7%230&show=plan")
        self.sees("A rollback of billing-7#0 takes back 6 steps of 2 executions")
        self.has(".changes", '{"blocked":{"BOOL":false},"id":{"S":"ann"}}')
        self.go("item=ann")
        self.sees("Who wrote and read it")
        names = ["order-1#1", "billing-7#2", "order-2#1"]
        self.becomes(lambda: [row.split()[0] for row in self.texts("tbody tr")], names)
        words = ("Roll back", "Hold", "Undo", "Start an execution", "Step", "Drive")
        self.assertEqual([text for text in self.texts("button, a") if text.startswith(words)], [])

    def test_answers_are_those_of_the_book(self):
        """What the page works out of its steps is what a running book answers."""
        self.console()
        questions = [
            f"{word} {step}"
            for word in ("plan", "causes", "show")
            for step in ("billing-7#0", "order-2#3", "order-1#1")
        ]
        questions += ["show order-2", "find ann most 5", "item ann"]
        script = "const [q, done] = arguments; rollback.app.source.ask(q).then((a) => done(JSON.stringify(a)));"
        running = {question: json.loads(self.driver.execute_async_script(script, question)) for question in questions}
        self.driver.get(self.made.as_uri())
        self.shows("tbody tr")
        for question, wanted in running.items():
            found = json.loads(self.driver.execute_async_script(script, question))
            self.compare(question, found, wanted)

    def compare(self, question, found, wanted):
        word = question.split()[0]
        names = {"plan": "steps", "causes": "causes", "find": "steps", "item": "accesses"}
        if word in names:
            rows = [
                [
                    (row["step"], row.get("after"), row.get("reason") if word == "plan" else None)
                    for row in one[names[word]]
                ]
                for one in (found, wanted)
            ]
            self.assertEqual(*rows, question)
        for field in (
            "count",
            "executions",
            "items",
            "now",
            "key",
            "status",
            "error",
            "cause",
            "state",
            "input",
            "output",
            "machine",
        ):
            if field in wanted:
                self.assertEqual(found[field], wanted[field], f"{field} of {question}")
        if word == "show" and "#" in question:
            self.assertEqual(found["step"]["step"], wanted["step"]["step"])
            self.assertEqual(
                [one["step"] for one in found["dependents"]], [one["step"] for one in wanted["dependents"]]
            )

    def test_from_a_step(self):
        made = self.file_page(self.path("orders.db"), "--from", "billing-7#0")
        self.driver.get(made.as_uri())
        self.soon(lambda: self.is_in_sight("billing-7#0"), "the asked step")
        self.assertIn("billing-7#0", self.driver.title)
        self.assertIn("orders.db", self.driver.title)

    def test_the_plain_book_writes_the_same(self):
        """Byte by byte, as docs/CONSOLE.md has it."""
        if follower() == PLAIN_FOLLOWER:
            self.skipTest("rollback_graph doesn't follow yet")
        for words in ((), ("--from", "billing-7#0")):
            wanted = self.file_page(self.path("orders.db"), *words).read_bytes()
            found = self.file_page(self.path("orders.db"), *words, program=PLAIN_FOLLOWER).read_bytes()
            self.assertEqual(found, wanted)

    def test_form(self):
        """Its policy names its script and its style, its data is one JSON text, and its table needs no script."""
        text = self.made.read_text(encoding="utf-8")
        script = re.search(r"<script>(.*?)</script>", text, re.DOTALL)[1]
        style = re.search(r"<style>(.*?)</style>", text, re.DOTALL)[1]
        for kind, part in (("script", script), ("style", style)):
            digest = base64.b64encode(hashlib.sha256(part.encode()).digest()).decode()
            self.assertIn(f"{kind}-src 'sha256-{digest}'", text)
        self.assertIn("default-src 'none'", text)
        self.assertNotIn("http://", text.replace("http://www.w3.org/2000/svg", ""))
        data = re.search(r'<script type="application/json" id="book">(.*?)</script>', text, re.DOTALL)[1]
        self.assertNotIn("<", data)
        book = json.loads(data)
        self.assertEqual(sorted(book), ["list", "machines", "name", "show", "steps"])
        self.assertEqual(book["name"], "orders.db")
        table = re.search(r"<noscript>(.*?)</noscript>", text, re.DOTALL)[1]
        self.assertEqual(table.count("<tr>"), 14)
        self.assertIn("<td>order-2#3</td>", table)

    def test_without_script(self):
        self.driver.execute_cdp_cmd("Emulation.setScriptExecutionDisabled", {"value": True})
        try:
            self.driver.get(self.made.as_uri())
            self.has("noscript table", "order-2#3")
        finally:
            self.driver.execute_cdp_cmd("Emulation.setScriptExecutionDisabled", {"value": False})
