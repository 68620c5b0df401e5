"""Lines that are typed, a drive, a console that gives nothing."""
from tests.browser.driving import InBrowser, Keys
from tests.program import LOOP


class Typed(InBrowser):
    """A line with completion and history."""

    def setUp(self):
        super().setUp()
        self.book_of("wrong-bill.txt", until="plan")

    field = '[aria-label="Line"]'

    def suggested(self):
        return self.texts(".suggestions button")

    def test_line(self):
        self.console("--log", self.path("log"))
        self.go("line")
        self.fill(self.field, "sho")
        self.becomes(self.suggested, ["show THREAD"])
        self.type(Keys.TAB, "order-")
        self.soon(lambda: "order-2" in self.suggested(), "names")
        self.type("2", Keys.ENTER)
        self.has(".replies", 'ok failed "CustomerBlocked" "unpaid bills"')
        self.type("held", Keys.ENTER)
        self.becomes(lambda: self.count(".reply"), 2)
        self.type(Keys.ARROW_UP, Keys.ARROW_UP)
        self.becomes(lambda: self.value(self.field), "show order-2")
        self.fill(self.field, "rollback billing-7#")
        self.soon(lambda: "billing-7#0" in self.suggested(), "steps")
        self.type("0", Keys.ENTER)
        self.sees("6 steps of 2 executions are taken back.")
        self.becomes(self.focused_text, "Cancel")
        self.click("Cancel", "dialog button")
        self.becomes(lambda: self.value(self.field), "rollback billing-7#0")
        self.assertEqual(len(self.book.history()), 13)
        self.focus(self.field)
        self.type(Keys.ENTER)
        self.click("Give the line", "dialog button")
        self.has(".replies", "ok 6")
        self.assertEqual(len(self.book.history()), 7)
        with open(self.path("log"), encoding="utf-8") as file:
            self.assertIn('"caller": "token console", "line": "rollback billing-7#0"', file.read())

    def test_read_only(self):
        self.console("--read-only")
        self.go("step=billing-7%230&show=plan")
        self.sees("This console is read-only")
        self.assertEqual(self.count("[data-does=rollback]"), 0)
        for hash in ("execution=order-3", "overview", "machines", "step=order-3%231"):
            self.go(hash)
            self.shows("main h1")
            for word in ("Step", "Drive this execution", "Start an execution", "Undo", "Define a machine"):
                self.assertNotIn(word, self.texts("button, main a"), hash)
        self.go("line")
        self.sees("it gives no line")
        self.shows(self.field + ":disabled")


class Drives(InBrowser):
    """A drive of one execution shows how far it is, and leaves the others alone."""

    def test_branches(self):
        self.book_of("monthly-bills.txt", until="undo")
        self.console()
        self.go("execution=november")
        self.click("Drive this execution", "button")
        self.sees("2 steps of november are taken")
        self.soon(lambda: "done" in self.texts(".about-execution .status"), "end")
        self.assertEqual([str(step) for step in self.book.history()][-2:], ["november/1.3#2", "november#2"])

    def test_a_book_from_nothing(self):
        self.console()
        self.sees("No execution is here")
        self.go("start")
        self.sees("There is no machine yet")
        self.go("items")
        self.shows("main h1")
        self.book.table("items", {"id": "S"})
        self.book.define("loop", LOOP)
        self.book.start("one", "loop", {})
        self.go("overview")
        self.sees("one")
