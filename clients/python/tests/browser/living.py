"""What others do is seen at once, in its place; a lost server is said, and comes back with the present state; who has no token sees nothing."""
import http.server
import os
import signal
import threading

from rollback_client import Book
from tests.browser.driving import InBrowser
from tests.cluster_machines import free_ports
from tests.program import LOOP, PATIENCE, ratio

# In how many times as long as its page opens a line is seen: in some 0.4 to 1.2.
MOST_OF_AN_OPENING = 10


class Live(InBrowser):
    """Changes by another caller, while somebody looks."""

    def setUp(self):
        super().setUp()
        self.book_of("wrong-bill.txt", until="plan")
        self.console()

    def rows(self):
        return self.texts("tbody tr:not(.space) td.name")

    def test_what_others_do(self):
        self.becomes(lambda: len(self.rows()), 4)
        self.book.start("order-4", "order", {"customer": "bob", "order": "shipment-4"})
        self.becomes(lambda: self.rows()[:1], ["order-4"])
        self.book.step("order-3")
        self.becomes(lambda: self.rows()[:1], ["order-3"])
        self.book.rollback("order-4#0")
        self.becomes(lambda: sorted(self.rows()), ["billing-7", "order-1", "order-2", "order-3"])
        self.soon(lambda: any(self.texts("tbody tr:nth-child(2) td:nth-child(7)")), "time of what was seen")

    def test_at_once(self):
        """A line of another is seen in about the time in which the page opens: the server says it, and isn't asked now and again."""
        names = (f"seen-{number}" for number in range(100))

        def opened():
            self.driver.get("about:blank")
            return self.taken(self.open_page, lambda: len(self.rows()) >= 4)

        def seen():
            name = next(names)
            return self.taken(lambda: self.book.start(name, "order", {}), lambda: name in self.rows())

        opened()
        self.assertLess(ratio(seen, opened, MOST_OF_AN_OPENING), MOST_OF_AN_OPENING)

    def test_rows_keep_their_places(self):
        self.becomes(lambda: len(self.rows()), 4)
        before = self.rows()
        self.point("a", "order-1")
        self.book.start("order-4", "order", {"customer": "bob", "order": "shipment-4"})
        self.becomes(self.rows, [*before, "order-4"])
        self.js("window.kept = document.querySelector('tbody tr:nth-child(3) a'); kept.focus();")
        self.book.step("order-3")
        self.has("tbody", "Ship")
        self.assertEqual(self.rows(), [*before, "order-4"])
        self.assertTrue(self.js("return document.activeElement === kept && kept.isConnected"))
        self.js("document.activeElement.blur()")
        self.point(".brand")
        self.becomes(lambda: self.rows()[:1], ["order-3"])

    def test_what_is_typed_stays(self):
        self.go("start")
        self.write("Name", "order-5")
        self.write("Input", '{"customer":')
        self.js("window.kept = document.querySelector('[name=Input]')")
        self.book.step("order-3")
        self.becomes(lambda: self.js("return rollback.app.source.entries"), 17)
        self.drawn()
        self.assertEqual(self.value('[name="Name"]'), "order-5")
        self.assertEqual(self.value('[name="Input"]'), '{"customer":')
        self.assertTrue(self.js("return document.activeElement === kept && kept.isConnected"))

    def test_an_execution_grows(self):
        self.go("execution=order-3")
        self.shows(self.box("order-3#1"))
        self.book.step("order-3")
        self.shows(self.box("order-3#2"))
        self.book.rollback("order-3#1")
        self.becomes(lambda: self.attributes(".box", "data-id"), ["order-3#0"])

    def test_hidden_tabs(self):
        """A tab that is hidden has no stream, and has the present state when it is seen again."""
        self.js(
            """window.hide = (is) => {
                Object.defineProperty(document, "hidden", { configurable: true, get: () => is });
                document.dispatchEvent(new Event("visibilitychange"));
            };
            hide(true);"""
        )
        self.assertFalse(self.js("return rollback.app.source.isFollowing"))
        self.book.start("order-4", "order", {"customer": "bob", "order": "shipment-4"})
        self.assertNotIn("order-4", self.rows())
        self.js("hide(false)")
        self.soon(lambda: "order-4" in self.rows(), "what came meanwhile")
        self.book.start("order-5", "order", {"customer": "bob", "order": "shipment-5"})
        self.soon(lambda: "order-5" in self.rows(), "what comes")

    def test_eight_tabs(self):
        first = self.driver.current_window_handle
        try:
            for number in range(8):
                self.driver.switch_to.new_window("window")
                self.driver.get(self.address)
                self.soon(lambda: len(self.rows()) == 4, f"book in tab {number + 1}")
                self.soon(self.is_ready, f"console in tab {number + 1}")
            self.book.start("order-4", "order", {"customer": "bob", "order": "shipment-4"})
            for handle in self.driver.window_handles[1:]:
                self.driver.switch_to.window(handle)
                self.soon(lambda: "order-4" in self.rows(), "news in each tab")
        finally:
            for handle in self.driver.window_handles:
                if handle != first:
                    self.driver.switch_to.window(handle)
                    self.driver.close()
            self.driver.switch_to.window(first)


class Lost(InBrowser):
    """The server is killed, and another one begins."""

    expected = ("ERR_", "Failed to load resource")

    def test_killed_and_started_again(self):
        self.book_of("wrong-bill.txt", until="plan")
        (port,) = free_ports(1)
        server = self.console(http=f"127.0.0.1:{port}")
        self.go("step=order-3%231")
        self.soon(lambda: "Undo" in self.texts("#panel button"), "Undo")
        os.kill(server.process.pid, signal.SIGKILL)
        server.process.wait()
        self.sees("Connection lost")
        self.click("Undo", "#panel button")
        self.sees("It may or may not be done")
        self.click("Step", "button")
        self.sees("Nothing was done: the server isn't reached")
        again = self.served(http=f"127.0.0.1:{port}")
        with self.connected(again) as book:
            book.step("order-3")
        self.shows(self.box("order-3#2"))
        self.becomes(lambda: self.texts(".live"), ["Live"])

    def test_the_end(self):
        """SIGTERM isn't held up by a page that listens: callers of lines would be waited for without an end."""
        self.book_of("wrong-bill.txt", until="plan")
        server = self.console("--grace", str(100 * PATIENCE))
        self.becomes(lambda: self.texts(".live"), ["Live"])
        self.assertEqual(server.end()[0], 0)
        self.sees("Connection lost")

    def connected(self, server):
        return Book.connect(server.address, timeout=PATIENCE)


class Tokens(InBrowser):
    """Who has no token sees nothing of the book, and where the link is."""

    expected = ("401", "403")

    def test_without_a_token(self):
        self.book_of("wrong-bill.txt", until="plan")
        server = self.console()
        self.driver.delete_all_cookies()
        self.driver.get(self.address)
        self.sees("No book is shown here")
        self.sees(server.address + ".token")
        self.assertNotIn("order", self.body())
        self.driver.get(server.links["console"])
        self.sees("order-2")
        self.soon(lambda: "token" not in self.driver.current_url, "address without a token")
        cookie = self.driver.get_cookies()[0]
        self.assertEqual((cookie["httpOnly"], cookie["sameSite"]), (True, "Strict"))
        self.assertEqual(self.js("return document.cookie"), "")

    def test_another_page_of_this_machine(self):
        """A page of another port has the cookie sent, and nothing is shown to it or done for it."""
        self.expected += ("blocked", "CORS", "ERR_", "Failed to load")
        self.book_of("wrong-bill.txt", until="plan")
        self.console()
        target = self.address
        self.driver.get(self.other_page())
        script = """const [target, path, body, done] = arguments;
            const given = body ? { method: "POST", body } : {};
            fetch(target + path, { credentials: "include", mode: "no-cors", ...given }).then((r) => done(r.type + r.status), () => done("refused"));"""
        for path, body in (("ask?q=list", None), ("line", '{"line":"settle"}'), ("events", None)):
            # what comes is opaque: the page sees neither its status nor its text
            self.assertIn(self.driver.execute_async_script(script, target, path, body), ("opaque0", "refused"))
        shown = """const [target, done] = arguments;
            fetch(target + "ask?q=list", { credentials: "include" }).then((r) => r.text()).then(done, () => done("refused"));"""
        self.assertEqual(self.driver.execute_async_script(shown, target), "refused")
        self.assertEqual(len(self.book.history()), 13)

    def other_page(self):
        """An empty page at another port."""

        class Empty(http.server.BaseHTTPRequestHandler):
            def do_GET(self):
                self.send_response(200)
                self.send_header("Content-Type", "text/html")
                self.end_headers()
                self.wfile.write(b"<!doctype html><link rel=icon href=data:,>")

            def log_message(self, *words):
                pass

        server = http.server.ThreadingHTTPServer(("127.0.0.1", 0), Empty)
        threading.Thread(target=server.serve_forever, daemon=True).start()
        self.addCleanup(server.server_close)
        self.addCleanup(server.shutdown)
        return f"http://127.0.0.1:{server.server_port}/"


class Runs(InBrowser):
    """A runner within the server: what it does is seen, and it is paused from the page."""

    def test_pause_and_resume(self):
        self.console("--rate", "50", asks="--run")
        self.book.table("items", {"id": "S"})
        self.book.define("loop", LOOP)
        self.book.define("wait", {"StartAt": "W", "States": {"W": {"Type": "Wait", "Seconds": 900, "End": True}}})
        self.book.start("one", "loop", {})
        self.book.start("slow", "wait", {})
        self.go("step=one%230&show=plan")
        self.sees("The runner goes on")
        self.click("Pause these first", "button")
        self.sees("1 execution is paused")
        self.soon(lambda: "The runner goes on" not in self.body(), "plan without a warning")
        count = len(self.book.history())
        self.go("runner")
        self.sees("A runner takes steps of this book")
        self.sees("execution one")
        self.sees("Wait of W")
        self.assertEqual(len(self.book.history()), count)
        self.click("Resume", "button")
        self.sees("one is resumed")
        self.soon(lambda: len(self.book.history()) > count, "further steps")
        self.click("Pause all", "button")
        self.sees("all executions")
        self.click("Resume all", "button")
        self.sees("Nothing is paused")
