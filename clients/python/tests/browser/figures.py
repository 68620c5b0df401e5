"""What docs/BENCHMARKS.md says of the page and the console: how long 40,000 steps take to open, how soon a line is seen, what a tab takes."""
import http.client
import statistics
import threading
import time

from rollback_client import Book
from tests.browser.driving import InBrowser
from tests.browser.many import Large
from tests.pages import Page
from tests.program import ECHO, LOOP, PATIENCE

TIMES = 5
SECONDS = 2.0


class Figures(InBrowser):
    """Each is printed, and asserts nothing."""

    def test_opening(self):
        for executions, each, hash, step in (
            (4000, 10, "step=order-2000%234", "order-2000#4"),
            (4000, 10, "step=order-4%231&show=plan", "order-4#1"),
            (1, 40_000, "step=order-0%2320000", "order-0#20000"),
        ):
            made = Large.page_file(self.room, executions, each)
            seconds = []
            for _ in range(TIMES):
                self.driver.get("about:blank")
                began = time.monotonic()
                self.driver.get(f"{made.as_uri()}#{hash}")
                self.soon(lambda step=step: self.is_in_sight(step), f"{step} in sight")
                seconds.append(time.monotonic() - began)
            self.js("window.gc && gc()")
            heap = self.js("return performance.memory.usedJSHeapSize") / 1e6
            size = made.stat().st_size
            print(
                f"\n{executions} executions of {each} steps, at {hash}: {min(seconds):.2f} to {max(seconds):.2f} s, "
                f"{size / 1e6:.1f} MB, {size / executions / each:.0f} bytes a step, heap {heap:.0f} MB"
            )

    def test_seen(self):
        """From a line that is given until its row is there."""
        self.console()
        self.book.table("items", {"id": "S"})
        self.book.define("echo", ECHO)
        taken = []
        for number in range(20):
            began = time.monotonic()
            self.book.start(f"e{number}", "echo", {})
            self.soon(
                lambda number=number: self.js(
                    "return document.querySelector('a[href=\"#execution=e' + arguments[0] + '\"]') !== null", number
                ),
                "row",
            )
            taken.append(time.monotonic() - began)
        heap = self.js("return performance.memory.usedJSHeapSize") / 1e6
        print(
            f"\na line is seen after {statistics.median(taken) * 1000:.0f} ms (at most {max(taken) * 1000:.0f}), heap {heap:.0f} MB"
        )

    def test_lines(self):
        """Lines a second of eight callers, with and without streams of events."""
        server = self.served()
        who = Page(server.links["console"])
        with Book.connect(server.address, timeout=PATIENCE) as book:
            book.table("items", {"id": "S"})
            book.define("loop", LOOP)
            for number in range(8):
                book.start(f"e{number}", "loop", {})
        for streams in (0, 8, 64):
            opened = [self.listen(who) for _ in range(streams)]
            print(
                f"\n{streams} streams: {self.lines(server):.0f} lines a second, "
                f"{sum(stream[1][0] for stream in opened) / SECONDS / max(1, streams):.1f} events a second each"
            )
            for stream in opened:
                stream[0].close()

    def listen(self, who):
        connection = http.client.HTTPConnection(who.host, timeout=PATIENCE)
        connection.request("GET", "/events", headers={"Cookie": who.cookie, "Sec-Fetch-Site": "same-origin"})
        response = connection.getresponse()
        count = [0]

        def hear():
            try:
                for line in response:
                    count[0] += line.startswith(b"data: ")
            except (OSError, ValueError, AttributeError):
                pass  # it was closed meanwhile

        threading.Thread(target=hear, daemon=True).start()
        return response, count

    def lines(self, server):
        ends = time.monotonic() + SECONDS
        counts = [0] * 8

        def give(number):
            with Book.connect(server.address, timeout=PATIENCE) as book:
                while time.monotonic() < ends:
                    book.step(f"e{number}")
                    counts[number] += 1

        threads = [threading.Thread(target=give, args=(number,)) for number in range(8)]
        for thread in threads:
            thread.start()
        for thread in threads:
            thread.join()
        return sum(counts) / SECONDS
