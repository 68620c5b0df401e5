"""The views: what each shows, where it leads, and how it looks."""
import json

from selenium.webdriver.common.action_chains import ActionChains

from tests.browser.driving import HEIGHT, InBrowser, Keys, OfOneBook, size


class Views(OfOneBook):
    """A book of three orders and a bill, of which one order has failed."""

    def rows(self):
        return self.texts("tbody tr:not(.space) td.name")

    def test_overview(self):
        self.becomes(self.rows, ["order-3", "order-2", "billing-7", "order-1"])  # what moved last at first
        self.assertEqual(self.texts(".toggle"), ["failed 1", "open 1", "done 2"])
        cells = ["order-2", "order", "failed", "Refuse: CustomerBlocked", "4", "14"]
        self.becomes(lambda: self.texts("tbody tr:nth-child(3) td")[:6], cells)
        self.click("done 2", "button")
        self.becomes(self.rows, ["billing-7", "order-1"])
        self.click("done 2", "button")
        self.becomes(lambda: len(self.rows()), 4)
        self.choose('select option[value="billing"]')
        self.becomes(self.rows, ["billing-7"])
        self.assertIn("orders.db", self.driver.title)

    def test_execution(self):
        self.go("execution=order-2")
        for text in (
            "order-2",
            "failed",
            "Machine order",
            "State Refuse",
            "Error CustomerBlocked",
            "Cause unpaid bills",
            "ann",
        ):
            self.soon(lambda text=text: text in self.text(".about-execution").replace("\n", " "), text)
        box = self.box("order-2#3")
        self.becomes(lambda: self.text(box).split("\n"), ["order-2#3", "Refuse", "failed Fail"])
        label = "order-2#3, Refuse, a state that calls nothing, failed"
        self.assertEqual(self.attributes(box, "aria-label"), [label])
        self.has(self.box("order-2#1"), "reads ann")
        self.assertNotIn('{"S"', self.text(".picture"))
        sizes = "return [...document.querySelectorAll('.box')].map((box) => [box.offsetWidth, box.offsetHeight])"
        self.assertEqual([size for size in self.js(sizes) if size[0] > 400 or size[1] > 150], [])

    def test_why(self):
        """Why it failed, as the follower found it out, in a sentence."""
        self.go("execution=order-2")
        self.has(".why", "in Refuse: this Fail state says so")
        for why, text in (
            ({"case": "picks_nothing", "path": "$.none"}, "$.none picks nothing"),
            ({"case": "malformed", "flaw": "missing field", "field": "Key"}, "the call lacks Key"),
            (
                {"case": "malformed", "flaw": "attribute value", "field": "n", "fault": "no attribute value"},
                "the attribute n is no attribute value",
            ),
            (
                {"case": "no_key", "attribute": "id", "fault": "another type", "type": "S"},
                "the key's attribute id is of another type",
            ),
            (
                {"case": "condition", "condition": "attribute_not_exists", "attribute": "id"},
                "attribute_not_exists(id) doesn't hold",
            ),
            ({"case": "branch", "branch": 2}, "branch 2 failed"),
            ({"case": "too_many", "elements": 5000}, "5,000 elements, and at most 4,096"),
            ({"case": "unexplained"}, ""),
        ):
            self.assertIn(text, self.js("return rollback.console.whyText(arguments[0])", why))

    def test_panel(self):
        self.go("step=order-2%231")
        for text in (
            "What it depends on",
            "billing-7#2 the same item",
            "What depends on it",
            "order-2#2 the same thread goes on",
        ):
            self.has("#panel", text)
        self.click("billing-7#2", "#panel a")
        self.becomes(self.hash, "#step=billing-7%232")
        self.has("#panel", '"blocked": {"BOOL": true}')
        self.assertIn("billing-7#2", self.driver.title)
        self.driver.back()
        self.becomes(lambda: self.texts("#panel h2"), ["order-2#1"])

    def test_what_depends_on_what(self):
        self.go("step=order-2%233&show=causes")
        self.sees("order-2#3 depends on 8 steps of 3 executions")
        self.soon(lambda: self.is_in_sight("order-2#3"), "order-2#3 in sight")
        self.becomes(lambda: sorted(self.texts(".head")), ["billing-7", "order-1", "order-2"])
        below = self.js(
            """const top = (name) => document.querySelector('.box[data-id="' + name + '"]').getBoundingClientRect().top;
            return [['order-1#1', 'billing-7#2'], ['billing-7#2', 'order-2#1'], ['order-2#1', 'order-2#3']].every(([a, b]) => top(a) < top(b));"""
        )
        self.assertTrue(below, "a step isn't below what it depends on")
        self.assertEqual(self.count("path.line.item"), 2)

    def test_items(self):
        self.go("items")
        self.becomes(lambda: self.texts("tbody td.name:first-child"), ["ann", "bob", "shipment-1"])
        self.go("item=ann")
        self.sees("Who wrote and read it")
        self.becomes(
            lambda: [row.split()[:2] for row in self.texts("tbody tr")],
            [["order-1#1", "reads"], ["billing-7#2", "writes"], ["order-2#1", "reads"]],
        )
        self.click("billing-7#2")
        self.becomes(lambda: self.texts("#panel h2"), ["billing-7#2"])

    def test_search(self):
        def counted():
            return self.texts(".search .count")

        self.search("refuse")
        self.becomes(counted, ["1"])
        self.type(Keys.ENTER)
        self.becomes(self.hash, "#step=order-2%233")
        self.search("ANN", Keys.ENTER)
        self.becomes(counted, ["1 of 3"])
        self.soon(lambda: self.hash() != "#step=order-2%233", "another address")
        first = self.hash()
        self.focus("input[type=search]")
        self.type(Keys.ENTER)
        self.becomes(counted, ["2 of 3"])
        self.focus("input[type=search]")
        ActionChains(self.driver).key_down(Keys.SHIFT).send_keys(Keys.ENTER).key_up(Keys.SHIFT).perform()
        self.becomes(self.hash, first)
        self.search("nowhere")
        self.becomes(counted, ["no step"])
        self.assertEqual(self.count("input[type=search]"), 1)

    def test_gone(self):
        for step in ("order-9#4", "order-2#9"):
            self.go("step=" + step.replace("#", "%23"))
            self.sees(f"{step} is no remaining step")
        self.go("execution=order-9")
        self.sees("order-9 is no execution")
        self.go("item=nobody")
        self.sees("nobody is no item")

    def test_link_opens_at_its_step(self):
        self.driver.get(self.address + "#step=billing-7%232&show=plan")
        self.driver.refresh()
        self.sees("A rollback of billing-7#2 takes back 4 steps")

    def test_no_sideways(self):
        for width in (1280, 700):
            size(width, HEIGHT)
            for hash in (
                "overview",
                "execution=order-2",
                "step=order-2%233&show=causes",
                "items",
                "log",
                "machine=order",
                "runner",
                "line",
            ):
                self.go(hash)
                self.shows("main h1")
                self.assertLessEqual(self.js("return document.documentElement.scrollWidth"), width, hash)

    def test_dark(self):
        grounds = []
        for scheme in ("light", "dark"):
            features = [{"name": "prefers-color-scheme", "value": scheme}]
            self.driver.execute_cdp_cmd("Emulation.setEmulatedMedia", {"features": features})
            grounds.append(self.js("return getComputedStyle(document.body).backgroundColor"))
        self.driver.execute_cdp_cmd("Emulation.setEmulatedMedia", {"features": []})
        self.assertEqual(grounds, ["rgb(255, 255, 255)", "rgb(20, 24, 31)"])


class Words(InBrowser):
    """Branches, retries and catches: as words, lanes and lines."""

    def test_forks(self):
        self.book_of("provisioning.txt", until="plan")
        self.console()
        self.go("execution=acme")
        self.becomes(lambda: self.texts(".head"), ["acme", "acme/1.0", "acme/1.1"])
        self.has(self.box("acme/1.1#1"), "retried")
        self.has(self.box("acme/1.1#2"), "failed")
        self.assertEqual(self.count("path.line.fork"), 2)
        self.assertEqual(self.count("path.line.join"), 2)

    def test_caught(self):
        machine = {
            "StartAt": "Try",
            "States": {
                "Try": {
                    "Type": "Parallel",
                    "Branches": [{"StartAt": "Bad", "States": {"Bad": {"Type": "Fail", "Error": "Bad"}}}],
                    "Catch": [{"ErrorEquals": ["States.ALL"], "Next": "Other"}],
                    "Next": "End",
                },
                "Other": {"Type": "Succeed"},
                "End": {"Type": "Succeed"},
            },
        }
        self.journal(f"table t id:S []\ndefine m {json.dumps(machine)}\nstart e m {{}}\ndrive 9\n")
        self.console()
        self.go("execution=e")
        self.has(self.box("e#2"), "caught")


class Definitions(OfOneBook):
    """A definition as a text and as a picture."""

    def test_machine(self):
        self.click("Machines")
        self.click("order")
        self.becomes(lambda: self.count(".box"), 4)
        self.becomes(lambda: self.text(self.box("Look")).split("\n"), ["Look", "Task, getItem"])
        self.has(".definition", '"StartAt": "Look"')
        self.press(self.box("Judge"))
        self.has(".definition", '"Type": "Choice"')
        self.soon(lambda: "StartAt" not in self.text(".definition"), "state alone")


class WhatHappened(InBrowser):
    """The lines of the journal, with who gave them and when."""

    def test_log(self):
        server = self.console("--log", self.path("log"), "--token", "console", "--token", "ann")
        ann = self.page(server, "ann")
        for line in (
            "table shop id:S []",
            'define p {"StartAt":"P","States":{"P":{"Type":"Pass","End":true}}}',
            "start one p {}",
        ):
            ann.line(line)
        self.click("What happened")
        self.becomes(lambda: self.count("tbody tr:not(.space)"), 3)
        first = self.texts("tbody tr:nth-child(2) td")
        self.assertEqual((first[0], first[2], first[3]), ("2", "ann", "start one#0 p"))
        self.assertRegex(first[1], r"^\d\d:\d\d:\d\d$")
        self.book.step("one")
        self.becomes(lambda: self.count("tbody tr:not(.space)"), 4)

    def test_without_a_log(self):
        self.console()
        self.go("log")
        self.sees("No audit log (--log): who and when are known only since this server began.")
