"""Keys and focus: what can be done without a pointer."""
from tests.browser.driving import Keys, OfOneBook


class ByKeys(OfOneBook):
    """A picture is one tab stop, and arrows go along its lines."""

    def chosen(self):
        return self.js(
            "const found = document.querySelector('.box[aria-selected=true]'); return found && found.dataset.id;"
        )

    def test_arrows(self):
        self.go("step=billing-7%230&show=plan")
        self.becomes(self.chosen, "billing-7#0")
        self.focus(".picture")
        for step in ("billing-7#1", "billing-7#2", "order-2#1", "order-2#2", "order-2#3"):
            self.type(Keys.ARROW_DOWN)
            self.becomes(self.chosen, step)
        self.type(Keys.ARROW_UP)
        self.becomes(self.chosen, "order-2#2")
        self.type(Keys.ARROW_LEFT)
        self.soon(lambda: (self.chosen() or "").startswith("billing-7#"), "the one beside")
        self.assertTrue(self.has_focus(".picture"))
        self.soon(lambda: "at=billing-7" in self.hash(), "address")
        described = "return document.activeElement.getAttribute('aria-activedescendant')"
        self.becomes(lambda: self.js(described), "box-" + self.chosen())

    def test_escape(self):
        self.go("step=order-2%231")
        self.shows("#panel h2")
        self.focus("#panel a")
        self.type(Keys.ESCAPE)
        self.becomes(lambda: self.count("#panel"), 0)
        self.soon(lambda: self.has_focus(".picture"), "picture with the focus")
        self.type(Keys.ARROW_DOWN)
        self.becomes(self.chosen, "order-2#2")
        self.assertEqual(self.count("#panel"), 0)
        self.type(Keys.ENTER)
        self.becomes(lambda: self.texts("#panel h2"), ["order-2#2"])

    def test_one_tab_stop(self):
        self.go("step=order-2%233&show=causes")
        self.shows(self.box("order-2#3"))
        stops = self.js(
            """return [...document.querySelectorAll('.pictured .scroller, .pictured .scroller *')]
                .filter((element) => element.tabIndex >= 0).map((element) => element.className);"""
        )
        self.assertEqual(stops, ["scroller picture"])

    def test_help(self):
        self.type("?")
        self.sees("along a line")
        self.soon(lambda: self.has_focus("dialog button"), "button with the focus")
        self.type(Keys.ESCAPE)
        self.becomes(lambda: self.count("dialog"), 0)
        self.type("/")
        self.soon(lambda: self.has_focus("input[type=search]"), "search with the focus")
        self.type("?")
        self.becomes(lambda: self.value("input[type=search]"), "?")
        self.assertEqual(self.count("dialog"), 0)

    def test_zoom(self):
        self.go("step=billing-7%230&show=plan")
        self.shows(self.box("billing-7#0"))
        self.focus(".picture")
        self.type("+")
        self.type("+")
        self.soon(lambda: int(self.text(".percent").split()[0]) > 120, "larger picture")
        self.shows(".minimap")
        self.type("0")
        self.soon(lambda: all(self.is_in_sight(step) for step in ("billing-7#0", "order-2#3")), "all of it")

    def test_back(self):
        self.click("order-2")
        self.press(self.box("order-2#1"))
        self.becomes(lambda: self.texts("#panel h2"), ["order-2#1"])
        self.driver.back()
        self.driver.back()
        self.sees("Name")
        self.becomes(lambda: self.count("tbody tr:not(.space)"), 4)
