"""The pictures of docs/: five views of a shop in which billing ran for the wrong customer. Light, 1280 by 800."""
import base64

from tests.browser.driving import InBrowser
from tests.program import TOP

CUSTOMERS = ("ann", "bob", "carol", "dave", "erin")


class Pictures(InBrowser):
    """Each is written anew, and is to be looked at."""

    def test_pictures(self):
        self.begin()
        for name, hash, wait in (
            ("overview", "overview", ["tbody td.name"]),
            ("execution", "step=order-27%231", ['.box[data-id="order-27#3"]', ".why", "#panel .valued"]),
            ("causes", "step=order-27%233&show=causes", ['.box[data-id="billing-7#2"]', "#panel .valued"]),
            ("plan", "step=billing-7%230&show=plan", ["[data-does=rollback]", "#panel .valued"]),
            ("item", "item=ann", ["tbody tr"]),
        ):
            self.go(hash)
            for selector in wait:
                self.shows(selector)
            if name in ("causes", "plan"):
                self.has(".picture", "failed")
            self.soon(lambda: self.js("return document.fonts.status === 'loaded'"), "fonts")
            self.keep(name)

    def keep(self, name):
        shot = self.driver.execute_cdp_cmd("Page.captureScreenshot", {"format": "png"})
        (TOP / "docs" / f"console-{name}.png").write_bytes(base64.b64decode(shot["data"]))

    def begin(self):
        """Orders of five customers. Billing ran for ann, although carol was meant, and ann's later orders failed."""
        lines = (TOP / "examples/wrong-bill.txt").read_text(encoding="utf-8").splitlines()
        machines = "\n".join(line for line in lines if line.startswith("define "))
        items = ",".join(f'{{"id":{{"S":"{name}"}},"blocked":{{"BOOL":false}}}}' for name in CUSTOMERS)
        self.journal(f"table shop id:S [{items}]\n{machines}\n")
        self.console("--log", self.path("log"))
        for number in range(1, 37):
            if number == 20:
                self.book.start("billing-7", "billing", {"customer": "ann", "overdue": True})
                self.book.finish("billing-7")
            customer = "ann" if number in (5, 14, 22, 27, 33) else CUSTOMERS[1 + number * number % 4]
            order = f"order-{number}"
            self.book.start(order, "order", {"customer": customer, "order": f"shipment-{number}"})
            for _ in range(3 if number % 7 or customer == "ann" else 1 + number % 2):
                self.book.step(order)
