"""Names, keys and values that would be markup, turn what is read, or fill the page: each is text."""
import json

from tests.browser.driving import InBrowser

MARKUP = '<img src=x onerror="window.harmed=1"><script>window.harmed=1</script>\'"&amp;]]>--><!--'
TURNED = "ann\u202egnp.exe\u2066\u200b\u0007"
LONG = "k" * 10_000


class Hostile(InBrowser):
    """Keys, states, errors and values of a book that somebody else filled."""

    def begin(self):
        put = {
            "StartAt": MARKUP[:70],
            "States": {
                MARKUP[:70]: {
                    "Type": "Task",
                    "Resource": "arn:aws:states:::dynamodb:putItem",
                    "Parameters": {"TableName": "t", "Item": {"id": {"S.$": "$.key"}, "v": {"S.$": "$.key"}}},
                    "Next": "Bad",
                },
                "Bad": {"Type": "Fail", "Error": MARKUP, "Cause": MARKUP + TURNED},
            },
        }
        lines = ["table t id:S []", f"define m {json.dumps(put)}"]
        for number, key in enumerate((MARKUP, TURNED, LONG, "a b", "{}", "after x", "5")):
            lines.append(f"start e{number} m {json.dumps({'key': key}, ensure_ascii=False)}")
        self.journal("\n".join(lines) + "\ndrive 99\n")

    def look(self):
        """Nothing of it is an element or a script, and the page isn't wider than its window."""
        self.assertIsNone(self.js("return window.harmed === undefined ? null : 1"))
        self.assertEqual(self.js("return document.querySelectorAll('img, main script, #panel script').length"), 0)
        self.assertLessEqual(self.js("return document.documentElement.scrollWidth"), 1280)

    def views(self, go):
        for hash in (
            "overview",
            "items",
            "step=e0%231",
            "step=e1%231",
            "step=e2%231",
            "step=e0%232&show=causes",
            "step=e2%230&show=plan",
        ):
            go(hash)
            self.shows("main h1, main .missing")
            self.look()
        go("items")
        for key, shown in (
            (MARKUP, MARKUP[:40]),
            (TURNED, "ann\\u202egnp.exe\\u2066\\u200b\\u0007"),
            ("{}", '{"S":"{}"}'),
            ("5", '{"S":"5"}'),
        ):
            self.press("td.name:first-child a", shown, begins=True)
            self.has(".value", json.dumps(key, ensure_ascii=False)[1:30].replace("\u202e", "\\u202e")[:8])
            self.sees("Who wrote and read it")
            self.look()
            go("items")
        for number in (3, 5):
            go(f"step=e{number}%231")
            self.press("#panel p a.name")
            self.sees("Who wrote and read it")
            go("items")

    def test_console(self):
        self.begin()
        self.console()
        self.views(self.go)
        self.search("onerror", "\n")
        self.soon(lambda: "#step=e" in self.hash(), "a found step")
        self.go("log")
        self.shows("main h1")
        self.go("machine=m")
        self.becomes(lambda: self.count(".box"), 2)
        self.look()
        self.go("step=" + "%3Cimg%20src%3Dx%20onerror%3Dharmed%3D1%3E")
        self.sees("is no remaining step")
        self.look()
        box = self.js(
            "return [...document.querySelectorAll('.box')].every((box) => box.offsetWidth <= 400 && box.offsetHeight <= 150)"
        )
        self.assertTrue(box)

    def test_page(self):
        self.begin()
        made = self.file_page(self.path("orders.db"))
        text = made.read_text(encoding="utf-8")
        self.assertNotIn("<img", text)
        self.assertEqual(text.count("<script"), 2)
        self.driver.get(made.as_uri())
        self.views(self.go)
