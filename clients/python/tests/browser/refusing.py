"""Each refusal comes in a sentence that says what to do, and changes nothing."""
import json

from tests.browser.driving import InBrowser


class Refusals(InBrowser):
    """At the line, where all of them can be met; and at the buttons that meet some."""

    expected = ("409", "Failed to load resource")

    def setUp(self):
        super().setUp()
        self.book_of("wrong-bill.txt", until="plan")
        self.console()

    def give(self, line):
        """Gives a line, and answers what is said of it."""
        before = self.count(".reply")
        self.fill('[aria-label="Line"]', line, "\n")
        self.becomes(lambda: self.count(".reply"), before + 1)
        return self.text(".reply")

    def test_sentences(self):
        self.go("line")
        before = [str(step) for step in self.book.history()]
        for line, code, sentence in (
            ("start x none {}", "no 1", "there is no machine none: define it first"),
            ("define order {}", "no 2", "a machine can't be changed or removed"),
            ('define x {"StartAt":"A"}', "no 3", "the definition of x is faulty"),
            ("start order-1 order {}", "no 4", "there is an execution order-1"),
            ("step nobody", "no 5", "there is no thread nobody"),
            ("step order-1", "no 6 done", "order-1 is done and has no step left"),
            ("undo order-9#1", "no 7", "no step order-9#1 remains"),
            ("undo billing-7#2", "no 8 order-2#1", "undo order-2#1 first"),
            ("nonsense", "no 20", "there is no line nonsense of this form"),
            ("table t id:S []", "no 22", "a book has one table"),
            ("start x order {", "no 25", "this isn't JSON"),
            ("!copy", "no 20", "there is no line !copy of this form"),
            ("!waits", "no 31", "no runner"),
        ):
            said = self.give(line)
            self.assertIn(code, said, line)
            self.assertIn(sentence, said, line)
        self.assertEqual([str(step) for step in self.book.history()], before)

    def test_held_and_settled(self):
        self.go("line")
        self.book.hold("billing-7#0")
        self.assertIn(
            "which is held",
            self.give("step billing-7")
            + self.give("undo billing-7#0")
            + self.give('start x order {"customer":"ann"}')
            + self.step_on_ann(),
        )
        for step in reversed(["billing-7#0", "billing-7#1", "billing-7#2", "order-2#1", "order-2#2", "order-2#3"]):
            self.book.undo(step)
        self.book.settle()
        self.assertIn("order-1#0 is settled and can't be taken back", self.give("undo order-1#0"))

    def step_on_ann(self):
        return self.give("step x")

    def test_start(self):
        self.go("start=order")
        self.write("Name", "order-1")
        self.click("Start", "button")
        self.sees("There is an execution order-1: take another name")
        self.write("Name", "a name")
        self.click("Start", "button")
        self.shows("[name=Name]:invalid")
        self.write("Name", "order-8")
        for text, sentence in (
            ('{"customer":', "Input: "),
            ('{"price":0.5}', "the number 0.5 isn't whole"),
            ('{"n":9223372036854775808}', "doesn't fit 64 bits"),
        ):
            self.write("Input", text)
            self.has(".fault-text", sentence)
            self.click("Start", "button")
        self.assertEqual(len(self.book.history()), 13)
        self.write("Input", '{"customer":"bob","order":"shipment-8","n":9007199254740993}')
        self.click("Start", "button")
        self.sees("order-8 is started")
        self.has(".about-execution", "9007199254740993")
        self.assertEqual(self.book.execution("order-8")["input"]["n"], 9007199254740993)

    def test_definition(self):
        self.go("define")
        self.write("Name", "next")
        text = json.dumps({"StartAt": "A", "States": {"A": {"Type": "Pass", "Next": "Bee"}}}, indent=1)
        self.shows("[name=Definition]")
        self.js(
            "const t = document.querySelector('[name=Definition]'); t.value = arguments[0]; t.dispatchEvent(new Event('input'));",
            text,
        )
        self.has(".faults", "error")
        self.press(".findings button", "line 6", begins=True)
        chosen = "const t = document.querySelector('[name=Definition]'); return t.value.slice(t.selectionStart, t.selectionEnd);"
        self.soon(lambda: "Bee" in self.js(chosen), "chosen place")
        self.click("Define", "button")
        self.sees("The definition of next is faulty")
        self.js(
            "const t = document.querySelector('[name=Definition]'); t.value = t.value.replace('\"Next\": \"Bee\"', '\"End\": true'); t.dispatchEvent(new Event('input'));"
        )
        self.sees("The linter finds nothing")
        self.click("Define", "button")
        self.sees("next is defined")
        self.assertIn("next", self.book.question("machines")["machines"])

    def test_rollback_of_what_is_gone(self):
        self.go("step=order-3%231&show=plan")
        self.click("Roll back 1 step", ".acts button")
        self.js("rollback.app.source.stop()")
        self.book.rollback("order-3#1")
        self.click("Roll back 1 step", "dialog button")
        self.sees("No step order-3#1 remains")
