"""The tutorials by clicks, from the symptom to what is repaired; holds, undos, and a plan that another caller changes."""
from rollback_client import Done, Failed
from tests.browser.driving import InBrowser


class Tutorials(InBrowser):
    """Each begins at the page, where something is seen to be wrong."""

    def start(self, name, machine, text):
        self.click("Executions")
        self.click("Start an execution")
        self.write("Name", name)
        self.choose(f'option[value="{machine}"]')
        self.write("Input", text)
        self.click("Start", "button")
        self.sees(f"{name} is started")

    def roll_back(self, count, executions):
        steps = f"{count} steps"
        self.click(f"Roll back {steps}", ".acts button")
        self.sees(f"Roll back {steps} of {executions}?")
        self.becomes(self.focused_text, "Cancel")
        self.click(f"Roll back {steps}", "dialog button")
        self.sees(f"{steps} were taken back")

    def panel(self):
        """The step of the panel."""
        return self.texts("#panel h2")

    def drive(self, execution):
        self.go(f"execution={execution}")
        self.has(".about-execution h1", execution)
        self.click("Drive this execution")
        self.soon(lambda: self.texts(".about-execution .status") in (["done"], ["failed"]), f"end of {execution}")

    def test_a_wrong_bill(self):
        self.book_of("wrong-bill.txt", until="plan")
        self.console("--log", self.path("log"))
        self.click("failed 1", "button")
        self.becomes(lambda: self.texts("tbody tr:not(.space) td.name"), ["order-2"])
        self.click("order-2")
        self.sees("CustomerBlocked")
        self.sees("unpaid bills")
        self.press(self.box("order-2#3"))
        self.becomes(self.panel, ["order-2#3"])
        self.click("What led to it", "#panel a")
        self.sees("order-2#3 depends on 8 steps of 3 executions")
        self.press(self.box("billing-7#2"))
        self.has("#panel", "writes ann")
        self.click("In billing-7")
        self.has(".about-execution", '"customer":"ann"')
        self.press(self.box("billing-7#0"))
        self.becomes(self.panel, ["billing-7#0"])
        self.click("What would go?", "#panel a")
        self.sees("A rollback of billing-7#0 takes back 6 steps of 2 executions")
        self.has(".changes", '{"blocked":{"BOOL":false},"id":{"S":"ann"}}')
        self.roll_back(6, "2 executions")
        self.sees("is gone: its start was taken back")
        self.assertEqual(len(self.book.history()), 7)
        self.start("billing-7", "billing", '{"customer":"carol","overdue":true}')
        self.drive("billing-7")
        self.drive("order-2")
        self.assertIsInstance(self.book.show("order-2"), Done)
        self.click("Executions")
        self.soon(lambda: "failed 0" in self.texts(".toggle"), "no failed execution")
        self.assertEqual(
            {item["id"]["S"]: item.get("blocked") for item in self.book.items() if "blocked" in item},
            {"ann": {"BOOL": False}, "bob": {"BOOL": False}, "carol": {"BOOL": True}},
        )

    def test_a_branch_that_went_wrong(self):
        self.book_of("provisioning.txt", until="plan")
        self.console()
        self.assertIsInstance(self.book.show("acme"), Failed)
        self.search("ConditionalCheckFailed", "\n")
        self.soon(lambda: self.hash().startswith("#step=acme"), "failed step of acme")
        self.go("step=acme%2F1.1%231")
        self.becomes(self.panel, ["acme/1.1#1"])
        self.click("acme.example", "#panel a")
        self.sees("Who wrote and read it")
        self.click("globex/1.1#1")
        self.becomes(self.panel, ["globex/1.1#1"])
        self.press(self.box("globex#0"))
        self.becomes(self.panel, ["globex#0"])
        self.click("What would go?", "#panel a")
        self.roll_back(8, "2 executions")
        self.start("globex", "provision", '{"tenant":"globex","host":"host-1","name":"globex.example"}')
        self.drive("acme")
        self.drive("globex")
        self.assertIsInstance(self.book.show("acme"), Done)
        self.assertIsInstance(self.book.show("globex"), Done)

    def test_a_monthly_run(self):
        self.book_of("monthly-bills.txt", until="undo")
        self.console()
        self.click("Items")
        self.fill('[aria-label="Key or value has"]', "90000")
        self.becomes(lambda: sorted(self.texts("tbody tr:not(.space) td:first-child")), ["bill-bob", "rate-bob"])
        self.click("bill-bob")
        self.click("november/1.1#2")
        self.becomes(self.panel, ["november/1.1#2"])
        self.click("What led to it")
        self.press(self.box("rate-7#0"))
        self.becomes(self.panel, ["rate-7#0"])
        self.click("What would go?", "#panel a")
        self.sees("takes back 5 steps of 2 executions")
        self.roll_back(5, "2 executions")
        self.start("rate-7", "rate", '{"rate":"rate-bob","cents":"950"}')
        self.drive("rate-7")
        self.drive("november")
        self.assertEqual(self.book.show("november").output, ["bill-ann", "bill-bob", "bill-carol", "bill-dave"])
        bill = next(item for item in self.book.items() if item["id"] == {"S": "bill-bob"})
        self.assertEqual(bill["cents"], {"N": "950"})


class Changed(InBrowser):
    """What others do meanwhile."""

    def setUp(self):
        super().setUp()
        self.book_of("wrong-bill.txt", until="plan")

    def test_a_plan_that_grew(self):
        """It grew between the look and the click, and the page hadn't heard of it."""
        self.expected = ("409",)
        self.console()
        self.go("step=billing-7%230&show=plan")
        self.click("Roll back 6 steps", ".acts button")
        self.js("rollback.app.source.stop()")
        self.book.start("order-4", "order", {"customer": "ann", "order": "shipment-4"})
        self.book.step("order-4")
        self.click("Roll back 6 steps", "dialog button")
        self.sees("The plan has changed, and nothing was done: 7 steps now")
        self.sees("takes back 7 steps of 3 executions")
        self.assertEqual(len(self.book.history()), 15)
        self.shows(self.box("order-4#1"))

    def test_a_plan_grows_before_ones_eyes(self):
        self.console()
        self.go("step=billing-7%230&show=plan")
        self.sees("takes back 6 steps")
        self.book.start("order-4", "order", {"customer": "ann", "order": "shipment-4"})
        self.book.step("order-4")
        self.sees("takes back 7 steps of 3 executions")

    def test_taken_back_by_another(self):
        server = self.console("--log", self.path("log"), "--token", "console", "--token", "ann")
        self.go("step=order-2%233")
        self.sees("It has failed with CustomerBlocked")
        ann = self.page(server, "ann")
        ann.line("rollback billing-7#0")
        self.sees("order-2#3 is no remaining step")
        self.sees("order-2#3 was taken back by ann at ")
        self.becomes(lambda: self.count("#panel"), 0)

    def test_the_same_click_twice(self):
        """A button that is under way gives nothing a second time."""
        self.console("--log", self.path("log"))
        self.go("execution=order-3")
        self.shows("[data-does=step]")
        self.js("const b = document.querySelector('[data-does=step]'); b.click(); b.click(); b.click();")
        self.sees("order-3#2 is taken")
        self.assertEqual([str(step) for step in self.book.history()][-1], "order-3#2")


class Holds(InBrowser):
    """A hold is taken, and undone step by step."""

    def test_hold(self):
        self.book_of("wrong-bill.txt", until="plan")
        self.console()
        self.go("step=billing-7%230&show=plan")
        self.click("Hold", ".acts button")
        self.sees("A hold ends only when its own step, billing-7#0, is taken back")
        self.click("Hold 6 steps", "dialog button")
        self.sees("6 steps are held")
        for left in range(5, 0, -1):
            self.has(".held", f"{left + 1} step")
            self.click("Undo the next held step")
            self.sees(f"{left} left of the hold")
        self.click("Undo the next held step")
        self.becomes(lambda: self.count(".held"), 0)
        self.assertEqual(self.book.held(), [])
        self.assertEqual(len(self.book.history()), 7)

    def test_undo_one_step(self):
        self.book_of("wrong-bill.txt", until="plan")
        self.console()
        self.go("step=order-3%231")
        self.click("Undo", "#panel button")
        self.sees("order-3#1 was taken back")
        self.becomes(lambda: self.texts(".ready tr td")[:2], ["order-3", "before Look"])
        self.go("step=billing-7%231")
        self.sees("What depends on it")
        self.assertNotIn("Undo", self.texts("#panel button"))
