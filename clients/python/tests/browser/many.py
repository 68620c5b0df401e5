"""Many steps: a page of 200 and one of 40,000 open at a step, which is then in sight, and stay quick."""
import json
import pathlib
import sys
import tempfile

from tests.browser.driving import InBrowser, Keys
from tests.program import TOP, ratio

# In how many times as long as a page of 200 steps one of 40,000 opens, which has 200 times its data: in some 8 to 11 times as long if they
# are of 4,000 executions, and in some 13 to 37 times as long if all are of one.
MOST_OF_MANY = 40
MOST_OF_ONE = 120
# In how many times as long as a page opens something is done within it. It is some third of that for a search, and less for others.
MOST_OF_AN_OPENING = 3
# The same for a page of 200 steps at what depends on what. It is some twice as long.
MOST_OF_A_SMALL_ONE = 10


def big_book(executions, each):
    """The data of a page: so many executions of so many steps, which read and write fifty items."""
    steps, rows, written = [], [], {}
    for number in range(executions):
        thread, before = f"order-{number}", None
        for place in range(each):
            steps.append(_step(thread, number, place, each, before, written, len(steps)))
            before = steps[-1]["step"]
        status = "failed" if number % 9 == 0 else "open"
        rows.append(
            {
                "entry": len(steps) - 1,
                "error": None,
                "execution": thread,
                "machine": "order",
                "state": "Look",
                "status": status,
                "steps": each,
            }
        )
    about = {"entries": len(steps), "rollback_graph": 1}
    failed = sum(row["status"] == "failed" for row in rows)
    counts = {"done": 0, "failed": failed, "open": executions - failed}
    listed = {"counts": counts, "executions": rows, "held": None, "machines": {"order": counts}, "more": False, **about}
    machines = {"machines": ["order"], "more": False, **about}
    return {
        "list": listed,
        "machines": machines,
        "name": "big.db",
        "show": None,
        "steps": {"count": len(steps), "from": 0, "steps": steps, **about},
    }


def _step(thread, number, place, each, before, written, entry):
    on = [] if before is None else [{"reason": "thread", "step": before}]
    key = access = items = None
    name = f"{thread}#{place}"
    if place % 3 == 1:
        word = f"sku-{(number * 7 + place) % 50}"
        key, access = {"id": {"S": word}}, "write" if (number + place) % 5 == 0 else "read"
        items = {"after": {"id": {"S": word}}, "before": None}
        if written.get(word, before) != before:
            on.insert(0, {"reason": "item", "step": written[word]})
        if access == "write":
            written[word] = name
    has_failed = place == each - 1 and number % 9 == 0
    frame = {"input": {"customer": "ann"}, "moves": place, "phase": "ready", "state": "Look"}
    return {
        "access": access,
        "entry": entry,
        "frames": {"after": frame, "before": frame if place else None},
        "input": {"customer": "ann"} if place else None,
        "items": items,
        "key": key,
        "kind": "start" if place == 0 else "call" if key else "plain",
        "on": on,
        "outcome": {"error": "Blocked", "to": "failed"} if has_failed else {"state": "Look", "to": "next"},
        "output": {"customer": "ann"},
        "state": f"State{place}" if place else None,
        "step": name,
        "thread": thread,
        "type": "Task" if place else None,
    }


def address_of(step, show):
    """A step's address within a page."""
    return f"step={step.replace('#', '%23')}" + (f"&show={show}" if show else "")


class Large(InBrowser):
    """Pages as `--html` writes them, from a file."""

    @classmethod
    def setUpClass(cls):
        super().setUpClass()
        room = tempfile.TemporaryDirectory()
        cls.addClassCleanup(room.cleanup)
        cls.small = cls.page_file(room.name, 20, 10)
        cls.wide = cls.page_file(room.name, 4000, 10)

    @classmethod
    def page_file(cls, room, executions, each):
        sys.path.insert(0, str(TOP / "tools"))
        from plain_book.values import written
        from plain_book.viewer import page_of

        made = pathlib.Path(room) / f"{executions}.html"
        made.write_text(page_of(written(big_book(executions, each)), "", "big.db", None), encoding="utf-8")
        return made

    def opened(self, made, step, show=""):
        """Opens a page at a step, and gives after how many seconds that was in sight."""
        self.driver.get("about:blank")
        address = f"{made.as_uri()}#{address_of(step, show)}"
        return self.taken(lambda: self.driver.get(address), lambda: self.is_in_sight(step))

    def gone_to(self, step, show):
        """Goes to a step within a page, and gives after how many seconds it was in sight."""
        self.go("overview")
        return self.taken(lambda: self.go(address_of(step, show)), lambda: self.is_in_sight(step))

    def found(self, text):
        """Searches, and gives after how many seconds a step was found."""
        self.go("overview")
        return self.taken(lambda: self.search(text, Keys.ENTER), lambda: self.hash().startswith("#step="))

    def opens_in_time(self, made, step, show, most):
        """Looks that a page opens at a step in so many times as long as one of 200 steps."""
        took = ratio(lambda: self.opened(made, step, show), lambda: self.opened(self.small, "order-11#5"), most)
        self.assertLess(took, most, f"{step} {show}")

    def elements(self):
        return self.js("return document.querySelectorAll('*').length")

    def test_200(self):
        for show in ("plan", "causes"):
            self.opens_in_time(self.small, "order-11#5", show, MOST_OF_A_SMALL_ONE)

    def test_40000_in_4000_executions(self):
        made = self.wide
        self.assertLess(made.stat().st_size, 40_000 * 500)
        self.opens_in_time(made, "order-2000#4", "", MOST_OF_MANY)
        for step, show in (("order-4#1", "plan"), ("order-3999#9", "causes")):
            self.quick_within(made, lambda step=step, show=show: self.gone_to(step, show), f"{show} {step}")
            self.assertLess(self.elements(), 6000)
        self.go("overview")
        self.becomes(lambda: self.texts(".toggle"), ["failed 445", "open 3,555", "done 0"])
        self.js("const s = document.querySelector('.overview .scroller'); s.scrollTop = s.scrollHeight / 2;")
        self.soon(
            lambda: any(text.startswith("order-19") or text.startswith("order-20") for text in self.texts("td.name")),
            "rows of the middle",
        )
        self.assertLess(self.js("return document.querySelectorAll('tr').length"), 100)
        self.quick_within(made, lambda: self.found("sku-49"), "a search")

    def quick_within(self, made, does, what):
        """Looks that something within a page takes no longer than some openings of it. Afterwards it was done once more."""
        took = ratio(does, lambda: self.opened(made, "order-2000#4"), MOST_OF_AN_OPENING)
        self.assertLess(took, MOST_OF_AN_OPENING, what)
        does()

    def test_40000_in_one_execution(self):
        made = self.page_file(self.room, 1, 40_000)
        self.opens_in_time(made, "order-0#20000", "", MOST_OF_ONE)
        self.opened(made, "order-0#20000")
        self.assertLess(self.elements(), 6000)
        self.focus(".picture")
        self.type(Keys.ARROW_DOWN)
        self.soon(lambda: self.is_in_sight("order-0#20001"), "the next step")
        self.type("0")
        self.soon(lambda: self.js("return document.querySelector('.silhouette') !== null"), "all of them as one shape")
        self.assertLess(self.js("return document.querySelectorAll('.box').length"), 5)

    def test_bands_are_closed_above_some_hundred_steps(self):
        self.opened(self.wide, "order-4#1", "plan")
        name = self.text(".box.collapsed .step-name")
        self.press(".box.collapsed .step-name", name)
        self.soon(
            lambda: any(step.startswith(f"{name}#") for step in self.attributes(".box", "data-id")), f"steps of {name}"
        )
        self.assertNotIn(name, [text.split("\n")[0] for text in self.texts(".box.collapsed")])

    def test_a_running_book_of_200_steps(self):
        lines = [
            "table t id:S []",
            f"define m {json.dumps({'StartAt': 'A', 'States': {'A': {'Type': 'Pass', 'Next': 'A'}}})}",
        ]
        lines += [f"start e{number} m {{}}" for number in range(20)]
        lines += [f"step e{number}" for number in range(20) for _ in range(9)]
        self.journal("\n".join(lines) + "\n")
        self.console()
        self.driver.get(self.address + "#step=e11%235")
        self.driver.refresh()
        self.soon(lambda: self.is_in_sight("e11#5"), "e11#5 in sight")
        self.go("step=e3%230&show=plan")
        self.soon(lambda: self.is_in_sight("e3#0"), "e3#0 in sight")
