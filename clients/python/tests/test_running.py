"""What a runner asks and gives, over a book that answers as a test says: refusals, back-offs, holds, a full book, a log near its end."""
import unittest

from rollback_client import Full, Held, JournalRefused, NoFollower, NoTable, OutOfMemory, Step
from rollback_client.runner.clock_file import ClockFile
from rollback_client.runner.running import Ask, Look, Options, Running, Sleep, Steps
from tests.runners import NOON


def refusal(kind, detail=""):
    return kind(kind.code, detail)


class Book:
    """Endless executions of a Pass, whose steps come out as `outcome` says of a thread, a number and a moment."""

    def __init__(self, *names, outcome=lambda thread, number: None, **options):
        self.now, self.said, self.outcome = NOON, [], outcome
        self.moves = {name: 0 for name in names}
        self.entry = {name: 1 + place for place, name in enumerate(names)}
        self.entries = 1 + len(names)
        self.taken, self.tries, self.asked, self.slept = [], 0, [], []
        self.held, self.settled = [], None
        self.running = Running(
            Options(**options), ClockFile(None, self.said.append), lambda: self.now, self.said.append
        )
        self.running.schedule.definitions["m"] = {"States": {"S": {"Type": "Pass", "Next": "S"}}}

    def row(self, name):
        return {
            "at": ["States", "S"],
            "entry": self.entry[name],
            "input": {},
            "machine": "m",
            "move": "step",
            "moves": self.moves[name],
            "retrier": None,
            "retries": 0,
            "state": "S",
            "thread": name,
            "type": "Pass",
        }

    def run(self, count, until=None):
        """Answers so many requests, or as many as come before a moment."""
        talk, sent = self.running.run(), None
        for _ in range(count):
            asked = talk.send(sent)
            if isinstance(asked, Sleep) and until is not None and (asked.until is None or asked.until > NOON + until):
                break
            sent = self.answer(asked)
        return self

    def answer(self, asked):
        if isinstance(asked, Look):
            rows = [self.row(name) for name in self.moves if self.entry[name] > asked.since]
            return {"entries": self.entries, "gone": [], "more": False, "threads": rows}
        if isinstance(asked, Steps):
            return [self.step(known.thread) for known in asked.threads]
        if isinstance(asked, Sleep):
            self.slept.append(None if asked.until is None else round(asked.until - NOON, 3))
            self.now = max(self.now, asked.until or self.now)
            return None
        self.asked.append(asked.command.line)
        return self.told(asked.command.line)

    def told(self, line):
        if line.startswith("? threads ready"):
            return {"entries": self.entries, "more": False, "threads": [self.row(name) for name in self.moves]}
        if line == "held":
            return self.held
        if line == "history":
            return [Step("a", number) for number in range(len(self.taken) - (self.settled or 0))]
        assert line == "settle", line
        outcome = self.outcome("settle", len(self.taken))
        if outcome is None:
            self.settled = len(self.taken)
            self.entries += 1
        return outcome

    def step(self, thread):
        self.tries += 1
        found = self.outcome(thread, self.tries)
        if found is None:
            self.taken.append(thread)
            self.moves[thread] += 1
            self.entry[thread] = self.entries
            self.entries += 1
        return found


class Refusals(unittest.TestCase):
    def test_a_journal_that_takes_no_line(self):
        for kind in (JournalRefused, OutOfMemory):
            book = Book("a", outcome=lambda thread, number, kind=kind: refusal(kind) if 3 <= number <= 10 else None)
            book.run(200, until=500)
            self.assertEqual([at for at in book.slept if at], [1, 3, 7, 15, 31, 63, 123, 183])
            self.assertEqual(len(book.said), 1)
            self.assertGreater(len(book.taken), 20)

    def test_others_that_were_first(self):
        from rollback_client import NoMove, NoThread

        for kind, detail in ((NoThread, ""), (NoMove, "waiting"), (NoMove, "done")):
            book = Book("a", "b", outcome=lambda thread, number: refusal(kind, detail) if thread == "a" else None)
            book.run(100)
            self.assertGreater(len(book.taken), 20)
            # one try of a: it isn't tried again before it has changed
            self.assertEqual(book.tries - len(book.taken), 1)

    def test_a_hold(self):
        book = Book(
            "a", "b", outcome=lambda thread, number: refusal(Held, "x#1") if thread == "a" and book.held else None
        )
        book.held = [Step("x", 1)]
        book.run(60)
        self.assertEqual(set(book.taken), {"b"})
        self.assertEqual(book.asked.count("held"), 1)
        book.moves["c"], book.entry["c"], book.held = 0, book.entries, []
        book.entries += 1  # another caller's line: it has taken the held step back
        # it was told so by what changed, and looks at the hold
        talk = book.running.run()
        sent = None
        for _ in range(60):
            sent = book.answer(talk.send(sent))
        self.assertIn("a", book.taken)

    def test_no_table_and_no_follower(self):
        book = Book("a")
        answers = [NoFollower(0, "no follower"), NoFollower(0, "no follower")]
        told = book.told

        def at_first(line):
            if line == "held":
                return refusal(NoTable)
            return answers.pop() if answers else told(line)

        book.told = at_first
        book.run(60)
        self.assertEqual(book.slept[:2], [0.2, 0.4])
        self.assertGreater(len(book.taken), 5)

    def test_a_follower_that_is_gone_when_the_first_execution_comes(self):
        book, refusals = Book(), [NoFollower(0, "no follower")] * 2
        talk, sent, begun, idle = book.running.run(), None, 0, 0
        for _ in range(60):
            asked = talk.send(sent)
            if isinstance(asked, Look) and begun and refusals:
                sent = refusals.pop()
                continue
            if isinstance(asked, Sleep) and asked.until is None:
                idle += 1
                if not begun:  # an execution is started, and nobody gives a line later
                    begun, book.moves["a"], book.entry["a"] = 1, 0, book.entries
                    book.entries += 1
            sent = book.answer(asked)
        self.assertEqual((refusals, idle), ([], 1))
        self.assertGreater(len(book.taken), 5)


class FullBooks(unittest.TestCase):
    def test_it_waits_until_another_makes_room(self):
        book = Book(
            "a", outcome=lambda thread, number: refusal(Full) if len(book.taken) >= 5 and book.entries < 100 else None
        )
        book.run(60)
        self.assertEqual((len(book.taken), book.tries), (5, 6))
        self.assertEqual(book.said, ["the book is full, and no step is taken until there is room"])
        self.assertNotIn("settle", book.asked)

    def test_it_settles_at_a_number(self):
        book = Book("a", settle_at=10)
        book.run(200)
        self.assertEqual(book.said[0], "10 steps are settled")
        self.assertGreater(len(book.said), 3)
        self.assertTrue(all(line == "10 steps are settled" for line in book.said))
        # the steps are counted only if there may be so many
        self.assertLessEqual(book.asked.count("history"), 2 + len(book.said))

    def test_it_settles_nothing_while_something_is_paused_or_held(self):
        book = Book("a", settle_at=10)
        book.running.paused.add(("execution", "other"))
        book.run(100)
        self.assertNotIn("settle", book.asked)
        self.assertGreater(len(book.taken), 20)
        book = Book(
            "a", settle_at=10, outcome=lambda thread, number: refusal(Held, "x#1") if thread == "settle" else None
        )
        book.held = [Step("x", 1)]
        book.run(100)
        self.assertNotIn("settle", book.asked)

    def test_a_log_near_its_end(self):
        book = Book("a", settle_at=10, outcome=lambda thread, number: refusal(Full) if len(book.taken) >= 10 else None)
        book.run(200)
        self.assertEqual(book.asked.count("settle"), 1)
        near = "the log is near its end: it has no room for a settlement, and none is tried any more"
        self.assertEqual(book.said.count(near), 1)
        self.assertEqual(len(book.taken), 10)

    def test_a_full_book_is_settled_before_the_number_is_reached(self):
        book = Book("a", settle_at=1000)
        book.outcome = lambda thread, number: (
            refusal(Full) if thread != "settle" and len(book.taken) - (book.settled or 0) >= 7 else None
        )
        book.run(200)
        self.assertGreater(len(book.taken), 20)
        self.assertIn("7 steps are settled", book.said)


class Requests(unittest.TestCase):
    def test_one_question_for_many_executions(self):
        book = Book(*(f"e{number}" for number in range(500)))
        book.run(3)
        self.assertEqual(len(book.asked), 2)
        self.assertIsInstance(next(book.running.run()), Ask)


if __name__ == "__main__":
    unittest.main()
