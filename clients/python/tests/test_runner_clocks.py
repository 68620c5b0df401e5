"""Clocks and turns by themselves: when a thread is due, and which one is next. Moments are those of the standard's own examples."""
import bisect
import itertools
import math
import os
import sqlite3
import tempfile
import unittest
from datetime import datetime, timezone

from rollback_client.runner.clock_file import ClockFile, is_paused
from rollback_client.runner.clocks import NEVER, datetime_of, delay_of, due_of, wait_line
from rollback_client.runner.running import Limit
from rollback_client.runner.schedule import Schedule
from rollback_client.values import Step, Waiting, waiting_of

NOON = datetime(2026, 11, 23, 12, tzinfo=timezone.utc).timestamp()


def row(thread="a", entry=1, kind="Wait", input=None, move="step", retrier=None, retries=0, machine="m"):
    return {
        "at": ["States", "S"],
        "entry": entry,
        "input": {} if input is None else input,
        "machine": machine,
        "move": move,
        "moves": 0,
        "retrier": retrier,
        "retries": retries,
        "state": "S",
        "thread": thread,
        "type": kind,
    }


def waits(state, input=None, arrived=NOON):
    """How long a Wait takes, and the field of which there is no moment."""
    due = due_of(row(input=input), {"Type": "Wait", **state}, arrived)
    return due and (due.moment - arrived, due.fault.split(":")[0])


class Waits(unittest.TestCase):
    def test_each_field(self):
        given = {"in": {"s": 7, "t": "2026-11-23T12:01:00Z", "l": [1, {"s": 2}]}}
        for state, input, seconds in (
            ({"Seconds": 10}, None, 10),
            ({"Seconds": 0}, None, 0),
            ({"Seconds": 0.5}, None, 0.5),
            ({"SecondsPath": "$.in.s"}, given, 7),
            ({"SecondsPath": "$['in'].l[1]['s']"}, given, 2),
            ({"SecondsPath": "$.s", "InputPath": "$.in"}, given, 7),
            ({"Timestamp": "2026-11-23T12:00:05Z"}, None, 5),
            ({"Timestamp": "2026-11-23T11:00:00Z"}, None, -3600),
            ({"TimestampPath": "$.in.t"}, given, 60),
            ({"TimestampPath": "$.t", "InputPath": "$.in"}, given, 60),
        ):
            self.assertEqual(waits(state, input), (seconds, ""), state)

    def test_times_as_rfc_3339_writes_them(self):
        """Those of its section 5.8, and offsets."""
        for text, wanted in (
            ("1985-04-12T23:20:50.52Z", datetime(1985, 4, 12, 23, 20, 50, 520000, timezone.utc).timestamp()),
            ("1996-12-19T16:39:57-08:00", datetime(1996, 12, 20, 0, 39, 57, tzinfo=timezone.utc).timestamp()),
            ("1990-12-31T23:59:60Z", datetime(1991, 1, 1, tzinfo=timezone.utc).timestamp()),
            ("1990-12-31T15:59:60-08:00", datetime(1991, 1, 1, tzinfo=timezone.utc).timestamp()),
            ("1937-01-01T12:00:27.87+00:20", datetime(1937, 1, 1, 11, 40, 27, 870000, timezone.utc).timestamp()),
            ("2026-11-23t12:00:00z", NOON),
        ):
            due = due_of(row(), {"Type": "Wait", "Timestamp": text}, NOON)
            self.assertAlmostEqual(due.moment, wanted, 5, text)
            self.assertEqual(due.fault, "")

    def test_what_gives_no_moment_is_due_now(self):
        for state, input in (
            ({"Seconds": -1}, None),
            ({"Seconds": "10"}, None),
            ({"Seconds": True}, None),
            ({"Seconds": None}, None),
            ({"Seconds": float("nan")}, None),
            ({"SecondsPath": "$.s"}, {"s": "7"}),
            ({"SecondsPath": "$.s"}, {}),
            ({"SecondsPath": "$.s"}, [1]),
            ({"SecondsPath": "$..s"}, {"s": 7}),
            ({"SecondsPath": 7}, {"s": 7}),
            ({"SecondsPath": "$.s", "InputPath": None}, {"s": 7}),
            ({"Timestamp": "2026-11-23"}, None),
            ({"Timestamp": "2026-11-23 12:00:00Z"}, None),
            ({"Timestamp": "2026-11-23T12:00:00"}, None),
            ({"Timestamp": "2026-02-30T12:00:00Z"}, None),
            ({"Timestamp": "2026-11-23T24:00:00Z"}, None),
            ({"Timestamp": "2026-11-23T12:00:00+24:00"}, None),
            ({"Timestamp": "0000-01-01T12:00:00Z"}, None),
            ({"Timestamp": 5}, None),
            ({"TimestampPath": "$.t"}, {"t": {}}),
        ):
            self.assertEqual(waits(state, input), (0, next(name for name in state if name != "InputPath")), state)

    def test_without_a_field_nothing_is_waited_for(self):
        self.assertIsNone(waits({}))
        self.assertIsNone(due_of(row(kind="Pass"), {"Type": "Pass", "Seconds": 3}, NOON))
        self.assertIsNone(due_of(row(move=None), {"Type": "Wait", "Seconds": 3}, NOON))

    def test_beyond_all_bounds(self):
        for seconds in (1e300, 10**400, math.inf):
            self.assertEqual(due_of(row(), {"Seconds": seconds}, NOON).moment, NEVER)
        self.assertEqual(datetime_of(NEVER), datetime(9999, 12, 31, 23, 59, 59, tzinfo=timezone.utc))
        self.assertEqual(waits({"Seconds": -(10**400)}), (0, "Seconds"))
        line = wait_line("a/1.0", NEVER, "Wait of S")
        moment = datetime(9999, 12, 31, 23, 59, 59, tzinfo=timezone.utc)
        self.assertEqual(waiting_of(line), Waiting("a/1.0", moment, "Wait of S"))


class Anything(unittest.TestCase):
    def test_no_definition_and_no_input_is_an_error(self):
        values = (
            None,
            True,
            -1,
            0,
            7,
            0.5,
            1e300,
            10**400,
            -(10**400),
            math.inf,
            "x",
            "$",
            "$.a",
            "$.a[0]",
            "",
            [],
            [1],
            {},
        )
        values += (
            {"a": [2]},
            "2026-11-23T12:00:05Z",
            "9999-12-31T23:59:59Z",
            "0001-01-01T00:00:00+23:59",
            "$" * 9,
            "$['",
        )
        for field in ("Seconds", "SecondsPath", "Timestamp", "TimestampPath"):
            for value, input, path in itertools.product(values, values, ("$", None, "$.a", 5)):
                due = due_of(row(input=input), {"Type": "Wait", field: value, "InputPath": path}, NOON)
                self.assertLessEqual(due.moment, NEVER)
                datetime_of(due.moment)
        for one, two, three in itertools.product(values, repeat=3):
            retrier = {"IntervalSeconds": one, "BackoffRate": two, "MaxDelaySeconds": three, "JitterStrategy": one}
            for number in (1, 9):
                due = due_of(row(kind="Task", retrier=0, retries=number), {"Retry": [retrier]}, NOON)
                self.assertTrue(NOON <= due.moment <= NEVER, retrier)


class Retries(unittest.TestCase):
    def delays(self, count, **retrier):
        return [delay_of(retrier, number) for number in range(1, count + 1)]

    def test_intervals(self):
        self.assertEqual(self.delays(4), [1, 2, 4, 8])
        self.assertEqual(self.delays(3, IntervalSeconds=3, BackoffRate=1.5), [3, 4.5, 6.75])
        self.assertEqual(self.delays(4, IntervalSeconds=5, BackoffRate=1), [5, 5, 5, 5])
        self.assertEqual(self.delays(5, MaxDelaySeconds=5), [1, 2, 4, 5, 5])
        self.assertEqual(self.delays(2, IntervalSeconds=0, BackoffRate=1e200), [0, 0])
        self.assertEqual(self.delays(3, BackoffRate=0), [1, 0, 0])

    def test_beyond_all_bounds(self):
        self.assertEqual(self.delays(4, BackoffRate=1e200), [1, 1e200, math.inf, math.inf])
        self.assertEqual(self.delays(4, BackoffRate=1e200, MaxDelaySeconds=9), [1, 9, 9, 9])
        self.assertEqual(self.delays(2, IntervalSeconds=10**400, MaxDelaySeconds=9), [9, 9])
        state = {"Retry": [{"BackoffRate": 1e200}]}
        self.assertEqual(due_of(row(kind="Task", retrier=0, retries=5), state, NOON).moment, NEVER)

    def test_what_gives_no_interval_is_due_now(self):
        for field in ("IntervalSeconds", "BackoffRate", "MaxDelaySeconds"):
            for value in (-1, "1", True, None, [1], -math.inf):
                due = due_of(row(kind="Map", retrier=1, retries=2), {"Retry": [{}, {field: value}]}, NOON)
                self.assertEqual((due.moment, due.fault.split(":")[0]), (NOON, f"Retry[1].{field}"))

    def test_full_jitter_is_within_its_bounds_and_the_same_after_a_restart(self):
        state = {"Retry": [{"IntervalSeconds": 8, "JitterStrategy": "FULL"}]}
        found = [due_of(row(f"a{n}", kind="Task", retrier=0, retries=2), state, NOON).moment - NOON for n in range(500)]
        self.assertTrue(all(0 <= seconds <= 16 for seconds in found))
        self.assertLess(min(found), 1)
        self.assertGreater(max(found), 15)
        self.assertEqual(found[7], due_of(row("a7", kind="Task", retrier=0, retries=2), state, NOON).moment - NOON)
        state = {"Retry": [{"IntervalSeconds": 8, "JitterStrategy": "NONE"}]}
        self.assertEqual(due_of(row(kind="Task", retrier=0, retries=2), state, NOON).moment - NOON, 16)

    def test_a_retrier_that_isnt_there(self):
        self.assertEqual(due_of(row(kind="Task", retrier=3, retries=1), {}, NOON).moment, NOON + 1)


class Turns(unittest.TestCase):
    def setUp(self):
        self.said = []
        self.schedule = Schedule(self.said.append)
        self.schedule.definitions["m"] = {"States": {"S": {"Type": "Wait", "Seconds": 10}}}
        self.entry = 10

    def take(self, most=100, now=NOON, paused=lambda execution, machine: False):
        return [known.thread for known in self.schedule.take(most, now, paused)]

    def step(self, threads, now=NOON):
        """Each of these has taken a step, and has another one."""
        rows = []
        for thread in threads:
            self.entry += 1
            rows.append(row(thread, self.entry, "Pass"))
        self.schedule.learn(rows, [], now)

    def test_executions_take_turns(self):
        self.step(["b", "a", "c"])
        seen = []
        for _ in range(5):
            taken = self.take(2)
            seen += taken
            self.step(taken)
        self.assertEqual(seen, ["b", "a", "c", "b", "a", "c", "b", "a", "c", "b"])

    def test_branches_of_one_execution_take_turns_among_themselves(self):
        self.step(["a/1.0", "a/1.1", "a/1.2", "b"])
        seen = []
        for _ in range(8):
            (taken,) = self.take(1)
            seen.append(taken)
            self.step([taken])
        self.assertEqual(seen, ["a/1.0", "b", "a/1.1", "b", "a/1.2", "b", "a/1.0", "b"])

    def test_one_that_ends_a_fork_goes_alone_in_its_execution(self):
        self.schedule.learn(
            [
                row("a", 5, "Parallel", move="terminate"),
                row("a/1.0", 6, "Pass"),
                row("a/1.1", 7, "Pass"),
                row("b", 8, "Pass"),
            ],
            [],
            NOON,
        )
        self.assertEqual(self.take(), ["a", "b"])
        self.assertEqual(self.take(), ["a/1.0", "a/1.1"])

    def test_clocks(self):
        self.schedule.learn([row("a", 1), row("b", 2)], [], NOON)
        self.assertEqual((self.take(), self.schedule.next_moment()), ([], NOON + 10))
        self.schedule.learn([row("b", 3)], [], NOON + 4)
        self.assertEqual(self.take(now=NOON + 9.9), [])
        self.assertEqual(self.take(now=NOON + 10), ["a"])
        self.assertEqual(self.schedule.next_moment(), NOON + 14)
        self.assertEqual(self.take(now=NOON + 14), ["b"])
        self.assertIsNone(self.schedule.next_moment())

    def test_a_row_that_is_told_again_keeps_its_clock_and_its_turn(self):
        self.schedule.learn([row("a", 1)], [], NOON)
        self.schedule.learn([row("a", 1)], [], NOON + 5)
        self.assertEqual(self.schedule.next_moment(), NOON + 10)
        self.assertEqual(self.take(now=NOON + 10), ["a"])
        self.schedule.learn([row("a", 1)], [], NOON + 11)
        self.assertEqual(self.take(now=NOON + 30), [])

    def test_one_that_is_gone_or_has_no_move_is_forgotten(self):
        self.step(["a", "b", "c"])
        self.schedule.learn([row("b", 50, "Pass", move=None)], ["a"], NOON)
        self.assertEqual(self.take(), ["c"])
        self.schedule.learn([row("w", 60)], [], NOON)
        self.schedule.learn([], ["w"], NOON)
        self.assertEqual((self.schedule.next_moment(), self.schedule.waits(NOON)), (None, []))

    def test_kept_arrivals_count_if_thread_and_entry_fit(self):
        self.schedule.begin({"a": (1, NOON - 7), "b": (3, NOON - 7), "c": (2, NOON + 99), "d": (1, NOON - 7)})
        self.schedule.learn([row("a", 1), row("b", 2), row("c", 2)], [], NOON)
        self.schedule.end_of_beginning()
        found = {thread: moment - NOON for thread, moment, _ in self.schedule.waits(NOON)}
        self.assertEqual(found, {"a": 3, "b": 10, "c": 10})
        self.assertEqual(self.schedule.changes, {"a": (1, NOON - 7), "b": (2, NOON), "c": (2, NOON), "d": None})

    def test_holds(self):
        self.step(["a", "b"])
        taken = self.schedule.take(9, NOON, lambda *_: False)
        self.schedule.set_aside(taken[0], "x#2")
        self.assertEqual((self.take(), self.schedule.has_aside), ([], True))
        self.assertEqual(self.schedule.waits(NOON), [("a", None, "x#2 is held")])
        self.schedule.release({Step("x", 2)})
        self.assertEqual(self.take(), [])
        self.schedule.release({Step("x", 1)})
        self.assertEqual((self.take(), self.schedule.has_aside), (["a"], False))

    def test_pauses(self):
        self.step(["a", "b", "c"])
        paused = {("execution", "b")}
        by = lambda execution, machine: is_paused(paused, execution, machine)  # noqa: E731
        self.assertEqual(self.take(paused=by), ["a", "c"])
        self.schedule.resume(by)
        self.assertEqual(self.take(paused=by), [])
        paused.clear()
        self.schedule.resume(by)
        self.assertEqual(self.take(paused=by), ["b"])

    def test_only_some_machines(self):
        schedule = Schedule(self.said.append, lambda machine: machine != "other")
        schedule.learn([row("a", 1, "Pass"), row("b", 2, "Pass", machine="other")], [], NOON)
        self.assertEqual([known.thread for known in schedule.take(9, NOON, lambda *_: False)], ["a"])

    def test_one_line_for_each_field_without_a_moment(self):
        self.schedule.definitions["m"] = {"States": {"S": {"Type": "Wait", "Seconds": -1}}}
        for _ in range(2):
            self.schedule.learn([row("a", 1)], [], NOON)
        self.assertEqual(self.said, ["a in S: Seconds: -1 is less than 0, so it is due now"])
        self.assertEqual(self.take(), ["a"])

    def test_a_definition_of_another_form_holds_nobody_up(self):
        for definition in ({}, [], None, {"States": 7}, {"States": {"S": []}}, {"States": {"S": {"Retry": 5}}}):
            self.schedule.definitions["m"] = definition
            self.entry += 1
            self.schedule.learn([row("a", self.entry), row("b", self.entry, "Task", retrier=0, retries=1)], [], NOON)
            self.assertEqual(sorted(self.take(now=NOON + 1)), ["a", "b"])


class Rates(unittest.TestCase):
    def test_at_most_so_many_a_second(self):
        for rate in (0.5, 3, 50, 100, 2500):
            limit, now, taken = Limit(rate), 100.0, []
            while now < 104:
                for _ in range(limit.room(now, 64)):
                    limit.took(now)
                    taken.append(now)
                now = max(limit.next_moment(), now + 1e-4)
            for at, first in enumerate(taken):
                within = bisect.bisect_left(taken, first + 1 - 1e-9) - at
                self.assertLessEqual(within, max(1, rate * 1.02 + 1e-9), (rate, first))
            self.assertGreater(len(taken), 4 * rate * 0.9 - 1, rate)


class Files(unittest.TestCase):
    def setUp(self):
        held = tempfile.TemporaryDirectory()
        self.addCleanup(held.cleanup)
        self.path, self.said = os.path.join(held.name, "clock"), []

    def opened(self):
        found = ClockFile(self.path, self.said.append)
        self.addCleanup(found.close)
        return found

    def test_what_is_kept(self):
        first = self.opened()
        first.keep({"a": (1, NOON), "b": (2, NOON + 0.25)})
        first.keep({"a": None, "c": (3, NOON)})
        first.pause(("execution", "e"))
        first.pause(("machine", "m"))
        first.resume(("machine", "m"))
        first.close()
        again = self.opened()
        self.assertEqual(again.arrivals(), {"b": (2, NOON + 0.25), "c": (3, NOON)})
        self.assertEqual(again.paused, {("execution", "e")})
        self.assertEqual(os.stat(self.path).st_mode & 0o777, 0o600)
        again.resume(("all", ""))
        again.close()
        self.assertEqual((self.opened().paused, self.said), (set(), []))

    def test_a_damaged_file_is_begun_anew(self):
        for data in (b"no database at all" * 100, b"SQLite format 3\0" + b"x" * 4000):
            with open(self.path, "wb") as file:
                file.write(data)
            found = self.opened()
            self.assertEqual(found.arrivals(), {})
            found.keep({"a": (1, NOON)})
            self.assertEqual(found.arrivals(), {"a": (1, NOON)})
            found.close()
        self.assertEqual(len(self.said), 2)

    def test_a_file_that_cant_be_used(self):
        self.path = os.path.join(self.path, "no", "folder")
        found = self.opened()
        found.keep({"a": (1, NOON)})
        found.pause(("all", ""))
        self.assertEqual((found.arrivals(), found.paused, len(self.said)), ({}, {("all", "")}, 1))

    def test_a_file_of_another_form(self):
        with sqlite3.connect(self.path) as store:
            store.execute("CREATE TABLE arrival(x)")
        self.assertEqual((self.opened().arrivals(), len(self.said)), ({}, 1))


if __name__ == "__main__":
    unittest.main()
