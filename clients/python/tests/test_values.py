"""Python's values: attribute values and back, steps and their order."""
import random
import subprocess
import sys
import unittest
from decimal import Decimal

from rollback_client import Book, Step, attribute, plain
from tests.program import PROGRAM

PAIRS = (
    (None, {"NULL": True}),
    (True, {"BOOL": True}),
    (False, {"BOOL": False}),
    (0, {"N": "0"}),
    (-12, {"N": "-12"}),
    (10**37, {"N": "1" + "0" * 37}),
    (Decimal("-1.5"), {"N": "-1.5"}),
    (Decimal("0.001"), {"N": "0.001"}),
    ("text é", {"S": "text é"}),
    ("", {"S": ""}),
    ([], {"L": []}),
    ([1, "a", None], {"L": [{"N": "1"}, {"S": "a"}, {"NULL": True}]}),
    ({}, {"M": {}}),
    ({"a": {"b": [True]}}, {"M": {"a": {"M": {"b": {"L": [{"BOOL": True}]}}}}}),
    ({"b", "a"}, {"SS": ["a", "b"]}),
    ({3, Decimal("1.5")}, {"NS": ["1.5", "3"]}),
)


class Attributes(unittest.TestCase):
    def test_there_and_back(self):
        for value, of_table in PAIRS:
            self.assertEqual(attribute(value), of_table)
            again = plain(of_table)
            self.assertEqual((again, type(again)), (value, type(value)))

    def test_one_way(self):
        for value, of_table in (
            ((1, 2), {"L": [{"N": "1"}, {"N": "2"}]}),
            (frozenset({"a"}), {"SS": ["a"]}),
            (Decimal("1E+3"), {"N": "1000"}),
            (Decimal("1.500"), {"N": "1.5"}),
            (Decimal("-0.0"), {"N": "0"}),
            (Decimal("1e-100"), {"N": "0." + "0" * 99 + "1"}),
        ):
            self.assertEqual(attribute(value), of_table)
        for of_table, value in (
            ({"N": "7.0"}, 7),
            ({"N": "007"}, 7),
            ({"N": "-0.50"}, Decimal("-0.5")),
            ({"NS": ["1", "2.5"]}, {1, Decimal("2.5")}),
        ):
            found = plain(of_table)
            self.assertEqual((found, type(found)), (value, type(value)))

    def test_what_the_table_doesnt_take(self):
        deep = "x"
        for _ in range(32):
            deep = [deep]
        circle = []
        circle.append(circle)
        for value, kind in (
            (1.5, TypeError),
            ({1.5, 2}, TypeError),
            (b"bytes", TypeError),
            ({b"bytes"}, TypeError),
            ({"a", 1}, TypeError),
            ({True}, TypeError),
            ({1: "a"}, TypeError),
            (object(), TypeError),
            (set(), ValueError),
            (Decimal("NaN"), ValueError),
            (Decimal("Infinity"), ValueError),
            (10**38, ValueError),
            (Decimal("1." + "1" * 38), ValueError),
            (Decimal("1e-101"), ValueError),
            (Decimal("1e1000000"), ValueError),
            (deep, ValueError),
            (circle, ValueError),
        ):
            with self.assertRaises(kind, msg=repr(value)[:50]):
                attribute(value)
        for of_table, kind in (
            ({}, TypeError),
            ({"S": "a", "N": "1"}, TypeError),
            ({"B": "AA=="}, TypeError),
            ("S", TypeError),
            ({"N": "1e3"}, ValueError),
            ({"N": 5}, ValueError),
            ({"N": "+1"}, ValueError),
        ):
            with self.assertRaises(kind, msg=str(of_table)):
                plain(of_table)

    def test_the_program_takes_each_as_its_own(self):
        with Book.open(program=PROGRAM) as book:
            book.table(
                "items",
                {"id": "S"},
                [{"id": attribute(f"i{number:03}"), "v": of_table} for number, (_, of_table) in enumerate(PAIRS)],
            )
            found = [{name: plain(value) for name, value in item.items()} for item in book.items()]
            self.assertEqual(found, [{"id": f"i{number:03}", "v": value} for number, (value, _) in enumerate(PAIRS)])

    def test_as_boto3_has_them(self):
        """The same values through boto3's own serializer, if it is there."""
        script = "from boto3.dynamodb.types import TypeSerializer\nfrom decimal import Decimal\nprint([TypeSerializer().serialize(value) for value in eval(input())])"
        for python in (sys.executable, "/usr/bin/python3"):
            try:
                values = [value for value, _ in PAIRS]
                done = subprocess.run(
                    [python, "-c", script],
                    input=repr(values),
                    stdout=subprocess.PIPE,
                    stderr=subprocess.DEVNULL,
                    text=True,
                    check=False,
                )
            except OSError:
                continue
            if done.returncode == 0:
                break
        else:
            self.skipTest("there is no boto3")

        def ordered(of_table):
            ((kind, value),) = of_table.items()
            if kind in ("SS", "NS"):
                return {kind: sorted(value, key=str if kind == "SS" else Decimal)}
            return of_table

        found = [ordered(of_table) for of_table in eval(done.stdout)]
        self.assertEqual(found[5], {"N": str(Decimal(10**37))})
        self.assertEqual(found, [of_table for _, of_table in PAIRS])


class Steps(unittest.TestCase):
    def test_they_are_ordered_as_drive_orders_threads(self):
        names = ["B#9", "a#0", "a#2", "a#10", "a/2.0#1", "a/2.0/1.0#1", "a/2.1#1", "a/10.0#1", "a-1#0", "aa#0", "b#0"]
        steps = [Step.read(name) for name in names]
        drawn = random.Random(3).sample(steps, len(steps))
        self.assertEqual(sorted(drawn), steps)
        self.assertTrue(steps[0] < steps[1] <= steps[1] and steps[2] > steps[1] >= steps[1])
        with self.assertRaises(TypeError):
            sorted([Step("a", 1), "a#1"])

    def test_the_order_is_that_of_a_drive(self):
        branch = {"StartAt": "P", "States": {"P": {"Type": "Pass", "End": True}}}
        many = {"StartAt": "M", "States": {"M": {"Type": "Map", "ItemProcessor": branch, "End": True}}}
        with Book.open(program=PROGRAM) as book:
            book.table("items", {"id": "S"})
            book.define("m", many)
            for name in ("b", "a", "B", "a-1"):
                book.start(name, "m", list(range(12)))
                book.step(name)
            taken = [step for step in book.drive(100) if "/" in step.thread]
            self.assertEqual(len(taken), 48)
            self.assertEqual(taken, sorted(taken))

    def test_a_step_is_one_value(self):
        self.assertEqual({Step.read("a/1.0#3"), Step("a/1.0", 3)}, {Step("a/1.0", 3)})
        self.assertEqual((str(Step("a/1.0", 3)), Step("a/1.0", 3).execution), ("a/1.0#3", "a"))


if __name__ == "__main__":
    unittest.main()
