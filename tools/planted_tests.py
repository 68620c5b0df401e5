#!/usr/bin/env python3
"""Tests of the records of wrong edits (tools/planted.py), over a small tree of two crates. No prover is asked.

usage: planted_tests.py
"""
import contextlib
import io
import os
import sys
import tempfile
import unittest

import planted_records
from planted_edits import NAMES, PROVED, REFUSED, UNKNOWN, Edit, refusals, verdict, verdict_alone
from planted_records import Record
from planted_sums import Sources

TREE = {
    "crates.txt": "low:\nhigh: low\n",
    "crates/low/src/lib.rt": """ghost use Rattle.low.specs.Halves.{half};

/// Half of a number.
pub fn halved(number: u32) -> u32
    ensures { result ≡ half number }
{
    number / 2
}
""",
    "crates/low/specs/Lib.antt": "pub mod Halves\n",
    "crates/low/specs/Halves.antt": "-- half of a number\nabbrev pub half : ℕ → ℕ\nhalf n = n / 2\n",
    "crates/high/src/lib.rt": """ghost use Rattle.low.specs.Halves.{half};

use low::halved;

const MOST: u32 = 7;

/// A quarter of a number.
pub fn quartered(number: u32) -> u32
    requires small { number ≤ 100 }
    ensures quarter { result ≡ half (half number) }
{
    // twice
    let once = halved(number);
    halved(once)
}

fn other() -> u32 {
    MOST
}
""",
    "crates/high/planted/half-alone.edit": "file: src/lib.rt\nold:     halved(once)\nnew:     once\n",
}


class Records(unittest.TestCase):
    def setUp(self):
        self.room = tempfile.TemporaryDirectory()
        self.addCleanup(self.room.cleanup)
        for path, text in TREE.items():
            self.put(path, text)
        crate = self.at("crates/high")
        record = Record("quartered: returns-clause-quarter", "logic 1")
        record.sum = planted_records.sum_of(Sources(self.room.name), crate, Edit(self.at("crates/high/planted/half-alone.edit"), crate), record)
        planted_records.write(crate, {"half-alone.edit": record})

    def at(self, path):
        return os.path.join(self.room.name, path)

    def put(self, path, text):
        os.makedirs(os.path.dirname(self.at(path)), exist_ok=True)
        with open(self.at(path), "w", encoding="utf-8") as out:
            out.write(text)

    def change(self, path, old, new):
        with open(self.at(path), encoding="utf-8") as was:
            text = was.read()
        self.assertEqual(text.count(old), 1)
        self.put(path, text.replace(old, new))

    def is_current(self):
        with contextlib.redirect_stdout(io.StringIO()) as said:
            answer = planted_records.current(self.room.name, ["high"])
        self.said = said.getvalue()
        return answer

    def test_what_was_recorded_is_current(self):
        self.assertTrue(self.is_current(), self.said)

    def test_comments_layout_other_bodies_and_other_files_are_no_part(self):
        self.change("crates/high/src/lib.rt", "    // twice\n", "\n    // two times\n\n")
        self.change("crates/high/src/lib.rt", "fn other() -> u32 {\n    MOST\n}", "fn other() -> u32 {\n    MOST + 0\n}")
        self.change("crates/low/src/lib.rt", "    number / 2", "    number >> 1")
        self.change("crates/low/specs/Halves.antt", "-- half of a number", "-- a half")
        os.rename(self.at("crates/low/src/lib.rt"), self.at("crates/low/src/halves.rt"))
        self.assertTrue(self.is_current(), self.said)

    def test_a_weaker_clause_is_noticed(self):
        self.change("crates/high/src/lib.rt", "ensures quarter { result ≡ half (half number) }", "ensures quarter { result ≤ number }")
        self.assertFalse(self.is_current())
        self.assertIn("has changed since", self.said)

    def test_another_clause_of_the_crate_is_noticed(self):
        self.change("crates/high/src/lib.rt", "fn other() -> u32 {", "fn other() -> u32\n    ensures { result ≡ 7 }\n{")
        self.assertFalse(self.is_current())

    def test_a_changed_constant_is_noticed(self):
        self.change("crates/high/src/lib.rt", "u32 = 7", "u32 = 8")
        self.assertFalse(self.is_current())

    def test_a_changed_body_around_the_edit_is_noticed(self):
        self.change("crates/high/src/lib.rt", "let once = halved(number);", "let once = number;")
        self.assertFalse(self.is_current())

    def test_a_used_crates_stronger_clause_is_noticed(self):
        self.change("crates/low/src/lib.rt", "    ensures { result ≡ half number }", "    ensures { result ≡ half number }\n    ensures { result ≤ number }")
        self.assertFalse(self.is_current())

    def test_a_changed_definition_below_is_noticed(self):
        self.change("crates/low/specs/Halves.antt", "half n = n / 2", "half n = n / 3")
        self.assertFalse(self.is_current())

    def test_a_forged_line_is_noticed(self):
        self.put("crates/high/planted/refused.txt", "half-alone.edit\tquartered: returns-clause-quarter\tlogic 1\t" + "0" * 64 + "\n")
        self.assertFalse(self.is_current())

    def test_a_missing_line_is_noticed(self):
        self.put("crates/high/planted/refused.txt", "")
        self.assertFalse(self.is_current())
        self.assertIn("it has no record", self.said)

    def test_a_line_without_an_edit_is_noticed(self):
        os.remove(self.at("crates/high/planted/half-alone.edit"))
        self.assertFalse(self.is_current())

    def test_an_edit_that_no_longer_applies_is_noticed(self):
        self.change("crates/high/planted/half-alone.edit", "old:     halved(once)", "old:     halved(twice)")
        self.assertFalse(self.is_current())
        self.assertIn("isn't there once", self.said)

    def test_what_is_to_be_tried_is_counted(self):
        self.put("crates/high/planted/second.edit", "file: src/lib.rt\nold:     MOST\nnew:     MOST + 1\n")
        with open(self.at("crates/high/planted/refused.txt"), "a", encoding="utf-8") as out:
            out.write("second.edit\tto be tried\n")
        self.assertTrue(self.is_current(), self.said)
        self.assertIn("1 passed, 0 failed, 1 skipped", self.said)

    def renamed_tree(self, change):
        """The same tree with crate and function renamed, and one more change."""
        with tempfile.TemporaryDirectory() as room:
            old = Sources(self.room.name)
            for path, text in TREE.items():
                if "/planted/" in path:
                    continue
                path, text = (it.replace("halved", "bisected").replace("low", "lower") for it in (path, text))
                os.makedirs(os.path.dirname(os.path.join(room, path)), exist_ok=True)
                with open(os.path.join(room, path), "w", encoding="utf-8") as out:
                    out.write(change(text))
            went = planted_records.carry(planted_records.Names(["halved bisected", "low lower"]), old, Sources(room), "high")
            with contextlib.redirect_stdout(io.StringIO()) as said:
                is_current = planted_records.current(room, ["high"])
        return went, is_current, said.getvalue()

    def test_records_are_carried_along_a_renaming(self):
        self.assertEqual(self.renamed_tree(lambda text: text)[:2], ((1, 1), True))

    def test_a_word_with_several_new_ones_is_known_by_each(self):
        names = planted_records.Names(["# of two files", "kept kept_line", "kept kept_frame", "low lower"])
        self.assertEqual(names.new, {"low": "lower"})
        self.assertEqual(names.old, {"kept_line": "kept", "kept_frame": "kept", "lower": "low"})

    def test_a_renaming_that_changes_more_carries_no_record(self):
        went, is_current, _ = self.renamed_tree(lambda text: text.replace("≤ 100", "≤ 99"))
        self.assertEqual(went, (0, 1))
        self.assertFalse(is_current)


class Verdicts(unittest.TestCase):
    """What the lines of a check say, in the prover's own form."""

    GOAL = "./proofs/a/T/f/Answers.antt:1:1: error: `returns-clause-x`: the two types differ\nfn c::a::T::f: not proved\n"
    SEARCH = "fn c::a::g: no proof: expected answers in ./proofs/a/g/Answers.antt; `search` did not prove `returns`, `index-requires`\n"
    WAITS = "fn c::a::h: no proof: it calls `c::a::g`, which is not proved\nfn c::a::k: not proved; it calls `c::a::g`, which is not proved\n"
    GONE = "./proofs/a/n/Answers.antt:1:1: error: `returns`: `c` has no field `left`\nfn c::a::n: not proved\n"

    def edit(self, *functions):
        made = Edit.__new__(Edit)
        made.functions, made.is_alone = set(functions), not functions
        return made

    def test_goals_are_read(self):
        found = refusals(self.GOAL + self.SEARCH + self.WAITS)
        self.assertEqual({path: it.goals for path, it in found.items()}, {"a::T::f": ["returns-clause-x"], "a::g": ["returns", "index-requires"]})

    def test_each_edit_gets_its_own(self):
        found = refusals(self.GOAL + self.SEARCH + self.WAITS)
        group = [self.edit("T::f"), self.edit("g"), self.edit("h"), self.edit("k")]
        said = [verdict(it, group, found) for it in group]
        self.assertEqual(said[0], (REFUSED, "T::f: returns-clause-x"))
        self.assertEqual(said[1], (REFUSED, "g: returns, index-requires"))
        self.assertEqual([what for what, _ in said[2:]], [UNKNOWN, UNKNOWN])

    def test_a_name_that_is_gone_is_no_refusal(self):
        found = refusals(self.GONE)
        self.assertEqual(verdict_alone(self.edit("n"), 1, found)[0], NAMES)
        self.assertEqual(verdict(self.edit("n"), [self.edit("n")], found)[0], NAMES)

    def test_a_law_refuses_an_edit_of_a_definition(self):
        said = "proofs/Laws.antt:1:1: error: `swapped`: the two types differ\nfn c::law: no proof: it calls `c::a::g`, which is not proved\n"
        self.assertEqual(verdict_alone(self.edit(), 1, refusals(said), said), (REFUSED, "laws of a definition: swapped"))
        self.assertEqual(verdict_alone(self.edit("f"), 1, refusals(said), said)[0], UNKNOWN)

    def test_what_is_proved_is_no_refusal(self):
        self.assertEqual(verdict_alone(self.edit("f"), 0, {})[0], PROVED)

    def test_a_check_that_could_not_judge_is_no_refusal(self):
        self.assertEqual(verdict_alone(self.edit("f"), 3, refusals(self.GOAL))[0], UNKNOWN)


if __name__ == "__main__":
    tests = unittest.defaultTestLoader.loadTestsFromModule(sys.modules[__name__])
    result = unittest.TextTestRunner(stream=sys.stderr).run(tests)
    wrong = len(result.failures) + len(result.errors)
    print(f"{result.testsRun - wrong} passed, {wrong} failed")
    sys.exit(wrong != 0)
