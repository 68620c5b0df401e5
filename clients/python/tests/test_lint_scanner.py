"""JSON with places: the values are those of any reader of JSON, and each place is that of its value."""
import json
import unittest

from rollback_client.lint import lint_bytes, lint_text
from rollback_client.lint.scanner import Scanner
from tests.lint_drawing import Drawing, is_json, sources


def value_of(node):
    """A node as the value that Python reads."""
    if node.kind == "object":
        return {name: value_of(member.value) for name, member in node.fields.items()}
    return [value_of(item) for item in node.items] if node.kind == "array" else node.scalar


def parts(node):
    """A node and all within it."""
    yield node
    for inside in [*node.items, *(member.value for member in node.fields.values())]:
        yield from parts(inside)


def flaw(text):
    """The code, the line and the column of what isn't JSON in a text."""
    found = [one for one in lint_text(text) if one.refusal == "25 1"][0]
    return found.code, found.line, found.column


class Values(unittest.TestCase):
    def test_the_values_are_those_of_python(self):
        for text in sources():
            self.assertEqual(value_of(Scanner(text).root), json.loads(text))

    def test_each_value_begins_and_ends_at_its_place(self):
        for text in sources():
            for node in parts(Scanner(text).root):
                self.assertEqual(json.loads(text[node.start : node.end]), value_of(node))

    def test_numbers_are_whole_as_the_program_has_it(self):
        whole = ("0", "-1", "7", "9223372036854775807", "-9223372036854775808")
        others = ("1.0", "1e3", "-0", "0.5", "9223372036854775808", "-9223372036854775809", "1" * 60)
        for text in whole + others:
            self.assertEqual(Scanner(text).root.whole, text in whole, text)

    def test_of_a_field_twice_the_last_counts_and_the_others_are_kept(self):
        root = Scanner('{"a":1,"b":2,"a":3}').root
        self.assertEqual(value_of(root), {"a": 3, "b": 2})
        self.assertEqual(
            [(member.name, member.start, value_of(member.value)) for member in root.repeated], [("a", 1, 1)]
        )

    def test_escapes(self):
        text = r'"\"\\\/\b\f\n\r\t\u00e9\ud83d\ude00"'
        self.assertEqual(Scanner(text).root.scalar, '"\\/\b\f\n\r\té😀')


class NoJson(unittest.TestCase):
    def test_each_form_at_its_place(self):
        for text, line, column in (
            ("", 1, 1),
            ("\n  x", 2, 3),
            ('{"a":1,}', 1, 7),
            ("[1,\n 2,\n]", 2, 3),
            ('{"a" 1}', 1, 6),
            ("{'a':1}", 1, 2),
            ('{"a":01}', 1, 7),
            ('{"a":+1}', 1, 6),
            ('{"a":.5}', 1, 6),
            ('{"a":1.}', 1, 7),
            ('{"a":tru}', 1, 6),
            ('{"a":"b}', 1, 6),
            ('{"a":"\\q"}', 1, 7),
            ('{"a":1', 1, 7),
            ("{} {}", 1, 4),
            ("// a comment\n{}", 1, 1),
            ('{"a":NaN}', 1, 6),
            ('{"a":-Infinity}', 1, 6),
            ('{"a":1e400}', 1, 6),
            ('{"é":"\\ud800"}', 1, 7),
            ('{"a":"😀\\udc00"}', 1, 8),
            ('{"a":"b\tc"}', 1, 8),
            ("\ufeff{}", 1, 1),
        ):
            self.assertEqual(flaw(text), ("NOT_JSON", line, column), text)

    def test_levels(self):
        deep = "[" * 127 + "]" * 127
        self.assertEqual(Scanner(deep).flaws, [])
        self.assertEqual(flaw(f"[{deep}]"), ("TOO_NESTED", 1, 128))

    def test_it_goes_on_behind_what_has_an_end(self):
        found = Scanner('{"a":NaN,\n"b":"\\ud800",\n"c":1e999,\n"d":"\u0001"}')
        self.assertEqual([found.place(flaw.start) for flaw in found.flaws], [(1, 6), (2, 6), (3, 5), (4, 6)])
        self.assertIsNotNone(found.root)

    def test_bytes_that_are_no_utf8(self):
        found = lint_bytes(b'{"a":\n "\xc3\xa9\xff"}')
        self.assertEqual(
            [(one.code, one.line, one.column, one.found) for one in found], [("NOT_UTF8", 2, 4, "byte 0xff")]
        )
        self.assertEqual(lint_bytes('{"é":"\ud800"}'.encode("utf-8", "surrogatepass"))[0].code, "NOT_UTF8")

    def test_a_surrogate_in_a_text_of_python(self):
        self.assertEqual(flaw('{"a":"\ud800"}'), ("NOT_JSON", 1, 7))


class Places(unittest.TestCase):
    def test_each_finding_is_at_its_pointer(self):
        drawing = Drawing(5)
        looked = 0
        for text in filter(is_json, (drawing.text() for _ in range(1500))):
            document, found = json.loads(text), lint_text(text)
            if any(finding.refusal == "25 1" for finding in found):
                continue
            for finding in found:
                self.look(text, document, finding)
                looked += 1
        self.assertGreater(looked, 1000)

    def look(self, text, document, finding):
        """The pointer leads to a value or a name, and the place is that of the one or the other."""
        there, _ = json.JSONDecoder().raw_decode(text, finding.column - 1)
        name, value = None, document
        for part in finding.pointer.split("/")[1:]:
            name = part.replace("~1", "/").replace("~0", "~")
            value = value[int(name)] if isinstance(value, list) else value[name]
        self.assertIn(json.dumps(there), (json.dumps(value), json.dumps(name)), f"{finding!r}: {text}")


if __name__ == "__main__":
    unittest.main()
