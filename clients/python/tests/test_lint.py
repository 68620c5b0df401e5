"""Each kind of fault, by a definition that has it and no other."""
import json
import unittest

from rollback_client.lint import CODES, Table, lint_bytes, lint_text, lint_definition
from tests.lint_drawing import Drawing, levels
from tests.lint_faults import END, FAULTS, GET, KEY, PUT, A, call, choice, machine, mapping, passing, task

# faults that need a text, a table or a size of their own have tests below
APART = {
    "UNREADABLE_FILE",
    "NOT_UTF8",
    "NOT_JSON",
    "TOO_NESTED",
    "TOO_LONG",
    "STATES_TOO_DEEP",
    "OTHER_TABLE",
    "DUPLICATE_FIELD",
}


def found(definition, table=None):
    """The codes of what is found in a definition."""
    return [finding.code for finding in lint_definition(definition, table)]


class EachFault(unittest.TestCase):
    def test_each_is_found_at_its_place(self):
        for definition, code, pointer, refusal in FAULTS:
            findings = lint_text(json.dumps(definition, indent=2))
            said = [(finding.code, finding.pointer, finding.refusal) for finding in findings]
            self.assertEqual(said, [(code, pointer, refusal)], definition)

    def test_each_code_has_a_case(self):
        self.assertEqual({code for _, code, _, _ in FAULTS} | APART, set(CODES))

    def test_a_message_names_the_field_that_define_names(self):
        drawing = Drawing(9)
        for _ in range(2000):
            for finding in lint_text(drawing.text()):
                if (finding.refusal or "").startswith("3 ") and " " in finding.refusal[2:]:
                    name = json.loads(finding.refusal[4:])
                    shown = f"{finding.place} {finding.message}"
                    self.assertTrue(name in shown or json.dumps(name, ensure_ascii=False) in shown, finding)

    def test_all_are_found_in_one_run(self):
        states = {
            "A": {"Type": "Task", "Resource": "arn:aws:states:::sns:publish", "Next": "C"},
            "B": {"Type": "Pass", "Result": 0.5, "Assign": {}, "End": True},
        }
        self.assertEqual(
            [(finding.pointer, finding.code) for finding in lint_definition({"StartAt": "A", "States": states})],
            [
                ("/States/A/Resource", "OTHER_SERVICE"),
                ("/States/A/Next", "NO_SUCH_STATE"),
                ("/States/B", "UNREACHABLE_STATE"),
                ("/States/B/Result", "NOT_WHOLE"),
                ("/States/B/Assign", "VARIABLES"),
            ],
        )

    def test_lines_and_columns(self):
        text = '{\n  "StartAt": "É",\n  "States": {\n    "É": {"Type": "Pass", "Result": 0.5, "End": true}\n  }\n}\n'
        (finding,) = lint_text(text, "a.asl.json")
        self.assertEqual((finding.file, finding.line, finding.column, finding.found), ("a.asl.json", 4, 37, "0.5"))
        self.assertEqual(finding.place, "States.É.Result")

    def test_places_of_names_that_are_no_words(self):
        (finding,) = lint_definition(machine(**{"a/b~c d": {"Type": "Pass", "Result": 0.5, "End": True}}))
        self.assertEqual((finding.pointer, finding.place), ("/States/a~1b~0c d/Result", 'States["a/b~c d"].Result'))

    def test_levels(self):
        self.assertEqual(found(levels(32, "maps")).count("STATES_TOO_DEEP"), 0)
        deep = [finding for finding in lint_definition(levels(33, "maps")) if finding.severity == "error"]
        self.assertEqual([(finding.code, finding.refusal) for finding in deep], [("STATES_TOO_DEEP", "3 8")])
        self.assertEqual(found(levels(124, "lists")), [])
        self.assertEqual(found(levels(125, "lists")), ["TOO_NESTED"])

    def test_a_line_has_a_bound(self):
        # "define a ", the definition and no more make a line of 1,048,576 bytes
        empty = len(json.dumps(passing(Comment=""), separators=(",", ":")))
        fits = passing(Comment="x" * (1_048_576 - len("define a ") - empty))
        self.assertEqual(found(fits), [])
        fits["States"]["A"]["Comment"] += "x"
        self.assertEqual(found(fits), ["TOO_LONG"])
        spaced = json.dumps(passing(Comment="x"), indent=2) + " " * 2_000_000
        self.assertEqual(lint_text(spaced), [])


class Replacements(unittest.TestCase):
    def test_each_is_sure(self):
        for definition, wanted in (
            (passing(Result=1.0), "1"),
            (passing(Result=0.5), None),
            (passing(InputPath='$["a b"]'), "\"$['a b']\""),
            (passing(inputpath="$"), '"InputPath"'),
            (passing(InputPaht="$"), None),
            (task("arn:aws:states:::dynamodb:getitem"), json.dumps(GET)),
            (task("arn:aws:states:::dynamodb:updateItem"), None),
            (machine(A={"Type": "pass", "End": True}), '"Pass"'),
            (machine(A={"Type": "Pass", "End": "true"}), "true"),
            ({**passing(), "QueryLanguage": "JsonPath"}, '"JSONPath"'),
            (call(PUT, Item={"id": {"N": 5}}), '"5"'),
            (call(Key={"id": {"s": "k"}}), '"S"'),
            (machine(A={"Type": "Pass", "Next": "b"}, B=END), '"B"'),
            (choice({"Variable": "$.a", "BooleanEquals": "true"}, default="B"), "true"),
            (mapping(MaxConcurrency="5"), "5"),
        ):
            replacements = [finding.replacement for finding in lint_definition(definition)]
            self.assertIn(wanted, replacements, definition)
            self.assertLessEqual(set(replacements), {wanted, None}, definition)

    def test_put_in_their_places_they_mend_it(self):
        for definition in (
            passing(Result=1.0),
            passing(inputpath="$"),
            passing(InputPath='$["a b"]'),
            machine(A={"Type": "pass", "End": "true"}),
            mapping(MaxConcurrency="5"),
        ):
            text = json.dumps(definition)
            while lint_text(text):
                finding = lint_text(text)[0]
                begin = finding.column - 1
                self.assertEqual(text[begin : begin + len(finding.found)], finding.found)
                text = text[:begin] + finding.replacement + text[begin + len(finding.found) :]
            self.assertEqual(lint_text(text), [])

    def test_a_name_that_nearly_fits(self):
        (finding,) = lint_definition(passing(InputPaht="$"))
        self.assertEqual(finding.help, "write InputPath")


class Calls(unittest.TestCase):
    def test_of_a_table(self):
        table = Table("items", (("id", "S"), ("at", "N")))
        both = {"id": {"S": "k"}, "at": {"N": "1"}}
        self.assertEqual(found(call(Key=both), table), [])
        self.assertEqual(found(call(Key={"id": {"S": "k"}, "at.$": "$.at"}), table), [])
        self.assertEqual(found(call(PUT, Item={**both, "more": {"S": ""}}), table), [])
        for key in (
            KEY,
            {"id": {"S": "k"}, "at": {"S": "1"}},
            {**both, "more": {"S": "x"}},
            {"id": {"S": ""}, "at": {"N": "1"}},
        ):
            self.assertEqual(found(call(Key=key), table), ["MALFORMED_CALL"], key)
        self.assertEqual(found(call(PUT, Item=KEY), table), ["MALFORMED_CALL"])

    def test_what_the_input_decides_is_no_fault(self):
        table = Table("items", (("id", "S"),))
        for parameters in (
            {"TableName.$": "$.table", "Key.$": "$.key"},
            {"TableName": "items", "Key": {"id.$": "$.id"}},
            {"TableName": "items", "Key": {"id": {"S.$": "$.id"}}},
            {"TableName": "items", "Key": KEY, "ConsistentRead": 7, "ReturnConsumedCapacity": "TOTAL"},
        ):
            self.assertEqual(found(task(parameters=parameters), table), [], parameters)

    def test_another_table(self):
        table = Table("orders", (("orderId", "S"),))
        # nothing is known of the other table's key
        self.assertEqual(found(call(Key=KEY), table), ["OTHER_TABLE"])
        arn = "arn:aws:dynamodb:eu-west-1:123456789012:table/items"
        (finding,) = lint_definition(task(parameters={"TableName": arn, "Key": KEY}), Table("items", (("id", "S"),)))
        self.assertEqual((finding.code, finding.replacement), ("OTHER_TABLE", '"items"'))

    def test_several_tables(self):
        first = call(Key=KEY)["States"]["A"]
        del first["End"]
        second = task(parameters={"TableName": "others", "Key": KEY})["States"]["A"]
        findings = lint_definition(machine(A={**first, "Next": "B"}, B=second))
        self.assertEqual(
            [(one.code, one.pointer) for one in findings], [("OTHER_TABLE", "/States/B/Parameters/TableName")]
        )


class Fields(unittest.TestCase):
    def test_a_field_twice(self):
        text = '{"StartAt":"A","States":{"A":{"Type":"Fail"},"A":{"Type":"Succeed","Comment":1,"Comment":2}}}'
        findings = [(finding.code, finding.pointer, finding.column) for finding in lint_text(text)]
        comment = text.index('"Comment":1') + 1
        self.assertEqual(findings, [("DUPLICATE_FIELD", A, 26), ("DUPLICATE_FIELD", A + "/Comment", comment)])

    def test_what_has_no_effect_and_is_no_fault(self):
        definition = {**call(Key=KEY, ConsistentRead=True), "Comment": "x ${y}", "Version": "1.0"}
        self.assertEqual(found(definition), [])

    def test_moments(self):
        for fields in (
            {"Seconds": 10},
            {"Timestamp": "2026-11-23T08:00:00Z"},
            {"SecondsPath": "$.s"},
            {"TimestampPath": "$.t"},
        ):
            self.assertEqual(found(machine(A={"Type": "Wait", **fields, "End": True})), [], fields)
        for fields in (
            {"Seconds": 1.5},
            {"Seconds": -1},
            {"Timestamp": "2026-11-23"},
            {"Timestamp": "2026-13-23T08:00:00Z"},
            {"Timestamp": "2026-11-23t08:00:00z"},
            {"Seconds": 10, "SecondsPath": "$.s"},
            {"SecondsPath": "s"},
        ):
            self.assertEqual(found(machine(A={"Type": "Wait", **fields, "End": True})), ["BAD_MOMENT"], fields)


class Flow(unittest.TestCase):
    def test_a_loop_through_a_wait(self):
        look = {**call(Key=KEY)["States"]["A"], "ResultPath": "$.seen", "Next": "Up"}
        del look["End"]
        up = {
            "Type": "Choice",
            "Choices": [{"Variable": "$.seen.Item", "IsPresent": True, "Next": "Done"}],
            "Default": "Pause",
        }
        pause = {"Type": "Wait", "Seconds": 30, "Next": "Look"}
        findings = lint_definition(machine(Look=look, Up=up, Pause=pause, Done=END))
        self.assertEqual([(one.code, one.pointer) for one in findings], [("NEEDS_RUNNER", "/States/Pause")])
        self.assertEqual(found(machine(Pause={**pause, "Next": "Done"}, Done=END)), [])

    def test_what_is_reached_by_a_catch_or_a_default(self):
        caught = task(Catch=[{"ErrorEquals": ["States.ALL"], "Next": "B"}])
        caught["States"]["B"] = END
        self.assertEqual(found(caught), [])
        self.assertEqual(found(choice({"Variable": "$.a", "IsNull": True}, default="B")), [])

    def test_states_without_an_end_are_found_once(self):
        going = machine(A={"Type": "Pass", "Next": "B"}, B={"Type": "Pass", "Next": "A"})
        self.assertEqual(found(going), ["NO_END"])

    def test_many_states(self):
        count = 3000
        states = {f"s{at}": {"Type": "Wait", "Seconds": 1, "Next": f"s{at + 1}"} for at in range(count)}
        chain = {"StartAt": "s0", "States": {**states, f"s{count}": END}}
        self.assertEqual(found(chain), [])
        chain["States"][f"s{count}"] = {"Type": "Pass", "Next": "s0"}
        self.assertEqual(set(found(chain)), {"NEEDS_RUNNER", "NO_END"})


class Choices(unittest.TestCase):
    def test_those_that_cover(self):
        present, absent = {"Variable": "$.a", "IsPresent": True}, {"Variable": "$.a", "IsPresent": False}
        over = {"Variable": "$.n", "NumericGreaterThanEquals": 10}
        for rules in (
            ({"Variable": "$.a", "BooleanEquals": True}, {"Variable": "$.a", "BooleanEquals": False}),
            ({"Variable": "$.a", "IsNull": True}, {"Variable": "$.a", "IsNull": False}),
            (over, {"Variable": "$.n", "NumericLessThan": 10}),
            (over, {"Not": over}),
            (absent, present),
            (absent, {"And": [present, over]}, {"And": [present, {"Not": over}]}),
            ({"Or": [over, {"Variable": "$.n", "NumericLessThan": 20}]},),
            ({"Variable": "$.s", "StringLessThan": "m"}, {"Variable": "$.s", "StringGreaterThanEquals": "m"}),
        ):
            self.assertEqual(found(choice(*rules)), [], rules)

    def test_those_that_do_not(self):
        for rules, example in (
            (({"Variable": "$.a", "BooleanEquals": True},), "$.a is false"),
            (({"Variable": "$.n", "NumericGreaterThan": 0}, {"Variable": "$.n", "NumericLessThan": 0}), "$.n is 0"),
            (({"Variable": "$.a", "IsString": True},), "$.a is null"),
            (({"Variable": "$.a", "IsPresent": True},), "$.a is absent"),
        ):
            (finding,) = lint_definition(choice(*rules))
            self.assertEqual(finding.code, "NOT_COVERED")
            self.assertIn(example, finding.message)


class Errors(unittest.TestCase):
    def named(self, definition, *names):
        """Which of these errors can't come up in the first state."""
        first = definition["States"]["A"]
        first["Retry"] = [{"ErrorEquals": [name]} for name in names if name != "States.ALL"]
        first["Retry"] += [{"ErrorEquals": ["States.ALL"]}] if "States.ALL" in names else []
        found = [finding for finding in lint_definition(definition) if finding.code == "NEVER_RAISED"]
        return [json.loads(finding.found) for finding in found]

    def test_of_a_task(self):
        own = ("States.ALL", "States.TaskFailed", "DynamoDB.ValidationException", "DynamoDB.ResourceNotFoundException")
        condition = "DynamoDB.ConditionalCheckFailedException"
        self.assertEqual(self.named(call(Key=KEY), *own), [])
        others = (
            condition,
            "States.ParameterPathFailure",
            "States.ResultPathMatchFailure",
            "Custom",
            "States.NoChoiceMatched",
        )
        self.assertEqual(self.named(call(Key=KEY), *others), list(others))
        conditional = call(PUT, Item={"id": {"S.$": "$.k"}}, ConditionExpression="attribute_exists(id)")
        conditional["States"]["A"]["ResultPath"] = "$.x"
        self.assertEqual(self.named(conditional, *others[:3]), [])
        of_input = task(PUT, {"TableName": "items", "Item": KEY, "ConditionExpression.$": "$.c"})
        self.assertEqual(self.named(of_input, condition), [])

    def test_of_a_parallel(self):
        failing = machine(P={"Type": "Fail", "Error": "Custom"})
        both = machine(A={"Type": "Parallel", "Branches": [failing, call(Key=KEY)], "End": True})
        both["States"]["A"]["Branches"][1] = json.loads(
            json.dumps(both["States"]["A"]["Branches"][1]).replace('"A"', '"Q"')
        )
        self.assertEqual(
            self.named(both, "States.ALL", "States.BranchFailed", "Custom", "DynamoDB.ValidationException"), []
        )
        self.assertEqual(self.named(both, "States.TaskFailed", "Other"), ["States.TaskFailed", "Other"])
        quiet = machine(A={"Type": "Parallel", "Branches": [machine(P=END)], "End": True})
        self.assertEqual(self.named(quiet, "States.BranchFailed"), ["States.BranchFailed"])

    def test_of_a_map(self):
        failing = mapping(ItemProcessor=machine(P={"Type": "Fail", "Error": "Custom"}))
        names = ("Custom", "States.BranchFailed", "States.TaskFailed")
        self.assertEqual(self.named(failing, *names), ["States.BranchFailed", "States.TaskFailed"])

    def test_what_a_branch_catches(self):
        caught = task(Catch=[{"ErrorEquals": ["States.TaskFailed"], "Next": "Q"}])["States"]["A"]
        inner = {"StartAt": "P", "States": {"P": caught, "Q": END}}
        self.assertEqual(
            self.named(mapping(ItemProcessor=inner), "DynamoDB.ValidationException"), ["DynamoDB.ValidationException"]
        )

    def test_of_a_call_that_is_left_out(self):
        update = task("arn:aws:states:::dynamodb:updateItem")
        self.assertEqual(self.named(update, "DynamoDB.ConditionalCheckFailedException", "States.TaskFailed"), [])

    def test_of_a_service(self):
        self.assertEqual(
            self.named(task("arn:aws:states:::sns:publish"), "Custom", "States.Timeout"), ["States.Timeout"]
        )


class Whatever(unittest.TestCase):
    def test_any_bytes_have_an_answer(self):
        for data in (
            b"",
            b"\x00",
            b"\xff\xfe{}",
            b"[" * 100_000,
            b'{"a":' * 100_000,
            b'"',
            b"7",
            b"null",
            b'{"StartAt":{}}',
        ):
            self.assertTrue([finding for finding in lint_bytes(data) if finding.severity == "error"], data[:20])


if __name__ == "__main__":
    unittest.main()
