"""The rules of a Choice, and the tests in them."""
from __future__ import annotations

from . import fields
from .fields_of import check_names
from .findings import Path, Report
from .paths import check_path
from .scanner import Node

COMPARISONS = tuple(name for name in fields.TEST if name not in ("And", "Or", "Not", "Variable"))
_FORMS = ("And", "Or", "Not", "Variable")


def check_choices(report: Report, state: Node, path: Path) -> None:
    """Adds the faults of a Choice's rules."""
    choices = state.get("Choices")
    if choices is None:
        report.missing(state, path, "Choices", "write a list of rules, each a test with a Next")
        return
    place = (*path, "Choices")
    if choices.kind != "array" or not choices.items:
        report.bad(
            choices,
            place,
            "Choices",
            "Choices has to be a list of at least one rule",
            "write a rule with a test and a Next",
        )
    for at, rule in enumerate(choices.items):
        _check_rule(report, rule, (*place, at))


def _check_rule(report: Report, rule: Node, path: Path) -> None:
    _check_test(report, rule, path, "Choices", fields.RULE, "a rule of a Choice")
    if rule.kind != "object":
        return
    following = rule.get("Next")
    if following is None:
        report.missing(rule, path, "Next", "say to which state this rule goes")
    elif following.text() is None:
        report.bad(
            following,
            (*path, "Next"),
            "Next",
            "Next has to be the name of a state",
            "write a state's name within quotes",
        )


def _check_test(report: Report, test: Node, path: Path, field: str, table: tuple[str, ...], owner: str) -> None:
    if test.kind != "object":
        report.bad(test, path, field, f"{field} has a test that is no object", "write a Variable with a comparison")
        return
    check_names(report, test, path, table, owner)
    _check_form(report, test, path, table)
    for name in ("And", "Or"):
        if name in test.fields:
            _check_tests(report, test.fields[name].value, (*path, name), name)
    if "Not" in test.fields:
        _check_test(report, test.fields["Not"].value, (*path, "Not"), "Not", fields.TEST, "a test within a test")
    if "Variable" in test.fields:
        check_path(report, test.fields["Variable"].value, (*path, "Variable"), "Variable", False)
    for name in COMPARISONS:
        if name in test.fields:
            _check_comparison(report, test.fields[name].value, (*path, name), name)


def _check_tests(report: Report, tests: Node, path: Path, field: str) -> None:
    if tests.kind != "array" or not tests.items:
        report.bad(tests, path, field, f"{field} has to be a list of at least one test", "write a list of tests")
    for at, test in enumerate(tests.items):
        _check_test(report, test, (*path, at), field, fields.TEST, "a test within a test")


def _check_form(report: Report, test: Node, path: Path, table: tuple[str, ...]) -> None:
    """Adds a test that isn't exactly one of And, Or, Not and a Variable with one comparison.

    A test with a field that may not be there has that fault alone: which form is meant isn't known.
    """
    if any(name not in table for name in test.fields):
        return
    forms = [name for name in _FORMS if name in test.fields]
    asked = [name for name in COMPARISONS if name in test.fields]
    if len(forms) == 1 and len(asked) == (1 if forms == ["Variable"] else 0):
        return
    if not forms and asked:
        message, advice = (f"Choices has a test with {asked[0]} and no Variable", "say by Variable what is compared")
    elif forms == ["Variable"] and not asked:
        message, advice = ("Choices has a test with a Variable and no comparison", "write one, as StringEquals")
    elif len(forms) + len(asked) == 0:
        message, advice = (
            "Choices has a rule or a test without a test",
            "write a Variable with a comparison, or And, Or, Not",
        )
    else:
        both = " and ".join([*forms, *asked])
        message, advice = (
            f"Choices has one test with {both}",
            "write one test each, and join them by And or Or",
        )
    report.bad(test, path, "Choices", message, advice, "BAD_TEST")


def _check_comparison(report: Report, value: Node, path: Path, name: str) -> None:
    if name.startswith("String"):
        wanted, fits = "a text", value.kind == "string"
    elif name.startswith("Numeric"):
        wanted, fits = "a whole number of 64 bits", value.whole
    else:
        wanted, fits = "true or false", value.kind == "boolean"
    if fits:
        return
    replacement, text = None, value.text()
    if wanted == "true or false" and text in ("true", "false"):
        replacement = text
    number = value.scalar
    if wanted.startswith("a whole") and isinstance(number, float) and number.is_integer() and abs(number) < 2**53:
        replacement = str(int(number))
    advice = f"write {replacement}" if replacement else f"write {wanted}"
    report.bad(value, path, name, f"{name} has to be {wanted}", advice, replacement=replacement)
