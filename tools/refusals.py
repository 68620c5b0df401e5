#!/usr/bin/env python3
"""Tells for each refusal that there is the first row, or test, that meets it; and fails where there is none.

    python3 tools/refusals.py [--empty]

It runs no program: it reads docs/REFERENCE.md, crates/*/src, rows/*.txt, rows/values/*.txt and the crates of tests. It prints two
tables, whose columns are parted by tabs. --empty prints only what fails.

The first is of lines: `call`, `refusal`, `row`. Which refusal can come for which line is what docs/REFERENCE.md says: in its table of lines
and codes, with the words or numbers that its tables of codes and faults have beside a code. The row is `FILE: TITLE`, the first in which
a line of that kind is answered so. Want of memory, which any line may be told, is met by tools/refused-growths.sh, and stands so. A row in
which a line is told what the document doesn't have of it fails too.

The second is of the libraries: `variant`, `met by`. It has each variant of each public enum of crates/*/src that says why something isn't
done, which is one with such an end of its name: Refusal, Fault, Reason, Staleness, Cause, Error. WAYS says how each is met: by
the reply to a line, by an end of a run, by an answer among the rows of values, or by a test function that comes to a text. A variant `Memory`
is met by tools/refused-growths.sh, where nothing else is said. A few can't come up; WAYS says why. A variant that WAYS doesn't
have fails, and so does one that WAYS has and no enum.

The last line is `N passed, M failed`, of places, and the status is 1 where one failed.
"""
import argparse
import pathlib
import re
import sys

sys.dont_write_bytecode = True
import rows  # noqa: E402: beside this file

TOP = rows.TOP
REFERENCE = "docs/REFERENCE.md"
MEMORY = "11"
GROWTHS = "tools/refused-growths.sh"
FOLLOWER = "tools/follower_ends.py"
UNREAD = "no command"
CALLS = (
    "define", "table", "start", "step", "drive", "work", "undo", "plan", "rollback", "show", "items", "history", "settle", "hold", "held",
)  # fmt: skip
SUFFIXES = "Refusal|Fault|Reason|Staleness|Cause|Error"
# why a step depends on another is no refusal
NO_REFUSAL = {"depends::Reason"}


# ---- how variants are met


def line(code, call=None):
    """By a line that is told `no` and this, of this call where one is named."""
    return ("line", code, call)


def shown(text):
    """By a line of a reply that begins so."""
    return ("shown", text)


def session(title, text):
    """By the session of this title, in which a line of a reply begins so."""
    return ("session", title, text)


def end(text):
    """By a run that ends with this on standard error, or with a beginning of it."""
    return ("end", text)


def words(word):
    """By a run with this among its words, which ends well."""
    return ("words", word)


def value(word, answer):
    """By a row of values with this word, the answer to which matches."""
    return ("value", word, answer)


def test(crate, text):
    """By a test function of this crate that comes to this text: in itself, or in a function or a constant that it names."""
    return ("test", crate, text)


def picture(line):
    """By a session of rows/graph with this line."""
    return ("picture", line)


def follower(text):
    """By tools/follower_ends.py, where it has this text."""
    return ("follower", text)


def never(why):
    return ("never", why)


FOREIGN = "can't come up: a pass of another book has another type (crates/shared_book/README.md)"
VALIDATION = 'ok failed "DynamoDB.ValidationException" ""'

WAYS = {
    "asl_fields::MachineFault::Missing": line("3 1"),
    "asl_fields::MachineFault::UnknownField": line("3 2"),
    "asl_fields::MachineFault::Unsupported": line("3 3"),
    "asl_fields::MachineFault::BadField": line("3 4"),
    "asl_fields::MachineFault::NoTarget": line("3 5"),
    "asl_fields::MachineFault::NextAndEnd": line("3 6"),
    "asl_fields::MachineFault::StatesAllPlace": line("3 7"),
    "asl_fields::MachineFault::TooDeep": line("3 8"),
    "asl_processing::OwnFault::Runtime": shown('ok failed "States.Runtime" ""'),
    "asl_processing::OwnFault::ParameterPathFailure": shown('ok failed "States.ParameterPathFailure" ""'),
    "asl_processing::OwnFault::ResultPathMatchFailure": shown('ok failed "States.ResultPathMatchFailure" ""'),
    "asl_processing::OwnFault::NoChoiceMatched": shown('ok failed "States.NoChoiceMatched" ""'),
    "asl_processing::TurnFault::Error": shown('ok failed "States.Runtime" ""'),
    "attr_values::ItemFault::BadValue": line("23 1"),
    "attr_values::ItemFault::BadNumber": line("23 2"),
    "attr_values::ItemFault::NoKey": line("23 3"),
    "attr_values::ItemFault::KeyType": line("23 4"),
    "attr_values::ItemFault::EmptyKey": line("23 5"),
    "book_journal::JournalFault::Store": test("session_tests", r"JournalFault::Store"),
    "book_journal::JournalFault::Gap": test("session_tests", r"JournalFault::Gap"),
    "book_log::Refusal::NoMachine": line("1"),
    "book_log::Refusal::MachineTaken": line("2"),
    "book_log::Refusal::BadMachine": line("3 1"),
    "book_log::Refusal::ExecTaken": line("4"),
    "book_log::Refusal::NoThread": line("5"),
    "book_log::Refusal::NotReady": line("6 done"),
    "book_log::Refusal::NoStep": line("7"),
    "book_log::Refusal::HasDependents": line("8"),
    "book_log::Refusal::Stale": test("book_tests", r'\(Act::LateRollback\([^)]*\), "stale at 7"\)'),
    "book_log::Refusal::Full": line("10"),
    "book_log::Refusal::Settled": line("12"),
    "book_log::Refusal::Held": line("13"),
    "book_rounds::RoundFault::NotBegun": ("growths",),
    "book_rounds::RoundFault::Lost": ("growths",),
    "command_lines::CommandFault::BadLine": line("20"),
    "graph_follower::FollowFault::Read": follower("rollback: input"),
    "graph_follower::FollowFault::Write": follower("rollback: output"),
    "graph_follower::FollowFault::Refused": never("comes up only for a journal that another program wrote; opening answers it as damaged then"),
    "graph_follower::FollowFault::NoQuestion": never("can't come up: the words are read as a question before"),
    "graph_follower::FollowFault::Followed": ("growths",),
    "journal_copy::CopyFault::Unread": picture("$ (none) nowhere.db --machines"),
    "journal_copy::CopyFault::Moving": never("needs a session that empties its log a hundred times while it is read"),
    "journal_copy::CopyFault::Memory": ("growths",),
    "graph_run::AskRefusal::Shown": picture("$ (none) --help"),
    "graph_run::AskRefusal::Usage": picture("$ --nothing"),
    "item_store::CallFault::Malformed": session("calls-of-no-form", VALIDATION),
    "item_store::CallFault::WrongTable": session("calls-of-another-table", 'ok failed "DynamoDB.ResourceNotFoundException" ""'),
    "item_store::CallFault::BadKey": session("calls-without-a-key", VALIDATION),
    "journaled_book::OpenFault::Damaged": test("session_tests", r"OpenFault::Damaged"),
    "journaled_book::OpenFault::Journal": test("session_tests", r"OpenFault::Journal"),
    "journaled_book::BeginRefusal::Item": line("23 1"),
    "journaled_book::BeginRefusal::Journal": line("24", "table"),
    "journaled_book::EntryFault::Book": line("1"),
    "journaled_book::EntryFault::Journal": line("24", "step"),
    "json_tree::ChangeFault::Absent": value(r"change .* \| remove b \| remove b", "absent.*"),
    "json_tree::JsonFault::NotJson": line("25 1"),
    "json_tree::JsonFault::NotWhole": line("25 2"),
    "operator_line::ServeFault::Read": end("rollback: input"),
    "operator_line::ServeFault::Write": test("session_tests", r"Err\(ServeFault::Write\)"),
    "operator_line::ServeFault::Journal": test("session_tests", r"Err\(ServeFault::Journal\)"),
    "question_answers::QuestionFault::NoQuestion": follower("no questions"),
    "ref_paths::FillFault::NoSuchNode": value("fill", "no such node"),
    "ref_paths::PathFault::BadPath": value("path", r"bad at \d+"),
    "ref_paths::PickRefusal::CannotPlace": value("pick_placed", "cannot place"),
    "ref_paths::PickRefusal::TooDeep": value("pick_placed", "too deep"),
    "ref_paths::PlaceRefusal::CannotPlace": value("place", "cannot place .*"),
    "ref_paths::TemplateFault::BadTemplate": value("(item_)?template", "bad .*"),
    "ref_paths::TemplateFault::Unsupported": value("(item_)?template", "unsupported .*"),
    "book_events::CommitRefusal::Stale": test("book_tests", r'want: "gone"'),
    "book_events::CommitRefusal::Held": test("book_tests", r'want: "held a#0"'),
    "book_events::CommitRefusal::Refused": ("growths",),
    "book_events::Staleness::Gone": test("book_tests", r'want: "gone"'),
    "book_events::Staleness::NotReady": test("book_tests", r'want: "waiting"'),
    "book_events::Staleness::Moved": test("book_tests", r'want: "moved 1"'),
    "book_events::Staleness::Other": test("book_tests", r'want: "other"'),
    "rollback_run::ExitFault::Damaged": end("rollback: damaged "),
    "rollback_run::ExitFault::Gap": end("rollback: gap "),
    "rollback_run::ExitFault::Store": end("rollback: store"),
    "rollback_run::ExitFault::Input": end("rollback: input"),
    "rollback_run::ExitFault::Output": end("rollback: output"),
    "rollback_run::ModeRefusal::Shown": words("--help"),
    "rollback_run::ModeRefusal::Usage": end("usage: rollback "),
    "shared_book::SharedRefusal::ForeignPass": never(FOREIGN),
    "shared_book::SharedRefusal::Refused": test("shared_tests", r'Act::Step\("a"\), "no thread"'),
    "shared_book::SharedCommitRefusal::Stale": test("shared_tests", r'want: "gone"'),
    "shared_book::SharedCommitRefusal::Held": test("shared_tests", r'want: "held"'),
    "shared_book::SharedCommitRefusal::Refused": ("growths",),
    "shared_book::CloseFault::ForeignPass": never(FOREIGN),
    "shared_book::CloseFault::Missing": test("shared_tests", r"CloseFault::Missing"),
    "step_names::NameFault::BadName": value("thread", "no name"),
}


# ---- what the reference says


def cells_of(text):
    """The cells of each line of a table, but for the line under its head."""
    for row in text.splitlines():
        cells = [cell.strip() for cell in row.strip().strip("|").split("|")]
        if row.startswith("|") and not set(row) <= set("|- "):
            yield cells


class Reference:
    """The codes, each with the details that it can have, and the refusals of each kind of line."""

    def __init__(self, text):
        self.details = {}
        codes = text.split("## Codes\n")[1].split("\n## ")[0]
        for cells in cells_of(codes):
            fault = re.fullmatch(r"`no (\d+) (\d+)( \w+)?`", cells[0])
            if re.fullmatch(r"\d+", cells[0]):
                self.details[cells[0]] = re.findall(r"`(\w+)`", cells[3])
            elif fault:
                self.details[fault.group(1)].append(fault.group(2))
        table = codes.split("| Line | Codes |\n")[1].split("\n\n")[0]
        self.pairs = {}
        for cells in cells_of(table):
            for call in re.findall(r"`(\w+)`", cells[0]) or [UNREAD]:
                self.pairs[call] = [*self.refusals(cells[1]), MEMORY]

    def refusals(self, codes):
        for code in codes.split(", "):
            details = self.details[code.split(" ")[0]]
            yield from [f"{code} {detail}" for detail in details] if details and " " not in code else [code]


# ---- what rows show


class Rows:
    """The first session in which each line is refused so, in which each reply stands, and in which a run ends so."""

    def __init__(self, reference):
        self.refused, self.odd, self.replies, self.ends, self.words = {}, [], {}, [], {}
        self.details = reference.details
        for session in rows.read_all(sorted(map(str, (TOP / "rows").glob("*.txt"))), 1):
            file = pathlib.Path(session.file).resolve().relative_to(TOP)
            self.add(f"{file}: {session.title}", session, reference)

    def add(self, place, session, reference):
        for command in session.commands:
            for reply in command.wanted[:1]:
                if reply.startswith(b"no "):
                    self.add_refusal(place, command, reply.decode(), reference)
                else:
                    self.replies.setdefault(reply.decode(errors="replace"), []).append(place)
        for part in session.parts:
            if isinstance(part, rows.Run):
                self.ends.append((part.errors.decode(), place))
                if part.status == 0:
                    for word in part.words:
                        self.words.setdefault(word, place)

    def add_refusal(self, place, command, reply, reference):
        refusal = self.refusal_of(reply)
        call = command.text.decode(errors="replace").split(" ")[0].removesuffix("\r")
        call = UNREAD if refusal == "20" else call
        if (call, refusal) not in self.refused and refusal not in reference.pairs.get(call, ()):
            self.odd.append(f"{place}: {REFERENCE} has no `{reply}` of {call}")
        self.refused.setdefault((call, refusal), place)

    def refusal_of(self, reply):
        """The code of a reply, with the number or the word beside it that says which refusal it is."""
        code, _, detail = reply.removeprefix("no ").partition(" ")
        detail = detail.split(" ")[0]
        return f"{code} {detail}" if detail in self.details.get(code, ()) else code

    def line(self, refusal, call):
        found = (place for (of, told), place in self.refused.items() if told == refusal and call in (None, of))
        return next(found, None)

    def shown(self, text):
        return next((places[0] for reply, places in self.replies.items() if reply.startswith(text)), None)

    def session(self, title, text):
        places = [place for reply, places in self.replies.items() if reply.startswith(text) for place in places]
        return next((place for place in places if place.endswith(f": {title}")), None)

    def end(self, text):
        return next((place for errors, place in self.ends if errors.startswith(text)), None)


def of_values(word, answer):
    """The first row of values with this word that is answered so."""
    for path in sorted((TOP / "rows/values").glob("*.txt")):
        lines = path.read_text().split("\n")
        for number, (row, told) in enumerate(zip(lines, lines[1:]), 1):
            if re.match(rf"> {word} ", row) and re.fullmatch(answer, told):
                return f"{path.relative_to(TOP)}:{number}"
    return None


# ---- what tests come to


def items_of(lines):
    """The functions and constants of a file: name, text, and whether it is a test. A function ends with its brace, a constant with `;`."""
    for at, line in enumerate(lines):
        found = re.match(r"(?:pub(?:\(crate\))? )?(fn|const) (\w+)", line)
        if found:
            ends = (lambda last: last == "}") if found.group(1) == "fn" else (lambda last: last.endswith(";"))
            last = next(here for here in range(at, len(lines)) if ends(lines[here]))
            yield found.group(2), "\n".join(lines[at : last + 1]), lines[at - 1] == "#[test]"


class Tests:
    """The functions and constants of a crate of tests, by file and name: the text of each, and whether it is a test."""

    def __init__(self, crate):
        self.crate, self.items, self.used = crate, {}, {}
        for path in sorted((TOP / "crates" / crate / "src").glob("*.rt")):
            text, file = path.read_text(), path.stem
            for name, item, is_test in items_of(text.split("\n")):
                self.items[file, name] = item, is_test
            for other, names in re.findall(r"^use crate::(\w+)::([^;]*);", text, re.M):
                self.used.update({(file, name): (other, name) for name in re.findall(r"\w+", names)})

    def named(self, file, text):
        """The functions and constants that a text of a file names: of that file, or of one that it uses."""
        for name in set(re.findall(r"\w+", text)):
            for place in ((file, name), self.used.get((file, name))):
                if place in self.items:
                    yield place

    def comes_to(self, place, pattern, seen):
        text, _ = self.items[place]
        seen.add(place)
        if re.search(pattern, text):
            return True
        return any(self.comes_to(other, pattern, seen) for other in self.named(place[0], text) if other not in seen)

    def first(self, pattern):
        for (file, name), (_, is_test) in self.items.items():
            if is_test and self.comes_to((file, name), pattern, set()):
                return f"{self.crate} {file}::{name}"
        return None


# ---- what the libraries have


def libraries():
    """The crates that aren't of tests, by crates.txt."""
    text = (TOP / "crates.txt").read_text().split("# Tests\n")[0]
    return re.findall(r"^(\w+):", text, re.M)


def variants():
    """Each variant of an enum that says why something isn't done, as CRATE::ENUM::VARIANT."""
    for crate in libraries():
        for path in sorted((TOP / "crates" / crate / "src").glob("*.rt")):
            for name, body in re.findall(rf"^pub enum (\w*(?:{SUFFIXES}))\b[^\n]*\{{\n(.*?)^\}}", path.read_text(), re.M | re.S):
                if f"{crate}::{name}" in NO_REFUSAL:
                    continue
                for variant in re.findall(r"^    (\w+)(?=[({, ]|$)", body, re.M):
                    yield f"{crate}::{name}::{variant}"


def of_pictures(line):
    """The first session of rows/graph that has a line."""
    for path in sorted((TOP / "rows" / "graph").glob("*.txt")):
        name = None
        for row in path.read_text().splitlines():
            if row.startswith("= "):
                name = row[2:]
            elif row == line:
                return f"{path.relative_to(TOP)}: {name}"
    return None


class Places:
    """Where each variant is met."""

    def __init__(self, shown):
        self.shown, self.tests = shown, {}

    def of(self, way):
        kind, *words = way
        if kind == "growths":
            return GROWTHS
        if kind == "never":
            return words[0]
        if kind == "words":
            return self.shown.words.get(words[0])
        if kind == "picture":
            return of_pictures(*words)
        if kind == "value":
            return of_values(*words)
        if kind == "follower":
            return FOLLOWER if words[0] in (TOP / FOLLOWER).read_text() else None
        if kind == "test":
            crate, pattern = words
            return self.tests.setdefault(crate, Tests(crate)).first(pattern)
        return getattr(self.shown, kind)(*words)

    def of_variant(self, variant):
        if variant not in WAYS and variant.endswith("::Memory"):
            return GROWTHS
        return self.of(WAYS[variant]) if variant in WAYS else None


class Table:
    """Prints the lines of a table, and counts them."""

    def __init__(self, empty):
        self.empty, self.passed, self.failed = empty, 0, 0

    def head(self, *cells):
        if not self.empty:
            print("\t".join(cells))

    def row(self, *cells):
        *names, place = cells
        if place:
            self.passed += 1
            self.head(*cells)
        else:
            self.failed += 1
            print("\t".join([*names, "NONE"]))

    def wrong(self, text):
        self.failed += 1
        print(text)


def tell_lines(table, reference, shown):
    table.head("call", "refusal", "row")
    for call in (*CALLS, UNREAD):
        if call not in reference.pairs:
            table.wrong(f"{REFERENCE} has no codes of {call}")
        for refusal in reference.pairs.get(call, ()):
            place = GROWTHS if refusal == MEMORY else shown.refused.get((call, refusal))
            table.row(call, f"no {refusal}", place)
    for text in shown.odd:
        table.wrong(text)


def tell_variants(table, shown):
    table.head("variant", "met by")
    places, there = Places(shown), list(variants())
    for variant in there:
        table.row(variant, places.of_variant(variant))
    for variant in WAYS:
        if variant not in there:
            table.wrong(f"no variant {variant}")


def main():
    asked = argparse.ArgumentParser(description="Tells for each refusal the first row, or test, that meets it.")
    asked.add_argument("--empty", action="store_true", help="only what fails")
    table = Table(asked.parse_args().empty)
    reference = Reference((TOP / REFERENCE).read_text())
    shown = Rows(reference)
    tell_lines(table, reference, shown)
    table.head("")
    tell_variants(table, shown)
    print(f"{table.passed} passed, {table.failed} failed")
    return 1 if table.failed or not table.passed else 0


if __name__ == "__main__":
    sys.exit(main())
