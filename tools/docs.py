#!/usr/bin/env python3
"""Looks whether what the documents name is there, and whether the program answers what they show.

    sh tools/docs.sh [--names | --replies] [--program PATH]

The documents are README.md and CONTRIBUTING.md at the top, docs/*.md, rows/README.md, crates/*/README.md and clients/*/README.md. In each

- a file that is named, from the top on, has to be there. `*` stands for any name, and so do NAME and CRATE. What a build leaves in
  `out/` is passed over. A text file that is named without its folder stands at the top, in rows/, rows/values/ or examples/;
- `Type::function` and `Type::Variant` in backticks have to be in a file of crates/*/src that speaks of that type;
- a name in backticks with low lines, or of capitals and small letters, has to be a word of crates/, tools/ or rows/. This is asked of the
  documents that name code (CODE);
- a name in backticks with hyphens has to be the title of a session in rows/*.txt. This is asked of those that list tests (TESTS);
- a sentence has at most 40 words, and all have 25 on average at most. This is asked of those that are written so (SHORT);
- the tables of docs/REFERENCE.md have to name the fields of crates/asl_fields/src/fields.rt, object by object, and those that are left out;
- a block with lines behind `>` is a part of the session of the example that was named last. Its lines stand in the example in their order,
  and the program answers what stands under them. `...` stands for the rest of a reply, and in a line for any text. What a shell's line
  behind `$` prints isn't compared. This is asked of those that show sessions (SESSIONS), and needs the program; if it isn't built, a line
  says so.

--names looks at all but the replies, and --replies at these alone. Each failure is printed. The last line is `N passed, M failed`, of names, sentences and replies. The status is 1 where one failed.
"""
import argparse
import pathlib
import re
import subprocess
import sys

TOP = pathlib.Path(__file__).resolve().parent.parent
PROGRAM = TOP / "crates/rollback_program/out/rollback_program"
CODE = ("docs/GUARANTEES.md", "docs/INTERNALS.md", "docs/MAP.md")
TESTS = ("docs/GUARANTEES.md", "docs/MAP.md")
SHORT = (
    "CONTRIBUTING.md",
    "README.md",
    "docs/AWS.md",
    "docs/CLUSTER.md",
    "docs/CONSOLE.md",
    "docs/GLOSSARY.md",
    "docs/GUARANTEES.md",
    "docs/INTERNALS.md",
    "docs/REFERENCE.md",
    "docs/SERVER.md",
    "docs/TUTORIALS.md",
    "docs/USER_GUIDE.md",
)
SESSIONS = ("README.md", "docs/TUTORIALS.md", "docs/USER_GUIDE.md")
LISTS = ("items", "history", "plan", "rollback", "drive", "work", "held")
FILE = re.compile(r"(?<![\w/.-])(?:\.\./)*((?:docs|crates|rows|tools|examples)/[\w./*-]+|[A-Z_]+\.md|[a-z_-]+\.txt)")
SPAN = re.compile(r"`([^`]+)`")
FOREIGN = ("Connection",)  # types of the kit's libraries


class Report:
    """Counts what was looked at, and prints what isn't so."""

    def __init__(self):
        self.passed = self.failed = 0

    def look(self, holds, document, what):
        if holds:
            self.passed += 1
        else:
            self.failed += 1
            print(f"{document}: {what}")


def documents():
    for pattern in ("README.md", "CONTRIBUTING.md", "docs/*.md", "rows/README.md", "crates/*/README.md", "clients/*/README.md"):
        yield from sorted(TOP.glob(pattern))


def is_there(name):
    name = re.sub(r"\b(NAME|CRATE)\b", "*", name.rstrip("."))
    if "/" in name:
        return any(TOP.glob(name.rstrip("/")))
    return any((TOP / folder / name).exists() for folder in ("", "docs", "rows", "rows/values", "examples"))


def look_at_files(report, document, folder, text):
    for name in sorted({m.group(1).rstrip(".") for m in FILE.finditer(text)}):
        if "/out" in name:
            continue
        beside = (folder / name).exists()
        report.look(beside or is_there(name), document, f"no file {name}")


class Code:
    """The words of the repository's code, and its functions with the files that have them."""

    def __init__(self):
        self.words, self.functions, self.texts = set(), {}, {}
        for pattern in ("crates/*/src/*.rt", "crates/*/specs/*.antt", "crates/*/proofs/**/*.antt", "tools/**/*.*", "rows/**/*.txt", "crates.txt"):
            for path in TOP.glob(pattern):
                if path.name != "docs.py" and path.is_file():
                    self.read(path)
        self.titles = {
            line[2:].strip() for path in TOP.glob("rows/*.txt") for line in path.read_text().splitlines() if line.startswith("= ")
        }

    def read(self, path):
        text = path.read_text(errors="replace")
        self.words.update(re.findall(r"\w+", text))
        if path.suffix == ".rt":
            self.texts[path] = set(re.findall(r"\w+", text))
            for name in re.findall(r"\bfn (\w+)", text):
                self.functions.setdefault(name, []).append(path)

    def has(self, owner, name):
        """A function, or a variant of an enum, in a file that speaks of the type."""
        if name[0].isupper():
            return any(owner in words and name in words for words in self.texts.values())
        return owner in FOREIGN or any(owner in self.texts[path] for path in self.functions.get(name, ()))


def look_at_names(report, document, text, code):
    for span in sorted(set(SPAN.findall(text))):
        method = re.fullmatch(r"([A-Z]\w*)::(\w+)", span)
        if method:
            report.look(code.has(*method.groups()), document, f"no function {span}")
        elif document in CODE and re.fullmatch(r"[a-z]+(_[a-z0-9]+)+|([A-Z][a-z]+){2,}", span):
            report.look(span in code.words or (TOP / "crates" / span).is_dir(), document, f"no name {span}")
        elif document in TESTS and re.fullmatch(r"[a-z0-9]+(-[a-z0-9]+)+", span):
            report.look(span in code.titles or span in ("must-fail",), document, f"no session {span}")


# ---- sentences


def paragraphs(text):
    """Paragraphs, list items and cells, without blocks and headings."""
    lines = []
    for line in re.sub(r"```.*?```", "", text, flags=re.S).split("\n"):
        if line.startswith(("    ", "#")):
            lines.append("")
        elif line.startswith("|"):
            lines += [part for cell in line.strip("|").split("|") for part in ("", cell.strip())] + [""]
        else:
            item = re.match(r"\s*([-*]|\d+\.) ", line)
            lines += ["", line[item.end() :]] if item else [line]
    return [" ".join(part.split()) for part in re.split(r"\n\s*\n", "\n".join(lines)) if part.strip()]


def look_at_sentences(report, document, text):
    counts = []
    for paragraph in paragraphs(text):
        for sentence in re.split(r"(?<=[.!?])\s+", paragraph):
            count = len(sentence.split())
            counts.append(count)
            report.look(count <= 40, document, f"{count} words: {sentence[:60]} ..")
    report.look(sum(counts) <= 25 * len(counts), document, "more than 25 words a sentence")


# ---- fields

OBJECTS = {"the top": "TOP", "a branch of a Parallel": "BRANCH", "the processor of a Map": "PROCESSOR", "a retrier": "RETRIER",
           "a catcher": "CATCHER", "a rule of a Choice": "RULE", "a test within a test": "TEST"}
STATES = ("Pass", "Task", "Choice", "Wait", "Succeed", "Fail", "Parallel", "Map")


def field_tables():
    """The lists of names of the program, each by its name there."""
    text = (TOP / "crates/asl_fields/src/fields.rt").read_text()
    return {name: set(re.findall(r'"(\w+)"', body)) for name, body in re.findall(r"const (\w+): \[&str; \d+\] = \[(.*?)\];", text, re.S)}


def look_at_fields(report, document, text):
    tables = field_tables()
    objects, left_out = text.split("### Objects" if "### Objects" in text else "## Objects")[1].split("### Left out")
    comparisons = {name for name in tables["RULE"] if name not in ("Next", "Comment", "And", "Or", "Not", "Variable")}
    rows = {}
    for line in objects.splitlines():
        cells = [cell.strip() for cell in line.strip("|").split("|")]
        if len(cells) == 3 and cells[0] not in rows:
            rows[cells[0]] = set(re.findall(r"\b[A-Z]\w+", cells[1] + " " + cells[2])) | (comparisons if "comparisons" in cells[1] else set())
    for name in (*OBJECTS, *STATES):
        wanted = tables[OBJECTS.get(name, name.upper())] - ({"Type"} if name in STATES else set())
        report.look(rows.get(name) == wanted, document, f"other fields of {name}: {sorted(wanted ^ rows.get(name, set()))}")
    named = set(re.findall(r"\b[A-Z]\w+", left_out.split("- in templates")[0].split(":", 1)[1]))
    wanted = tables["LEFT_OUT"] | tables["COMPARISONS_LEFT_OUT"]
    report.look(named == wanted, document, f"others are left out: {sorted(named ^ wanted)}")
    said = set(re.findall(r"\b(?:String|Numeric|Boolean|Is)\w+", text.split("Choices\n")[1].split("Tests are taken")[0]))
    report.look(said == comparisons, document, f"other comparisons: {sorted(said ^ comparisons)}")


# ---- sessions


def replies(program, lines):
    """What the program answers, as a list of lines for each line."""
    served = subprocess.run([program], input="".join(line + "\n" for line in lines).encode(), capture_output=True, timeout=600)
    said = served.stdout.decode().splitlines()
    answers = []
    for line in lines:
        size = 1
        if not line:
            size = 0
        elif line.split(" ")[0] in LISTS and said and said[0].startswith("ok "):
            size = 1 + int(said[0][3:])
        answers.append(said[:size])
        said = said[size:]
    return answers


def blocks(text):
    """Each block with lines behind `>`, as pairs of a line and its reply, with the example that was named last."""
    example, block = None, []
    for line in text.split("\n") + [""]:
        for name in re.findall(r"examples/[\w-]+\.txt", line):
            example = name
        if line.startswith("    "):
            block.append(line[4:])
            continue
        if any(part.startswith("> ") for part in block):
            yield example, block
        block = []


def pairs(block):
    """The lines behind `>`, each with the lines that stand under it. What a shell's line behind `$` prints belongs to none."""
    found, answers = [], False
    for line in block:
        if line.startswith(("> ", "$ ")):
            answers = line.startswith("> ")
            if answers:
                found.append((line[2:], []))
        elif answers:
            found[-1][1].append(line)
    return found


def is_reply(shown, answered):
    if shown and shown[-1] == "...":
        return answered[: len(shown) - 1] == shown[:-1]
    return answered == shown


def look_at_sessions(report, document, text, program):
    served = {}
    for example, block in blocks(text):
        if example is None:
            report.look(False, document, f"a session of no example: {block[0]}")
            continue
        if example not in served:
            lines = (TOP / example).read_text().splitlines()
            served[example] = [lines, replies(program, lines), 0]
        lines, answers, at = served[example]
        for line, shown in pairs(block):
            wanted = re.compile(".*".join(re.escape(part) for part in line.split("...")))
            places = [i for i in range(at, len(lines)) if wanted.fullmatch(lines[i])]
            if not places:
                report.look(False, document, f"{example} has no line: {line[:60]}")
                continue
            at = places[0] + 1
            report.look(is_reply(shown, answers[places[0]]), document, f"another reply to: {line[:60]}")
        served[example][2] = at


def look_at_texts(report, document, folder, text, code):
    look_at_files(report, document, folder, text)
    look_at_names(report, document, text, code)
    if document == "docs/REFERENCE.md":
        look_at_fields(report, document, text)
    if document in SHORT:
        look_at_sentences(report, document, text)


def main():
    parser = argparse.ArgumentParser()
    parser.add_argument("--program", type=pathlib.Path, default=PROGRAM)
    parts = parser.add_mutually_exclusive_group()
    parts.add_argument("--names", action="store_true")
    parts.add_argument("--replies", action="store_true")
    words = parser.parse_args()
    report, code = Report(), Code()
    has_program = not words.names and words.program.exists()
    if not words.names and not has_program:
        print(f"docs: no program at {words.program}, so no reply is looked at")
    for path in documents():
        document, text = str(path.relative_to(TOP)), path.read_text()
        if not words.replies:
            look_at_texts(report, document, path.parent, text, code)
        if has_program and document in SESSIONS:
            look_at_sessions(report, document, text, words.program.resolve())
    print(f"{report.passed} passed, {report.failed} failed")
    return 1 if report.failed or not report.passed else 0


if __name__ == "__main__":
    sys.exit(main())
