"""Reads Rattle's sources as text: the items of a .rt file, and what a .antt file says, without comments and layout.

It proves nothing and asks no compiler. It knows as much of the language as tools/planted.py needs: where a function begins and ends,
which of its lines are clauses, of which type it is, and which definition files a text cites.
"""
import re

# what is no code in a .rt file: comments, and the texts between quotation marks (a lifetime has no second mark)
RUST_BLANK = re.compile(r'//[^\n]*|/\*.*?\*/|r#"(?s:.*?)"#|b?"(?:\\.|[^"\\])*"|b?\'(?:\\[^\']+|[^\'\\\n])\'', re.S)
RUST_COMMENT = re.compile(r"//[^\n]*|/\*.*?\*/", re.S)
ANTT_COMMENT = re.compile(r"(?m)(?:(?<=\s)|^)--(?=\s|$)[^\n]*")
ATTRIBUTE = re.compile(r"#!?\[(?:tactic|allow|rustfmt)[^\n]*\]")
FUNCTION = re.compile(r"(?m)^[ \t]*(?:pub(?:\([a-z]+\))? )?(?:const )?(?:unsafe )?fn (\w+)")
CLAUSE = re.compile(r"\b(?:requires|ensures|ghost|decreases|invariant)\*?(?:\s+[\w-]+\s*:?)?\s*$")
OWNER = re.compile(r"(?m)^(?:unsafe )?impl\b([^{;]*)\{|^(?:pub(?:\([a-z]+\))? )?(?:unsafe )?trait (\w+)[^{;]*\{")
TYPE = re.compile(r"(?:^|\s)(?:struct|enum|trait|type|const|static|union) (\w+)")


def blanked(text):
    """The text with blanks in place of comments and of what is between quotation marks, as long as it was."""
    return RUST_BLANK.sub(lambda it: re.sub(r"[^\n]", " ", it.group()), text)


def normal_rust(text):
    """Code without comments and layout."""
    kept = RUST_BLANK.sub(lambda it: " " if RUST_COMMENT.fullmatch(it.group()) else it.group(), text)
    return " ".join(ATTRIBUTE.sub(" ", kept).split())


def normal_antt(text):
    """Definitions without comments and layout."""
    return " ".join(ANTT_COMMENT.sub(" ", text).split())


def after_braces(blank, at):
    """The place behind the bracket that closes the one at this place."""
    depth = 0
    for here in range(at, len(blank)):
        depth += {"{": 1, "}": -1}.get(blank[here], 0)
        if depth == 0:
            return here + 1
    return len(blank)


def body_of(blank, at):
    """Where the body of the function begins whose name ends here, and where it ends; twice the end, if it has none."""
    depth = 0
    while at < len(blank):
        letter = blank[at]
        depth += {"(": 1, "[": 1, ")": -1, "]": -1}.get(letter, 0)
        if depth == 0 and letter == ";":
            return at, at + 1
        if depth == 0 and letter == "{":
            end = after_braces(blank, at)
            if not CLAUSE.search(blank, 0, at):
                return at, end
            at = end
            continue
        at += 1
    return at, at


class Function:
    """A function of a file: its name with its type's, its place, its head with its clauses, and all of it."""

    def __init__(self, text, blank, found, owner):
        self.name = f"{owner}::{found.group(1)}" if owner else found.group(1)
        self.start = found.start()
        self.body, self.end = body_of(blank, found.end())
        self.head = normal_rust(text[self.start : self.body]) + " ;"
        self.whole = normal_rust(text[self.start : self.end])

    @property
    def short(self):
        return self.name.rsplit("::", 1)[-1]


def owner_name(head):
    """The type of an `impl`: what is behind `for`, or behind the parameters, without its own parameters."""
    kept, depth = "", 0
    for letter in head.replace("->", "  "):
        depth += {"<": 1, ">": -1}.get(letter, 0)
        kept += letter if depth == 0 and letter != ">" else ""
    words = re.findall(r"\w+", kept.split(" for ")[-1].split(" where ")[0])
    return words[-1] if words else ""


class Source:
    """A .rt file: its functions, and its other items."""

    def __init__(self, text):
        self.text, self.blank = text, blanked(text)
        owners = []
        for found in OWNER.finditer(self.blank):
            name = owner_name(found.group(1)) if found.group(1) is not None else found.group(2)
            owners.append((found.start(), after_braces(self.blank, found.end() - 1), name))
        self.functions = []
        for found in FUNCTION.finditer(self.blank):
            owner = next((name for start, end, name in owners if start <= found.start() < end), "")
            self.functions.append(Function(text, self.blank, found, owner))

    def function_at(self, at):
        """The innermost function whose body has this place."""
        inside = [it for it in self.functions if it.body < at < it.end]
        return max(inside, key=lambda it: it.start, default=None)

    def function_of_line(self, line):
        """The innermost function that has this line, its clauses too."""
        at = sum(len(it) + 1 for it in self.text.split("\n")[: line - 1])
        inside = [it for it in self.functions if it.start <= at + len(self.text.split("\n")[line - 1]) and at < it.end]
        return max(inside, key=lambda it: it.start, default=None)

    def outline(self):
        """The text with `;` in place of each function's body, and no tests."""
        kept, at = [], 0
        for it in self.functions:
            if it.body >= at and it.end - it.body > 1:
                kept.append(self.text[at : it.body] + ";")
                at = it.end
        return "".join(kept) + self.text[at:]

    def items(self):
        """The outline's items, each as one text: functions' heads, types, constants, traits, impls, and the imports of definitions."""
        text = self.outline()
        blank, found, start, at = blanked(text), [], 0, 0
        ends = {it.end() for it in re.finditer(r"(?m)^\}", blank)} | {it.end() for it in re.finditer(r"(?m);[ \t]*$", blank)}
        depth = 0
        for at, letter in enumerate(blank):
            depth += {"{": 1, "}": -1}.get(letter, 0)
            if depth == 0 and at + 1 in ends:
                found.append(normal_rust(text[start : at + 1]))
                start = at + 1
        found.append(normal_rust(text[start:]))
        return [it for it in found if it and not re.match(r"(?:pub(?:\([a-z]+\))? )?(?:use|mod) |#\[cfg\(test\)\]|#!", it)]

    def types(self):
        """Each type, trait and constant by its name, as one text."""
        found = {}
        for item in self.items():
            if item.startswith("ghost use"):
                continue
            name = TYPE.search(item.split("{")[0].split("=")[0])
            if name and not re.search(r"\bfn\b", item.split("{")[0]):
                found[name.group(1)] = item
        return found


def cited(text):
    """The modules of definitions that a file imports, as lists of words: of `Rattle.CRATE.specs.FILE..`."""
    found = set()
    for it in re.finditer(r"\buse Rattle\.([\w.]+)", text):
        words = it.group(1).strip(".").split(".")
        if len(words) > 1 and words[1] == "specs":
            found.add(tuple(words))
    return found
