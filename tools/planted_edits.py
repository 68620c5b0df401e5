"""Wrong edits of a crate, and what a check of the crate with some of them says of each."""
import os
import re

from rattle_text import Source

VERDICT = re.compile(r"^(?:fn|struct|enum|impl) (\S+): (.*)$", re.M)
# what of functions that call one another is proved together
TOGETHER = re.compile(r"expected answers in (\./proofs/\S*\+\S*)")
ERROR = re.compile(r"^(?:\./)?(\S+?):(\d+):\d+: error: (?:`([^`]*)`: )?(.*)$", re.M)
# (`search` names the goals that it leaves in the line of the function)
UNPROVED = re.compile(r"did not prove ((?:`[^`]*`(?:, | and )?)+)")
# what a proof file says if the edit took away a name that it uses: that says nothing of a contract
TAKEN_NAME = re.compile(r"has no field|is not in scope|has no `|was not admitted")
REFUSED, PROVED, UNKNOWN, NAMES = "refused", "PROVED", "not known", "refused by the names of a proof file alone"
UNREAD, GONE = "doesn't compile", "its old text isn't there once"


class Edit:
    """Replacements in the files of a crate, one after another, and the functions in which they are."""

    def __init__(self, path, crate):
        self.path, self.name, self.pairs, self.tries = path, os.path.basename(path), [], 0
        file = old = None
        with open(path, encoding="utf-8") as lines:
            for line in lines.read().split("\n"):
                if line.startswith("file: "):
                    file = line[6:].strip()
                elif line.startswith("old: "):
                    old = line[5:]
                elif line.startswith("new:"):
                    self.pairs.append((file, old, line[4:].removeprefix(" ")))
        found = [function_of(os.path.join(crate, it), old) for it, old, _ in self.pairs]
        self.is_alone = None in found
        self.functions = {it for it in found if it}

    def texts(self, crate):
        """What its files say with the edit, by their paths; nothing, if an old text isn't there once."""
        texts = {}
        for file, old, new in self.pairs:
            path = os.path.join(crate, file)
            if path not in texts:
                if not os.path.isfile(path):
                    return None
                with open(path, encoding="utf-8") as text:
                    texts[path] = text.read()
            if texts[path].count(old) != 1:
                return None
            texts[path] = texts[path].replace(old, new)
        return texts

    def apply(self, crate, before):
        """Makes the edit, keeps what its files had, and answers whether it could be made. If not, nothing is changed."""
        texts = self.texts(crate)
        for path, text in (texts or {}).items():
            with open(path, encoding="utf-8") as was:
                before.setdefault(path, was.read())
            with open(path, "w", encoding="utf-8") as out:
                out.write(text)
        return texts is not None

    def is_at(self, crate, file, line):
        """Whether the line of an edited file is one of the edit's."""
        for of, _, new in self.pairs:
            with open(os.path.join(crate, of), encoding="utf-8") as whole:
                text = whole.read()
            at = text.find(new)
            if of == file and at >= 0 and text.count("\n", 0, at) <= line - 1 <= text.count("\n", 0, at + len(new)):
                return True
        return False


def function_of(path, old):
    """The name, with its type's, of the function in whose body a text is; None, if it is in none."""
    if not path.endswith(".rt") or not os.path.isfile(path):
        return None
    with open(path, encoding="utf-8") as whole:
        source = Source(whole.read())
    at = source.text.find(old)
    found = source.function_at(at + len(old) - 1) if at >= 0 else None
    return found.name if found else None


class Refusal:
    """What of a function or type isn't proved: its goals, whether only a proof file's names are at fault, what is proved with it."""

    def __init__(self, goals, has_names, together):
        self.goals, self.has_names, self.together = goals, has_names, together


def short(path):
    """The last two words of a function's path, if the first of them is a type: `Type::function`, else `function`."""
    words = re.split(r"::|\+\+", path)
    return "::".join(words[-2:]) if len(words) > 1 and words[-2][:1].isupper() else words[-1]


def goals_by_place(said):
    """Of each function's path, as its proof files have it, the goals that a check refused, and whether some line names what is gone."""
    goals, names = {}, set()
    for file, _, goal, what in ERROR.findall(said):
        if not file.startswith("proofs/"):
            continue
        place = file.split("/")[1:-1]
        if TAKEN_NAME.search(re.sub(r"`[^`]*`", "``", what)) or not goal:
            names.add("::".join(place))
        else:
            goals.setdefault("::".join(place), []).append(goal)
    return goals, names


def refusals(said):
    """Each function or type that isn't proved for a reason of its own, by its path without the crate's name."""
    goals, names = goals_by_place(said)
    found = {}
    for path, what in VERDICT.findall(said):
        if not what.startswith(("not proved", "no proof")) or what.startswith("no proof: it calls"):
            continue
        inside = path.split("::", 1)[-1]
        module = inside.rsplit("::", 1)[0]
        cycles = [it for it in {*goals, *names} if it.rsplit("::", 1)[-1].startswith("+") and inside.startswith(it.rsplit("::", 1)[0])]
        own = list(goals.get(inside, []))
        own += [goal for it in cycles if inside not in goals for goal in goals.get(it, [])]
        for it in UNPROVED.findall(what):
            own += re.findall(r"`([^`]*)`", it)
        if not own and "it calls" in what:
            continue
        shared = TOGETHER.search(what)
        has_names = inside in names or any(it in names for it in cycles)
        found[inside] = Refusal(list(dict.fromkeys(own)), has_names, shared.group(1) if shared else (cycles or [None])[0])
    return found


def without_answers(crate, said, before):
    """Takes out of proof files the answers that name what an edit took away; what they had is kept. Answers how many went."""
    gone = 0
    for file, _, goal, what in ERROR.findall(said):
        path = os.path.join(crate, file)
        if not (file.startswith("proofs/") and goal and TAKEN_NAME.search(re.sub(r"`[^`]*`", "``", what)) and os.path.isfile(path)):
            continue
        with open(path, encoding="utf-8") as whole:
            text = whole.read()
        less = re.sub(rf"(?m)^(?:pub )?{re.escape(goal)} :(?:.|\n)*?(?:\n\n|\Z)", "", text, count=1)
        if less != text:
            before.setdefault(path, text)
            gone += 1
            with open(path, "w", encoding="utf-8") as out:
                out.write(less)
    return gone


def of_names(found, names):
    """The refusals of functions with these names."""
    return {path: it for path, it in found.items() if short(path) in names or short(path).rsplit("::", 1)[-1] in names}


def how(found):
    """Refusals in one line: each function with the first of its goals."""
    said = []
    for path, it in sorted(found.items()):
        if it.goals:
            said.append(f"{short(path)}: {', '.join(it.goals[:3])}" + (f" and {len(it.goals) - 3} more" if len(it.goals) > 3 else ""))
    return "; ".join(said[:4]) + ("; .." if len(said) > 4 else "")


def verdict(edit, group, found):
    """What came of an edit among others, and how it was refused."""
    own = of_names(found, edit.functions)
    others = set().union(*(it.functions for it in group if it is not edit)) if len(group) > 1 else set()
    shared = {it.together for it in of_names(found, others).values() if it.together}
    sure = {path: it for path, it in own.items() if it.together is None or it.together not in shared}
    if any(it.goals for it in sure.values()):
        return REFUSED, how(sure)
    if sure and all(it.has_names for it in sure.values()):
        return NAMES, ""
    return UNKNOWN, ""


def laws(said):
    """The laws beside the functions' own proofs that a check refused: an edit of a definition is refused by these."""
    return goals_by_place(said)[0].get("", [])


def verdict_alone(edit, status, found, said=""):
    """What came of an edit that was tried alone."""
    if status == 0:
        return PROVED, ""
    if status == 1 and edit.is_alone and laws(said):
        return REFUSED, f"laws of a definition: {', '.join(dict.fromkeys(laws(said)[:3]))}"
    if status == 1 and any(it.goals for it in found.values()):
        own = of_names(found, edit.functions)
        return REFUSED, how(own if any(it.goals for it in own.values()) else found)
    return (NAMES if status == 1 and found else UNKNOWN), ""
