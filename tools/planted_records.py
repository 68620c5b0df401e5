"""Records of refused edits: crates/CRATE/planted/refused.txt has a line for each edit of that folder, parted by tabs.

An edit that the prover refused: its name, how it was refused (the function and the goals that were left), the kit's logic, and the
SHA-256 of what the refusal rests on (tools/planted_sums.py). One that nobody has tried yet: its name and `to be tried`.
"""
import collections
import glob
import os

from planted_edits import Edit
from planted_sums import Sources, digest, parts, renamed

LATER = "to be tried"


class Record:
    """A line: how an edit was refused, by which logic, and the sum of what that rests on; or nothing of these."""

    def __init__(self, how="", logic="", sum_=""):
        self.how, self.logic, self.sum = how, logic, sum_

    @property
    def is_later(self):
        return not self.sum

    def refused(self):
        """The functions that weren't proved."""
        return {it.split(": ", 1)[0].strip() for it in self.how.split("; ") if ": " in it and not it.startswith("laws of")}

    def line(self, name):
        return "\t".join([name, LATER] if self.is_later else [name, self.how, self.logic, self.sum])


def path_of(crate):
    return os.path.join(crate, "planted", "refused.txt")


def read(crate):
    """The records of a crate's folder, by the names of their edits."""
    found = {}
    if os.path.isfile(path_of(crate)):
        with open(path_of(crate), encoding="utf-8") as lines:
            for line in lines.read().splitlines():
                name, *rest = line.split("\t")
                found[name] = Record(*rest) if len(rest) == 3 else Record()
    return found


def write(crate, records):
    """Writes the records of a crate's folder: one for each of its edits, in the order of their names."""
    names = [os.path.basename(it) for it in sorted(glob.glob(os.path.join(crate, "planted", "*.edit")))]
    with open(path_of(crate), "w", encoding="utf-8") as out:
        out.writelines(records.get(name, Record()).line(name) + "\n" for name in names)


def edits_of(crate):
    return [Edit(path, crate) for path in sorted(glob.glob(os.path.join(crate, "planted", "*.edit")))]


def sum_of(sources, crate, edit, record):
    return digest(parts(sources, os.path.basename(crate), edit, record.refused()))


def fault_of(sources, crate, edit, record):
    """Why an edit's record isn't current; nothing, if it is or the edit is to be tried."""
    if edit.texts(crate) is None:
        return "its old text isn't there once"
    if record is None:
        return "it has no record"
    if record.is_later or record.sum == sum_of(sources, crate, edit, record):
        return None
    return "what it was refused by has changed since"


def current(top, names):
    """Prints each edit whose record isn't current, and counts; answers whether all are."""
    sources, passed, later, failed = Sources(top), 0, 0, 0
    for name in names:
        crate = os.path.join(top, "crates", name)
        records, edits = read(crate), edits_of(crate)
        for edit in edits:
            record = records.get(edit.name)
            fault = fault_of(sources, crate, edit, record)
            if fault:
                print(f"planted: {name}/{edit.name}: {fault}")
                failed += 1
            elif record.is_later:
                later += 1
            else:
                passed += 1
        for gone in sorted(records.keys() - {it.name for it in edits}):
            print(f"planted: {name}/{gone}: there is a record and no edit")
            failed += 1
    if failed:
        print("planted: try these again, once: python3 tools/planted.py --record --stale CRATE..")
    if later:
        print(f"planted: {later} edits are still to be tried")
    print(f"{passed} passed, {failed} failed" + (f", {later} skipped" if later else ""))
    return failed == 0 and passed > 0


class Names:
    """The list of a renaming: an old word and its new one on each line. A word that got several has a line for each: what it became depends
    on the file, so an edit's own text is renamed by the words alone that got one."""

    def __init__(self, lines):
        pairs = [line.split()[:2] for line in lines if len(line.split()) >= 2 and not line.startswith("#")]
        olds = collections.Counter(old for old, _ in pairs)
        self.new = {old: new for old, new in pairs if olds[old] == 1}
        self.old = {new: old for old, new in pairs}


def carry(names, old, new, name):
    """Carries a crate's edits and records from one tree to another in which words were renamed; answers how many went over, of how many."""
    crate, went = os.path.join(new.top, "crates", names.new.get(name, name)), 0
    before = os.path.join(old.top, "crates", name)
    records, edits, kept = read(before), edits_of(before), read(crate)
    for edit in edits:
        record, path = records.get(edit.name), os.path.join(crate, "planted", edit.name)
        with open(edit.path, encoding="utf-8") as text:
            says = next(iter(renamed([text.read()], names.new)))
        os.makedirs(os.path.dirname(path), exist_ok=True)
        if not os.path.isfile(path) or Edit(path, crate).texts(crate) is None:
            with open(path, "w", encoding="utf-8") as out:
                out.write(says)
        if record is None or record.is_later or record.sum != sum_of(old, before, edit, record):
            continue
        here = Record(next(iter(renamed([record.how], names.new))), record.logic)
        now = parts(new, os.path.basename(crate), Edit(path, crate), here.refused())
        if renamed(now, names.old) == parts(old, name, edit, record.refused()):
            here.sum = digest(now)
            kept[edit.name] = here
            went += 1
    write(crate, kept)
    return went, len(edits)
