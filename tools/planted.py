#!/usr/bin/env python3
"""Wrong edits of crates/CRATE/planted: tries them, and keeps how the prover refused each.

usage: planted.py [--record] [--stale] [--jobs N] [--most N] [CRATE..] [-- EDIT..]
       planted.py --current [CRATE..]
       planted.py --later [CRATE..]
       planted.py --renamed LIST [--since COMMIT] [CRATE..]

They are wrong bodies of the crate's functions, kept out of `rt ci` for its time's sake: that tries those of crates/CRATE/must-fail alone.

A contract is all that a caller sees of a function, so edits of different functions don't meddle with one another: up to --most of them (12)
are made together, on a copy of the sources, and one `rt check` says of each function whether it is proved. No two of them are of functions
of one name, and so none is taken for another. An edit is refused if one of its functions isn't proved, for a goal of its own. If that only
waits for another function, or is proved together with another edit's, the edit is tried again, at last alone. So are edits of what isn't a
function's body. If an edit takes away a name that an answer of a proof file has, that answer is left out, and the goals are asked for as
they then are. The crate itself has to be proved in the copy first. The status is 0 if all were refused. The copy begins with what `rt check` has kept of the crate, so check it first.

--record   writes how each was refused, and a sum of what that rests on, into crates/CRATE/planted/refused.txt. An edit that is proved, or
           refused only since a proof file names what the edit takes away, gets no record: mend the contract, or the edit.
--stale    tries those edits alone whose record isn't current, or that are still to be tried.
--current  asks no prover: it fails if an edit has no record, no longer applies, or if what its refusal rests on has changed since.
--later    gives each edit without a record a line that says that it is to be tried.
--renamed  carries edits and records along if words were renamed since a commit (HEAD): LIST has an old word and its new one on each line,
           names of crates too, and a line for each of several. A record goes over if nothing else differs. The others are to be tried again.
"""
import argparse
import glob
import os
import re
import subprocess
import sys
import tempfile

import planted_records
from planted_edits import ERROR, GONE, NAMES, REFUSED, UNKNOWN, UNREAD, VERDICT, refusals, verdict, verdict_alone, without_answers
from planted_records import Record, edits_of, fault_of
from planted_sums import Sources

TOP = os.path.join(os.path.dirname(os.path.abspath(__file__)), "..")
# the command that checks a crate; another may stand in for it
RT = os.environ.get("RT", "rt")


def check(crate, jobs):
    done = subprocess.run([RT, "check", "--jobs", str(jobs)], cwd=crate, stdin=subprocess.DEVNULL, stdout=subprocess.PIPE,
                          stderr=subprocess.STDOUT, text=True, errors="replace")
    return done.returncode, done.stdout


def put_back(before):
    for path, text in before.items():
        with open(path, "w", encoding="utf-8") as out:
            out.write(text)


def unread(crate, group, said):
    """Of the edits that a check couldn't read, what is said of them."""
    return {edit: UNREAD for edit in group for file, line, _, _ in ERROR.findall(said) if edit.is_at(crate, file, int(line))}


def try_together(crate, group, jobs):
    """Makes the edits, checks, and answers of each edit what came of it, and how it was refused."""
    before, wrong = {}, {}
    try:
        made = [edit for edit in group if edit.apply(crate, before)]
        status, said = check(crate, jobs) if made else (2, "")
        if made and not VERDICT.search(said):
            wrong = unread(crate, made, said)
    finally:
        put_back(before)
    if wrong:
        return {edit: (wrong.get(edit, UNKNOWN), "") for edit in group}
    if not made:
        return {edit: (GONE, "") for edit in group}
    found = refusals(said)
    if len(group) == 1:
        return {group[0]: verdict_alone(group[0], status, found, said)}
    # (another edit may have made the old text of one that wasn't made, or taken it away)
    return {edit: verdict(edit, group, found) if edit in made and status == 1 else (UNKNOWN, "") for edit in group}


def try_without_answers(crate, edit, jobs):
    """Tries an edit that takes names away which a proof file has: without the answers that have them, so that the goals themselves are left."""
    before, what = {}, (GONE, "")
    try:
        if edit.apply(crate, before):
            status, said = check(crate, jobs)
            while status == 1 and without_answers(crate, said, before):
                status, said = check(crate, jobs)
            what = verdict_alone(edit, status, refusals(said), said)
    finally:
        put_back(before)
    return what


def next_group(edits, most):
    """Edits of different functions, or one that is to be alone; and those that are left."""
    alone = [edit for edit in edits if edit.is_alone or edit.tries > 1]
    if alone:
        return alone[:1], [edit for edit in edits if edit is not alone[0]]
    group, left, taken = [], [], set()
    for edit in edits:
        names = {it.rsplit("::", 1)[-1] for it in edit.functions}
        if len(group) < most and not names & taken:
            group.append(edit)
            taken |= names
        else:
            left.append(edit)
    return group, left


def try_crate(crate, edits, asked, done=lambda found: None):
    """Tries edits of a crate, and answers what came of each, and how it was refused; `done` gets that as it comes."""
    found, left = {}, list(edits)
    while left:
        group, left = next_group(left, asked.most)
        before = set(found)
        for edit, (what, how) in try_together(crate, group, asked.jobs).items():
            edit.tries += 1
            if what == NAMES:
                what, how = try_without_answers(crate, edit, asked.jobs)
            if what == UNKNOWN and edit.tries < 3:
                left.append(edit)
                continue
            found[edit] = what, how
            print(f"{os.path.basename(crate)}: {edit.name}: {what}{': ' + how if how else ''}", flush=True)
        done({edit: told for edit, told in found.items() if edit not in before})
    return found


def copy_of(names, room):
    """A copy of the sources, of the libraries that these crates need, and of what was proved of these."""
    sources = Sources(TOP)
    needed = set(names).union(*(sources.below(name) for name in names))
    parts = ["HANDLES", "crates.txt", *(f"crates/{it}/out/rlib" for it in needed), *(f"crates/{it}/out/incremental" for it in names)]
    words = ["tar", "cf", "-", "--exclude=out", "--no-wildcards-match-slash", "crates"]
    for given in (words, ["tar", "cf", "-", *(it for it in parts if os.path.exists(os.path.join(TOP, it)))]):
        packed = subprocess.Popen(given, cwd=TOP, stdout=subprocess.PIPE)
        subprocess.run(["tar", "xf", "-", "-C", room], stdin=packed.stdout, check=True)


def logic():
    said = subprocess.run(["rt", "version"], stdout=subprocess.PIPE, text=True).stdout
    found = re.search(r"logic \w+", said)
    return found.group() if found else "logic unknown"


def keep(room, name, found):
    """Writes the records of edits that were tried over a copy of the crate."""
    sources, crate, there = Sources(room), os.path.join(room, "crates", name), os.path.join(TOP, "crates", name)
    records = planted_records.read(there)
    for edit, (what, how) in found.items():
        records.pop(edit.name, None)
        if what == REFUSED:
            record = Record(how, logic(), "")
            record.sum = planted_records.sum_of(sources, crate, edit, record)
            records[edit.name] = record
    planted_records.write(there, records)


def chosen(crate, sources, asked, wanted):
    """The edits of a crate that are asked for."""
    records = planted_records.read(crate)
    every = [it for it in edits_of(crate) if not wanted or it.name in wanted]
    if not asked.stale:
        return every
    later = {name for name, it in records.items() if it.is_later}
    return [it for it in every if it.name in later or fault_of(sources, crate, it, records.get(it.name))]


def try_all(names, asked, wanted):
    """Tries the crates' edits; the status of the whole."""
    count = refused = 0
    with tempfile.TemporaryDirectory() as room:
        copy_of(names, room)
        sources = Sources(room)
        for name in names:
            crate = os.path.join(room, "crates", name)
            edits = chosen(crate, sources, asked, wanted)
            if edits and check(crate, asked.jobs)[0] != 0:
                sys.exit(f"planted: {name} itself isn't proved in the copy, so nothing can be said of its edits")
            found = try_crate(crate, edits, asked, lambda more, name=name: asked.record and keep(room, name, more))
            here = sum(what == REFUSED for what, _ in found.values())
            print(f"{name}: {here} of {len(edits)} edits refused", flush=True)
            count, refused = count + len(edits), refused + here
    print(f"{refused} of {count} edits refused")
    return int(refused != count)


def carry_all(names, asked):
    """Carries edits and records along; the status of the whole."""
    with open(asked.renamed, encoding="utf-8") as lines:
        words = planted_records.Names(lines)
    with tempfile.TemporaryDirectory() as room:
        packed = subprocess.Popen(["git", "archive", asked.since, "crates.txt", "crates"], cwd=TOP, stdout=subprocess.PIPE)
        subprocess.run(["tar", "xf", "-", "-C", room], stdin=packed.stdout, check=True)
        old, new = Sources(room), Sources(TOP)
        for name in names or folders(room):
            went, count = planted_records.carry(words, old, new, name)
            print(f"{name}: {went} of {count} records carried along", flush=True)
    return 0


def folders(top):
    return sorted(path.split(os.sep)[-2] for path in glob.glob(os.path.join(top, "crates", "*", "planted")))


def main():
    given = sys.argv[1:]
    wanted = given[given.index("--") + 1 :] if "--" in given else []
    parser = argparse.ArgumentParser(usage=__doc__.split("\n\n")[1].removeprefix("usage: "))
    parser.add_argument("crates", nargs="*")
    parser.add_argument("--jobs", type=int, default=2)
    parser.add_argument("--most", type=int, default=12)
    for word in ("--record", "--stale", "--current", "--later"):
        parser.add_argument(word, action="store_true")
    parser.add_argument("--renamed")
    parser.add_argument("--since", default="HEAD")
    asked = parser.parse_args(given[: given.index("--")] if "--" in given else given)
    if asked.current:
        return int(not planted_records.current(TOP, asked.crates or folders(TOP)))
    if asked.later:
        for crate in (os.path.join(TOP, "crates", name) for name in asked.crates or folders(TOP)):
            planted_records.write(crate, planted_records.read(crate))
        return 0
    if asked.renamed:
        return carry_all(asked.crates, asked)
    return try_all(asked.crates or folders(TOP), asked, wanted)


if __name__ == "__main__":
    sys.exit(main())
