#!/usr/bin/env python3
"""Runs a command and says what its processes cost, by crate and part: what docs/GATE.md's tables are made of.

usage: gate_costs.py [--table FILE] COMMAND..            gate_costs.py rt ci

Of each crate the table has the seconds of a processor for its proof, for its tests and for its wrong edits, and the minutes of all that
a change of it proves anew: its own, and those of the crates above it.

It looks at the processes below the command once a second, and keeps the processor's time that each had when it was last seen: so each
process may be up to a second short. A check is the prover's, of the crate that its words name: a proof, or the proof and build of its
tests (`--test`), or of its wrong edits (in a folder `rt-edit-`). What else runs below, as compilers and the programs, counts for the last
row. What the command prints is passed on, the table follows, and then the command's last line once more. The status is the command's.
"""
import argparse
import os
import re
import subprocess
import sys
import threading
import time

TICKS = os.sysconf("SC_CLK_TCK")
PROOF, TESTS, EDITS, OTHER = "proof", "tests", "edits", "other"


class Costs:
    """Seconds of a processor for each process that was seen, and what it was for."""

    def __init__(self):
        self.kinds, self.seconds, self.began = {}, {}, time.monotonic()
        self.first, self.last = {}, {}

    def see(self, process, kind, seconds):
        now = time.monotonic() - self.began
        # one that was seen before it became the prover had its parent's words
        if self.kinds.get(process, ("", OTHER)) == ("", OTHER):
            self.kinds[process] = kind
        self.seconds[process] = max(seconds, self.seconds.get(process, 0))
        self.first.setdefault(self.kinds[process], now)
        self.last[self.kinds[process]] = now

    def sums(self):
        """Seconds of a processor by crate and part."""
        found = {}
        for process, kind in self.kinds.items():
            found[kind] = found.get(kind, 0) + self.seconds[process]
        return found


def stat_of(process):
    """The parent of a process, when it began, and its processor's time; None, if it has ended."""
    try:
        with open(f"/proc/{process}/stat", encoding="utf-8", errors="replace") as text:
            words = text.read().rpartition(")")[2].split()
    except OSError:
        return None
    return int(words[1]), words[19], (int(words[11]) + int(words[12])) / TICKS


def kind_of(process):
    """The crate and part that a process works for."""
    try:
        with open(f"/proc/{process}/cmdline", "rb") as text:
            words = text.read().decode(errors="replace").split("\0")
        folder = os.readlink(f"/proc/{process}/cwd")
    except OSError:
        return None
    name = words[words.index("--crate-name") + 1] if "--crate-name" in words[:-1] else ""
    if not name or not re.search(r"rattle(-\w+)?$", words[0]):
        return ("", OTHER)
    if "/rt-edit-" in folder:
        return (name, EDITS)
    return (name, TESTS if "--test" in words else PROOF)


def look(costs, top):
    """Sees each process below one, itself left out."""
    found = {int(it): stat_of(it) for it in os.listdir("/proc") if it.isdigit()}
    below = {top}
    grows = True
    while grows:
        more = {it for it, stat in found.items() if stat and stat[0] in below and it not in below}
        below |= more
        grows = bool(more)
    for process in below - {top}:
        kind = kind_of(process)
        if kind and found.get(process):
            costs.see((process, found[process][1]), kind, found[process][2])


def watch(costs, top, ended):
    while not ended.wait(1):
        look(costs, top)


def uses_of(path="crates.txt"):
    """Of each crate the libraries that it uses, as crates.txt has them; nothing, if there is none."""
    found = {}
    if os.path.isfile(path):
        with open(path, encoding="utf-8") as lines:
            for line in lines:
                name, colon, libraries = line.split("#")[0].partition(":")
                if colon:
                    found[name.split()[0]] = libraries.split()
    return found


def above(uses, crate):
    """A crate and all that depend on it, at any depth."""
    found = {crate}
    grows = True
    while grows:
        more = {name for name, libraries in uses.items() if name not in found and found & set(libraries)}
        found |= more
        grows = bool(more)
    return found


def table(costs):
    """The costs as rows: of each crate, and in sum."""
    sums, uses = costs.sums(), uses_of()
    crates = sorted({crate for crate, _ in sums if crate}, key=lambda it: costs.first.get((it, PROOF), 0))
    lines = ["| Crate | Proof, s | Tests, s | Edits, s | A change of it, min |", "|---|---|---|---|---|"]
    for crate in crates:
        cells = [f"{it:.0f}" if it >= 0.5 else "" for it in (sums.get((crate, part), 0) for part in (PROOF, TESTS, EDITS))]
        anew = sum(it for (name, _), it in sums.items() if name in above(uses, crate)) / 60
        lines.append(f"| {' | '.join([crate, *cells, f'{anew:.0f}'])} |")
    lines += ["", "| In sum | minutes of a processor |", "|---|---|"]
    named = {PROOF: "proofs of libraries and programs", TESTS: "tests: their proofs and builds", EDITS: "wrong edits", OTHER: "compilers, programs, all else"}
    for part, words in named.items():
        lines.append(f"| {words} | {sum(it for (_, kind), it in sums.items() if kind == part) / 60:.0f} |")
    clock = (time.monotonic() - costs.began) / 60
    lines.append(f"| all, in {clock:.0f} minutes by the clock on {len(os.sched_getaffinity(0))} processors | {sum(sums.values()) / 60:.0f} |")
    return lines


def main():
    parser = argparse.ArgumentParser(usage=__doc__.split("\n\n")[1].removeprefix("usage: "))
    parser.add_argument("--table", help="writes the table here too")
    parser.add_argument("command", nargs=argparse.REMAINDER)
    asked = parser.parse_args()
    costs, ended, last = Costs(), threading.Event(), ""
    child = subprocess.Popen(asked.command, stdout=subprocess.PIPE, text=True, errors="replace")
    watcher = threading.Thread(target=watch, args=(costs, child.pid, ended))
    watcher.start()
    for line in child.stdout:
        print(line, end="", flush=True)
        last = line if line.strip() else last
    status = child.wait()
    ended.set()
    watcher.join()
    lines = table(costs)
    print("\n".join(["", "What it cost:", "", *lines, ""]))
    if asked.table:
        with open(asked.table, "w", encoding="utf-8") as out:
            out.write("\n".join(lines) + "\n")
    print(last, end="")
    return status


if __name__ == "__main__":
    sys.exit(main())
