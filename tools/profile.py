#!/usr/bin/env python3
"""Where the instructions of each workload go, by crate, counted by valgrind's callgrind.

usage: profile.py [--program FILE] [--scale F] [--jobs N] [--functions N] [NAME ..]

Runs the program (crates/rollback_program/out/rollback_program) on the workloads of these names, or on the nine that have a
reference, F times as large as the whole ones (0.05), and prints for each the instructions a line, without what the program spends on
an empty input, and the share of each part: what is spent in functions of its crates themselves, not in those that they call. A function
that was inlined counts for its caller. With --functions, the N dearest functions too. Debian's package valgrind has to be there.
"""
import argparse
import collections
import concurrent.futures
import os
import re
import subprocess
import sys
import tempfile

import callgrind

HERE = os.path.dirname(os.path.abspath(__file__))
PROGRAM = os.path.join(HERE, "../crates/rollback_program/out/rollback_program")
NAMES = ["kept", "forgotten", "orders", "wide_map", "nested_forks", "hot_item", "middle_undo", "big_inputs", "listings"]

# The crates of a part. What is in none is the last.
PARTS = {
    "journal's rows (sqlite)": ["sqlite", "sqlite_schema", "sqlite_value", "sqlite_tied", "sqlite_trees", "sqlite_resolve", "sqlite_typing",
                                "sqlite_parse", "sqlite_pages", "sqlite_disk", "sqlite_record", "sqlite_program", "sqlite_exec"],
    "JSON read (serde_json)": ["serde_json"],
    "lines and replies": ["operator_line", "command_lines", "reply_lines", "rollback_run", "rollback_program", "memchr", "clap"],
    "journal of the book": ["book_journal", "journaled_book"],
    "book and log": ["rollback_book", "book_log", "book_rounds", "shared_book", "step_workers"],
    "steps and what depends on them": ["step_history", "step_index", "linked_classes", "depends", "saved_steps", "branch_tree", "trace_theory"],
    "states": ["asl_fields", "asl_errors", "asl_states", "asl_tree", "asl_machine", "asl_processing", "asl_frames",
               "asl_forward"],
    "values, names, items": ["json_tree", "ref_paths", "attr_values", "item_store", "step_names", "json", "indexmap", "itoa"],
    "memory (malloc, free, copies)": ["malloc", "memory"],
    "std": ["std", "core"],
}
OF_CRATE = {crate: part for part, crates in PARTS.items() for crate in crates}
MEMORY = re.compile(r"^(_int_|malloc|free|calloc|realloc|mem|__mem|unlink_chunk|tcache|arena|sysmalloc|systrim|alloc_perturb|brk|__brk|sbrk|mmap|munmap|rattle_alloc)")


def part_of(function):
    if MEMORY.match(function):
        return "memory (malloc, free, copies)"
    found = re.match(r"[^A-Za-z_]*([A-Za-z_]\w*)::", function)
    crate = found.group(1) if found else ""
    if crate.startswith("sqlite"):
        crate = "sqlite"
    return OF_CRATE.get(crate, "other")


def costs(program, lines, room):
    """The instructions of each function itself."""
    out = os.path.join(room, f"out.{os.path.basename(lines)}")
    with open(lines, "rb") as stdin:
        subprocess.run([*callgrind.NAMED, f"--callgrind-out-file={out}", program], env=callgrind.ENVIRONMENT,
                       stdin=stdin, stdout=subprocess.DEVNULL, stderr=subprocess.DEVNULL, check=True)
    spent = collections.Counter()
    function, is_call = None, False
    with open(out, errors="replace") as lines_of:
        for line in lines_of:
            if line.startswith("fn="):
                function = line[3:].strip()
            elif line.startswith("calls="):
                is_call = True
            elif line[:1].isdigit():
                if not is_call:
                    spent[function] += int(line.split()[1])
                is_call = False
    os.remove(out)
    return spent


def told(name, spent, empty, count, functions):
    spent = spent - empty
    whole = sum(spent.values())
    parts = collections.Counter()
    for function, cost in spent.items():
        parts[part_of(function)] += cost
    print(f"{name}: {whole // count:,} instructions a line")
    for part, cost in parts.most_common():
        print(f"    {100 * cost / whole:5.1f} %  {cost // count:>10,}  {part}")
    for function, cost in spent.most_common(functions):
        print(f"        {100 * cost / whole:5.1f} %  {function[:140]}")


def main():
    words = argparse.ArgumentParser()
    words.add_argument("--program", default=PROGRAM)
    words.add_argument("--scale", type=float, default=0.05)
    words.add_argument("--jobs", type=int, default=2)
    words.add_argument("--functions", type=int, default=0)
    words.add_argument("names", nargs="*", default=NAMES)
    asked = words.parse_args()
    with tempfile.TemporaryDirectory() as room:
        subprocess.run([sys.executable, os.path.join(HERE, "workloads.py"), room, "--scale", str(asked.scale), *asked.names],
                       stdout=subprocess.DEVNULL, check=True)
        open(os.path.join(room, "none.txt"), "w").close()
        files = {name: os.path.join(room, f"{name}.txt") for name in ["none", *asked.names]}
        with concurrent.futures.ThreadPoolExecutor(asked.jobs) as pool:
            runs = {name: pool.submit(costs, asked.program, file, room) for name, file in files.items()}
            empty = runs["none"].result()
            for name in asked.names:
                with open(files[name], "rb") as lines:
                    count = sum(1 for _ in lines)
                told(name, runs[name].result(), empty, count, asked.functions)
                sys.stdout.flush()


if __name__ == "__main__":
    main()
