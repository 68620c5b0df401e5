#!/usr/bin/env python3
"""Finds the executions that failed with an error, and takes a step of each back, with all that depends on it.

    python3 repair.py ADDRESS ERROR [--back N] [--yes]

For each failed execution it looks at its own last step, or at the N-th before it, shows what goes with that step, and asks. So an
operator sees which other executions are touched before anything is. Without a failed execution it says so.
"""
import argparse

from rollback_client import Book, Failed, NoStep, RollbackError, Step


def failed_executions(book, error):
    """The executions that have failed with this error, each with the last of its own steps."""
    last = {}
    for step in book.history():
        if "/" not in step.thread:
            last[step.thread] = step
    return [
        (execution, step)
        for execution, step in last.items()
        if isinstance(frame := book.show(execution), Failed) and frame.error == error
    ]


def plan_of(book, step, back):
    """What goes with the step so many before the last one, but not the start."""
    return book.plan(Step(step.thread, max(1, step.number - back)))


def main():
    parser = argparse.ArgumentParser(description="Takes back a step of each execution that failed with an error.")
    parser.add_argument("address")
    parser.add_argument("error")
    parser.add_argument("--back", type=int, default=0, metavar="N")
    parser.add_argument("--yes", action="store_true", help="asks nothing")
    words = parser.parse_args()
    with Book.connect(words.address) as book:
        found = failed_executions(book, words.error)
        if not found:
            print(f"no execution has failed with {words.error}")
        for execution, step in found:
            try:
                plan = plan_of(book, step, words.back)
            except NoStep:
                # It went with an earlier rollback.
                continue
            others = sorted({step.execution for step in plan} - {execution})
            print(f"{execution}: {', '.join(map(str, plan))}{', which touches ' + ', '.join(others) if others else ''}")
            if words.yes or input("take back? [y/N] ").strip().lower() == "y":
                taken = book.rollback(plan[-1])
                print(f"{execution}: {len(taken)} steps taken back")


if __name__ == "__main__":
    try:
        main()
    except RollbackError as fault:
        raise SystemExit(f"repair: {fault}")
    except (KeyboardInterrupt, BrokenPipeError):
        raise SystemExit(1)
