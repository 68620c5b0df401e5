"""Questions and their answers as JSON values, for the envelope that `following` puts them in.

The questions and the fields of their answers are those of docs/QUESTIONS.md. The runner asks these:

    threads ready | threads since N [after T] [most M] | threads T | machine NAME definition

A row of a thread has `at` (the state's place in the definition), `entry` (the number of the accepted line that brought it there), `input`
(before InputPath), `machine`, `move` (`step`, `join`, `terminate` or null), `moves`, `retrier` (the index of the retrier that its last step
used, or null), `retries` (how often that one was used in this visit of the state), `state`, `thread` and `type`.
"""
from __future__ import annotations

import re
from typing import Any, Callable, Dict, List, Match, Optional, Sequence, Tuple

from . import looking
from . import rows as rows_of
from .book import _NAME, _NUMBER, _THREAD, MOST_NUMBER, Book, path_of
from .looking import NoAnswer

Answer = Dict[str, Any]


def thread_row(book: Book, name: str) -> Answer:
    """A thread as `threads` tells it."""
    thread = book.threads[name]
    frame = thread.frame
    is_over = frame.phase in ("done", "failed")
    return {
        "at": None if is_over else list(frame.at),
        "entry": thread.entry,
        "input": None if is_over else frame.input,
        "machine": frame.machine,
        "move": book.move(name),
        "moves": frame.moves,
        "retrier": frame.retrier,
        "retries": 0 if frame.retrier is None else frame.counters[frame.retrier],
        "state": None if is_over else frame.state,
        "thread": name,
        "type": None if is_over else book.machines[frame.machine].state(frame)["Type"],
    }


# ---- pages

_PAGE = rf"(?: after (\S+))?(?: most ({_NUMBER}))?"


def paged(names: Sequence[str], after: Optional[str], most: Optional[str], order: Callable[[str], Any]) -> Tuple[List[str], bool]:
    """The names behind one, at most so many of them, and whether there are more."""
    found = [name for name in names if after is None or order(name) > order(after)]
    return (found, False) if most is None else (found[: int(most)], len(found) > int(most))


# ---- threads and machines


def _threads_ready(book: Book, found: Match[str]) -> Answer:
    ready = [name for name in sorted(book.threads, key=path_of) if book.move(name)]
    names, more = paged(ready, found[1], found[2], path_of)
    return {"more": more, "threads": [thread_row(book, name) for name in names]}


def _threads_since(book: Book, found: Match[str]) -> Answer:
    changed = book.changed_since(int(found[1]))
    names, more = paged([name for name in changed if name in book.threads], found[2], found[3], path_of)
    gone = [name for name in changed if name not in book.threads]
    return {"gone": gone, "more": more, "threads": [thread_row(book, name) for name in names]}


def _thread(book: Book, found: Match[str]) -> Answer:
    if found[1] not in book.threads:
        raise NoAnswer(f"{found[1]} is no thread")
    return {"more": False, "threads": [thread_row(book, found[1])]}


def _machines(book: Book, found: Match[str]) -> Answer:
    names, more = paged(sorted(book.machines), found[1], found[2], str)
    return {"machines": names, "more": more}


def _definition(book: Book, found: Match[str]) -> Answer:
    if found[1] not in book.machines:
        raise NoAnswer(f"{found[1]} is no machine")
    return {"definition": book.machines[found[1]].text, "machine": found[1]}


# ---- steps, items and executions


def _items(book: Book, found: Match[str]) -> Answer:
    rows = [] if book.schema is None else looking.all_items(book)
    if found[1] is not None and book.schema is not None:
        after = book.schema.order(looking.key_object(looking.key_of_text(book, found[1])))
        rows = [row for row in rows if book.schema.order(row["key"]) > after]
    most = len(rows) if found[2] is None else int(found[2])
    return {"items": rows[:most], "more": len(rows) > most}


def _item(book: Book, found: Match[str]) -> Answer:
    if book.schema is None:
        raise NoAnswer("no table yet")
    return looking.item_of(book, found[3], found[1] or None, int(found[2]) if found[2] else None)


def _show(book: Book, found: Match[str]) -> Answer:
    name, after, most = found[1], found[2], None if found[3] is None else int(found[3])
    if "/" not in name and name in book.executions:
        return looking.show_execution(book, name, after, most)
    if name not in book.threads and not any(step.thread == name for step in book.steps):
        raise NoAnswer(f"{name} is no {'thread' if '/' in name else 'execution'}")
    steps, more = looking.steps_in(book, name, after, most)
    return {"more": more, "threads": [looking.shown_thread(book, name, steps)]}


def _list(book: Book, found: Match[str]) -> Answer:
    status, machine, since = found[1], found[2], found[3]
    if machine is not None and machine not in book.machines and book.schema is not None:
        raise NoAnswer(f"{machine} is no machine")
    names = sorted(book.executions)
    answer = looking.list_head(book)
    if since is not None:
        changed = {name.split("/")[0] for name in book.changed_since(int(since))}
        answer["gone"] = sorted(name for name in changed if name not in book.executions)
        names = [name for name in names if name in changed]
    if status is not None:
        names = [name for name in names if looking.status_of(book, name) == status]
    if machine is not None:
        names = [name for name in names if book.executions[name].machine == machine]
    names, more = paged(names, found[4], found[5], str)
    return {**answer, "executions": [looking.execution_row(book, name) for name in names], "more": more}


def _steps(book: Book, found: Match[str]) -> Answer:
    first, count = int(found[1]), int(found[2])
    rows = [rows_of.whole_row(book, step) for step in book.steps[first : first + count]]
    return {"count": len(book.steps), "from": first, "steps": rows}


def _log(book: Book, found: Match[str]) -> Answer:
    first, count = int(found[1]), int(found[2])
    return {"log": [looking.log_row(book, number) for number in range(len(book.entries))[first : first + count]]}


_STEP = rf"{_THREAD}#{_NUMBER}"
_LISTING = ("threads ready", "threads since")
_NAMING = ("causes", "plan", "why", "show", "explain", "threads ", "machine ")
_QUESTIONS: List[Tuple[str, Callable[[Book, Match[str]], Answer]]] = [
    (rf"threads ready{_PAGE}", _threads_ready),
    (rf"threads since ({_NUMBER}){_PAGE}", _threads_since),
    (rf"threads ({_THREAD})", _thread),
    (rf"machines{_PAGE}", _machines),
    (rf"machine ({_NAME}) definition", _definition),
    (rf"causes ({_STEP})( writes)?", lambda book, found: looking.causes_of(book, found[1], bool(found[2]))),
    (rf"plan ({_STEP})", lambda book, found: looking.plan_of(book, found[1])),
    (rf"why ({_STEP}) ({_STEP})", lambda book, found: looking.why_chain(book, found[1], found[2])),
    (rf"explain ({_THREAD})", lambda book, found: looking.explained(book, found[1])),
    (rf"item(?:(?: after (.+?))? most ({_NUMBER}))?", _items),
    (rf"item(?: after ({_STEP}))? most ({_NUMBER}) (.+)", _item),
    (r"item(?:()())? (.+)", _item),
    (rf"show ({_STEP})", lambda book, found: looking.show_step(book, found[1])),
    (rf"show ({_THREAD})(?: after ({_STEP}))?(?: most ({_NUMBER}))?", _show),
    (rf"list(?: (failed|open|done))?(?: machine ({_NAME}))?(?: since ({_NUMBER}))?{_PAGE}", _list),
    (rf"find (.+?) most ({_NUMBER})", lambda book, found: looking.found_steps(book, found[1], int(found[2]))),
    (r"find (.+)", lambda book, found: looking.found_steps(book, found[1], looking.MOST_FOUND)),
    (rf"steps ({_NUMBER}) ({_NUMBER})", _steps),
    (rf"log ({_NUMBER}) ({_NUMBER})", _log),
]


def answer(book: Book, question: str) -> Answer:
    """The fields of the answer to a question, without those of the envelope. `NoAnswer` says why there is none."""
    for form, give in _QUESTIONS:
        found = re.fullmatch(form, question, re.DOTALL)
        if found is not None and _fits(found):
            if book.schema is None and question.startswith(_NAMING) and not question.startswith(_LISTING):
                raise NoAnswer("no table yet")
            if book.schema is None and question.startswith(("steps ", "log ")):
                return {question.split(" ")[0]: [], "more": False}
            return give(book, found)
    raise NoAnswer("no question")


def _fits(found: Match[str]) -> bool:
    """Whether the numbers of a question fit 32 bits."""
    return all(int(text) <= MOST_NUMBER for text in found.groups() if text is not None and re.fullmatch(_NUMBER, text))
