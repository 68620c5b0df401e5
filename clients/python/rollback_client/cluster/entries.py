"""What the log gets of a line and its reply, and the hashes by which books are compared."""
from __future__ import annotations

import hashlib
from typing import Iterable, List, Tuple

MOST_LINES = 1000  # lines of a batch
MOST_BYTES = 1 << 20  # bytes of a batch, but that a line alone may be as long as a line may be
HASH = 64  # characters of a hash
Entry = Tuple[str, bytes]  # the reply's hash, and the line

KEPT = (b"table", b"define", b"start", b"step", b"undo", b"rollback", b"settle", b"hold")  # words that a journal keeps
TOGETHER = (b"drive", b"work")  # words of which a journal keeps the steps
QUESTIONS = (b"plan", b"show", b"items", b"history", b"held")


def word_of(line: bytes) -> bytes:
    """A line's first word."""
    return line.split(b" ", 1)[0]


def hash_of(line: bytes, reply: bytes) -> str:
    """The hash of what a reply says. Of a step its name counts alone, since `drive` and `work` tell no more."""
    said = reply.rstrip(b"\n")
    return hashlib.sha256(said.rsplit(b" ", 1)[0] if word_of(line) == b"step" else said).hexdigest()


def entries_of(line: bytes, reply: bytes) -> List[Entry]:
    """What the log gets: nothing of a question or a refusal, the steps of a `drive` or a `work`, or the line itself."""
    word = word_of(line)
    if not reply.startswith(b"ok"):
        return []
    if word in TOGETHER:
        names = reply.split(b"\n")[1:-1]
        return [(hashlib.sha256(b"ok " + name).hexdigest(), b"step " + name.rpartition(b"#")[0]) for name in names]
    return [(hash_of(line, reply), line)] if word in KEPT else []


def chained(chain: str, lines: Iterable[bytes]) -> str:
    """The hash of all lines up to these, of which `chain` is that of the lines before."""
    for line in lines:
        chain = hashlib.sha256(chain.encode() + line).hexdigest()
    return chain


def size_of(entry: Entry) -> int:
    """Bytes of an entry in a batch."""
    return len(entry[1]) + HASH + 2


def batch_length(entries: Iterable[Entry]) -> int:
    """How many of these entries one batch takes: at least one, if there is one."""
    count = size = 0
    for entry in entries:
        size += size_of(entry)
        if count == MOST_LINES or count and size > MOST_BYTES:
            break
        count += 1
    return count
