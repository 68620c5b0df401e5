"""What the server says on standard error. A reader that doesn't read there never holds it up."""
from __future__ import annotations

import os
import select

MOST = 4000  # bytes that a pipe takes without waiting, if it is ready for some
NAME = "rollback_client.serve"


def say(text: str) -> None:
    """Says a sentence, if standard error takes it now. Its mode isn't changed, since others may share it."""
    say_bytes(f"{NAME}: {text}\n".encode(errors="backslashreplace"))


def say_bytes(data: bytes) -> None:
    """Says words as they are."""
    try:
        ready = select.poll()
        ready.register(2, select.POLLOUT)
        if any(event & select.POLLOUT for _, event in ready.poll(0)):
            os.write(2, data[:MOST])
    except OSError:
        pass
