"""A copy of the journal while no line is with the program, sent to the caller who asked for it."""
from __future__ import annotations

import asyncio
import json
import os
import shutil
import tempfile
from typing import IO, TYPE_CHECKING, List, Optional

from .callers import Asked, Caller

if TYPE_CHECKING:
    from .turns import Turns

CHUNK = 1 << 20
IN_MEMORY = b"no 30 memory\n"


async def send_copy(turns: Turns, journal: Optional[str], caller: Caller, asked: Asked) -> None:
    """Copies the journal, has lines go on, and sends the copy: `ok`, the bytes of both files, and then these."""
    files: List[IO[bytes]] = []
    caller.is_copying = True
    reply = IN_MEMORY
    try:
        if journal is not None:
            files = await asyncio.get_running_loop().run_in_executor(None, _snapshot, journal)
            sizes = [os.fstat(file.fileno()).st_size for file in files]
            reply = b"ok %d %d\n" % (sizes[0], sizes[1])
    except Exception as fault:
        reply = b"no 30 failed %s\n" % json.dumps(getattr(fault, "strerror", None) or str(fault)).encode()
    try:
        turns.log_own(caller, asked, reply)
        turns.go_on_after_copy()
        await _send(caller, reply, files)
    finally:
        for file in files:
            file.close()
        caller.is_copying = caller.is_held = False
        turns.answered(caller)


def _snapshot(journal: str) -> List[IO[bytes]]:
    """Copies of the journal and of its log, in files without a name, beside it: there is room and a right to write there."""
    files: List[IO[bytes]] = []
    try:
        for path in (journal, f"{journal}-wal"):
            files.append(tempfile.TemporaryFile(dir=os.path.dirname(os.path.abspath(journal))))
            if path == journal or os.path.exists(path):
                with open(path, "rb") as source:
                    shutil.copyfileobj(source, files[-1], CHUNK)
            files[-1].seek(0)
    except BaseException:
        for file in files:
            file.close()
        raise
    return files


async def _send(caller: Caller, reply: bytes, files: List[IO[bytes]]) -> None:
    caller.write(reply)
    for file in files:
        while not caller.is_gone:
            chunk = file.read(CHUNK)
            if not chunk:
                break
            caller.write(chunk)
            await caller.has_read()
