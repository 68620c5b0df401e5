"""Copies a running book: `python3 -m rollback_client.copy ADDRESS DEST`.

The server answers the lines that it was given, and then copies the journal before it gives another one, so the copy is the book
between two lines. It comes over the connection, and is written beside DEST (mode 0600), put into one file, checked by the program, and
only then renamed to DEST. A DEST that is there stays as it is, and so does a book in memory, which has no journal to copy.
"""
from __future__ import annotations

import argparse
import contextlib
import errno
import os
import pathlib
import re
import shutil
import subprocess
import sys
import tempfile
from typing import IO, Any, Iterator, Optional

from .faults import Busy, ConnectionLost, RollbackError, refusal_of
from .links import Address, Tls
from .streams import connected_socket

_SIZES = re.compile(rb"ok ([0-9]{1,18}) ([0-9]{1,18})\n")
CHUNK = 1 << 20


class NoCopy(RollbackError):
    """The book can't be copied: it is in memory, the server can't copy it, or the copy isn't a journal. Nothing was made at DEST."""


def copy_book(
    address: Address,
    dest: Address,
    program: Address = "rollback",
    timeout: Optional[float] = None,
    tls: Optional[Tls] = None,
) -> tuple[int, int]:
    """Copies the book of a server to a file, and gives its lines and its remaining steps, as `--check` answers them.

    `address` and `tls` are those of `Book.connect`. Raises `FileExistsError` if DEST or DEST-wal is there, `NoCopy`, `NoServer`,
    `Busy`, `ConnectionLost`, `Unavailable`, and `OSError`.
    """
    place = pathlib.Path(dest).absolute()
    for taken in (place, _log_of(place)):
        if os.path.lexists(taken):
            raise FileExistsError(errno.EEXIST, "there is a file already", str(taken))
    with tempfile.TemporaryDirectory(prefix=f".{place.name}.", dir=place.parent) as room:
        made = pathlib.Path(room) / "copy"
        fetch(address, made, timeout, tls)
        found = settle_in_one_file(made, program)
        _rename(made, place)
        with _opened_folder(place.parent) as folder:
            os.fsync(folder)
    return found


def _rename(made: pathlib.Path, place: pathlib.Path) -> None:
    """Gives the file its name. A link, unlike a renaming, never takes the place of a file that came meanwhile."""
    try:
        os.link(made, place)
    except FileExistsError:
        raise
    except OSError:
        # This file system has no links.
        if os.path.lexists(place):
            raise FileExistsError(errno.EEXIST, "there is a file already", str(place)) from None
        made.rename(place)
    else:
        made.unlink()


def fetch(address: Address, made: pathlib.Path, timeout: Optional[float] = None, tls: Optional[Tls] = None) -> None:
    """Has the server send its journal and its log, and writes them."""
    with connected_socket(os.fspath(address), timeout, tls) as found, found.makefile("rb") as stream:
        with contextlib.suppress(BrokenPipeError, ConnectionResetError):
            found.sendall(b"!copy\n")
        first = stream.readline()
        sizes = _SIZES.fullmatch(first)
        if sizes is None:
            raise _refusal(first)
        for size, path in zip(map(int, sizes.groups()), (made, _log_of(made))):
            with _made(path) as file:
                _pass_on(stream, file, size)


def settle_in_one_file(made: pathlib.Path, program: Address) -> tuple[int, int]:
    """Opens a copy once, so that all is in one file, has it checked, and gives its lines and its remaining steps."""
    _run([os.fspath(program), "--journal", os.fspath(made)])
    said = _run([os.fspath(program), "--check", os.fspath(made)])
    found = re.fullmatch(r"ok (\d+) (\d+)\n", said)
    if not found:
        raise NoCopy(f"the copy isn't a journal: --check answers {said[:200]!r}")
    _log_of(made).unlink(missing_ok=True)
    return int(found[1]), int(found[2])


def _refusal(first: bytes) -> RollbackError:
    if first == b"busy\n":
        return Busy()
    if first == b"no 30 memory\n":
        return NoCopy("the server's book is in memory, and has no journal to copy")
    if first.startswith(b"no 40 "):
        return refusal_of(first.decode(errors="replace").strip(), "!copy")
    if not first.endswith(b"\n"):
        return ConnectionLost("the connection has ended before the copy came")
    return NoCopy(f"the server doesn't copy its book: {first[:200].decode(errors='replace').strip()}")


def _pass_on(stream: IO[bytes], file: IO[bytes], size: int) -> None:
    while size:
        chunk = stream.read(min(size, CHUNK))
        if not chunk:
            raise ConnectionLost("the connection has ended amid the copy")
        file.write(chunk)
        size -= len(chunk)


def _run(command: list[str]) -> str:
    try:
        done = subprocess.run(
            command, stdin=subprocess.DEVNULL, stdout=subprocess.PIPE, stderr=subprocess.PIPE, text=True, check=False
        )
    except OSError as fault:
        raise RollbackError(f"the program can't be started: {fault}") from fault
    if done.returncode:
        raise NoCopy(f"the copy isn't a journal: status {done.returncode}, {done.stderr.strip() or 'nothing was said'}")
    return done.stdout


def _log_of(path: pathlib.Path) -> pathlib.Path:
    return path.with_name(f"{path.name}-wal")


def _made(path: pathlib.Path) -> IO[bytes]:
    return os.fdopen(os.open(path, os.O_WRONLY | os.O_CREAT | os.O_EXCL | os.O_CLOEXEC, 0o600), "wb")


@contextlib.contextmanager
def _opened_folder(path: pathlib.Path) -> Iterator[int]:
    folder = os.open(path, os.O_RDONLY | os.O_DIRECTORY)
    try:
        yield folder
    finally:
        os.close(folder)


def program_named(name: str, option: str) -> str:
    """The path of a program that the command line names. A name that isn't found ends the process."""
    found = shutil.which(name)
    if found is None:
        raise NoCopy(f"no program {name}: name it by {option}")
    return found


def tls_files(text: str) -> Tls:
    """The files of `--tls CERT,KEY,CA`."""
    parts = text.split(",")
    if len(parts) != 3:
        raise argparse.ArgumentTypeError("a certificate, its key and the server's authority: CERT,KEY,CA")
    return parts[0], parts[1], parts[2]


def add_address(parser: argparse.ArgumentParser, **more: Any) -> None:
    """The words that say which server, for the commands that ask one."""
    about = "a server of lines: a path of a Unix socket, host:port, or cluster:host:port,host:port,.."
    parser.add_argument("address", metavar="ADDRESS", help=about, **more)
    parser.add_argument("--tls", type=tls_files, metavar="CERT,KEY,CA", help="for a server with --tls")


def main() -> int:
    """Copies as the command line says, and gives the status."""
    parser = argparse.ArgumentParser(prog="python3 -m rollback_client.copy", description="Copies a running book.")
    add_address(parser)
    parser.add_argument("dest", metavar="DEST", help="the file to make")
    parser.add_argument("--program", default="rollback", help="the program, rollback on the path if it is left out")
    words = parser.parse_args()
    try:
        lines, steps = copy_book(words.address, words.dest, program_named(words.program, "--program"), tls=words.tls)
    except (RollbackError, OSError, ValueError) as fault:
        print(f"rollback_client.copy: {fault}", file=sys.stderr)
        return 1
    except KeyboardInterrupt:
        return 130
    print(f"ok {lines} {steps}")
    return 0


if __name__ == "__main__":
    sys.exit(main())
