"""Where the server listens: a Unix socket with its rights, or a port of the loopback."""
from __future__ import annotations

import errno
import grp
import ipaddress
import os
import pathlib
import socket
import stat
from typing import Optional, Tuple

from ..links import host_and_port


class UnixPlace:
    """A Unix socket, which nobody but those of its mode and group can ever open."""

    def __init__(self, path: str, mode: int, group: Optional[int]):
        self.path, self.mode, self.group = path, mode, group
        self._made: Optional[Tuple[int, int]] = None

    def clear(self) -> None:
        """Removes a socket on which nobody listens any more. One that is in use, or another file, is an `OSError`."""
        try:
            if not stat.S_ISSOCK(os.lstat(self.path).st_mode):
                raise OSError(errno.EEXIST, "another file is there", self.path)
        except FileNotFoundError:
            return
        with socket.socket(socket.AF_UNIX, socket.SOCK_STREAM) as probe:
            probe.setblocking(False)
            try:
                probe.connect(self.path)
            except ConnectionRefusedError:
                os.unlink(self.path)
                return
            except BlockingIOError:
                pass
        raise OSError(errno.EADDRINUSE, "another server listens there", self.path)

    def bind(self) -> socket.socket:
        """Makes the socket: without any right at first, then with its group, then with its mode."""
        found = socket.socket(socket.AF_UNIX, socket.SOCK_STREAM)
        before = os.umask(0o777)
        try:
            found.bind(self.path)
        except BaseException:
            found.close()
            raise
        finally:
            os.umask(before)
        about = os.lstat(self.path)
        self._made = about.st_dev, about.st_ino
        try:
            if self.group is not None:
                os.chown(self.path, -1, self.group)
            os.chmod(self.path, self.mode)
        except BaseException:
            found.close()
            self.remove()
            raise
        return found

    def remove(self) -> None:
        """Removes the socket that was made. Another one that is at its path now stays."""
        try:
            about = os.lstat(self.path)
            if self._made == (about.st_dev, about.st_ino):
                os.unlink(self.path)
        except OSError:
            pass

    def others_reach_it(self) -> bool:
        """Whether users who are neither its owner nor of its group can go to the folder."""
        folder = pathlib.Path(self.path).absolute().parent
        try:
            return all(os.stat(place).st_mode & stat.S_IXOTH for place in (folder, *folder.parents))
        except OSError:
            return False


def mode_of(text: str) -> int:
    """A mode from its octal digits."""
    try:
        mode = int(text, 8)
    except ValueError:
        mode = -1
    if not 0 <= mode <= 0o777:
        raise ValueError(f"a mode is octal digits up to 0777, and not {text!r}")
    return mode


def group_of(text: str) -> int:
    """A group from its name or its number."""
    if text.isascii() and text.isdecimal():
        return int(text)
    try:
        return grp.getgrnam(text).gr_gid
    except (KeyError, ValueError):
        raise ValueError(f"no group {text!r}") from None


def loopback(address: str) -> Tuple[str, int]:
    """Host and port of a place on this machine alone."""
    found = host_and_port(address)
    try:
        if found and (found[0] == "localhost" or ipaddress.ip_address(found[0]).is_loopback):
            return found
    except ValueError:
        pass
    raise ValueError(f"no port of the loopback: {address}")
