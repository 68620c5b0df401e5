"""Who may: a token for each person. They are kept in a file that nobody but its owner reads."""
from __future__ import annotations

import hmac
import os
import re
import secrets
import stat
from typing import Dict, List, Optional

BYTES = 32  # of a token
MOST_OF_FILE = 1 << 20
_LINE = re.compile(r"([A-Za-z0-9_.@-]{1,64}) \S*\?token=([A-Za-z0-9_-]{43})")


class Tokens:
    """The tokens by the names of their owners."""

    def __init__(self, names: List[str], path: Optional[str], is_new: bool):
        self.path = path
        kept = {} if path is None or is_new else _kept(path)
        if path is not None and is_new:
            _open_own(path)
        self._of: Dict[str, str] = {name: kept.get(name) or secrets.token_urlsafe(BYTES) for name in names}

    def owner(self, token: str) -> Optional[str]:
        """Whose token it is. Each one is compared, and each in constant time."""
        found = None
        for name, own in self._of.items():
            if hmac.compare_digest(own.encode(), token.encode(errors="replace")):
                found = name
        return found

    def links(self, place: str) -> List[str]:
        """A line `NAME LINK` for each."""
        return [f"{name} {place}/?token={token}" for name, token in self._of.items()]

    def keep(self, place: str) -> None:
        """Writes the file anew, whole or not at all."""
        if self.path is None:
            return
        made = f"{self.path}-{secrets.token_hex(8)}"
        number = os.open(made, os.O_WRONLY | os.O_CREAT | os.O_EXCL | os.O_NOFOLLOW | os.O_CLOEXEC, 0o600)
        try:
            with os.fdopen(number, "w") as file:
                os.fchmod(number, 0o600)
                file.write("".join(f"{line}\n" for line in self.links(place)))
                file.flush()
                os.fsync(number)
            os.replace(made, self.path)
        except BaseException:
            os.unlink(made)
            raise


def _open_own(path: str) -> Optional[int]:
    """Opens the file, if there is one. One that is a link, another user's or open to others is a `ValueError`."""
    try:
        found = os.open(path, os.O_RDONLY | os.O_NOFOLLOW | os.O_NONBLOCK | os.O_CLOEXEC | os.O_NOCTTY)
    except FileNotFoundError:
        return None
    except OSError as fault:
        raise ValueError(f"the tokens' file {path} can't be opened, or is a link: {fault.strerror}") from None
    about = os.fstat(found)
    why = None
    if not stat.S_ISREG(about.st_mode) or about.st_nlink != 1:
        why = "isn't a file of one name"
    elif about.st_uid != os.geteuid():
        why = "is another user's"
    elif about.st_mode & 0o077:
        why = f"is open to others, by its mode {stat.S_IMODE(about.st_mode):04o}"
    if why is not None:
        os.close(found)
        raise ValueError(f"the tokens' file {path} {why}: remove it, and new tokens are made")
    return found


def _kept(path: str) -> Dict[str, str]:
    found = _open_own(path)
    if found is None:
        return {}
    with os.fdopen(found, encoding="ascii", errors="replace") as file:
        matches = (_LINE.fullmatch(line) for line in file.read(MOST_OF_FILE).splitlines())
        return {match[1]: match[2] for match in matches if match is not None}
