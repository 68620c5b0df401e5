"""A process at a pseudo-terminal, as a person has it."""
import fcntl
import os
import pathlib
import pty
import re
import select
import signal
import struct
import subprocess
import termios
import time

from tests.program import PATIENCE

_ESCAPES = re.compile(r"\x1b\[[0-9;?]*[A-Za-z]|\x1b[=>]|[\r\x07]")
CONTROL_C, CONTROL_D, CONTROL_U, TAB, UP = "\x03", "\x04", "\x15", "\t", "\x1b[A"


class PseudoTerminal:
    """Writes what a person types, and waits for what is shown. What was waited for isn't looked at again."""

    def __init__(self, command, cwd, columns=100, **environment):
        ours, theirs = pty.openpty()
        fcntl.ioctl(theirs, termios.TIOCSWINSZ, struct.pack("HHHH", 40, columns, 0, 0))

        def become_its_own():
            os.setsid()
            fcntl.ioctl(0, termios.TIOCSCTTY, 0)

        around = {**os.environ, "TERM": "xterm", "HOME": str(cwd), **environment}
        self.process = subprocess.Popen(
            command, stdin=theirs, stdout=theirs, stderr=theirs, cwd=cwd, env=around, preexec_fn=become_its_own
        )
        os.close(theirs)
        self._terminal = ours
        self._data = b""
        self.raw = b""

    def _read(self, seconds):
        """Reads what is there, or comes soon. Whether anything came."""
        ready, _, _ = select.select([self._terminal], [], [], seconds)
        if not ready:
            return False
        try:
            data = os.read(self._terminal, 1 << 16)
        except OSError:  # the process has ended
            data = b""
        self._data += data
        self.raw += data
        return bool(data)

    def send(self, text):
        """Types a text. What is shown meanwhile is read, so that neither side waits for the other."""
        left = text.encode()
        while left:
            _, ready, _ = select.select([], [self._terminal], [], 0.1)
            if ready:
                left = left[os.write(self._terminal, left[:256]) :]
            self._read(0)

    def shown(self):
        """What is shown and wasn't waited for, without the terminal's signs."""
        return _ESCAPES.sub("", self._data.decode(errors="replace"))

    def expect(self, text, seconds=PATIENCE):
        """Waits for a text, and hands back what was shown before it."""
        ends = time.monotonic() + seconds
        while text not in self.shown():
            is_over = self.process.poll() is not None  # so what is read after it is all
            if time.monotonic() > ends or not self._read(0.5) and is_over:
                raise AssertionError(f"{text!r} wasn't shown, but {self.shown()[-2000:]!r}")
        before, _, behind = self.shown().partition(text)
        self._data = behind.encode()
        return before

    def until(self, is_so, seconds=PATIENCE):
        """Waits until something is so."""
        ends = time.monotonic() + seconds
        while not is_so():
            if time.monotonic() > ends:
                raise AssertionError(f"it wasn't so, and {self.shown()[-2000:]!r} was shown")
            self._read(0.05)

    def interrupt(self, text):
        """Presses Ctrl-C, and again whenever it is overlooked, until a text is shown.

        Python overlooks one that comes while readline is at work. Then the process waits on, and does nothing.
        """
        for _ in range(PATIENCE // 2):
            self.send(CONTROL_C)
            while True:
                before = self._spent()
                try:
                    return self.expect(text, 2)
                except AssertionError:
                    if self.process.poll() is not None:
                        raise
                    if self._spent() == before:
                        break
        raise AssertionError(f"{text!r} wasn't shown after Ctrl-C, but {self.shown()[-2000:]!r}")

    def _spent(self):
        """How long the process was at work, if it waits now; else what equals nothing."""
        fields = pathlib.Path(f"/proc/{self.process.pid}/stat").read_text(encoding="ascii").rpartition(")")[2].split()
        return fields[11:13] if fields[0] == "S" else object()

    def ended(self, seconds=PATIENCE):
        """The status, once the process has ended."""
        ends = time.monotonic() + seconds
        while self.process.poll() is None and time.monotonic() < ends:
            self._read(0.05)
        while self._read(0.05):
            pass
        return self.process.wait(1)

    def close(self):
        if self.process.poll() is None:
            self.process.send_signal(signal.SIGKILL)
            self.process.wait()
        os.close(self._terminal)
