"""Ctrl-C while a line is at work: the first is kept until it is answered and written, the second one breaks it off."""
from __future__ import annotations

import contextlib
import signal
import threading
from types import FrameType, TracebackType
from typing import Any, Iterator, Optional, Type


class Interrupts:
    """Keeps Ctrl-C within `with`, also within itself. `raise_kept` raises what was kept, once there is time for it."""

    def __init__(self) -> None:
        self.asked = False
        self._depth = 0
        self._count = 0
        self._before: Any = None

    def raise_kept(self) -> None:
        """Raises a Ctrl-C that was kept."""
        if self.asked:
            self.asked = False
            raise KeyboardInterrupt

    @contextlib.contextmanager
    def released(self) -> Iterator[None]:
        """Has Ctrl-C be raised at once, while a person is asked."""
        self.raise_kept()
        if self._before is None:
            yield
            return
        signal.signal(signal.SIGINT, self._before)
        try:
            yield
        finally:
            signal.signal(signal.SIGINT, self._note)

    def __enter__(self) -> Interrupts:
        if self._depth == 0:
            self.asked, self._count = False, 0
            if threading.current_thread() is threading.main_thread():
                self._before = signal.signal(signal.SIGINT, self._note)
        self._depth += 1
        return self

    def __exit__(
        self, kind: Optional[Type[BaseException]], fault: Optional[BaseException], trace: Optional[TracebackType]
    ) -> None:
        self._depth -= 1
        if self._depth == 0 and self._before is not None:
            signal.signal(signal.SIGINT, self._before)
            self._before = None

    def _note(self, number: int, frame: Optional[FrameType]) -> None:
        self._count += 1
        self.asked = True
        if self._count > 1:
            self.asked = False
            raise KeyboardInterrupt
