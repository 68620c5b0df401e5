"""How one execution is moved on, and how one is waited for: commands one after another, the same for `Book` and `AsyncBook`."""
from __future__ import annotations

import time
from typing import Any, Generator, Optional, Union

from . import commands, lines
from .faults import Held, NoMove, NoThread
from .links import FIRST_PAUSE, LONGEST_PAUSE
from .values import Done, Failed, Frame, Parked

# Each yields a command, whose value or refusal is sent back to it, or seconds to pause.
Talk = Generator[Union[commands.Command[Any], float], Any, Frame]


class _Finishing:
    """One walk through an execution's threads, which takes at most so many steps."""

    def __init__(self, most: int):
        self.left = most

    def thread(self, thread: str) -> Generator[commands.Command[Any], Any, str]:
        """Moves a thread and its branches on, and says why it ends: done, failed, waiting, held, gone or full."""
        while self.left:
            try:
                yield commands.step(thread)
            except NoMove as refusal:
                if refusal.why != "waiting" or not (yield from self.branches(thread)):
                    return refusal.why
            except Held:
                return "held"
            except NoThread:
                return "gone"
            else:
                self.left -= 1
        return "full"

    def branches(self, thread: str) -> Generator[commands.Command[Any], Any, bool]:
        """Moves the branches that a thread waits for, and says whether one of them moved."""
        try:
            frame = yield commands.show(thread)
        except NoThread:
            return True
        before, why = self.left, ""
        if not isinstance(frame, Parked):
            return False  # it waits for others under its Map's bound
        for index in range(frame.branches):
            why = yield from self.thread(frame.branch(thread, index))
            if why in ("failed", "gone", "full"):
                break
        return self.left < before or why == "gone"


def finish(execution: str, most: int) -> Talk:
    """Steps an execution and its branches as far as they can move, and gives its frame."""
    walk = _Finishing(lines.count("a number of steps", most, 1, 1 << 62))
    yield from walk.thread(lines.name("an execution", execution))
    frame: Frame = yield commands.show(execution)
    return frame


def wait(execution: str, timeout: Optional[float]) -> Talk:
    """Looks at an execution until it is done or has failed, and gives its frame."""
    ends = None if timeout is None else time.monotonic() + timeout
    pause = FIRST_PAUSE
    while True:
        frame: Frame = yield commands.show(lines.name("an execution", execution))
        if isinstance(frame, (Done, Failed)):
            return frame
        left = pause if ends is None else ends - time.monotonic()
        if left <= 0:
            raise TimeoutError(f"{execution} is neither done nor failed after {timeout} seconds: {frame}")
        yield min(pause, left)
        pause = min(2 * pause, LONGEST_PAUSE)
