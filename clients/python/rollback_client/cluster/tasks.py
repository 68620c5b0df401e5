"""Tasks of which the first that ends decides."""
from __future__ import annotations

import asyncio
from typing import Any, Awaitable

LONGEST_END = 2.0  # seconds after which a task is cancelled again


async def first_of(*awaited: Awaitable[Any]) -> None:
    """Runs until the first of these ends, ends the others, and raises what the first one raised."""
    tasks = [asyncio.ensure_future(each) for each in awaited]
    try:
        done, _ = await asyncio.wait(tasks, return_when=asyncio.FIRST_COMPLETED)
        for task in done:
            task.result()
    finally:
        await end(*tasks)


async def end(*tasks: asyncio.Future[Any]) -> None:
    """Cancels tasks, and waits until they have ended. One that swallows a cancel is cancelled again."""
    left = [task for task in tasks if not task.done()]
    while left:
        for task in left:
            task.cancel()
        await asyncio.wait(left, timeout=LONGEST_END)
        left = [task for task in left if not task.done()]
    for task in tasks:
        if not task.cancelled():
            task.exception()  # looked at, so that nobody says that it never was


async def within(seconds: float, awaited: Awaitable[Any]) -> bool:
    """Whether something ended in time."""
    task = asyncio.ensure_future(awaited)
    try:
        done, _ = await asyncio.wait([task], timeout=seconds)
        return bool(done)
    finally:
        await end(task)
