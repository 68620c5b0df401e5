"""Callers of a cluster, and what each said and was told, with the times."""
import asyncio
import contextlib
import time
from dataclasses import dataclass
from typing import Optional

from rollback_client import ConnectionLost, Done, ExecutionTaken, NoMove, NoServer, NotLeader, Unavailable
from rollback_client.copy import NoCopy

PASS = 'define p {"StartAt":"P","States":{"P":{"Type":"Pass","Result":7,"End":true}}}'
COUNTER = 'define counter {"StartAt":"P","States":{"P":{"Type":"Pass","Next":"P"}}}'
SETUP = ["table items id:S []", PASS, COUNTER, "start shared counter {}"]


PASSES = (ConnectionLost, NoCopy, NoServer, NotLeader, Unavailable)  # what callers of a slow leader meet


async def told(call):
    """What a call answers, which may be made again."""
    while True:
        with contextlib.suppress(*PASSES):
            return await call()


async def started(book, execution, input):
    """Starts an execution. It may be open whether it was started, and then it is started again."""
    try:
        return str(await told(lambda: book.start(execution, "p", input)))
    except ExecutionTaken:
        return f"{execution}#0"


async def stepped(book, execution):
    """Takes the one step of an execution of `p`, if it isn't open whether it was taken."""
    while await told(lambda: book.show(execution)) != Done(7):
        with contextlib.suppress(*PASSES, NoMove):
            await book.step(execution)


@dataclass
class Said:
    """A line with its reply. No reply leaves it open whether the line was accepted."""

    caller: str
    line: str
    sent: float
    reply: Optional[str]
    answered: float

    @property
    def word(self):
        """The line's first word."""
        return self.line.split(" ", 1)[0]

    @property
    def is_refused(self):
        """Whether it has changed nothing for certain."""
        return self.reply is not None and not self.reply.startswith("ok")

    @property
    def is_refused_by_book(self):
        """Whether the book refuses it, as it would with room and a leader: such a line isn't kept."""
        return self.is_refused and not self.reply.startswith("no 40")


class Caller:
    """Starts, steps and takes back executions of its own, and steps one that all share, a line after another.

    It asks whichever server leads: refused with another's address it goes there, and a line that is refused it gives again.
    """

    def __init__(self, name, cluster, said):
        self.name, self.cluster, self.said = name, cluster, said
        self.patience = (
            cluster.ttl + 0.5
        )  # a server that is stopped says nothing, and its machine takes connections all the same
        self.ends = False
        self.wrong = []
        self.connection = None
        self.at = sum(map(ord, name)) % 3

    async def run(self):
        """Calls until it is ended."""
        number = 0
        while not self.ends:
            await self.one(f"{self.name}-{number}", number % 10 == 0)
            number += 1
            await asyncio.sleep(0.03)
        self.leave()

    async def one(self, execution, takes_back):
        """An execution's life. It is given up if it is open what became of a line."""
        pairs = [
            (f"start {execution} p {{}}", f"ok {execution}#0"),
            ("step shared", None),
            (f"step {execution}", f"ok {execution}#1 plain"),
            (f"undo {execution}#0", f"no 8 {execution}#1"),
            ("show shared", None),
            (f"show {execution}", "ok done 7"),
        ]
        if takes_back:
            pairs += [
                (f"undo {execution}#1", "ok"),
                (f"step {execution}", f"ok {execution}#1 plain"),
                (f"rollback {execution}#0", f"ok 2\n{execution}#1\n{execution}#0"),
            ]
        for line, wanted in pairs:
            reply = await self.tell(line)
            if wanted is None:
                continue
            if reply is None:
                return
            if reply != wanted:
                self.wrong.append(f"{line} is answered {reply}, not {wanted}")
                return

    async def tell(self, line):
        """The reply of whichever server leads, once one takes the line. Nothing if the connection ended, or no reply came in time."""
        while not self.ends:
            if self.connection is None and not await self.connect():
                continue
            sent = time.monotonic()
            reply = await self.connection.ask(line, self.patience)
            self.said.append(Said(self.name, line, sent, reply, time.monotonic()))
            if reply is None:
                self.leave()
                return None
            if not reply.startswith("no 40"):
                return reply
            self.leave()
            _, _, why, *address = reply.split(" ")
            if why == "leader":
                self.at = self.cluster.addresses.index(address[0])
            await asyncio.sleep(0.05)
        return None

    async def connect(self):
        """Whether the next server takes a connection."""
        try:
            self.connection = await asyncio.wait_for(self.cluster.connect(self.at), 1)
            return True
        except (OSError, asyncio.TimeoutError):
            self.at = (self.at + 1) % 3
            await asyncio.sleep(0.05)
            return False

    def leave(self):
        """Ends the connection. The next one is to another server."""
        if self.connection:
            self.connection.close()
            self.connection = None
        self.at = (self.at + 1) % 3


class Reader(Caller):
    """Asks each server in turn for the count of the execution that all share, whether it leads or not."""

    async def run(self):
        while not self.ends:
            await self.tell("show shared")
            self.leave()
            await asyncio.sleep(0.02)
