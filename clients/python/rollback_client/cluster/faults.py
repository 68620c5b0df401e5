"""What can go wrong with a replicated book: what passes, and what a server ends with."""
from __future__ import annotations


class Unreachable(Exception):
    """No member of etcd answered. What was asked may have been done or not."""

    reason = "quorum"


class NoSpace(Unreachable):
    """The quota of etcd's database is used up: this call did nothing, and etcd takes nothing more until there is room."""

    reason = "space"


class NoLease(Exception):
    """The lease has run out."""


class Deposed(Exception):
    """This server leads no more. What it tried to put isn't in the log, and never will be."""


class Resigned(Exception):
    """This server gives up leading by itself. `reason` is what callers are refused with."""

    def __init__(self, reason: str, why: str):
        super().__init__(why)
        self.reason = reason


class Stopped(Exception):
    """The server can't go on. Each kind has the status with which it ends."""

    status = 1


class ProgramGone(Stopped):
    """The program has ended, or takes no lines now."""


class EtcdFault(Stopped):
    """etcd refused a call, by the words that it gave."""

    status = 4


class BrokenLog(Stopped):
    """The log, or this server's journal, isn't what the servers of one book write."""

    status = 5


class Differs(Stopped):
    """The program's reply to a line of the log isn't the one that the leader's gave. `number` is that line's."""

    status = 6

    def __init__(self, message: str, number: int = 0):
        super().__init__(message)
        self.number = number
