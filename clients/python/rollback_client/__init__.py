"""A client of rollback: its commands as methods, its refusals as exceptions.

    with Book.open("orders.db") as book:
        book.table("items", {"id": "S"})
        book.define("order", definition)
        start = book.start("order-1", "order", {"customer": "ann"})
        book.drive(10)
        book.rollback(start)
"""
from .async_book import AsyncBook
from .attributes import attribute, plain
from .book import Book
from .faults import (
    BadBeginning,
    BadJson,
    BadLine,
    BeginningFaultKind,
    BookClosed,
    Busy,
    ConnectionLost,
    ExecutionTaken,
    Full,
    HasDependents,
    Held,
    JournalRefused,
    JsonFaultKind,
    MachineFault,
    MachineFaultKind,
    MachineTaken,
    NoAnswer,
    NoFollower,
    NoMachine,
    NoMove,
    NoRunner,
    NoServer,
    NoStep,
    NoTable,
    NotLeader,
    NoThread,
    OtherProcess,
    OutOfMemory,
    ProgramEnded,
    Refusal,
    RollbackError,
    Settled,
    StreamBroken,
    TableTaken,
    Unavailable,
)
from .values import Done, Failed, Frame, Parked, Ready, Step, Taken, Waiting

__version__ = "0.1.0"

__all__ = [
    "AsyncBook",
    "BadBeginning",
    "BadJson",
    "BadLine",
    "BeginningFaultKind",
    "Book",
    "BookClosed",
    "Busy",
    "ConnectionLost",
    "Done",
    "ExecutionTaken",
    "Failed",
    "Frame",
    "Full",
    "HasDependents",
    "Held",
    "JournalRefused",
    "JsonFaultKind",
    "MachineFault",
    "MachineFaultKind",
    "MachineTaken",
    "NoAnswer",
    "NoFollower",
    "NoMachine",
    "NoMove",
    "NoRunner",
    "NoServer",
    "NoStep",
    "NoTable",
    "NoThread",
    "NotLeader",
    "OtherProcess",
    "OutOfMemory",
    "Parked",
    "ProgramEnded",
    "Ready",
    "Refusal",
    "RollbackError",
    "Settled",
    "Step",
    "StreamBroken",
    "TableTaken",
    "Taken",
    "Unavailable",
    "Waiting",
    "attribute",
    "plain",
]
