"""The handler of requests, and what it keeps while the server runs."""
from __future__ import annotations

import asyncio
import os
import shutil
import sqlite3
import tempfile
import time
import uuid
from typing import TYPE_CHECKING, Optional

from aiohttp import web

from ..server.speaking import say
from ..server.within import Elsewhere, Ended
from .actions import Actions
from .book import Book, Table, Watch, begin_call, elsewhere_fault
from .names import Arns
from .signing import Credentials, Signed, signature_of
from .store import Store
from .wire import Call, Fault, Reply, Service, body_of, reply_of, reply_of_fault, target_of

if TYPE_CHECKING:
    from ..server.running import Server
    from ..server.words import Words

SOON = 0.2  # seconds until what changed is written
OPEN = "--aws checks no signature: whoever reaches the port may write. --credentials FILE checks them"


def credentials_of(words: Words) -> Optional[Credentials]:
    """Who may call, by `--credentials`. Without it that is everybody, which is said."""
    if words.credentials is None:
        say(OPEN)
        return None
    return Credentials.read(words.credentials)


class Amazon:
    """Answers the calls of both services."""

    def __init__(self, server: Server, words: Words, credentials: Optional[Credentials]):
        self._server, self._words, self._credentials = server, words, credentials
        path = None if words.journal is None else f"{words.journal}-aws"
        self._store = Store(path, time.time(), say)
        self._watch = Watch(self._store, 0)
        self._book = Book(server.lines, self._store, self._watch)
        self._actions = Actions(self._book, Arns(words.region, words.account))
        self._flushing: Optional[asyncio.TimerHandle] = None

    async def begin(self) -> None:
        """Learns what the book has, before any line is given."""
        self._watch.entries = await self._book.count()
        self._store.forget_from(self._watch.entries)
        if self._watch.entries and self._words.journal is not None:
            self._watch.table = table_of_journal(self._words.journal)
        follow = self._server.turns.follow

        def both(line: bytes, reply: bytes) -> int:
            # the moment is kept before anything is answered
            count = self._watch.follow(line, reply)
            self._flush_soon()
            return follow(line, reply) if follow is not None else count

        self._server.turns.follow = both

    def wants_table(self) -> bool:
        """Whether the book has no table, and `--table` names one. Another table than that is a `ValueError`."""
        wanted, there = self._words.table, self._watch.table
        if wanted is not None and there is not None and there != wanted:
            keys = " ".join(f"{name}:{kind}" for name, kind in there.key)
            raise ValueError(f"--table isn't the book's: that is {there.name} {keys}")
        return wanted is not None and there is None

    async def begin_table(self) -> str:
        """Begins the book with the table of `--table`, and answers the reply."""
        wanted = self._words.table
        keys = " ".join(f"{name}:{kind}" for name, kind in wanted.key)
        (reply,) = await self._book.give("aws", f"table {wanted.name} {keys} []")
        return reply

    def _flush_soon(self) -> None:
        if self._flushing is None and self._store.wants_flush:
            self._flushing = asyncio.get_running_loop().call_later(SOON, self._flush)

    def _flush(self) -> None:
        self._flushing = None
        self._store.flush()

    def end(self) -> None:
        """Writes what is to be kept."""
        if self._flushing is not None:
            self._flushing.cancel()
        self._store.close()

    # ---- requests

    async def handle(self, request: web.Request) -> web.StreamResponse:
        """Answers a request of a tool."""
        identity = str(uuid.uuid4())
        call = Call(_service_of(request), "", {})
        begin_call()
        try:
            try:
                data = await request.read()
            except web.HTTPRequestEntityTooLarge:
                raise Fault("RequestEntityTooLarge", "the request has too many bytes", 413) from None
            caller = self._caller_of(request, data)
            call.service, call.action = target_of(request.headers.get("X-Amz-Target", ""))
            call.body = body_of(data)
            reply = reply_of(await self._actions.answer(caller, call), call.headers, identity)
        except Fault as fault:
            reply = reply_of_fault(call.service, fault, call.headers, identity)
        except RecursionError:
            too_deep = Fault("SerializationException", "the request nests too deep")
            reply = reply_of_fault(call.service, too_deep, call.headers, identity)
        except Elsewhere as why:
            reply = reply_of_fault(call.service, elsewhere_fault(why), call.headers, identity)
        except Ended:
            raise
        except Exception as fault:
            # whatever it is, the server goes on, and the caller hears that it isn't done
            say(f"{call.action} has failed: {fault!r}")
            reply = reply_of_fault(
                call.service, Fault("InternalServerError", "a fault of the server", 500), call.headers, identity
            )
        self._flush_soon()
        return _response_of(reply)

    def _caller_of(self, request: web.Request, data: bytes) -> str:
        """Who signed a request, as the log has it."""
        signature = signature_of(request.headers.get("Authorization"))
        if self._credentials is not None:
            headers = {name.lower(): value for name, value in request.headers.items()}
            query = tuple(request.query.items())
            path = request.rel_url.raw_path
            self._credentials.check(signature, Signed(request.method, path, query, headers, data), time.time())
        return f"aws {signature.key}"


def elsewhere_response(request: web.Request, why: Elsewhere) -> web.StreamResponse:
    """The answer to a request of a tool while this server of a cluster doesn't lead."""
    begin_call()
    return _response_of(reply_of_fault(_service_of(request), elsewhere_fault(why), {}, str(uuid.uuid4())))


def _service_of(request: web.Request) -> Service:
    """The service that is meant, for the form of an error."""
    return Service.TABLES if request.headers.get("X-Amz-Target", "").startswith("DynamoDB") else Service.STATES


def _response_of(reply: Reply) -> web.Response:
    return web.Response(status=reply.status, body=reply.body, headers=dict(reply.headers))


def table_of_journal(journal: str) -> Optional[Table]:
    """The table of a journal that a program has open, and that is given no line now. It is read in a copy."""
    place = os.path.abspath(journal)
    room = tempfile.mkdtemp(prefix=f".{os.path.basename(place)}-", dir=os.path.dirname(place))
    try:
        made = os.path.join(room, "book")
        for end in ("", "-wal"):
            if os.path.exists(place + end):
                shutil.copyfile(place + end, made + end)
        store = sqlite3.connect(made)
        try:
            found = store.execute("SELECT line FROM entry ORDER BY no LIMIT 1").fetchone()
        finally:
            store.close()
        return None if found is None else Table.of_line(found[0])
    finally:
        shutil.rmtree(room, ignore_errors=True)
