"""The application: where it listens, what each request goes through, and its end.

A handler finds the caller's name for the log in `request["caller"]`. It gives lines and asks questions by `server.lines`. `amazon`, if it
is set before `begin`, takes each POST of `/`: it has no token and no Origin.

In a cluster the console listens on each machine, and has a book only while its server leads: `attach` and `detach` say so.
"""
from __future__ import annotations

import asyncio
import hashlib
import json
import os
import time
from typing import TYPE_CHECKING, Any, Awaitable, Callable, Dict, List, Optional

from aiohttp import web

from ..links import host_and_port
from ..server.follower import Follower, graph_beside
from ..server.places import UnixPlace
from ..server.runners import Runners
from ..server.within import Elsewhere, Ended
from .events import Events
from .gives import Gives
from .guards import (
    Handler,
    Refused,
    header_setter,
    look_at_host,
    look_at_no_origin,
    look_at_origin,
    look_at_site,
    single,
)
from .pages import Pages
from .reads import Reads
from .requests import MOST_BODY, json_reply
from .seen import Seen, logged_in
from .tokens import Tokens
from .words import is_path

if TYPE_CHECKING:
    from ..server.running import Server
    from ..server.words import Words

TRIES, PAUSE = 100, 0.1  # seconds between two tries to learn how long the journal is
PATIENCE = 1.0  # seconds that a request at hand has at the server's end
ELSEWHERE = 503  # so that a caller that asks several machines goes on to the next
CLUSTER = "/cluster"


class Web:
    """The console of a server of lines."""

    def __init__(self, server: Server, words: Words):
        self.server, self.words = server, words
        self.follower: Optional[Follower] = None
        self.runners: Optional[Runners] = None
        self.amazon: Optional[Handler] = None
        self.is_ending = False
        self.seen = Seen(0, time.time)
        self.events = Events(self)
        # in a cluster: why the book isn't here, if it isn't, and how the cluster is
        self.elsewhere: Callable[[], Optional[Elsewhere]] = lambda: None
        self.cluster_status: Optional[Callable[[], Awaitable[Dict[str, Any]]]] = None
        self._pages = Pages(graph_beside(words.program, words.graph))
        self._place = UnixPlace(words.http, 0o600, None) if words.http and is_path(words.http) else None
        self._cookie = "rollback"
        self._address = ""
        self._tokens: Tokens
        self._runner: Optional[web.AppRunner] = None
        self._listening: Optional[asyncio.AbstractServer] = None

    # ---- the beginning and the end

    async def begin(self) -> None:
        """Listens. A place that can't be had, or a file of tokens that others reach, is an `OSError` or a `ValueError`."""
        words = self.words
        beside = words.socket or words.journal
        self._tokens = Tokens(words.token, f"{beside}.token" if beside else None, words.new_tokens)
        self._pages.read()
        application = web.Application(client_max_size=MOST_BODY, middlewares=[self._guard])
        application.on_response_prepare.append(header_setter())
        self._routes(application.router)
        self._runner = web.AppRunner(application, handle_signals=False, access_log=None)
        await self._runner.setup()
        assert self._runner.server is not None
        await self._listen(self._runner.server)
        self._tokens.keep(self._address)

    async def attach(self, follower: Follower, entries: Optional[int] = None) -> None:
        """Shows a book, and notes from now on who gives what, and when. Its lines are counted, if their number isn't given."""
        self.follower = follower
        log = self.words.log
        logged = await asyncio.get_running_loop().run_in_executor(None, logged_in, log) if log is not None else []
        seen = Seen(await self._entries(follower) if entries is None else entries, time.time)
        seen.take(logged)
        self.seen, self.server.turns.kept = seen, seen.kept
        self.events.begin()
        follower.moved = self.events.news

    def attach_runners(self, runners: Optional[Runners]) -> None:
        """Shows who runs the book, and what is paused."""
        self.runners = runners
        if runners is not None:
            runners.changed = self.events.news

    def detach(self) -> None:
        """Shows no book any more, and ends what streams."""
        self.server.turns.kept = None
        self.follower = self.runners = None
        self.events.news()

    async def _entries(self, follower: Follower) -> int:
        """How many lines the journal has now. A runner may give some while that is asked."""
        for _ in range(TRIES):
            counted = follower.count
            told = json.loads(await self.server.lines.ask_follower(b"? log 0 0"))
            if "entries" in told:
                return int(told["entries"]) + follower.count - counted
            await asyncio.sleep(PAUSE)
        raise ValueError("the follower gives no answers")

    async def _listen(self, factory: web.Server) -> None:
        loop = asyncio.get_running_loop()
        if self._place is not None:
            self._place.clear()
            made = self._place.bind()
            digest = hashlib.sha256(os.fsencode(os.path.abspath(self._place.path))).hexdigest()
            self._address, self._cookie = "http://localhost", f"rollback-{digest[:8]}"
            self._listening = await loop.create_unix_server(factory, sock=made)
            return
        host, port = host_and_port(self.words.http or "") or ("", 0)
        server = await loop.create_server(factory, "127.0.0.1" if host == "localhost" else host, port)
        port = server.sockets[0].getsockname()[1]
        self._listening, self._cookie = server, f"rollback-{port}"
        self._address = f"http://[{host}]:{port}" if ":" in host else f"http://{host}:{port}"

    def say_where(self) -> None:
        """Shows the links, or the file that has them."""
        path = self._tokens.path
        if self.words.no_link and path is not None:
            said = [f"console at {self._address}, by the link in {path}"]
        else:
            links = self._tokens.links(self._address)
            said = [f"console of {name} at {link}" for name, link in (line.split(" ", 1) for line in links)]
        try:
            os.write(1, "".join(f"{line}\n" for line in said).encode())
        except OSError:
            pass  # nobody hears it

    def stop(self) -> None:
        """Takes no further request, and ends what streams."""
        self.is_ending = True
        self.events.news()
        if self._listening is not None:
            self._listening.close()
        if self._place is not None:
            self._place.remove()

    async def end(self) -> None:
        """Ends what is still at hand."""
        self.stop()
        if self._runner is None:
            return
        if self._runner.server is not None:
            await self._runner.server.shutdown(PATIENCE)
        await self._runner.cleanup()

    # ---- requests

    def paused(self) -> List[List[str]]:
        """What is paused: pairs of a kind and a name."""
        found: List[List[str]] = json.loads(self.runners.paused()) if self.runners is not None else []
        return found

    def follows(self) -> bool:
        """Whether questions are answered now."""
        return self.follower is not None and self.follower.is_there

    def runs(self) -> bool:
        """Whether a runner takes steps."""
        return self.runners is not None and self.runners.is_there

    def _routes(self, router: web.UrlDispatcher) -> None:
        router.add_get("/", self._page)
        router.add_get("/events", self.events.stream, allow_head=False)
        if self.cluster_status is not None:
            router.add_get(CLUSTER, self._cluster, allow_head=False)
        self._pages.add_to(router)
        Reads(self).add_to(router)
        Gives(self).add_to(router)

    @web.middleware
    async def _guard(self, request: web.Request, handler: Handler) -> web.StreamResponse:
        try:
            look_at_host(request)
            if self.amazon is not None and request.method == "POST" and request.path == "/":
                look_at_no_origin(request)
                return await self.amazon(request)
            look_at_origin(request)
            if not self._pages.is_open(request.path):
                look_at_site(request)
                request["caller"] = self._caller_of(request)
                self._look_where(request)
            return await handler(request)
        except Refused as fault:
            return json_reply({"error": fault.why}, fault.status)
        except Elsewhere as fault:
            return json_reply({"error": str(fault), "reply": fault.reply.decode()}, ELSEWHERE)
        except Ended:
            # nothing is known of the line, so nothing is said of it
            if request.transport is not None:
                request.transport.abort()
            return json_reply({"error": "the server ends"})
        except web.HTTPException as fault:
            found = json_reply({"error": fault.reason}, fault.status)
            if "Allow" in fault.headers:
                found.headers["Allow"] = fault.headers["Allow"]
            return found

    def _look_where(self, request: web.Request) -> None:
        """Refuses what is asked of the book while another server leads, or none. How the cluster is can always be asked."""
        found = self.elsewhere()
        if found is not None and request.path != CLUSTER:
            raise found

    async def _cluster(self, request: web.Request) -> web.StreamResponse:
        assert self.cluster_status is not None
        return json_reply(await self.cluster_status())

    def _caller_of(self, request: web.Request) -> str:
        token = request.cookies.get(self._cookie)
        if not token:
            raise Refused(401, f"no token: {self._where_links_are()}")
        owner = self._tokens.owner(token)
        if owner is None:
            raise Refused(403, f"this token counts no more: {self._where_links_are()}")
        return f"token {owner}"

    def _where_links_are(self) -> str:
        path = self._tokens.path
        return f"the link is in {path}" if path is not None else "the server shows the link when it begins"

    async def _page(self, request: web.Request) -> web.StreamResponse:
        if "token" in request.query:
            return self._take_token(request)
        found = self.elsewhere()
        return self._pages.page() if found is None else self._pages.elsewhere(str(found), ELSEWHERE)

    def _take_token(self, request: web.Request) -> web.StreamResponse:
        """Keeps the token of a link as a cookie, and goes to the page without it."""
        token = single(request.query.getall("token"))
        if token is None or self._tokens.owner(token) is None:
            raise Refused(403, f"this link counts no more: {self._where_links_are()}")
        found = web.Response(status=303, headers={"Location": "/"})
        found.set_cookie(self._cookie, token, httponly=True, samesite="Strict", path="/")
        return found
