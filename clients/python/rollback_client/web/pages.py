"""What has nothing of the book: the page, the viewer that the follower's program has, and the console's own script and style."""
from __future__ import annotations

import html
import pathlib
import subprocess
from typing import Dict, List, Tuple

from aiohttp import web

_OWN = pathlib.Path(__file__).resolve().parent / "static"
_PATIENCE = 20.0  # seconds
PAGE = """<!doctype html>
<html lang="en">
<head>
<meta charset="utf-8">
<meta name="viewport" content="width=device-width, initial-scale=1">
<title>rollback</title>
<link rel="icon" href="data:,">
<link rel="stylesheet" href="/viewer.css">
<link rel="stylesheet" href="/console.css">
<script src="/viewer.js" defer></script>
<script src="/console.js" defer></script>
</head>
<body>
<noscript><p>The console needs JavaScript. Without it rollback-shell and rollback-look show the book.</p></noscript>
</body>
</html>
"""
ELSEWHERE = """<!doctype html>
<html lang="en">
<head>
<meta charset="utf-8">
<meta name="viewport" content="width=device-width, initial-scale=1">
<meta http-equiv="refresh" content="3">
<title>rollback</title>
<link rel="icon" href="data:,">
</head>
<body>
<h1>No book is served here</h1>
<p>{why}.</p>
<p>The console is on the machine that leads, by a link of its own. This page looks again every three seconds.</p>
</body>
</html>
"""
_TYPES = {"js": "text/javascript", "css": "text/css", "html": "text/html"}


class Pages:
    """Files that are served as they are, to everybody."""

    def __init__(self, graph: str):
        self._graph = graph
        self._files: Dict[str, Tuple[str, str]] = {}

    def read(self) -> None:
        """Reads them once. A program that has no viewer is a `ValueError`."""
        script, style = self._viewer()
        self._files = {
            "/viewer.js": (script, "js"),
            "/viewer.css": (style, "css"),
            "/console.js": (_own("js"), "js"),
            "/console.css": (_own("css"), "css"),
        }

    def add_to(self, router: web.UrlDispatcher) -> None:
        """Adds their routes."""
        for path in self._files:
            router.add_get(path, self._file, allow_head=False)

    def page(self) -> web.Response:
        """The page, which asks for all else."""
        return _response(PAGE, "html")

    def elsewhere(self, why: str, status: int) -> web.Response:
        """A plain page on a sentence that says why there is no book here."""
        text = ELSEWHERE.replace("{why}", html.escape(why[:1].upper() + why[1:]))
        return web.Response(text=text, status=status, content_type="text/html", charset="utf-8")

    def is_open(self, path: str) -> bool:
        """Whether everybody gets what is at a path."""
        return path == "/" or path in self._files

    async def _file(self, request: web.Request) -> web.StreamResponse:
        return _response(*self._files[request.path])

    def _viewer(self) -> List[str]:
        """The viewer's script and style, asked for side by side."""
        asked = []
        try:
            for part in ("script", "style"):
                command = [self._graph, "--viewer", part]
                asked.append(
                    subprocess.Popen(
                        command, stdin=subprocess.DEVNULL, stdout=subprocess.PIPE, stderr=subprocess.DEVNULL
                    )
                )
            said = [process.communicate(timeout=_PATIENCE)[0] for process in asked]
        except (OSError, subprocess.TimeoutExpired) as fault:
            for process in asked:
                process.kill()
            raise ValueError(f"{self._graph} --viewer can't be asked: {fault}") from fault
        if any(process.returncode != 0 for process in asked):
            raise ValueError(f"{self._graph} has no viewer: --http needs a rollback_graph that has --viewer")
        return [text.decode() for text in said]


def _own(kind: str) -> str:
    """The console's own files of a kind, one behind the other."""
    return "".join(path.read_text(encoding="utf-8") for path in sorted(_OWN.glob(f"*.{kind}")))


def _response(text: str, kind: str) -> web.Response:
    return web.Response(text=text, content_type=_TYPES[kind], charset="utf-8")
