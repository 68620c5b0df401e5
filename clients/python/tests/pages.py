"""A server with a console, and requests to it."""
import functools
import http.client
import json
import os
import re
import shutil
import socket
import subprocess
import sys
import unittest
import urllib.parse

from tests.program import PATIENCE, Served, follower

JSON = "application/json"


@functools.lru_cache(maxsize=None)
def python_with(*modules):
    """A Python that has these modules, or nothing: this one, else that of the path, or the system's."""
    for python in (sys.executable, shutil.which("python3"), "/usr/bin/python3"):
        if python is not None and os.access(python, os.X_OK):
            done = subprocess.run(
                [python, "-c", "import sys, " + ", ".join(modules)], stderr=subprocess.DEVNULL, check=False
            )
            if done.returncode == 0:
                return python
    return None


class Answer:
    """What came to a request."""

    def __init__(self, response, data):
        self.status, self.headers, self.data = response.status, response.headers, data

    @property
    def value(self):
        """The JSON of the body."""
        return json.loads(self.data)


class Page:
    """Who has a link, and asks as a browser's page does."""

    def __init__(self, link, path=None):
        self.link, self._path = link, path
        parts = urllib.parse.urlsplit(link)
        self.host, self.token = parts.netloc, parts.query.partition("=")[2]
        taken = self.ask("GET", f"/?{parts.query}", {"Cookie": None})
        self.cookie = taken.headers["Set-Cookie"].split(";")[0]

    cookie = None

    def ask(self, method, path, headers=None, body=None):
        """Sends a request. A header that is None is left out."""
        found = {"Host": self.host, "Origin": f"http://{self.host}", "Sec-Fetch-Site": "same-origin"}
        found.update({"Cookie": self.cookie, **(headers or {})})
        connection = http.client.HTTPConnection(self.host, timeout=PATIENCE)
        if self._path is not None:
            connection.sock = socket.socket(socket.AF_UNIX)
            connection.sock.connect(self._path)
        try:
            connection.putrequest(method, path, skip_host=True, skip_accept_encoding=True)
            for name, value in found.items():
                if value is not None:
                    connection.putheader(name, value)
            if body is not None:
                connection.putheader("Content-Length", str(len(body)))
            connection.endheaders(body)
            response = connection.getresponse()
            return Answer(response, response.read())
        finally:
            connection.close()

    def get(self, path, **query):
        """Reads."""
        asked = f"{path}?{urllib.parse.urlencode(query)}" if query else path
        return self.ask("GET", asked)

    def question(self, text):
        """Asks a question."""
        return self.get("/ask", q=text).value

    def post(self, path, **body):
        """Gives."""
        return self.ask("POST", path, {"Content-Type": JSON}, json.dumps(body).encode())

    def line(self, text):
        """Gives a line."""
        return self.post("/line", line=text)


class WithPages(Served):
    """A test with servers that have a console."""

    def served(self, *words, asks="--ask", http="127.0.0.1:0", **more):
        """A server, with the links that it shows."""
        python = python_with("aiohttp")
        if python is None:
            raise unittest.SkipTest("no Python with aiohttp (on Debian the package python3-aiohttp)")
        graph = ("--graph", follower()) if asks else ()
        server = self.serve(asks, *graph, "--http", http, *words, python=python, **more)
        said = server.process.stdout.readline()
        server.links = {}
        while (found := re.fullmatch(r"console of (\S+) at (\S+)\n", said)) is not None:
            server.links[found[1]] = found[2]
            if len(server.links) == max(1, words.count("--token")):
                break
            said = server.process.stdout.readline()
        server.said_last = said
        return server

    def page(self, server, name="console", path=None):
        """A page of a person."""
        return Page(server.links[name], path)
