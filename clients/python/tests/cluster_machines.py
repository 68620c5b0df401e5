"""Three members of etcd and three servers of one book on the loopback, which trials kill, stop and fill."""
import asyncio
import base64
import contextlib
import json
import os
import pathlib
import random
import shutil
import signal
import socket
import subprocess
import sys
import tempfile
import time
import urllib.request

from rollback_client.lines import lines_after
from tests import certificates
from tests.certificates import Authority, context_of
from tests.program import PATIENCE, PROGRAM, TOP, follower

LISTS = ("items", "history", "plan", "rollback", "drive", "work", "held")
PREFIX = "/rollback/orders"
# How many seconds a leader has that says nothing. It leads on, though the machine has its processes wait for a moment; so does the member
# that leads etcd, which has more patience than by its defaults.
TTL = 5
ETCD_WORDS = ["--pre-vote", "--heartbeat-interval", "300", "--election-timeout", "3000"]
# Whatever becomes of a trial, nothing of it goes on.
ENDS_WITH_US = ("setpriv", "--pdeathsig", "KILL")


def python_of_servers():
    """A Python that has aiohttp, or nothing."""
    for python in (sys.executable, "/usr/bin/python3"):
        done = subprocess.run([python, "-c", "import aiohttp"], stderr=subprocess.DEVNULL, check=False)
        if done.returncode == 0:
            return python
    return None


def what_is_missing():
    """What this machine lacks for a cluster, or nothing."""
    if shutil.which("etcd") is None:
        return "there is no etcd (Debian's package etcd-server)"
    if python_of_servers() is None:
        return "no Python has aiohttp (Debian's package python3-aiohttp)"
    if shutil.which("setpriv") is None:
        return "there is no setpriv"
    return certificates.what_is_missing()


def free_ports(count):
    """Ports of the loopback on which nobody listens. None is of those that connections get, or a server that is begun again may find its
    own port taken."""
    found = []
    while len(found) < count:
        port = random.randrange(10_000, 32_000)
        with socket.socket() as each, contextlib.suppress(OSError):
            each.bind(("127.0.0.1", port))
            if port not in found:
                found.append(port)
    return found


def run_command(words, given=None):
    """Runs a command of the client's folder to its end."""
    folder = TOP / "clients/python"
    return subprocess.run(words, input=given, capture_output=True, text=True, cwd=folder, timeout=PATIENCE, check=False)


def encoded(text):
    return base64.b64encode(text.encode()).decode()


class Cluster:
    """Processes with their folder. `servers` and `members` are three of each, or nothing in the place of one that was ended."""

    def __init__(self, ttl=TTL, nearest_only=False, quota=0, loss=0.0, tls=False, place=None, ask=None, http=()):
        self.room = pathlib.Path(tempfile.mkdtemp(prefix="rollback-cluster-", dir=place or folder()))
        self.ttl, self.nearest_only, self.quota, self.loss = ttl, nearest_only, quota, loss
        ports = free_ports(15)
        self.clients = [f"http://127.0.0.1:{port}" for port in ports[:3]]
        self.peers = [f"http://127.0.0.1:{port}" for port in ports[3:6]]
        self.addresses = [f"127.0.0.1:{port}" for port in ports[6:9]]
        self.ways = ports[9:12]  # by which servers reach etcd, if answers get lost
        self.pages = [f"127.0.0.1:{port}" for port in ports[12:]]
        self.http_words = http  # what is served over HTTP, beside the console
        self.members, self.servers = [None] * 3, [None] * 3
        self.python = python_of_servers()
        self.ask_words = [ask, "--graph", follower()] if ask else []
        self.tls = None  # the context of callers, and of this test's own calls
        if tls:
            self.secure(["127.0.0.1"])

    def secure(self, addresses):
        """Makes certificates, with which servers, callers and etcd's clients speak from now on."""
        self.authority = Authority(self.room / "certificates")
        self.server_files = self.authority.files("server", addresses)
        self.caller_files = self.authority.files("caller", addresses)
        self.tls = context_of(self.caller_files)
        self.clients = [url.replace("http://", "https://") for url in self.clients]

    async def __aenter__(self):
        for number in range(3):
            self.start_member(number)
        await self.until(self.has_quorum)
        for number in range(3 if self.loss else 0):
            await self.open_way(number)
        for number in range(3):
            self.start_server(number)
        await self.until(self.begins)
        await self.until(self.all_listen)
        return self

    async def __aexit__(self, *fault):
        others = asyncio.all_tasks() - {asyncio.current_task()}
        for task in others:
            task.cancel()
        await asyncio.gather(*others, return_exceptions=True)
        for process in (*self.servers, *self.members):
            if process and process.poll() is None:
                process.kill()
                process.wait()
        if fault[0] is None:
            shutil.rmtree(self.room)
        else:
            print(f"left for a look: {self.room}", file=sys.stderr)

    async def begins(self):
        """Whether a server leads. One that has ended meanwhile is an error at once."""
        for number, server in enumerate(self.servers):
            if server.poll() is not None:
                raise SystemExit(f"server {number} has ended: {self.errors(number)}")
        return await self.leading()

    async def all_listen(self):
        """Whether each server takes connections. Before that it takes no signal either, and a trial's SIGTERM would just kill it."""
        for number in range(3):
            (await self.connect(number)).close()
        return True

    # ---- processes

    def start_member(self, number):
        """Starts a member of etcd on its own folder."""
        words = ["etcd", "--name", f"m{number}", "--data-dir", str(self.room / f"m{number}")]
        words += ["--logger", "zap", "--log-outputs", str(self.room / f"m{number}.log"), *ETCD_WORDS]
        words += ["--listen-client-urls", self.clients[number], "--advertise-client-urls", self.clients[number]]
        words += ["--listen-peer-urls", self.peers[number], "--initial-advertise-peer-urls", self.peers[number]]
        words += ["--initial-cluster", ",".join(f"m{each}={url}" for each, url in enumerate(self.peers))]
        words += ["--quota-backend-bytes", str(self.quota), "--snapshot-count", "10000"]
        if self.tls:
            certificate, key, authority = self.server_files
            words += [
                "--cert-file",
                certificate,
                "--key-file",
                key,
                "--trusted-ca-file",
                authority,
                "--client-cert-auth",
            ]
        self.members[number] = subprocess.Popen(
            self.placed(number, [*ENDS_WITH_US, *words]), stdout=subprocess.DEVNULL, stderr=subprocess.DEVNULL
        )

    def placed(self, number, command):
        """A command as this machine runs it."""
        return command

    def server_words(self, number, program=PROGRAM):
        """The command line of a server: the same on each machine but for its own address and journal."""
        urls = [f"http://127.0.0.1:{port}" for port in self.ways] if self.loss else self.clients
        nearest = urls[number:] + urls[:number]
        words = [self.python, "-m", "rollback_client.serve", "--program", str(program), "--book", "orders"]
        words += ["--journal", str(self.journal(number)), "--listen", self.addresses[number], "--ttl", str(self.ttl)]
        words += ["--cluster", ",".join(nearest[:1] if self.nearest_only else nearest)]
        if self.tls:
            words += ["--tls", ",".join(self.server_files), "--etcd-tls", ",".join(self.caller_files)]
        if self.http_words:
            words += ["--http", self.pages[number], "--no-link", *self.http_words]
        return [*words, *self.ask_words, "--log", str(self.room / f"log{number}")]

    def start_server(self, number, program=PROGRAM, words=(), **environment):
        """Starts a server."""
        command = self.placed(number, [*ENDS_WITH_US, *self.server_words(number, program), *words])
        with open(self.room / f"errors{number}", "ab") as errors:
            self.servers[number] = subprocess.Popen(
                command,
                stdout=subprocess.DEVNULL,
                stderr=errors,
                cwd=TOP / "clients/python",
                env={**os.environ, **environment},
            )

    def journal(self, number):
        """The path of a server's journal."""
        return self.room / f"book{number}.db"

    async def end_server(self, number, how=signal.SIGKILL):
        """Ends a server, and gives its status."""
        self.servers[number].send_signal(how)
        return await asyncio.to_thread(self.servers[number].wait)

    async def end_member(self, number):
        """Kills a member of etcd."""
        self.members[number].kill()
        await asyncio.to_thread(self.members[number].wait)

    def link(self, number):
        """The link of a server's console."""
        return (self.room / f"book{number}.db.token").read_text(encoding="ascii").split()[1]

    def errors(self, number):
        """What a server wrote on standard error."""
        return (self.room / f"errors{number}").read_text(encoding="utf-8")

    def events(self, does):
        """What servers wrote of themselves into their log files, of one kind."""
        found = []
        for path in self.room.glob("log?"):
            found += [json.loads(line) for line in path.read_text(encoding="utf-8").splitlines()]
        return [each for each in found if each.get("event") == does]

    # ---- answers of etcd that get lost

    async def open_way(self, number):
        """A way to a member by which all questions come, and some of the answers don't."""
        host, port = self.clients[number].removeprefix("http://").split(":")

        async def hand(source, target, loss):
            try:
                while (data := await source.read(1 << 16)) and random.random() >= loss:
                    target.write(data)
                    await target.drain()
            except OSError:
                pass

        async def pass_on(reader, writer):
            from_etcd, to_etcd = await asyncio.open_connection(host, int(port))
            both = [
                asyncio.ensure_future(hand(reader, to_etcd, 0)),
                asyncio.ensure_future(hand(from_etcd, writer, self.loss)),
            ]
            try:
                await asyncio.wait(both, return_when=asyncio.FIRST_COMPLETED)
            finally:
                for task in both:
                    task.cancel()
                writer.close()
                to_etcd.close()

        await asyncio.start_server(pass_on, "127.0.0.1", self.ways[number])

    # ---- etcd, asked by this test's own code

    async def etcd(self, path, body, member=None):
        """A call of etcd's gateway: of one member, or of the first that answers."""
        fault = AssertionError("no member runs")
        for url in self.clients if member is None else [self.clients[member]]:
            try:
                return await asyncio.to_thread(self.post, f"{url}/v3/{path}", body)
            except OSError as refused:
                fault = refused
        raise fault

    def post(self, url, body):
        """One call."""
        asked = urllib.request.Request(url, json.dumps(body).encode(), {"Content-Type": "application/json"})
        with urllib.request.urlopen(asked, timeout=10, context=self.tls) as answer:
            return json.load(answer)

    async def etcd_soon(self, path, body, member=None):
        """What etcd answers to a call, once a member answers it."""

        async def answered():
            return await self.etcd(path, body, member)

        return await self.until(answered)

    async def has_quorum(self):
        """Whether etcd answers a read that no member answers alone."""
        await self.etcd("kv/range", {"key": encoded(PREFIX)})
        return True

    async def leader_key(self):
        """The address in the leader's key and its term, or nothing."""
        found = (await self.etcd("kv/range", {"key": encoded(f"{PREFIX}/leader")})).get("kvs")
        if not found:
            return None
        return base64.b64decode(found[0]["value"]).decode().split(" ")[0], int(found[0]["create_revision"])

    async def leading(self):
        """The number of the server that leads, and has said so to a caller, as text; nothing if none does."""
        found = await self.leader_key()
        if not found:
            return None
        number = self.addresses.index(found[0])
        connection = await self.connect(number)
        try:
            reply = await connection.ask("connect", 60)
        finally:
            connection.close()
        return str(number) if reply == "no 20" else None

    async def leader(self):
        """The number of the server that leads, once one does."""
        return int(await self.until(self.leading))

    async def term(self):
        """The leader key's revision."""
        return (await self.until(self.leader_key))[1]

    async def etcd_leader(self):
        """The number of etcd's member that leads etcd, once one does."""

        async def leads_etcd():
            for number in range(3):
                with contextlib.suppress(OSError):
                    answer = await self.etcd("maintenance/status", {}, number)
                    if answer.get("leader") == answer["header"]["member_id"]:
                        return str(number)
            return None

        return int(await self.until(leads_etcd))

    async def batches(self):
        """The log, read by this test's own reading of its form: of each batch its number, its term and its hashes with their lines."""
        asked = {"key": encoded(f"{PREFIX}/log/"), "range_end": encoded(f"{PREFIX}/log0")}
        found = []
        for pair in (await self.etcd_soon("kv/range", asked)).get("kvs", []):
            head, *lines = base64.b64decode(pair["value"]).decode().split("\n")
            number = int(base64.b64decode(pair["key"]).decode().rsplit("/", 1)[1])
            found.append((number, int(head.split(" ")[0]), [line.split(" ", 1) for line in lines]))
        return found

    # ---- questions

    async def connect(self, number):
        """A connection to a server, as callers have one."""
        try:
            return await asyncio.wait_for(Connection.open(self.addresses[number], self.tls), 60)
        except asyncio.TimeoutError:
            raise OSError("no connection in time") from None

    async def until(self, holds, seconds=PATIENCE):
        """Waits until a coroutine function answers something true, and gives that."""
        ends, last = time.monotonic() + seconds, None
        while time.monotonic() < ends:
            try:
                if found := await holds():
                    return found
            except (OSError, AssertionError, ValueError, EOFError) as fault:
                last = fault
            await asyncio.sleep(0.05)
        raise AssertionError(f"{holds.__name__} doesn't hold after {seconds} s: {last!r}")

    async def ask(self, number, line, seconds=PATIENCE):
        """One line to one server, or to the one that leads, again until it is taken."""

        async def answered():
            to = int(await self.leading() or -1) if number is None else number
            if to < 0:
                return None
            connection = await self.connect(to)
            try:
                reply = await connection.ask(line, 120)
            finally:
                connection.close()
            return reply if reply and not reply.startswith("no 40") else None

        return await self.until(answered, seconds)


def folder():
    """Where files are made: in memory, if there is room."""
    return "/dev/shm" if os.access("/dev/shm", os.W_OK) and shutil.disk_usage("/dev/shm").free > 2 << 30 else None


def follower_of(server):
    """The number of the process that answers a server's questions."""
    for child in pathlib.Path(f"/proc/{server.pid}/task/{server.pid}/children").read_text().split():
        if b"--serve" in pathlib.Path(f"/proc/{child}/cmdline").read_bytes().split(b"\0"):
            return int(child)
    raise AssertionError("there is no follower")


async def has_followed(cluster, number, thread):
    """Whether a server's follower, begun again, has an execution that was started meanwhile."""
    told = json.loads(await cluster.ask(number, f"? threads {thread}"))
    assert told.get("error") in (None, "no follower"), told
    return "error" not in told and told["threads"][0]["thread"] == thread


class Connection:
    """A plain connection to a server of lines."""

    def __init__(self, reader, writer):
        self.reader, self.writer = reader, writer

    @classmethod
    async def open(cls, address, tls=None):
        """Connects."""
        host, _, port = address.rpartition(":")
        return cls(*await asyncio.open_connection(host, int(port), limit=1 << 26, ssl=tls))

    async def ask(self, line, seconds=None):
        """The reply, or nothing if the connection ended before, or none came for so long."""
        asked = asyncio.ensure_future(self.reply(line))
        done, _ = await asyncio.wait([asked], timeout=seconds)
        if not done:
            asked.cancel()
            await asyncio.wait([asked])
            return None
        try:
            return asked.result()
        except (OSError, asyncio.IncompleteReadError):
            return None

    async def reply(self, line):
        """The lines of the reply as one text."""
        self.writer.write(line.encode() + b"\n")
        lines = [await self.reader.readuntil(b"\n")]
        if line.split(" ", 1)[0] in LISTS:
            for _ in range(lines_after(lines[0][:-1])):
                lines.append(await self.reader.readuntil(b"\n"))
        return b"".join(lines).decode()[:-1]

    def close(self):
        """Ends it at once."""
        self.writer.close()
