"""The trial of the consoles and of Amazon's calls of three servers: they are at the leader, and follow it."""
import asyncio
import os
import subprocess

from tests import pages
from tests.amazon import STATES, TABLES, request_of
from tests.cluster_callers import SETUP
from tests.cluster_machines import Cluster
from tests.program import PATIENCE, TOP


async def pages_follow(words):
    """The console and Amazon's calls at the leader alone: behind another one they go on there, and what was paused stays paused."""
    async with Cluster(words.ttl, ask="--run", http=("--aws", "--table", "items", "id:S")) as cluster:
        for number in range(3):
            await cluster.ask(number, "items")
        await cluster.until(pages_are_there(cluster))
        looks = Looks(cluster)
        for _ in range(words.times + 1):
            number = await while_one_leads(cluster, looks.look)
            await cluster.end_server(number)
            cluster.start_server(number)
            await cluster.ask(number, "history")
            await cluster.until(pages_are_there(cluster))
        number = await while_one_leads(cluster, looks.look_at_what_stays)
        for member in range(3):
            await cluster.end_member(member)
        await cluster.until(refuses_all(cluster, number))
        return f"{words.times + 2} leaders"


async def while_one_leads(cluster, look):
    """Looks while one server leads, and gives its number. If another one leads meanwhile, it looks again."""
    while True:
        number, term = await cluster.leader(), await cluster.term()
        try:
            await asyncio.to_thread(look, number)
            return number
        except Exception:
            if await cluster.term() == term:
                raise
            await cluster.until(pages_are_there(cluster))


def push_finds_the_same(cluster, number):
    """What the leader serves as Amazon's table is what the book has, as `push` reads both."""
    python = pages.python_with("boto3")
    if python is None:
        return
    address, url = "cluster:" + ",".join(cluster.addresses), f"http://{cluster.pages[number]}"
    words = [
        python,
        "-m",
        "rollback_client.push",
        address,
        "items",
        "--plan",
        "--endpoint-url",
        url,
        "--region",
        "us-east-1",
    ]
    done = subprocess.run(
        words,
        env={**os.environ, "AWS_ACCESS_KEY_ID": "ann", "AWS_SECRET_ACCESS_KEY": "-"},
        cwd=TOP / "clients/python",
        capture_output=True,
        text=True,
        timeout=PATIENCE,
        check=False,
    )
    assert done.returncode == 0 and "0 to be written, 1 the same" in done.stdout, done


def pages_are_there(cluster):
    """Whether the console of the server that leads gives answers, and the book has its table."""

    async def are_there():
        page = await asyncio.to_thread(pages.Page, cluster.link(await cluster.leader()))
        return (await asyncio.to_thread(page.line, "items")).status == 200

    return are_there


def refuses_all(cluster, number):
    """Whether a server without etcd refuses by name, also over HTTP."""

    async def refuses():
        page = await asyncio.to_thread(pages.Page, cluster.link(number))
        found = await asyncio.to_thread(page.get, "/ask", q="list")
        told = await asyncio.to_thread(request_of, f"http://{cluster.pages[number]}", f"{TABLES}.ListTables", {})
        given = await asyncio.to_thread(page.line, "start late p {}")
        assert given.value.get("reply", "").startswith("no 40 "), given.value
        return (found.status, given.status, told[0]) == (503, 503, 503) and "etcd" in found.value["error"]

    return refuses


def look_at_standbys(cluster, leader):
    """A standby names the leader: to browsers, to pages, to tools."""
    address = cluster.addresses[leader]
    for number in {0, 1, 2} - {leader}:
        page = pages.Page(cluster.link(number))
        shown = page.get("/")
        assert (
            shown.status == 503 and address in shown.data.decode() and "<script" not in shown.data.decode()
        ), shown.data
        for found in (page.question("list"), page.line("start x p {}").value, page.get("/book").value):
            assert address in found["error"] and found["reply"] == f"no 40 leader {address}\n", found
        assert page.get("/events").status == 503
        assert page.get("/cluster").value["leader"] == address
        assert page.ask("GET", "/ask?q=list", {"Cookie": None}).status == 401
        url = f"http://{cluster.pages[number]}"
        for target in (f"{TABLES}.ListTables", f"{STATES}.ListStateMachines"):
            status, _, told = request_of(url, target, {})
            assert status == 421 and told["__type"].endswith("NotLeader") and address in told["message"], told


class Looks:
    """Looks at the consoles and Amazon's calls of a leader after the other."""

    def __init__(self, cluster):
        self.cluster = cluster
        self.turn = 0  # of each look, also of one amid which another server came to lead
        self.started = []  # executions of the looks that came to their ends
        self.begun = None  # what tells a page that it is another server

    def look(self, number):
        """Looks at all three. What the leader before was given is there."""
        look_at_standbys(self.cluster, number)
        turn, self.turn = self.turn, self.turn + 1
        page, url = pages.Page(self.cluster.link(number)), f"http://{self.cluster.pages[number]}"
        begun = look_at_console(page, turn, self.begun)
        self._look_at_table(url, turn)
        self._look_at_executions(url, turn)
        self.started.append(turn)
        self.begun = begun

    def _look_at_table(self, url, turn):
        key = {"TableName": "items", "Key": {"id": {"S": "k"}}}
        _, _, before = request_of(url, f"{TABLES}.GetItem", key)
        assert not self.started or int(before["Item"]["v"]["N"]) >= self.started[-1], before
        item = {"id": {"S": "k"}, "v": {"N": str(turn)}}
        status, headers, told = request_of(
            url, f"{TABLES}.PutItem", {"TableName": "items", "Item": item, "ReturnValues": "ALL_OLD"}
        )
        assert status == 200 and headers["x-rollback-step"], told
        assert told.get("Attributes") == before.get("Item"), told
        status, _, told = request_of(url, f"{TABLES}.GetItem", key)
        assert status == 200 and told == {"Item": item}, told

    def _look_at_executions(self, url, turn):
        arn = "arn:aws:states:us-east-1:000000000000:stateMachine:p"
        given = {"stateMachineArn": arn, "name": f"aws{turn}", "input": '{ "a" : 1 }'}
        status, _, told = request_of(url, f"{STATES}.StartExecution", given)
        assert status == 200, told
        for each in (*self.started, turn):
            arn = f"arn:aws:states:us-east-1:000000000000:execution:p:aws{each}"
            status, _, told = request_of(url, f"{STATES}.DescribeExecution", {"executionArn": arn})
            # The text as it was given stays on its machine. Behind another leader it is the book's own.
            assert status == 200 and told["input"] in ('{ "a" : 1 }', '{"a":1}'), told
            assert each < turn or told["input"] == '{ "a" : 1 }', told

    def look_at_what_stays(self, number):
        """What is paused and what was written is there behind the last leader."""
        page = pages.Page(self.cluster.link(number))
        assert page.get("/book").value["paused"] == [["machine", "p"]]
        assert page.question("item k"), "what the leader before wrote is gone"
        push_finds_the_same(self.cluster, number)


def look_at_console(page, turn, before):
    """The leader's console gives lines and answers questions. Gives what tells a page that it is another server."""
    shown = page.get("/")
    assert shown.status == 200 and "console.js" in shown.data.decode()
    if before is None:
        assert page.line(SETUP[1]).value["reply"] == "ok\n" or turn
        assert page.line("!pause machine p").value["reply"] == "ok\n"
    name = f"p{turn}"
    assert page.line(f"start {name} p {{}}").value["reply"] == f"ok {name}#0\n"
    told = page.question(f"threads {name}")
    assert told["threads"][0]["moves"] == 0, "a paused execution moved"
    plan = [row["step"] for row in page.question(f"plan {name}#0")["steps"]]
    done = page.post("/rollback", step=f"{name}#0", plan=plan)
    assert done.value == {"reply": f"ok 1\n{name}#0\n"}, done.value
    about = page.get("/book").value
    assert about["paused"] == [["machine", "p"]] and about["runs"] and about["begun"] != before, about
    rows = page.get("/entries", count=3).value["log"]
    assert rows[-1]["command"] == "rollback" and rows[-1]["who"] == "console", rows
    return about["begun"]
