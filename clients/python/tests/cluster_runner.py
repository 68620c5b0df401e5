"""The runner of a server of a cluster, over a log in memory. usage: cluster_runner begins|ends FOLDER

begins: the server begins to lead while a long log file is read for its pages. A step that its runner gave before it leads would be in its
        book, and never in the log. So there is none.
ends:   the server ends while its runner has steps to take without an end. It ends the runner before it waits for what is at hand.
"""
import asyncio
import json
import sys
import time
from unittest import mock

from rollback_client.cluster.http import Http
from rollback_client.cluster.serving import ClusterServer
from rollback_client.cluster.turns import Role
from rollback_client.server.words import read_words
from tests.program import LOOP, PATIENCE, PROGRAM, follower

LINES = [
    b"table items id:S []",
    f"define p {json.dumps(LOOP)}".encode(),
    *(b"start a%d p {}" % number for number in range(20)),
]


class NothingKept:
    """A log beside which nothing is kept."""

    async def kept(self, name):
        return None


def read_long(path):
    """What a log file says, after a time in which a runner takes steps."""
    time.sleep(0.5)
    return []


async def standby(room):
    """A server that stands by, with all lines of the log."""
    words = [
        "--journal",
        f"{room}/book.db",
        "--program",
        PROGRAM,
        "--graph",
        follower(),
        "--log",
        f"{room}/log",
        "--run",
    ]
    words += ["--cluster", "http://127.0.0.1:1", "--book", "b", "--listen", "127.0.0.1:0", "--http", "127.0.0.1:0"]
    server = ClusterServer(read_words(words))
    server._http = Http(server, server.words, server.turns)
    server._member = mock.Mock(lines=len(LINES))
    await server.start_program()
    server.turns.role = Role.STANDBY
    for line in LINES:
        assert (await server.turns.enter(line)).startswith(b"ok")
    return server


async def begins(room):
    server = await standby(room)
    with mock.patch("rollback_client.web.serving.logged_in", read_long):
        await server.begin_leading(NothingKept())
    found = server._follower.count, server._runners.is_there, server._http._web.runs()
    await server.end_leading()
    await server.end_program()
    assert found == (len(LINES), True, True), f"the book has {found[0]} lines before its server leads: {found}"


async def ends(room):
    server = await standby(room)
    server._http = None
    await server.begin_leading(NothingKept())
    gate, gate.position = server.turns.gate, len(LINES)
    server.turns.role, server.turns.refusal = Role.LEADER, ""

    async def put_on():
        while True:
            await gate.something()
            part, last = gate.next()
            await asyncio.sleep(0.003)
            gate.has_passed(part)
            server.turns.hand_out(gate.take(last))
            if gate.position > len(LINES):
                server._asked_to_end.set()

    until, has_ended = server._until, []

    async def noted(is_so, ends):
        has_ended.append(server._runners.inside._task.done())
        await until(is_so, ends)

    server._member.live_on, server._until = put_on, noted
    assert await asyncio.wait_for(server._serve(mock.Mock()), PATIENCE) == 0
    await server.end_leading()
    await server.end_program()
    assert gate.position > len(LINES), "the runner took no step"
    assert has_ended[0], "the runner goes on while the server waits for what is at hand"


if __name__ == "__main__":
    asyncio.run({"begins": begins, "ends": ends}[sys.argv[1]](sys.argv[2]))
