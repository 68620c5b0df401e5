"""An etcd in memory, of which a test loses answers or holds them back, and a server of lines without processes or a network."""
import asyncio
import base64
import itertools
import socket

from rollback_client.cluster.faults import NoLease, NoSpace, Unreachable
from rollback_client.cluster.turns import ClusterTurns
from rollback_client.server.callers import Caller


def plain(text):
    return base64.b64decode(text)


class FakeEtcd:
    """What several logs share. `answers` decides what becomes of the calls that it names: `lose`, `refuse`, or an event to wait for."""

    def __init__(self):
        self.pairs, self.leases, self.revision = {}, set(), 1
        self.watchers, self.numbers = [], itertools.count(100)
        self.calls = []  # every call, as it was asked
        self.has_space = True

    def put(self, key, value, lease="0"):
        self.revision += 1
        created = self.pairs[key]["create_revision"] if key in self.pairs else self.revision
        pair = {"key": key, "value": value, "create_revision": created, "mod_revision": self.revision, "lease": lease}
        self.pairs[key] = pair
        self.notify({"kv": pair})

    def remove(self, key):
        self.revision += 1
        del self.pairs[key]
        self.notify({"type": "DELETE", "kv": {"key": key, "mod_revision": self.revision}})

    def expire(self, lease):
        """Ends a lease, as its time or its holder does."""
        self.leases.discard(lease)
        for key in [key for key, pair in self.pairs.items() if pair["lease"] == lease]:
            self.remove(key)

    def expire_leader(self):
        """Ends the lease of whoever leads."""
        self.expire(next(pair["lease"] for key, pair in self.pairs.items() if plain(key).endswith(b"/leader")))

    def notify(self, event):
        for queue in self.watchers:
            queue.put_nowait([event])

    def batches(self):
        """The keys of the log, in order, with their values."""
        found = sorted((plain(key), plain(pair["value"])) for key, pair in self.pairs.items() if b"/log/" in plain(key))
        return [(int(key[-12:]), value) for key, value in found]

    def carry_out(self, path, body):
        if path == "kv/range":
            return self.range(body)
        if path == "kv/txn":
            return self.transaction(body)
        if path == "kv/put":
            self.put(body["key"], body["value"])
            return {}
        if path == "lease/grant":
            if not self.has_space:
                raise NoSpace("no space")
            lease = str(next(self.numbers))
            self.leases.add(lease)
            return {"ID": lease}
        if path == "lease/revoke":
            self.expire(body["ID"])
            return {}
        if path == "lease/keepalive":
            return {"result": {"TTL": "5"} if body["ID"] in self.leases else {}}
        raise AssertionError(path)

    def range(self, body):
        first, end = plain(body["key"]), plain(body["range_end"]) if "range_end" in body else None
        keys = sorted(plain(key) for key in self.pairs)
        keys = [key for key in keys if key == first or end is not None and first <= key < end]
        limit = body.get("limit") or len(keys)
        pairs = [self.pairs[base64.b64encode(key).decode()] for key in keys[:limit]]
        return {"header": {"revision": str(self.revision)}, "kvs": pairs, "more": len(keys) > limit}

    def transaction(self, body):
        created = [
            (int(self.pairs.get(each["key"], {}).get("create_revision", 0)), int(each["create_revision"]))
            for each in body["compare"]
        ]
        if all(found == wanted for found, wanted in created):
            if not self.has_space:
                raise NoSpace("no space")
            for each in body["success"]:
                put = each["request_put"]
                if put.get("lease", "0") != "0" and put["lease"] not in self.leases:
                    raise NoLease
                self.put(put["key"], put["value"], put.get("lease", "0"))
            return {"succeeded": True}
        return {
            "responses": [{"response_range": self.range(each["request_range"])} for each in body.get("failure", ())]
        }


class Way:
    """How one server reaches etcd. `plan` is what becomes of its next calls, by their paths: `lose` the answer, `refuse` the call,
    or an `asyncio.Event` until which the answer is held back."""

    def __init__(self, etcd):
        self.etcd, self.cluster_id, self.plan, self.is_cut = etcd, "7", [], False
        self.alone = None  # what a member that is cut off from the others still has

    async def call(self, path, body):
        self.etcd.calls.append((path, body))
        await asyncio.sleep(0)
        what = next((planned for planned in self.plan if planned[0] == path), None)
        if what:
            self.plan.remove(what)
        if self.alone is not None:
            return self.answer_alone(path, body)
        if self.is_cut or what and what[1] == "refuse":
            raise Unreachable("etcd doesn't answer")
        answer = self.etcd.carry_out(path, body)
        if what and what[1] == "lose":
            raise Unreachable("the answer was lost")
        if what:
            await what[1].wait()
        return answer

    def cut_off(self):
        """From now on only a member answers that is cut off from the others."""
        self.alone = FakeEtcd()
        self.alone.pairs, self.alone.revision = dict(self.etcd.pairs), self.etcd.revision

    def answer_alone(self, path, body):
        """Such a member answers by what it has whatever needs no majority: reads that ask for it, and empty transactions."""
        is_empty = path == "kv/txn" and not body.get("success") and not body.get("failure")
        if path == "kv/range" and body.get("serializable") or is_empty:
            return self.alone.carry_out(path, {"success": [], "failure": [], **body})
        raise Unreachable("etcd doesn't answer")

    async def watch(self, prefix, revision, most_idle):
        queue = asyncio.Queue()
        self.etcd.watchers.append(queue)
        try:
            while True:
                yield await queue.get()
        finally:
            self.etcd.watchers.remove(queue)

    async def close(self):
        pass


class FakeTransport(asyncio.Transport):
    """What a caller was sent, and whether its connection was ended."""

    def __init__(self):
        super().__init__()
        self.said, self.is_ended = b"", False
        self.pair = socket.socketpair(socket.AF_UNIX)

    def get_extra_info(self, name, default=None):
        return self.pair[0] if name == "socket" else default

    def write(self, data):
        self.said += data

    def get_write_buffer_size(self):
        return 0

    def is_closing(self):
        return self.is_ended

    def abort(self):
        self.is_ended = True

    close = abort

    def resume_reading(self):
        pass

    pause_reading = resume_reading


class FakeCaller(Caller):
    """A caller whose lines a test gives."""

    def give(self, *lines):
        self.data_received(b"".join(line.encode() + b"\n" for line in lines))

    @property
    def said(self):
        """The replies so far."""
        return self.transport.said.decode().split("\n")[:-1]

    @property
    def is_let_go(self):
        """Whether its connection was ended without a reply."""
        return self.transport.is_ended


class FakeServer:
    """Callers and turns over a program that is a function of a line. `hold` has the program keep its replies."""

    def __init__(self, answer):
        self.turns = ClusterTurns(self.write, lambda caller, asked: self.turns.take_question(caller, asked))
        self.is_ending, self.unread, self.answer = False, None, answer
        self.given = []  # lines that the program was given
        self.transports = []

    def write(self, data):
        lines = data.split(b"\n")[:-1]
        self.given += lines
        for line in lines:
            asyncio.get_running_loop().call_soon(self.turns.feed, self.answer(line))

    def time(self):
        return 0.0

    def takes(self, caller):
        return True

    def leaves(self, caller):
        self.turns.end_pieces(caller)

    def caller(self):
        caller = FakeCaller(self)
        caller.connection_made(FakeTransport())
        self.transports.append(caller.transport)
        return caller

    def close(self):
        for transport in self.transports:
            for end in transport.pair:
                end.close()


class Counter:
    """A program of one thread: `step a` counts, `drive N` steps so often, `show a` tells the count, all else is refused."""

    def __init__(self):
        self.count = 0

    def __call__(self, line):
        word, *words = line.split(b" ")
        if word == b"step":
            self.count += 1
            return b"ok a#%d plain\n" % self.count
        if word == b"drive":
            names = [b"a#%d\n" % (self.count + 1 + each) for each in range(int(words[0]))]
            self.count += len(names)
            return b"ok %d\n%s" % (len(names), b"".join(names))
        if word == b"show":
            return b'ok ready "P" %d\n' % self.count
        return b"no 20\n"
