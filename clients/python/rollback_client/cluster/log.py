"""The log of a book in etcd, and the key of the server that leads.

    PREFIX/leader               address and version of the leader. The key is bound to a lease; its create_revision is the *term*
    PREFIX/log/000000000017     a *batch*: accepted lines, the first of which is line 17 of the book
    PREFIX/member/ADDRESS       a server that has taken part, with its version
    PREFIX/seed                 how many lines the log has before anybody leads, if it is filled from a journal

A batch's value is `TERM CHAIN`, and then for each line `HASH LINE`. CHAIN is the hash of all lines before the batch, and HASH that of
what the reply says. A batch is put once, and never changed or removed.

Between a leader key's creation and its end only its holder's batches come in: each transaction compares the key's create_revision,
which never comes back. No clock is part of this: a lease that ends too early or too late costs a wait.
"""
from __future__ import annotations

from dataclasses import dataclass
from typing import Any, AsyncIterator, List, Optional, Protocol, Tuple, Union

from .entries import HASH, Entry
from .faults import BrokenLog, Deposed, NoLease, Unreachable
from .wire import bytes_of, end_of, text

DIGITS = 12  # of a batch's number in its key
PAGE_BYTES = 4 << 20  # that a read of the log should have at once
MOST_KEYS = 1000  # of a read


class Calls(Protocol):
    """What the log asks of etcd, as `etcd.Etcd` answers it."""

    cluster_id: Optional[str]

    async def call(self, path: str, body: dict[str, Any]) -> dict[str, Any]:
        """A call, answered by any member."""

    def watch(self, prefix: bytes, revision: int, most_idle: float) -> AsyncIterator[List[dict[str, Any]]]:
        """Changes of keys."""

    async def close(self) -> None:
        """Ends all connections."""


@dataclass(frozen=True)
class Leader:
    """The server that leads, by its key."""

    address: str
    version: str
    term: int
    lease: str

    @classmethod
    def read(cls, pair: dict[str, Any]) -> Leader:
        """Reads the key."""
        address, _, version = bytes_of(pair).decode().partition(" ")
        return cls(address, version, int(pair["create_revision"]), str(pair.get("lease", "0")))


@dataclass(frozen=True)
class Batch:
    """Accepted lines, the first of which is line `number` of the book."""

    number: int
    term: int
    chain: str
    entries: List[Entry]

    @property
    def end(self) -> int:
        """The number of the line behind it."""
        return self.number + len(self.entries)

    def value(self) -> bytes:
        """Its bytes in the log."""
        head = f"{self.term} {self.chain}".encode()
        return b"\n".join([head, *(reply.encode() + b" " + line for reply, line in self.entries)])

    @classmethod
    def read(cls, pair: dict[str, Any]) -> Batch:
        """Reads a key with its value. Anything else than a batch is a `BrokenLog`."""
        key = bytes_of(pair, "key")
        try:
            head, *lines = bytes_of(pair).split(b"\n")
            term, chain = head.decode().split(" ")
            if not lines or any(line[HASH : HASH + 1] != b" " for line in lines):
                raise ValueError("a line without its hash")
            entries = [(line[:HASH].decode(), line[HASH + 1 :]) for line in lines]
            return cls(int(key[-DIGITS:]), int(term), chain, entries)
        except ValueError as fault:
            raise BrokenLog(f"{key.decode(errors='replace')} is no batch: {fault}") from fault


class LeaderChanged:
    """The leader key was put or has gone."""


class Log:
    """The log as one server sees it. `ttl` is how many seconds a leader has that says nothing."""

    def __init__(self, etcd: Calls, prefix: str, ttl: int):
        self.etcd, self.ttl = etcd, ttl
        self._prefix = f"{prefix}/".encode()
        self._leader_key = self._prefix + b"leader"
        self._end = text(end_of(self._prefix + b"log/"))
        self._lease, self.term, self._revision = "0", 0, 0

    def key(self, number: int) -> bytes:
        """The key of the batch that begins at this line."""
        return self._prefix + b"log/%0*d" % (DIGITS, number)

    # ---- the leader's key

    async def leader(self) -> Optional[Leader]:
        """Who leads now, by a read that no member answers alone."""
        pair = await self._get(self._leader_key)
        return Leader.read(pair) if pair else None

    async def campaign(self, address: str, version: str) -> bool:
        """Tries to lead. Another server leads if the key is there already."""
        await self.resign()  # of an earlier try it may not be known what became of it
        lease = str((await self.etcd.call("lease/grant", {"TTL": self.ttl}))["ID"])
        self._lease = lease  # whatever breaks this off, `resign` ends it: a key of nobody would be waited for
        put = {"key": text(self._leader_key), "value": text(f"{address} {version}".encode()), "lease": lease}
        try:
            compare = [{"key": text(self._leader_key), "target": "CREATE", "create_revision": 0}]
            await self.etcd.call("kv/txn", {"compare": compare, "success": [{"request_put": put}]})
            # Whether the key is ours says the key itself: the transaction may have been carried out twice.
            found = await self.leader()
            if found and found.lease == lease:
                self.term = found.term
                return True
        except NoLease:
            pass  # this server stood still for longer than that
        await self.resign()
        return False

    async def renew(self) -> None:
        """Has the lease go on. Raises `Deposed` if it has run out."""
        answer = await self.etcd.call("lease/keepalive", {"ID": self._lease})
        if int(answer.get("result", {}).get("TTL", 0)) <= 0:
            raise Deposed

    async def resign(self) -> None:
        """Ends the term at once. What can't be said to etcd now ends with the lease."""
        lease, self._lease, self.term = self._lease, "0", 0
        if lease == "0":
            return
        try:
            await self.etcd.call("lease/revoke", {"ID": lease})
        except (NoLease, Unreachable):
            pass

    async def guard(self) -> None:
        """Answers if this server led at some time during the call, and raises `Deposed` if not.

        It is a read of the leader key: a transaction without a read or a put would be answered by a member alone, which may be cut off.
        """
        found = await self.leader()
        if not found or found.term != self.term:
            raise Deposed

    # ---- batches

    async def append(self, number: int, chain: str, entries: List[Entry]) -> None:
        """Puts a batch behind the last one.

        After `Unreachable` the same call has to be made again, until it answers or is `Deposed`. After `NoSpace` it did nothing.
        """
        key, value = text(self.key(number)), Batch(number, self.term, chain, entries).value()
        leader_key = text(self._leader_key)
        answer = await self.etcd.call(
            "kv/txn",
            {
                "compare": [
                    {"key": leader_key, "target": "CREATE", "create_revision": self.term},
                    {"key": key, "target": "CREATE", "create_revision": 0},
                ],
                "success": [{"request_put": {"key": key, "value": text(value)}}],
                "failure": [{"request_range": {"key": key}}, {"request_range": {"key": leader_key}}],
            },
        )
        if answer.get("succeeded"):
            return
        there, leader = ((part["response_range"].get("kvs") or [None])[0] for part in answer["responses"])
        if there and bytes_of(there) == value:
            return  # an earlier try of this call was carried out: the term in the value says that it was ours
        if there and leader and int(leader["create_revision"]) == self.term:
            raise BrokenLog(f"line {number} was put by another while this server led")
        raise Deposed

    async def batches(self, number: int) -> AsyncIterator[Batch]:
        """The batches whose first line has this number or a later one, to the end that the log had at the last read."""
        start, more, limit = self.key(number), True, 4
        while more:
            asked = {"key": text(start), "range_end": self._end, "limit": limit}
            answer = await self.etcd.call("kv/range", asked)
            self._note_revision(int(answer["header"]["revision"]))
            pairs, more = answer.get("kvs", []), answer.get("more", False)
            size = 1 + sum(len(pair.get("value", "")) for pair in pairs)
            limit = max(1, min(MOST_KEYS, limit * PAGE_BYTES // size))
            for pair in pairs:
                start = bytes_of(pair, "key") + b"\0"
                yield Batch.read(pair)

    async def newest(self, number: int) -> int:
        """The line at which the last batch begins of those from this number on, or the number before if there is none."""
        start, last = self.key(number), number - 1
        while True:
            asked = {"key": text(start), "range_end": self._end, "keys_only": True, "limit": MOST_KEYS}
            answer = await self.etcd.call("kv/range", asked)
            for pair in answer.get("kvs", []):
                last = int(bytes_of(pair, "key")[-DIGITS:])
            if not answer.get("more"):
                return last
            start = self.key(last) + b"\0"

    async def changes(self) -> AsyncIterator[Union[Batch, LeaderChanged]]:
        """Each batch, and each change of the leader, as it comes, behind what was read last.

        It ends after a third of the TTL in which nothing came: read again what there is, since a member that is cut off says nothing.
        """
        watched = self.etcd.watch(self._prefix, self._revision + 1, self.ttl / 3)
        async for events in watched:
            for event in events:
                pair = event["kv"]
                self._revision = max(self._revision, int(pair["mod_revision"]))
                key = bytes_of(pair, "key")
                if key == self._leader_key:
                    yield LeaderChanged()
                elif key.startswith(self._prefix + b"log/"):
                    if event.get("type") == "DELETE":
                        raise BrokenLog(f"{key.decode(errors='replace')} was removed from the log")
                    yield Batch.read(pair)

    def _note_revision(self, revision: int) -> None:
        if revision < self._revision:
            raise BrokenLog(f"etcd has gone back from revision {self._revision} to {revision}")
        self._revision = revision

    # ---- what is kept beside the lines

    async def join(self, address: str, version: str) -> None:
        """Keeps that this server takes part, so that one that is gone is missed."""
        key, value = self._prefix + b"member/" + address.encode(), version.encode()
        pair = await self._get(key)
        if not pair or bytes_of(pair) != value:
            await self.etcd.call("kv/put", {"key": text(key), "value": text(value)})

    async def members(self) -> List[Tuple[str, str]]:
        """The servers that have taken part, each with its version, in the order of their addresses."""
        prefix = self._prefix + b"member/"
        answer = await self.etcd.call("kv/range", {"key": text(prefix), "range_end": text(end_of(prefix))})
        pairs = answer.get("kvs", [])
        return [(bytes_of(pair, "key")[len(prefix) :].decode(), bytes_of(pair).decode()) for pair in pairs]

    async def seeded(self) -> int:
        """How many lines the log has to have before anybody leads."""
        pair = await self._get(self._prefix + b"seed")
        return int(bytes_of(pair)) if pair else 0

    async def keep(self, name: str, value: bytes) -> None:
        """Keeps a value beside the lines for whichever server leads later. Raises `Deposed` if this one leads no more."""
        if not self.term:
            raise Deposed  # the comparison below would hold while nobody leads
        key = text(self._prefix + name.encode())
        answer = await self.etcd.call(
            "kv/txn",
            {
                "compare": [{"key": text(self._leader_key), "target": "CREATE", "create_revision": self.term}],
                "success": [{"request_put": {"key": key, "value": text(value)}}],
            },
        )
        if not answer.get("succeeded"):
            raise Deposed

    async def kept(self, name: str) -> Optional[bytes]:
        """The value that was kept last, or nothing."""
        pair = await self._get(self._prefix + name.encode())
        return bytes_of(pair) if pair else None

    async def _get(self, key: bytes) -> Optional[dict[str, Any]]:
        found: List[dict[str, Any]] = (await self.etcd.call("kv/range", {"key": text(key)})).get("kvs") or []
        return found[0] if found else None
