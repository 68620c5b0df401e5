"""The client over servers of a cluster that answer as a test says: whom it asks, what it gives again, and what it never does."""
import asyncio
import pickle
import socket
import socketserver
import subprocess
import sys
import threading
import unittest
from unittest import mock

from rollback_client import push
from rollback_client import AsyncBook, Book, BookClosed, ConnectionLost, NoServer, NotLeader, Step, Unavailable
from rollback_client.aws.book import Table
from rollback_client.faults import refusal_of
from rollback_client.following import FIRST_PAUSE
from tests.certificates import Authority, what_is_missing
from tests.program import PATIENCE, TOP, InFolder


class FakeMember:
    """A server that answers each line as `answer` says; nothing of it ends the connection. `given` are the lines besides greetings."""

    def __init__(self, answer=None):
        self.answer, self.given, self.greetings = answer, [], 0
        member = self

        class Handler(socketserver.StreamRequestHandler):
            def handle(self):
                for line in self.rfile:
                    said = member.reply(line.decode().strip())
                    if said is None:
                        return
                    self.wfile.write(said.encode() + b"\n")

        self.server = socketserver.ThreadingTCPServer(("127.0.0.1", 0), Handler)
        self.server.daemon_threads = True
        self.address = f"127.0.0.1:{self.server.server_address[1]}"
        threading.Thread(target=self.server.serve_forever, args=(0.01,), daemon=True).start()

    def reply(self, line):
        if line == "connect":
            self.greetings += 1
        else:
            self.given.append(line)
        return self.answer(line)

    def close(self):
        self.server.shutdown()
        self.server.server_close()


def leads(line):
    """What a leader answers."""
    return {"connect": "no 20", "history": "ok 1\na#0", "step a": "ok a#1 plain"}.get(line, "no 20")


def dead_address():
    with socket.socket() as found:
        found.bind(("127.0.0.1", 0))
        return f"127.0.0.1:{found.getsockname()[1]}"


class Followed(unittest.TestCase):
    def member(self, answer):
        found = FakeMember(answer)
        self.addCleanup(found.close)
        return found

    def book(self, *members, **more):
        names = ",".join(each if isinstance(each, str) else each.address for each in members)
        found = Book.connect(f"cluster:{names}", **more)
        self.addCleanup(found.close)
        return found

    def test_it_goes_where_a_standby_says(self):
        leader = self.member(leads)
        standby = self.member(lambda line: f"no 40 leader {leader.address}")
        book = self.book(standby, dead_address())
        self.assertEqual(book.history(), [Step("a", 0)])
        self.assertEqual(standby.given, [])

    def test_a_dead_server_is_passed_by(self):
        leader, pauses = self.member(leads), []
        with mock.patch("rollback_client.following.time.sleep", pauses.append):
            self.assertEqual(self.book(dead_address(), dead_address(), leader).history(), [Step("a", 0)])
        self.assertEqual(pauses, [FIRST_PAUSE, 2 * FIRST_PAUSE])

    def test_a_line_that_is_refused_is_given_to_the_new_leader(self):
        leader = self.member(leads)
        old = self.member(lambda line: "no 20" if line == "connect" else f"no 40 leader {leader.address}")
        book = self.book(old)
        self.assertEqual(str(book.step("a").step), "a#1")
        self.assertEqual((old.given, leader.given), (["step a"], ["step a"]))
        book.history()
        self.assertEqual(leader.given, ["step a", "history"])
        self.assertEqual(old.given, ["step a"])

    def test_a_lost_line_is_never_given_again(self):
        leader = self.member(leads)
        dying = self.member(lambda line: "no 20" if line == "connect" else None)
        book = self.book(dying, leader)
        with self.assertRaises(ConnectionLost) as caught:
            book.step("a")
        self.assertEqual(caught.exception.line, "step a")
        self.assertEqual(leader.given, [])
        dying.answer = lambda line: f"no 40 leader {leader.address}"
        self.assertEqual(book.history(), [Step("a", 0)])  # the next call finds the new one
        self.assertEqual((leader.given, dying.given), (["history"], ["step a"]))

    def test_an_election_is_waited_for(self):
        member = self.member(lambda line: leads(line) if member.greetings > 4 else "no 40 election")
        self.assertEqual(self.book(member, retry=PATIENCE).history(), [Step("a", 0)])
        self.assertEqual(member.greetings, 5)

    def test_an_election_without_end(self):
        member = self.member(lambda line: "no 40 election")
        with self.assertRaises(Unavailable) as caught:
            self.book(member, retry=0.2)
        self.assertEqual((caught.exception.why, caught.exception.code), ("election", 40))

    def test_no_majority_and_no_space_are_said_once_all_say_so(self):
        for why in ("quorum", "space"):
            members = [self.member(lambda line, why=why: f"no 40 {why}") for _ in range(3)]
            with self.assertRaises(Unavailable) as caught:
                self.book(*members)
            self.assertEqual(caught.exception.why, why)
            self.assertEqual([member.greetings for member in members], [1, 1, 1])

    def test_a_server_that_is_cut_off_is_passed_by(self):
        leader, cut = self.member(leads), self.member(lambda line: "no 40 quorum")
        self.assertEqual(self.book(cut, leader).history(), [Step("a", 0)])

    def test_nobody_is_there(self):
        with self.assertRaises(NoServer):
            self.book(dead_address(), dead_address(), retry=0.1)

    def test_a_server_that_says_nothing(self):
        goes_on = threading.Event()
        self.addCleanup(goes_on.set)
        silent = self.member(lambda line: "no 20" if line == "connect" or goes_on.wait(PATIENCE) else "ok 0")
        book = self.book(silent, timeout=2, retry=PATIENCE)
        with self.assertRaises(ConnectionLost):
            book.history()
        self.assertFalse(goes_on.is_set())

    def test_a_closed_book_doesnt_connect_again(self):
        dying = self.member(lambda line: "no 20" if line == "connect" else None)
        book = self.book(dying)
        with self.assertRaises(ConnectionLost):
            book.history()
        book.close()
        with self.assertRaises(BookClosed):
            book.history()
        self.assertEqual(dying.greetings, 1)

    def test_threads_share_it(self):
        leader, wrong = self.member(leads), []
        book = self.book(leader)

        def call():
            for _ in range(50):
                if str(book.step("a").step) != "a#1" or book.history() != [Step("a", 0)]:
                    wrong.append(1)

        threads = [threading.Thread(target=call) for _ in range(4)]
        for thread in threads:
            thread.start()
        for thread in threads:
            thread.join()
        self.assertEqual((wrong, len(leader.given)), ([], 400))

    def test_a_plain_connection_to_a_standby(self):
        standby = self.member(lambda line: "ok 0" if line == "history" else "no 40 leader 10.0.0.1:7070")
        book = Book.connect(standby.address)
        self.addCleanup(book.close)
        self.assertEqual(book.history(), [])
        with self.assertRaises(NotLeader) as caught:
            book.settle()
        self.assertEqual(caught.exception.leader, "10.0.0.1:7070")

    def test_addresses(self):
        for wrong in ("cluster:", "cluster:/run/x", "cluster:a:1,", "cluster:a:70000"):
            with self.assertRaises(ValueError):
                Book.connect(wrong)

    def test_refusals_by_their_replies(self):
        for reply, kind in (("no 40 election", Unavailable), ("no 40 leader h:1", NotLeader), ("no 40", Unavailable)):
            refusal = refusal_of(reply, "step a")
            self.assertIs(type(refusal), kind)
            self.assertEqual(str(pickle.loads(pickle.dumps(refusal))), str(refusal))

    def test_asyncio(self):
        leader = self.member(leads)
        dying = self.member(lambda line: "no 20" if line == "connect" else None)

        async def run():
            async with await AsyncBook.connect(f"cluster:{dying.address},{leader.address}") as book:
                with self.assertRaises(ConnectionLost):
                    await book.step("a")
                self.assertEqual(leader.given, [])
                dying.answer = lambda line: f"no 40 leader {leader.address}"
                found = await asyncio.gather(*(book.history() for _ in range(5)))
                self.assertEqual(found, [[Step("a", 0)]] * 5)
                waits = asyncio.ensure_future(book.history())
                later = asyncio.ensure_future(book.step("a"))
                await asyncio.sleep(0)
                later.cancel()  # before its turn: it is never sent
                await waits
            self.assertEqual(leader.given, ["history"] * 6)
            with self.assertRaises(BookClosed):
                await book.history()
            with self.assertRaises(Unavailable):
                election = self.member(lambda line: "no 40 election")
                await AsyncBook.connect(f"cluster:{election.address}", retry=0.1)

        asyncio.run(run())


@unittest.skipIf(what_is_missing(), what_is_missing() or "")
class Secured(InFolder):
    """TLS to a server that echoes: all bytes come, in both directions at once, and files that are wrong are said."""

    def test_much_in_both_directions(self):
        import ssl

        from rollback_client.secured import secured

        files = Authority(self.room).files("both")
        context = ssl.create_default_context(ssl.Purpose.CLIENT_AUTH, cafile=files[2])
        context.load_cert_chain(*files[:2])
        context.verify_mode = ssl.CERT_REQUIRED
        listening = socket.create_server(("127.0.0.1", 0))
        self.addCleanup(listening.close)
        data, got = bytes(range(256)) * 20_000, []

        def echo():
            with context.wrap_socket(listening.accept()[0], server_side=True) as sock:
                left = len(data)
                while left:
                    chunk = sock.recv(100_000)
                    sock.sendall(chunk)
                    left -= len(chunk)

        threading.Thread(target=echo, daemon=True).start()
        plain = socket.create_connection(listening.getsockname())
        passing = secured(plain, "127.0.0.1", files, 10)
        passing.ours.settimeout(PATIENCE)
        sending = threading.Thread(target=passing.ours.sendall, args=(data,))
        sending.start()
        while sum(map(len, got)) < len(data):
            got.append(passing.ours.recv(1 << 16))
        sending.join()
        self.assertEqual(b"".join(got), data)
        passing.ours.close()
        passing.join(PATIENCE)
        self.assertFalse(passing.is_alive())

    def test_files_that_are_wrong(self):
        with self.assertRaises(OSError):
            Book.connect("cluster:127.0.0.1:1", tls=("nothing", "nothing", "nothing"))
        with self.assertRaises(ValueError):
            Book.connect(self.path("socket"), tls=("a", "b", "c"))


class Words(unittest.TestCase):
    """Wrong words of the server end with status 2 and a sentence, and nothing of a cluster is imported without --cluster."""

    def refused(self, *words):
        command = [sys.executable, "-m", "rollback_client.serve", *words]
        done = subprocess.run(
            command, capture_output=True, text=True, cwd=TOP / "clients/python", timeout=PATIENCE, check=False
        )
        self.assertEqual(done.returncode, 2, done.stderr)
        self.assertNotIn("Traceback", done.stderr)
        return done.stderr

    def test_wrong_words(self):
        place, etcd = ("--listen", "127.0.0.1:7070"), ("--cluster", "http://127.0.0.1:2379", "--book", "orders")
        all_of_it = ("--journal", "x.db", *place, *etcd)
        for words, said in (
            ((*place, *etcd), "--journal"),
            (("--journal", "x.db", *etcd, "--socket", "x"), "--listen"),
            (("--journal", "x.db", *place, *etcd[:2]), "--book"),
            ((*place, "--book", "orders"), "--cluster"),
            ((*place, "--tls", "a,b,c"), "--cluster"),
            ((*place, "--cluster-status"), "--cluster"),
            (("--journal", "x.db", *place, "--cluster", "127.0.0.1:2379", "--book", "o"), "URL"),
            (("--journal", "x.db", *place, "--cluster", "", "--book", "o"), "URL"),
            (("--journal", "x.db", *place, *etcd[:3], "a b"), "name"),
            ((*all_of_it, "--ttl", "1"), "--ttl"),
            (("--journal", "x.db", "--listen", "10.0.0.1:7070", *etcd), "--tls"),
            (("--journal", "x.db", "--listen", "0.0.0.0:7070", *etcd), "own"),
            ((*all_of_it, "--tls", "a,b"), "CERT,KEY,CA"),
            ((*all_of_it, "--etcd-tls", "a,b,c"), "can't be read"),
        ):
            self.assertIn(said, self.refused(*words), words)

    def test_push_takes_certificates(self):
        files = [str(TOP / "README.md")] * 3
        words = push._words(["cluster:a:1,b:2", "orders", "--tls", ",".join(files)])
        with mock.patch("rollback_client.push.Book") as book:
            book.connect.return_value.__enter__.return_value.items.return_value = []
            self.assertEqual(push._items_of_book(words, Table("orders", (("id", "S"),))), {})
        book.connect.assert_called_once_with("cluster:a:1,b:2", tls=tuple(files))

    def test_nothing_of_it_is_imported_without_its_word(self):
        script = (
            "import sys, rollback_client, rollback_client.serve\n"
            "from rollback_client.server.words import read_words\n"
            "from rollback_client.server import running\n"
            "read_words(['--listen', '127.0.0.1:7070'])\n"
            "others = ('aiohttp', 'rollback_client.following', 'rollback_client.secured')\n"
            "found = [name for name in sys.modules if 'cluster' in name or name in others]\n"
            "assert not found, found"
        )
        done = subprocess.run(
            [sys.executable, "-c", script], capture_output=True, text=True, cwd=TOP / "clients/python", check=False
        )
        self.assertEqual(done.returncode, 0, done.stderr)


if __name__ == "__main__":
    unittest.main()
