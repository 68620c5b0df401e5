"""A book on three machines: the console is at the leader, and follows it. It says who leads, and how far the others are."""
import asyncio
import signal
import threading
import unittest

from tests.browser.driving import InBrowser
from tests.cluster_machines import Cluster, what_is_missing
from tests.program import PATIENCE

MISSING = what_is_missing()
SETUP = ("table items id:S []", 'define p {"StartAt":"P","States":{"P":{"Type":"Pass","End":true}}}', "start one p {}")


class Machines:
    """A cluster in a thread of its own."""

    def __init__(self):
        self.loop = asyncio.new_event_loop()
        self.thread = threading.Thread(target=self.loop.run_forever, daemon=True)
        self.thread.start()
        self.cluster = Cluster(ask="--run", http=("--token", "ann"))
        self.run(self.cluster.__aenter__())

    def run(self, coroutine):
        """What a coroutine gives."""
        return asyncio.run_coroutine_threadsafe(coroutine, self.loop).result(PATIENCE)

    def end(self):
        """Ends all processes."""
        self.run(self.cluster.__aexit__(None, None, None))
        self.loop.call_soon_threadsafe(self.loop.stop)
        self.thread.join()


@unittest.skipIf(MISSING, MISSING or "")
class Clustered(InBrowser):
    """Looks at a leader that another one takes the place of."""

    expected = ("503",)

    def setUp(self):
        super().setUp()
        self.machines = Machines()
        self.addCleanup(self.machines.end)
        self.cluster, run = self.machines.cluster, self.machines.run
        for line in SETUP:
            run(self.cluster.ask(None, line))
        for number in range(3):
            run(self.cluster.ask(number, "items"))
        self.leader = run(self.cluster.leader())

    def tearDown(self):
        self.driver.get("about:blank")
        super().tearDown()

    def test_the_console_is_at_the_leader(self):
        self.driver.get(self.cluster.link(self.leader))
        self.becomes(self.head, ["Leads, 2 stand by"])
        self.go("cluster")
        self.becomes(lambda: self.count(".view table"), 2)
        servers = ".view div:has(> table):first-of-type tbody tr"
        self.becomes(lambda: sorted(row.split(" ")[0] for row in self.texts(servers)), sorted(self.cluster.addresses))
        here = self.cluster.addresses[self.leader]
        self.becomes(lambda: [row.split(" ")[0] for row in self.texts(servers) if "this server" in row], [here])
        self.go("overview")
        before = self.cluster.servers[self.leader]
        before.send_signal(signal.SIGSTOP)
        self.wait_for_another()
        before.send_signal(signal.SIGCONT)
        address = self.cluster.addresses[self.machines.run(self.cluster.leader())]
        self.has(".live", address)
        self.becomes(self.head, [f"{address} leads, 2 stand by"])

    def test_a_standbys_page_becomes_the_console_once_its_server_leads(self):
        others = [number for number in range(3) if number != self.leader]
        self.driver.get(self.cluster.link(others[0]))
        self.sees(self.cluster.addresses[self.leader])
        self.assertEqual(self.js("return document.scripts.length"), 0)
        self.machines.run(self.cluster.end_server(others[1], signal.SIGTERM))
        self.machines.run(self.cluster.end_server(self.leader, signal.SIGKILL))
        self.soon(self.is_ready, "console")
        self.shows("a.cluster.wrong")
        self.cluster.start_server(others[1])
        self.cluster.start_server(self.leader)
        self.becomes(self.head, ["Leads, 2 stand by"])

    def head(self):
        """What the page's head says of the cluster."""
        return self.texts("a.cluster")

    def wait_for_another(self):
        async def is_there():
            found = await self.cluster.leader_key()
            return found and found[0] != self.cluster.addresses[self.leader]

        self.machines.run(self.cluster.until(is_there))


if __name__ == "__main__":
    unittest.main()
