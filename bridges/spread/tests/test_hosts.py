"""Three hosts in network namespaces, of which one is killed in mid-run and one forges. It needs root and `ip`."""

import contextlib
import os
import shutil
import subprocess
import unittest

from hosts import Host, begin, end, finish, scheduler, solvers, told, wait_for, wait_for_workers, worker
from test_cluster import ANSWER, ITEMS

NETWORK = "10.213.77"


def ip(*words):
    subprocess.run(["ip", *words], check=True, capture_output=True)


@contextlib.contextmanager
def hosts(count):
    """Hosts on a network of their own: each is a namespace, and a bridge in one more joins them."""
    names = [f"spread{os.getpid()}-{number}" for number in range(count + 1)]
    hub, *others = names
    with contextlib.ExitStack() as stack:
        for name in names:
            ip("netns", "add", name)
            stack.callback(ip, "netns", "delete", name)
            ip("-n", name, "link", "set", "lo", "up")
        ip("-n", hub, "link", "add", "bridge", "type", "bridge")
        ip("-n", hub, "link", "set", "bridge", "up")
        for number, name in enumerate(others, 1):
            ip("-n", hub, "link", "add", f"port{number}", "type", "veth", "peer", "name", "eth0", "netns", name)
            ip("-n", hub, "link", "set", f"port{number}", "master", "bridge", "up")
            ip("-n", name, "address", "add", f"{NETWORK}.{number}/24", "dev", "eth0")
            ip("-n", name, "link", "set", "eth0", "up")
        yield [
            Host(f"{NETWORK}.{number}", ["ip", "netns", "exec", name]) for number, name in enumerate(others, 1)
        ]


def may_add_namespaces():
    if not shutil.which("ip") or os.geteuid():
        return False
    name = f"spread{os.getpid()}"
    added = subprocess.run(["ip", "netns", "add", name], capture_output=True).returncode == 0
    return added and subprocess.run(["ip", "netns", "delete", name], capture_output=True).returncode == 0


@unittest.skipUnless(may_add_namespaces(), "network namespaces need root and ip")
class ThreeHosts(unittest.TestCase):
    """One host has the scheduler and the coordinator, three have a worker each."""

    def setUp(self):
        self.stack = contextlib.ExitStack()
        self.addCleanup(self.stack.close)
        self.first, *self.hosts = self.stack.enter_context(hosts(4))
        _, self.address = self.stack.enter_context(scheduler(self.first))

    def begin(self, *faults):
        """A worker on each host, with its fault, and the command: the workers' processes, and that of the command."""
        workers = [
            self.stack.enter_context(worker(host, self.address, STAND_IN=fault))
            for host, fault in zip(self.hosts, faults)
        ]
        wait_for_workers(self.address, len(workers), self.first)
        words = ["--scheduler", self.address, "--cubes", "24", "--patience", "3"]
        return workers, begin(ITEMS, *words, host=self.first)

    def assert_right(self, process):
        ended = finish(process)
        self.assertEqual((told(ended), ended.stderr), ([*ANSWER, "# cubes: 24 verified"], ""))

    def test_one_is_killed_and_one_forges(self):
        workers, coordinator = self.begin("", "slow", "forge")
        wait_for(solvers)
        end(workers[1])
        self.assert_right(coordinator)

    def test_one_is_unplugged(self):
        """Nothing comes of it any more, not even that its connections are closed."""
        _, coordinator = self.begin("", "", "slow")
        wait_for(solvers)
        ip("-n", self.hosts[2].prefix[-1], "link", "set", "eth0", "down")
        self.assert_right(coordinator)


if __name__ == "__main__":
    unittest.main()
