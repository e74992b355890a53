"""Sites whose journals are in etcd, in network namespaces of this machine: transfers while members and sites are killed at random, links are cut for seconds, and processes that were
replaced wake up again.

    etcd_nodes.py [COUNT [SEED]]

Three members of etcd and three polydbd, each on a machine of its own (a namespace with its link to a bridge), and for each site a second machine. Clients ask for transfers at each site. Meanwhile, at random
moments: a site is killed and started again; a member is killed and started again; a link is cut for up to three seconds; a site's process is stopped (SIGSTOP) or cut off, another one takes the site on its
other machine, and then the first one goes on (SIGCONT). That one has to say that it was replaced, and to end, and to answer nothing, within seconds of when it could ask two members again; how long that took is said.

After COUNT commits (10,000) all is left alone, and looked at: the items have their first total, and each is certain; the journals have no write of a process that was replaced, by the revisions of etcd in which
each opening has taken the site; `polydb show` says of the journals alone what the sites do, where the program is there; and what the processes were given, which they write down (`traced/trace.c`), becomes a
schedule, whose run is what they let out and showed (`traces.py`). It needs root, for the namespaces.
"""

import os
import random
import shutil
import signal
import socket
import subprocess
import sys
import tempfile
import threading
import time
from pathlib import Path

HERE = Path(__file__).resolve().parent
sys.path[:0] = [str(HERE.parent), str(HERE.parent / "examples"), str(HERE)]

import etcd_store  # noqa: E402
import many_nodes  # noqa: E402
import many_transfers  # noqa: E402
import nodes  # noqa: E402
import traces  # noqa: E402
from many_nodes import CONFIG, FIRST_VALUE, ITEMS, SITES  # noqa: E402

CLIENTS = 3  # at each site
TROUBLE = 25  # commits between two troubles, on average
MEMBERS = 3
PATIENCE = 120.0
TRACED = nodes.PROGRAMS / "traced" / "polydbd"  # one that writes down what its site is given and lets out
ENDS_WITHIN = 30.0  # seconds until a process that was replaced has ended, from when it and two members are up and can be reached: 5 where the machine isn't busy


def run(*words):
    return subprocess.run(words, check=True, capture_output=True, text=True).stdout


class Network:
    """Machines with a link each to a bridge, which is in a namespace too: nothing is sent on the links of the real machine."""

    def __init__(self):
        self.name = f"pv{os.getpid()}"
        self.links = {}
        self.addresses = {}
        self.hub = f"{self.name}-hub"
        run("ip", "netns", "add", self.hub)
        self.within(self.hub, "ip", "link", "add", "bridge", "type", "bridge")
        self.within(self.hub, "ip", "link", "set", "bridge", "up")

    def within(self, space, *words):
        return run("ip", "netns", "exec", space, *words)

    def add(self, machine, host):
        """A machine with its own address 10.77.0.HOST."""
        space = f"{self.name}-{machine}"
        number = len(self.links)
        run("ip", "netns", "add", space)
        self.within(self.hub, "ip", "link", "add", f"port{number}", "type", "veth", "peer", "name", "eth0", "netns", space)
        self.within(self.hub, "ip", "link", "set", f"port{number}", "master", "bridge", "up")
        self.links[machine] = f"port{number}"
        self.within(space, "ip", "link", "set", "lo", "up")
        self.within(space, "ip", "link", "set", "eth0", "up")
        self.within(space, "ip", "address", "add", f"10.77.0.{host}/24", "dev", "eth0")

    def words(self, machine):
        return ["ip", "netns", "exec", f"{self.name}-{machine}"]

    def move(self, address, to):
        """An address that goes with a site from machine to machine."""
        if address in self.addresses:
            run(*self.words(self.addresses[address]), "ip", "address", "del", f"{address}/24", "dev", "eth0")
        self.addresses[address] = to
        run(*self.words(to), "ip", "address", "add", f"{address}/24", "dev", "eth0")
        for machine in self.links:
            run(*self.words(machine), "ip", "neighbour", "flush", "all")

    def cut(self, machine, is_cut=True):
        self.within(self.hub, "ip", "link", "set", self.links[machine], "down" if is_cut else "up")

    def close(self):
        for space in [*(f"{self.name}-{machine}" for machine in self.links), self.hub]:
            subprocess.run(["ip", "netns", "del", space], capture_output=True)


class EtcdSites(nodes.Sites):
    """Sites as `nodes.Sites` has them, each on one of its two machines, with their journals in etcd."""

    def __init__(self, network, store_folder):
        self.network = network
        self.members = []
        for number in range(MEMBERS):
            network.add(f"e{number}", 11 + number)
            member = etcd_store.Member(f"m{number}", store_folder, f"10.77.0.{11 + number}", words=["nice", *network.words(f"e{number}")])
            self.members.append(member)
        for member in self.members:
            member.start(self.members)
        self.urls = ",".join(member.client for member in self.members)
        self.machine = []
        for me in range(SITES):
            for second in (0, 1):
                network.add(f"s{me}{'ab'[second]}", 21 + 10 * second + me)
            self.machine.append(f"s{me}a")
            network.move(self.address(me), f"s{me}a")
        self.replaced = []  # processes that have to end by themselves
        self.meanwhile = lambda: None  # is called while this waits
        self.store = etcd_store.Store(self.members[0].client, network.words("e0"))
        self.store.pairs("nothing")  # once it answers
        super().__init__(CONFIG, SITES, tick=100, one_folder=True)
        lines = [line.split() for line in self.peers.read_text().splitlines()[1:]]
        self.peers.write_text("".join(f"{me} tcp://{self.address(me)}:7400 {key}\n" for me, (_, _, key) in enumerate(lines)))

    def address(self, me):
        return f"10.77.0.{101 + me}"

    def new_site(self, me, status=0):
        words = [*self.network.words(self.machine[me]), nodes.PROGRAMS / "polydbd", "--new", "--site", str(me), "--config", self.config, "--data", self.data(me), "--etcd", self.urls]
        made = subprocess.run(words, capture_output=True, text=True)
        assert made.returncode == status, made
        return made

    def socket(self, me):
        return self.data(me) / f"{self.machine[me]}.sock"

    def words(self, me, *more, config=None):
        program, *words = super().words(me, "--etcd", self.urls, "--socket", self.socket(me), *more, config=config)
        return [*self.network.words(self.machine[me]), TRACED if TRACED.exists() else program, *words]

    def __exit__(self, *words):
        for one in self.replaced:
            if one.process.poll() is None:
                one.process.kill()
        super().__exit__(*words)

    def restart(self, me):
        """Starts a site, which may take some tries while etcd can't be reached."""
        end = time.monotonic() + PATIENCE
        while True:
            before = self.log(me)
            with open(self.logs[me], "a") as log:
                self.processes[me] = subprocess.Popen(self.words(me), stderr=log)
            while self.processes[me].poll() is None and "ready" not in self.log(me)[len(before) :]:
                self.meanwhile()
                time.sleep(0.01)
            if self.processes[me].poll() is None:
                return
            said = self.log(me)[len(before) :]
            assert "can't be reached" in said and time.monotonic() < end, said

    def replace(self, me, chance):
        """Another process takes the site, while the one before is stopped or cut off; then that one goes on, and is to end."""
        old, machine = self.processes[me], self.machine[me]
        one = Replaced(self, me, old, machine, is_cut=chance.random() < 0.3)
        if one.is_cut:
            self.network.cut(machine)
        else:
            old.send_signal(signal.SIGSTOP)
        path = self.socket(me)
        self.machine[me] = machine[:-1] + ("a" if machine.endswith("b") else "b")
        self.network.move(self.address(me), self.machine[me])
        self.restart(me)
        one.ask(path)
        self.replaced.append(one)
        return one


class Replaced:
    """A process that was replaced: what it is asked, when it goes on, and how it ends."""

    def __init__(self, sites, me, process, machine, is_cut):
        self.sites, self.me, self.process, self.machine, self.is_cut = sites, me, process, machine, is_cut
        self.woken = self.ended = None
        self.said = b""

    def ask(self, path):
        """It may take this, but has nothing to say any more."""
        self.asked = nodes.Client(path)
        name = next(name for name, site in ITEMS.items() if site == self.me)
        self.asked.socket.sendall(f"read 1 {name}\nsubmit 2 {name} := {name} + 1\n".encode())
        self.asked.socket.setblocking(False)

    def wake(self):
        if self.is_cut:
            self.sites.network.cut(self.machine, False)
        else:
            self.process.send_signal(signal.SIGCONT)
        self.woken = time.monotonic()

    def look(self, since):
        """Whether it has ended, as it is to; `since` is when two members could be reached again, if they can."""
        if self.woken is None or self.ended is not None:
            return self.ended is not None
        is_over = self.process.poll() is not None
        try:
            while more := self.asked.socket.recv(65536):
                self.said += more
        except (BlockingIOError, ConnectionError):
            pass
        if not is_over:
            gone = 0.0 if since is None else time.monotonic() - max(since, self.woken)
            assert gone < ENDS_WITHIN, f"site {self.me}: a process that was replaced is still there {gone:.0f} seconds after it could ask, cut off: {self.is_cut}, and has said: {self.said}"
            return False
        self.asked.close()
        self.ended = time.monotonic() - (self.woken if since is None else max(since, self.woken))
        words = [line for line in self.said.decode().splitlines() if not line.startswith("error ")]
        assert self.process.returncode == 5 and not words, f"site {self.me}: a process that was replaced ends with {self.process.returncode}, after {words}"
        return True


class Load(many_nodes.Load):
    """A process that has been replaced, or can't reach etcd, says `error`: nobody knows what became of the request then, or it never began."""

    def ask(self, client):
        while not self.is_done():
            try:
                answer = client.ask("submit", self.program())
            except OSError:
                answer = "error"
            with self.lock:
                self.committed += answer.startswith("commit ")
                self.refused += answer.startswith("refuse ")
                self.unknown += answer.startswith("error")
            if answer.startswith("error"):
                return
            assert answer.startswith(("commit ", "refuse ")), answer


class Trouble:
    """What is done to the machines, one at a time, and undone a moment later."""

    def __init__(self, sites, load):
        self.sites, self.load, self.chance = sites, load, load.chance
        self.later = []  # what is to be undone, and when
        self.counts = {"sites killed": 0, "members killed": 0, "links cut": 0, "sites replaced": 0}
        self.members_down = set()
        self.cut = set()
        self.since = time.monotonic()  # when a majority of members could be reached again, if one can
        sites.meanwhile = self.undo

    def undo(self, is_all=False):
        for when, call in list(self.later):
            if is_all or when <= time.monotonic():
                self.later.remove((when, call))
                call()
        lost = {f"e{number}" for number in self.members_down} | {machine for machine in self.cut if machine.startswith("e")}
        if 2 * len(lost) >= MEMBERS:
            self.since = None
        elif self.since is None:
            self.since = time.monotonic()
        for one in self.sites.replaced:
            one.look(self.since)

    def soon(self, call, least=0.2, most=3.0):
        self.later.append((time.monotonic() + self.chance.uniform(least, most), call))

    def make(self):
        self.chance.choices([self.kill_site, self.kill_member, self.cut_link, self.replace_site], [3, 2, 2, 2])[0]()

    def kill_site(self):
        me = self.chance.randrange(SITES)
        if self.sites.machine[me] in self.cut:
            return
        self.sites.kill(me)
        self.counts["sites killed"] += 1
        time.sleep(self.chance.uniform(0.0, 0.1))
        self.sites.restart(me)

    def kill_member(self):
        """One at a time, most of the time: without two of three nothing is written."""
        number = self.chance.randrange(MEMBERS)
        if number in self.members_down or (self.members_down and self.chance.random() < 0.8):
            return
        member = self.sites.members[number]
        member.kill()
        self.members_down.add(number)
        self.counts["members killed"] += 1

        def start():
            member.start(self.sites.members)
            self.members_down.discard(number)

        self.soon(start)

    def cut_link(self):
        machine = self.chance.choice([f"e{number}" for number in range(MEMBERS)] + self.sites.machine)
        if machine in self.cut:
            return
        self.sites.network.cut(machine)
        self.cut.add(machine)
        self.counts["links cut"] += 1

        def mend():
            self.sites.network.cut(machine, False)
            self.cut.discard(machine)

        self.soon(mend)

    def replace_site(self):
        me = self.chance.randrange(SITES)
        others = {f"s{me}a", f"s{me}b"}
        if others & self.cut or any(one.ended is None for one in self.sites.replaced if one.me == me):
            return
        self.soon(self.sites.replace(me, self.chance).wake, 0.0, 2.0)
        self.counts["sites replaced"] += 1


def work(load, trouble):
    next_trouble, last = TROUBLE / 2, (0, time.monotonic())
    while not load.is_done():
        time.sleep(0.01)
        trouble.undo()
        if load.committed > last[0]:
            last = (load.committed, time.monotonic())
        assert time.monotonic() < last[1] + PATIENCE, f"no commit for {PATIENCE} seconds, after {load.committed}"
        if load.committed >= next_trouble or time.monotonic() > last[1] + 10:
            trouble.make()
            next_trouble = load.committed + load.chance.expovariate(1 / TROUBLE)
    trouble.undo(is_all=True)
    while not all(one.look(trouble.since) for one in trouble.sites.replaced):
        trouble.undo()
        time.sleep(0.01)


def look(sites):
    """What is there in the end, by the sites and by etcd."""
    shown = {}
    for me in range(SITES):
        names = [name for name, site in ITEMS.items() if site == me]
        for line in sites.polydbc(me, "read", "--certain", *names):
            _, name, value = line.split()
            shown[name] = value
    for me in range(SITES):
        sites.stop(me)
    total = sum(map(int, shown.values()))
    assert total == FIRST_VALUE * len(ITEMS), f"the total is {total}, and was {FIRST_VALUE * len(ITEMS)}: {shown}"
    files = sites.folder / "by-etcd"
    files.mkdir()
    for me in range(SITES):
        journal, writes, openings = etcd_store.journal_of(sites.store, me)
        (files / f"site-{me}.pv").write_bytes(journal)
        print(f"site {me}: {len(journal)} bytes in {writes} writes, {openings} openings, and no write of one that was replaced", flush=True)
    if TRACED.exists():
        print(traces.check(CONFIG, SITES, os.environ["POLYDB_TRACE"], [etcd_store.writes_of(sites.store, me) for me in range(SITES)]), flush=True)
    else:
        print("not compared with the run of a schedule: there is no polydbd that writes down what its site does", flush=True)
    if many_transfers.program() is None:
        return "the total is kept; not looked at by show: there is no program"
    by_files = many_transfers.show(files, CONFIG)
    assert by_files == shown, (by_files, shown)
    return "the total is kept, and show has the same"


def missing():
    if etcd_store.missing():
        return etcd_store.missing()
    if os.geteuid() != 0 or shutil.which("ip") is None or shutil.which("curl") is None:
        return "no root, or no ip and curl, for network namespaces"
    tried = subprocess.run(["ip", "netns", "add", f"pv{os.getpid()}-try"], capture_output=True)
    subprocess.run(["ip", "netns", "del", f"pv{os.getpid()}-try"], capture_output=True)
    return None if tried.returncode == 0 else "no network namespaces"


def main():
    if missing():
        print(f"left out: {missing()}")
        sys.exit(77)
    signal.signal(signal.SIGTERM, lambda *_: sys.exit(1))  # so that nothing is left behind
    count = int(sys.argv[1]) if len(sys.argv) > 1 else 10_000
    seed = int(sys.argv[2]) if len(sys.argv) > 2 else random.SystemRandom().getrandbits(32)
    print(f"seed {seed}", flush=True)
    folder = tempfile.mkdtemp(prefix="polydb-etcd-")
    os.environ["POLYDB_TRACE"] = f"{folder}/traces"
    os.mkdir(os.environ["POLYDB_TRACE"])
    network = Network()
    members = []
    try:
        with EtcdSites(network, folder) as sites:
            members = sites.members
            for me in range(SITES):
                sites.start(me)
            begun = time.monotonic()
            load = Load(sites, count, seed)
            trouble = Trouble(sites, load)
            threads = [threading.Thread(target=load.run, args=(me,)) for me in range(SITES) for _ in range(CLIENTS)]
            for thread in threads:
                thread.start()
            try:
                work(load, trouble)
            finally:
                load.count = 0
                for thread in threads:
                    thread.join()
            assert not load.faults, load.faults
            troubles = ", ".join(f"{number} {what}" for what, number in trouble.counts.items())
            took = sorted(one.ended for one in sites.replaced)
            if took:
                troubles += f", which ended {took[len(took) // 2]:.2f} seconds after they could ask (median), and at most {took[-1]:.2f}"
            print(f"{load.committed} committed, {load.refused} refused, {load.unknown} cut off; {troubles}; {time.monotonic() - begun:.0f} seconds", flush=True)
            print(look(sites))
    finally:
        for member in members:
            member.kill()
        network.close()
        shutil.rmtree(folder, ignore_errors=True)


if __name__ == "__main__":
    main()
