"""Transfers between three processes with a site each, while they are killed at random: the total is kept.

    many_transfers.py [COUNT [SEED [PROGRAM]]]

Each process is a host as in the example `three_processes`, or PROGRAM, as the example `process` in Rust; that one is killed, but doesn't die within a write by
itself. At random moments one is killed by SIGKILL, and now and then one dies within a write to
its journal, of which any bytes are left. It starts again on its file. And now and then a write fails, of which a part is left, and is made again. After COUNT commits (10,000) the killing ends, and once all is known the
items have their first total, and `polydb show` shows each item, by the journals alone, as its site does. The program is looked for where `rt ci`
leaves it, or in the variable POLYDB_PROGRAM; without it that last look is left out, and the last line says so.
"""

import errno
import os
import random
import select
import shutil
import signal
import subprocess
import sys
import tempfile
import time
from pathlib import Path

HERE = Path(__file__).resolve().parent
sys.path[:0] = [str(HERE.parent), str(HERE.parent / "examples")]

from three_processes import Ended, Host, Process, free_ports, is_certain, tick_until  # noqa: E402

SITES = 3
ITEMS = {f"{letter}{number}": site for site, letter in enumerate("abc") for number in range(4)}
FIRST_VALUE = 100
CONFIG = f"sites {SITES}\n" + "".join(f"item {name} {site} {FIRST_VALUE}\n" for name, site in ITEMS.items())

TICK = 0.02  # seconds between two ticks
KILL = 40  # commits between two kills, on average
STAYS_DOWN = 0.1  # seconds that a killed process stays down at most
TEARS = 0.0005  # how likely a process dies within a write
FAILS = 0.005  # how likely a write fails, and is to be made again
PATIENCE = 120.0  # seconds without a commit until the test gives up


class MortalHost(Host):
    """Dies within a write now and then, and leaves any bytes where that write was to put its own; or goes on after a write that has failed."""

    def __init__(self, *words, seed):
        self.chance = random.Random(seed)
        super().__init__(*words)
        files = self.site.files
        whole = files.write

        def write(place, data):
            if self.chance.random() < TEARS:
                left = self.chance.randbytes(self.chance.randint(0, len(data)))
                if self.chance.random() < 0.5:
                    left = data[: len(left)]
                os.pwrite(files._journal, left, place)
                os.kill(os.getpid(), signal.SIGKILL)
            if self.chance.random() < FAILS:
                os.pwrite(files._journal, data[: self.chance.randint(0, len(data))], place)
                raise OSError(errno.EIO, "the disk fails")
            whole(place, data)

        files.write = write

    def complain(self, line):
        pass  # much fails here


class Driver:
    """Keeps one transfer under way at each process that is up."""

    def __init__(self, count, seed, folder, program):
        self.count = count
        self.program = program
        self.chance = random.Random(seed)
        self.folder = folder
        self.ports = free_ports(SITES)
        self.down = {}  # site: when it starts again
        self.under_way = set()  # the sites that work on a transfer
        self.committed = self.refused = self.unknown = self.killed = self.torn = 0
        self.processes = [self.start(me) for me in range(SITES)]

    def start(self, me):
        ports = ",".join(map(str, self.ports))
        words = [sys.executable, __file__, "host", str(me), self.folder, ports, str(self.chance.getrandbits(32))]
        if self.program is not None:
            words = [self.program, str(me), self.folder, ports]
        while True:
            try:
                return Process(words, me)
            except Ended:
                self.torn += 1  # while it wrote the record of its epoch

    def begin(self, me):
        giver, taker = self.chance.sample(sorted(ITEMS), 2)
        amount = self.chance.randint(1, 9)
        self.processes[me].tell(f"submit {giver} := {giver} - {amount} ; {taker} := {taker} + {amount}")
        self.under_way.add(me)

    def is_down(self, me):
        """The process has died: it starts again in a moment."""
        self.processes[me].process.wait()
        self.down[me] = time.monotonic() + self.chance.uniform(0.0, STAYS_DOWN)
        if me in self.under_way:
            self.under_way.discard(me)
            self.unknown += 1

    def until_kill(self):
        return self.chance.expovariate(1 / KILL)

    def kill(self):
        me = self.chance.choice([me for me in range(SITES) if me not in self.down])
        self.processes[me].kill()
        self.killed += 1
        self.is_down(me)

    def hear(self, me):
        """Lines of a process that is up."""
        process = self.processes[me]
        data = os.read(process.process.stdout.fileno(), 65536)
        if not data:
            self.torn += 1
            self.is_down(me)
            return
        *lines, process.left = (process.left + data).split(b"\n")
        for line in lines:
            words = line.decode().split()
            if words[:2] == ["report", "commit"]:
                self.committed += 1
                self.under_way.discard(me)
            elif words[:2] == ["report", "refuse"]:
                self.refused += 1
                self.under_way.discard(me)
            elif words[:2] != ["report", "txn"]:
                raise SystemExit(f"site {me} says: {line.decode()}")

    def tell_all(self, line):
        for me, process in enumerate(self.processes):
            if me not in self.down:
                try:
                    process.tell(line)
                except BrokenPipeError:
                    pass  # it has just died within a write

    def run(self):
        """Transfers and kills, until so many have committed."""
        now = time.monotonic()
        tick, kill, last = now + TICK, self.until_kill(), (0, now)
        while self.committed < self.count:
            now = time.monotonic()
            if self.committed > last[0]:
                last = (self.committed, now)
            elif now > last[1] + PATIENCE:
                raise SystemExit(f"no commit for {PATIENCE} seconds, after {self.committed}")
            for me in [me for me, when in self.down.items() if when <= now]:
                self.processes[me] = self.start(me)
                del self.down[me]
            if self.committed >= kill and len(self.down) < SITES:
                self.kill()
                kill = self.committed + self.until_kill()
            if now >= tick:
                self.tell_all("tick")
                tick = now + TICK
            up = {process.process.stdout: me for me, process in enumerate(self.processes) if me not in self.down}
            for me in up.values():
                if me not in self.under_way:
                    try:
                        self.begin(me)
                    except BrokenPipeError:
                        pass
            ready, _, _ = select.select(list(up), [], [], max(0.0, tick - time.monotonic()))
            for stream in ready:
                self.hear(up[stream])

    def end(self):
        """All processes are up and not killed any more. Gives what the items show once all is known."""
        for process in self.processes:
            if process.process.poll() is None:
                process.kill()
        os.environ["NO_TEARS"] = "yes"
        self.processes = [self.start(me) for me in range(SITES)]
        shown = {}

        def is_known():
            for name, site in ITEMS.items():
                shown[name] = self.processes[site].read(name)
            return all(map(is_certain, shown.values()))

        tick_until(self.processes, is_known)
        for process in self.processes:
            process.end()
        return shown

    def stop(self):
        for process in self.processes:
            if process.process.poll() is None:
                process.kill()


def program():
    """The program `polydb`, if it is there."""
    place = Path(os.environ.get("POLYDB_PROGRAM", HERE.parent.parent / "crates" / "pv_app" / "out" / "pv_app")).resolve()
    return place if os.access(place, os.X_OK) else None


def show(folder, config=CONFIG):
    """What `polydb show` shows of each item, by the files alone."""
    said = subprocess.run([program(), "show"], cwd=folder, input=config.encode(), stdout=subprocess.PIPE, check=True).stdout.decode()
    return dict(line.removeprefix("item ").split(" ", 1) for line in said.splitlines() if line.startswith("item "))


def main():
    if sys.argv[1:2] == ["host"]:
        me, folder, ports, seed = sys.argv[2:]
        words = (CONFIG, int(me), folder, [int(port) for port in ports.split(",")])
        host = Host(*words) if "NO_TEARS" in os.environ else MortalHost(*words, seed=int(seed))
        host.run()
        return
    count = int(sys.argv[1]) if len(sys.argv) > 1 else 10_000
    seed = int(sys.argv[2]) if len(sys.argv) > 2 else random.SystemRandom().getrandbits(32)
    host = sys.argv[3] if len(sys.argv) > 3 else None
    print(f"seed {seed}", flush=True)
    folder = tempfile.mkdtemp(prefix="polydb-")
    (Path(folder) / "config").write_text(CONFIG)
    begun = time.monotonic()
    driver = Driver(count, seed, folder, host)
    try:
        driver.run()
        shown = driver.end()
        total = sum(map(int, shown.values()))
        print(
            f"{driver.committed} committed, {driver.refused} refused, {driver.unknown} cut off; "
            f"{driver.killed} killed, {driver.torn} torn in a write; {time.monotonic() - begun:.0f} seconds"
        )
        if total != FIRST_VALUE * len(ITEMS):
            raise SystemExit(f"the total is {total}, and was {FIRST_VALUE * len(ITEMS)}: {shown}")
        if program() is None:
            print("the total is kept; not looked at by show: there is no program")
            return
        if show(folder) != shown:
            raise SystemExit(f"show has {show(folder)}, and the sites have {shown}")
        print("the total is kept, and show has the same")
    finally:
        driver.stop()
        shutil.rmtree(folder)


if __name__ == "__main__":
    main()
