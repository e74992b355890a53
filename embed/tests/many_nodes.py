"""Transfers between three polydbd, several at once at each, while they are killed at random: the total is kept.

    many_nodes.py [COUNT [SEED]]

After COUNT commits (10,000) the killing ends, and once all is known the items have their first total, and `polydb show` shows each item, by the journals alone, as its
site does. The program is looked for where `rt ci` leaves it, or in the variable POLYDB_PROGRAM; without it that last look is left out, and the last line says so.
"""

import random
import sys
import threading
import time
from pathlib import Path

HERE = Path(__file__).resolve().parent
sys.path[:0] = [str(HERE.parent), str(HERE.parent / "examples"), str(HERE)]

import many_transfers  # noqa: E402
import nodes  # noqa: E402

SITES = 3
CLIENTS = 4  # at each site
ITEMS = {f"{letter}{number}": site for site, letter in enumerate("abc") for number in range(8)}
FIRST_VALUE = 100
CONFIG = f"sites {SITES}\n" + "".join(f"item {name} {site} {FIRST_VALUE}\n" for name, site in ITEMS.items())
KILL = 60  # commits between two kills, on average
PATIENCE = 120.0


class Load:
    """Clients that ask for transfers, and their counts."""

    def __init__(self, sites, count, seed):
        self.sites = sites
        self.count = count
        self.chance = random.Random(seed)
        self.lock = threading.Lock()
        self.committed = self.refused = self.unknown = self.killed = 0
        self.faults = []

    def is_done(self):
        return self.committed >= self.count or self.faults

    def program(self):
        with self.lock:
            giver, taker = self.chance.sample(sorted(ITEMS), 2)
            amount = self.chance.randint(1, 9)
        return f"{giver} := {giver} - {amount} ; {taker} := {taker} + {amount}"

    def run(self, me):
        try:
            while not self.is_done():
                try:
                    client = self.sites.client(me)
                except OSError:
                    time.sleep(0.02)  # it is down
                    continue
                self.ask(client)
                client.close()
        except BaseException as error:
            self.faults.append(error)
            raise

    def ask(self, client):
        """Asks for one transfer after another, until the site goes."""
        while not self.is_done():
            try:
                answer = client.ask("submit", self.program())
            except OSError:
                with self.lock:
                    self.unknown += 1
                return
            with self.lock:
                self.committed += answer.startswith("commit ")
                self.refused += answer.startswith("refuse ")
            assert answer.startswith(("commit ", "refuse ")), answer

    def kill_at_random(self):
        """Kills a site now and then, and starts it again in a moment."""
        next_kill, last = 0.0, (0, time.monotonic())
        while not self.is_done():
            time.sleep(0.01)
            if self.committed > last[0]:
                last = (self.committed, time.monotonic())
            assert time.monotonic() < last[1] + PATIENCE, f"no commit for {PATIENCE} seconds, after {self.committed}"
            if self.committed >= next_kill:
                me = self.chance.randrange(SITES)
                self.sites.kill(me)
                self.killed += 1
                time.sleep(self.chance.uniform(0.0, 0.1))
                assert "the process before didn't end well" in self.sites.start(me)
                next_kill = self.committed + self.chance.expovariate(1 / KILL)


def main():
    count = int(sys.argv[1]) if len(sys.argv) > 1 else 10_000
    seed = int(sys.argv[2]) if len(sys.argv) > 2 else random.SystemRandom().getrandbits(32)
    print(f"seed {seed}", flush=True)
    begun = time.monotonic()
    with nodes.Sites(CONFIG, SITES, one_folder=True) as sites:
        for me in range(SITES):
            sites.start(me)
        load = Load(sites, count, seed)
        threads = [threading.Thread(target=load.run, args=(me,)) for me in range(SITES) for _ in range(CLIENTS)]
        for thread in threads:
            thread.start()
        try:
            load.kill_at_random()
        finally:
            load.count = 0
            for thread in threads:
                thread.join()
        assert not load.faults, load.faults
        shown = {}
        for me in range(SITES):
            names = [name for name, site in ITEMS.items() if site == me]
            for line in sites.polydbc(me, "read", "--certain", *names):
                _, name, value = line.split()
                shown[name] = value
        for me in range(SITES):
            sites.stop(me)
        print(f"{load.committed} committed, {load.refused} refused, {load.unknown} cut off; {load.killed} killed; {time.monotonic() - begun:.0f} seconds")
        total = sum(map(int, shown.values()))
        assert total == FIRST_VALUE * len(ITEMS), f"the total is {total}, and was {FIRST_VALUE * len(ITEMS)}: {shown}"
        if many_transfers.program() is None:
            print("the total is kept; not looked at by show: there is no program")
            return
        by_files = many_transfers.show(sites.data(0), CONFIG)
        assert by_files == shown, (by_files, shown)
        print("the total is kept, and show has the same")


if __name__ == "__main__":
    main()
