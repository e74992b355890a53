"""Drawn deployments: sites in processes of their own, over files that tear, or over stores that take records and their gate together. They are killed at any moment and oftener
while a write is under way, or replaced while they live, with messages that are lost, come late, overtake one another, come twice, or come from processes long gone. Each is
written down as a schedule, whose run has to be what the sites have let out and shown, and told of their transactions.

    deployments.py [EVENTS [SEED [ONLY]]]

After so many events (10,000) in schedules of some hundreds each, six wrong hosts are tried, each until it is found. The seed of a run is printed; with ONLY, the deployment of
that number is drawn alone, and its schedule printed. The schedules are run by the program `polydb`, where `rt ci` leaves it or POLYDB_PROGRAM names it, and else by the library.
"""

import random
import sys
import time
from collections import Counter, deque

import deployed
from deployed import File, Found, Process, Schedule, Shown
from polydb import Full, JournalWrite, engine

MOST_TRIED = 2_000  # deployments of a wrong host until it has to be found


class OverAStore(Process):
    """Its journal is in a store that takes several writes whole or not at all: it is often given records and their gate together, and told to the site one after the other."""

    def is_of_records(self):
        return self.wanted.place >= self.stored

    def write(self):
        super().write()
        if self.is_of_records() and self.chance.random() < 0.7:
            self.file.put(self.stored - 1, b"\1")
            self.deployment.count("writes with their gate")

    def write_some(self):
        if self.chance.random() < 0.3:
            self.file.write(self.wanted)
        self.is_begun = True

    def go(self):
        if self.wanted is not None and not self.is_synced:
            if self.chance.random() < 0.5:
                self.write()
            self.is_synced = True  # there wholly, or not at all
        super().go()


class Deployment:
    """Sites with files, the processes that are there now, and all messages that were ever let out."""

    def __init__(self, seed, host=None, counts=None):
        self.chance = chance = random.Random(seed)
        self.host = host or chance.choice((Process, Process, OverAStore))
        self.counts = Counter() if counts is None else counts
        self.sites = chance.choice((1, 2, 2, 2, 3, 3, 3, 4))
        names = "abcdefgh"[: chance.randint(max(2, self.sites), 8)]
        at = {name: number if number < self.sites else chance.randrange(self.sites) for number, name in enumerate(names)}
        self.items = [[name for name in names if at[name] == me] for me in range(self.sites)]
        self.names = list(names)
        limit = f"journal {chance.randint(100, 2000)}\n" if chance.random() < 0.15 else ""
        self.config = f"sites {self.sites}\n{limit}" + "".join(f"item {name} {site} {chance.randint(0, 100)}\n" for name, site in at.items())
        self.schedule = Schedule(self.config, self.sites)
        self.files = [File() for _ in range(self.sites)]
        self.processes = [None] * self.sites
        self.is_full = [False] * self.sites  # no room for another start
        self.late = []  # where a host is wrong: writes of processes that are gone, with their sites
        self.copies = [[] for _ in range(self.sites)]  # where a host is wrong: of its file
        self.on_the_way = [deque() for _ in range(self.sites)]
        self.let_out = [[] for _ in range(self.sites)]
        self.reported = [[] for _ in range(self.sites)]  # the numbers of transactions
        self.outlived = []  # processes that live on
        self.draw_habits()

    def draw_habits(self):
        """How often what happens here: some deployments are calm, some aren't."""
        chance = self.chance
        self.failing = chance.choice((0.0, 0.05, 0.3))
        self.losing = chance.choice((0.0, 0.0, 0.02, 0.15))
        self.repeating = chance.choice((0.0, 0.05, 0.2))
        self.overtaking = chance.choice((0.0, 0.1, 0.5))
        self.old = chance.choice((0.0, 0.01, 0.05))
        self.promptness = chance.choice((0.05, 0.5, 0.9))  # how often all is written and let out at once
        self.slowness = chance.choice((0.0, 0.0, 0.0, 0.9))  # how often the host is at something else
        self.killing = chance.choice((0.0, 0.002, 0.01, 0.03))
        self.outliving = chance.choice((0.0, 0.5))  # how often one that would be killed is replaced
        self.ticking = chance.choice((0.005, 0.02, 0.1))
        self.asking = chance.choice((0.02, 0.06, 0.15))
        self.reading = 0.02
        engine._WRITE_ROOM = chance.choice((1, 60, 200, 1 << 16, 1 << 16))  # bytes of a write; more is taken where one doesn't fit

    def count(self, what, how_many=1):
        self.counts[what] += how_many

    def carry(self, message):
        """A message is let out: it is on its way, unless it is lost or goes to no site."""
        if message.to >= self.sites:
            return
        self.let_out[message.to].append(message)
        if self.chance.random() >= self.losing:
            self.on_the_way[message.to].append(message)

    # ---- what happens ----

    def step(self):
        """One thing, at one site."""
        chance = self.chance
        me = chance.randrange(self.sites)
        process = self.processes[me]
        if self.outlived and chance.random() < 0.2:
            chance.choice(self.outlived).let_out(chance.choice((1, 2, 5)))
        if self.late and self.processes[self.late[0][0]] is not None and chance.random() < 0.3:
            site, write = self.late.pop(0)
            self.files[site].write(write)
        if process is None:
            if chance.random() < 0.3:
                self.open(me)
            return
        is_writing = process.wanted is not None
        if chance.random() < self.killing * (6 if is_writing else 1):
            self.kill(me)
            return
        what = chance.random()
        if what < self.ticking:
            process.tick()
        elif what < self.ticking + self.asking:
            process.submit(*self.draw_program())
        elif what < self.ticking + self.asking + self.reading:
            self.read()
        elif chance.random() < 0.8:
            self.deliver(me)
        if self.processes[me] is process:
            self.settle(process, chance.random() < self.promptness)

    def settle(self, process, wholly):
        """The host goes on: with all that there is, or with a step or two."""
        if self.chance.random() < self.slowness:
            return
        if wholly:
            for _ in range(100):
                if not process.work():
                    break
            process.let_out(1_000)
            return
        for _ in range(self.chance.choice((0, 0, 1, 1, 1, 2))):
            process.work()
        process.let_out(self.chance.choice((0, 0, 1, 2, 5)))

    def open(self, me):
        if self.is_full[me]:
            return
        try:
            self.processes[me] = self.host(self, me)
            self.count("openings")
        except Full:
            self.is_full[me] = True

    def kill(self, me):
        process, self.processes[me] = self.processes[me], None
        process.is_replaced = self.chance.random() < self.outliving
        process.go()
        if process.is_replaced:
            self.outlived.append(process)
            self.count("replaced")

    def deliver(self, me):
        chance, way = self.chance, self.on_the_way[me]
        if self.let_out[me] and chance.random() < self.old:
            message = chance.choice(self.let_out[me])
        elif way:
            at = chance.randrange(len(way)) if chance.random() < self.overtaking else 0
            message = way[at]
            if chance.random() >= self.repeating:
                del way[at]
        else:
            return
        self.count("messages given")
        self.count("messages given of processes that are gone", message.sender not in self.processes)
        self.processes[me].deliver(message)

    def read(self):
        """A reading of all items that can be read, and what is told of some transactions, beside a report."""
        shown = Shown({}, {})
        for process in self.processes:
            if process is not None:
                shown.items.update(process.readings())
                shown.outcomes.update(process.outcomes())
        self.schedule.add("report", shown)

    def draw_program(self):
        chance = self.chance
        a, b, c = (chance.choice(self.names) for _ in range(3))
        some = chance.randint(1, 20)
        if chance.random() < 0.15:
            return chance.choice((f"return {a} + {b}", f"return {a} < {some * 5}", f"if {a} > {b} {{ return {c} }} ; return {a}")), True
        return (
            chance.choice(
                (
                    f"{a} := {a} - {some} ; {b} := {b} + {some}",
                    f"{a} := {a} - {some} ; {b} := {b} + {some}",
                    f"require {a} >= {some} ; {a} := {a} - {some} ; {b} := {b} + {some} ; return {a}",
                    f"{a} := {some}",
                    f"if {a} > {some} {{ {b} := {b} + 1 }} else {{ {c} := {a} }}",
                    f"{a} := min({a} * 2, 1000) ; return {a}",
                    f"{a} := {b} ; {b} := {c}",
                    f"require {a} > {some * 4} ; return {b}",
                )
            ),
            False,
        )

    def run(self, events):
        """So many events; at the end all is often settled. Then the schedule is run."""
        for _ in range(50 * events):
            if self.schedule.count >= events or all(self.is_full):
                break
            self.step()
        if self.chance.random() < 0.5:
            self.come_to_rest()
        self.read()
        for process in self.outlived:
            process.let_out(1_000)
            process.site.close()
        self.schedule.run()
        self.count("events", self.schedule.count)
        self.count("deployments")
        for line in self.schedule.wanted:
            if isinstance(line, str):
                self.count(line.split(" ", 1)[0])

    def come_to_rest(self):
        """All processes are there, nothing fails any more, and all that is on its way comes."""
        self.slowness = self.killing = self.failing = self.losing = self.repeating = self.overtaking = self.old = 0.0
        for tick in range(6):
            for me in range(self.sites):
                if self.processes[me] is None:
                    self.open(me)
                if self.processes[me] is not None:
                    self.processes[me].tick()
                    self.settle(self.processes[me], True)
            for _ in range(1_000):
                if not any(way for me, way in enumerate(self.on_the_way) if self.processes[me] is not None):
                    break
                for me in range(self.sites):
                    if self.processes[me] is not None:
                        self.deliver(me)
                        self.settle(self.processes[me], True)


# ---- wrong hosts ----


class SendsEarly(Process):
    """Now and then lets a message out before the records are in the file on which it rests."""

    def give(self, *words):
        super().give(*words)
        if self.waiting and self.chance.random() < 0.1:
            for out in self.waiting[-1].outs:
                if not isinstance(out, str):
                    self.deployment.carry(out)


class OpensAnOlderCopy(Process):
    """Now and then is opened on a copy of the file that was made before the last records came."""

    def found(self):
        copies = self.deployment.copies[self.me]
        if copies and self.chance.random() < 0.3:
            self.file.data[:] = self.chance.choice(copies)
        return super().found()

    def tell(self):
        super().tell()
        self.deployment.copies[self.me].append(bytes(self.file.data))


class SaysTooEarly(Process):
    """Says of a write that it is in the file before it is; it comes there later."""

    def __init__(self, *words):
        self.behind = deque()
        super().__init__(*words)

    def write(self):
        self.behind.append(self.wanted)
        self.is_synced = True

    def work(self):
        did = super().work()
        if self.behind and self.chance.random() < 0.7:
            self.file.write(self.behind.popleft())
        return did

    def go(self):
        if self.behind:
            self.file.tear(self.behind.popleft(), self.chance)
        super().go()


class WritesAfterItsEnd(Process):
    """Its last write is under way when it goes, and comes into the file later."""

    def go(self):
        if self.wanted is not None and not self.is_synced:
            self.deployment.late.append((self.me, self.wanted))
        super().go()


class WritesAtOnce(Process):
    """Writes records and the gate before them in one write, with one sync."""

    def ask(self):
        there = self.wanted is not None or super().ask()
        if there and self.wanted.place >= self.stored:
            frames = self.wanted
            self.tell()
            super().ask()
            self.gate, self.wanted = self.wanted, JournalWrite(self.wanted.place, self.wanted.bytes + frames.bytes)
        return there

    def work(self):
        if self.wanted is not None and not self.is_synced:  # the one write goes on, or is made
            (self.write_some if self.chance.random() < self.deployment.failing else self.write)()
            return True
        return super().work()

    def tell(self):
        if self.wanted.place < self.stored:
            self.wanted = self.gate
        super().tell()


class CountsWhatCameSince(Process):
    """Once what it asked for is written, takes what has come since for written, too."""

    def tell(self):
        is_gate = self.wanted.place < self.stored
        super().tell()
        while is_gate and self.chance.random() < 0.3 and super().ask():
            super().tell()


WRONG = [SendsEarly, OpensAnOlderCopy, SaysTooEarly, WritesAfterItsEnd, WritesAtOnce, CountsWhatCameSince]


# ---- all of them ----


def events_of(seed):
    return random.Random(seed).randint(50, 700)


def find(wrong, seed):
    """Draws deployments of a wrong host until it is found."""
    for number in range(MOST_TRIED):
        name = f"{wrong.__name__} {seed} {number}"
        deployment = Deployment(name, wrong)
        deployment.killing = max(deployment.killing, 0.01)
        try:
            deployment.run(events_of(name))
        except Found as found:
            return number + 1, deployment.schedule.count, found
    raise SystemExit(f"{wrong.__name__} isn't found in {MOST_TRIED} deployments")


def main():
    events = int(sys.argv[1]) if len(sys.argv) > 1 else 10_000
    seed = int(sys.argv[2]) if len(sys.argv) > 2 else random.SystemRandom().getrandbits(32)
    only = int(sys.argv[3]) if len(sys.argv) > 3 else None
    print(f"seed {seed}; schedules run by {deployed.PROGRAM or 'the library, as there is no program'}", flush=True)
    begun, counts, number = time.monotonic(), Counter(), 0 if only is None else only
    while counts["events"] < events:
        name = f"{seed} {number}"
        deployment = Deployment(name, counts=counts)
        try:
            deployment.run(events_of(name))
        except Found as found:
            print("".join(deployment.schedule.events), end="")
            raise SystemExit(f"deployment {number} of seed {seed}: {found}")
        if only is not None:
            print("".join(deployment.schedule.events), end="")
            break
        number += 1
    print(", ".join(f"{count:,} {what}" for what, count in sorted(counts.items())) + f"; {time.monotonic() - begun:.0f} seconds")
    for wrong in WRONG:
        tried, count, found = find(wrong, seed)
        print(f"{wrong.__name__}: found in deployment {tried}, after {count} events: {found}")


if __name__ == "__main__":
    main()
