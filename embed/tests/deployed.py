"""Sites in processes of their own, as the library sees them: each a `polydb.Site` over a file in memory that tears where it is killed. What happens to them is written down
as a schedule of plain events, and the run of that schedule is compared with what they let out and show. `deployments.py` draws what happens.

How the one becomes the other. A site's step counts in the schedule once the host has said that its records are in the file, or once a crash has left them there; so
nothing is ever taken back. Then the event is written: a request, a delivery, a tick, a start. A process that goes is a `stop`, and what it did since then never was. A first
start is no event, since the sites of a schedule begin by one. Which messages and lines a step makes, and how long the journal is after it, is known at once by a second
site of the library (`Ahead`), whose disk is never late.
"""

import os
import subprocess
import sys
from collections import deque
from pathlib import Path

sys.path.insert(0, str(Path(__file__).resolve().parent.parent))

import polydb  # noqa: E402
from polydb import EMPTY_JOURNAL, Message, Outcome, Site  # noqa: E402

HEADER = 8  # bytes before the first gate
HEAD = 5  # a gate, and the length of its record
NO_MESSAGE = 2**64 - 1  # in a schedule, of a message that isn't sent there
KINDS = {1: "lock", 2: "granted", 3: "denied", 4: "prepare", 5: "yes", 6: "no", 7: "outcome", 8: "ask", 18: "granted", 20: "prepare"}


class Found(Exception):
    """What the sites have let out or show isn't what the schedule's run has."""


def journal_length(data):
    """How long the journal in a file is, from its header to its closed gate, and how many records it has."""
    place, records = HEADER, 0
    while data[place : place + 1] == b"\1":
        end = place + HEAD + int.from_bytes(data[place + 1 : place + HEAD], "big")
        if end >= len(data):
            break  # no journal: the library says so
        place, records = end, records + 1
    return place + 1, records


class File:
    """A site's file. What was written and synced stays; a write that is cut off leaves any bytes where it was to put its own."""

    def __init__(self):
        self.data = bytearray(EMPTY_JOURNAL)

    def write(self, write):
        self.put(write.place, write.bytes)

    def put(self, place, data):
        self.data.extend(bytes(max(0, place - len(self.data))))
        self.data[place : place + len(data)] = data

    def tear(self, write, chance):
        old, new = bytes(self.data[write.place :]), write.bytes
        way = chance.randrange(6)
        if way == 0:
            left = new[: chance.randint(0, len(new))]
        elif way == 1:
            left = new
        elif way == 2:
            left = bytes(chance.choice((byte, 0, 1, 165)) for byte in new)
        elif way == 3:  # its end, and before it what was there
            cut = chance.randint(0, len(new))
            left = old[:cut].ljust(cut, b"\0") + new[cut:]
        elif way == 4:
            left = chance.randbytes(chance.randint(0, len(new)))
        else:
            left = b""
        self.put(write.place, left)


class Sent:
    """A message that some step has made. It has its number in the schedule once that step has happened there."""

    def __init__(self, message):
        self.to, self.bytes, self.number = message.to, message.bytes, None
        self.sender = None  # the process that let it out

    def line(self):
        epoch, number = (int.from_bytes(self.bytes[at : at + 4], "big") for at in (4, 8))
        return f"sent {self.number} {self.bytes[1]}>{self.to} {KINDS[self.bytes[0]]} {self.bytes[3]}.{epoch}.{number}"


class Given:
    """What a process was given, and what its site made of it."""

    def __init__(self, event, length, outs, lines):
        self.event = event  # as the schedule has it, or a message; None where it is no event
        self.length = length  # of the journal after it
        self.outs = outs  # what is let out of it
        self.lines = lines  # what the schedule's run prints


class Shown:
    """What the sites show at one moment: lines of items, and what they tell of transactions of theirs whose numbers they have reported."""

    def __init__(self, items, outcomes):
        self.items, self.outcomes = items, outcomes


class Schedule:
    """The events so far, and what their run is to print."""

    def __init__(self, config, sites):
        self.events = [config]
        self.count = 0
        self.wanted = []  # lines; and for a report what was shown
        self.messages = []  # by number
        self.is_born = [False] * sites  # whether a start of the site was written
        self.is_up = [False] * sites

    def add(self, event, *wanted):
        self.events.append(event + "\n")
        self.count += 1
        self.wanted += wanted

    def happens(self, me, given):
        """A step happens: its messages get their numbers, in the order in which it sent them."""
        for out in given.outs:
            if isinstance(out, Sent):
                out.number = len(self.messages)
                self.messages.append(out)
        event = given.event
        if isinstance(event, Sent):
            event = f"deliver {NO_MESSAGE if event.number is None else event.number}"
        if event is not None:
            self.add(event, *given.lines)

    def starts(self, me):
        self.is_born[me] = self.is_up[me] = True

    def stops(self, me):
        if self.is_up[me]:
            self.is_up[me] = False
            self.add(f"stop {me}", f"stopped {me}")

    def run(self):
        """Runs it, and compares line by line."""
        self.add("sent", *[message.line() for message in self.messages])
        text = "".join(self.events)
        status, said = run_of(text)
        lines = iter(said.splitlines())
        final = {}  # whether it commits, of each transaction of which that was told
        for number, wanted in enumerate(self.wanted, 1):
            line = next(lines, None)
            if isinstance(wanted, Shown):
                shown, lists = {}, {"committed": set(), "open": set()}
                while line not in (None, "end"):
                    word, _, rest = line.partition(" ")
                    if word == "item":
                        name, _, value = rest.partition(" ")
                        shown[name] = value
                    elif word in lists:
                        lists[word].update(rest.split())
                    line = next(lines, None)
                for name, value in wanted.items.items():
                    if shown.get(name) != value:
                        raise Found(f"a reading of {name}: the run has {shown.get(name)}, and the site has {value}")
                compare_outcomes(wanted.outcomes, final, **lists)
            elif line != wanted:
                raise Found(f"line {number} of what is printed: the run has {line!r}, and the sites have {wanted!r}")
        left = next(lines, None)
        if status != 0 or left is not None:
            raise Found(f"the run ends with status {status}, and goes on with {left!r}")


def compare_outcomes(told, final, committed, open):
    """What sites tell of transactions is so in the run, and all that was told as final before is so still."""
    for transaction, outcome in told.items():
        if outcome is None:
            raise Found(f"{transaction} was reported, and its site says that it may give the number yet")
        if outcome is Outcome.AT_WORK:
            if transaction in committed:
                raise Found(f"{transaction} is at work, its site says, and is committed in the run")
        elif final.setdefault(transaction, outcome is Outcome.COMMITTED) != (outcome is Outcome.COMMITTED):
            raise Found(f"{transaction} was told otherwise before: now {outcome}")
    for transaction, commits in final.items():
        if commits != (transaction in committed) or (not commits and transaction in open):
            raise Found(f"{transaction} {'commits' if commits else 'never commits'}, its site has said, and it isn't so in the run")


def program():
    """The program `polydb`, if it is there."""
    place = Path(os.environ.get("POLYDB_PROGRAM", Path(__file__).resolve().parents[2] / "crates" / "pv_app" / "out" / "pv_app"))
    return place if os.access(place, os.X_OK) else None


PROGRAM = program()


def run_of(text):
    """What `polydb run` says of a schedule: by the program, or by the library where that isn't there."""
    if PROGRAM is None:
        status, said = polydb.run(text)
        return status, said.decode()
    ran = subprocess.run([PROGRAM, "run"], input=text.encode(), stdout=subprocess.PIPE)
    return ran.returncode, ran.stdout.decode()


class Ahead:
    """The site of a process over a disk that is never late: so what a step makes is known at once."""

    def __init__(self, config, me, journal):
        self.site = Site(config, me, journal)
        self.length, _ = journal_length(journal)
        first = self.site.next_write()  # the record of its epoch: its length, its kind, and its number
        self.epoch = int.from_bytes(first.bytes[5:9], "big")
        self.outs()

    def outs(self):
        """What the last step lets out. All that it wants written is written."""
        while (write := self.site.next_write()) is not None:
            self.length = max(self.length, write.place + len(write.bytes))
            self.site.written(write)
        outs = []
        while (out := self.site.take()) is not None:
            outs.append(Sent(out) if isinstance(out, Message) else out.line)
        return outs


class Process:
    """A process with a site, on the file that the one before it has left. It writes, syncs, and says so, in steps between which all else may happen."""

    def __init__(self, deployment, me):
        self.deployment, self.me = deployment, me
        self.chance, self.schedule, self.file = deployment.chance, deployment.schedule, deployment.files[me]
        journal = self.found()
        try:
            self.site = Site(deployment.config, me, journal)
        except (polydb.NotOurs, polydb.BadRecord, polydb.TooManyOutcomes) as error:
            raise Found(f"site {me} can't be opened: {error}") from error
        self.ahead = Ahead(deployment.config, me, journal)
        self.stored, self.records = journal_length(journal)
        self.wanted = None  # the write that the host was asked for last
        self.is_begun = self.is_synced = False
        self.frames = None  # the last write of records: they count once the gate before them is open
        self.waiting = deque()  # what was given, and rests on records that aren't said to be in the file
        self.made = deque()  # what may be let out, as the schedule's run has made it
        is_first = not self.schedule.is_born[me]
        lines = [] if is_first else [f"started {me} {self.ahead.epoch}"]
        self.waiting.append(Given(None if is_first else f"start {me}", self.ahead.length, [], lines))
        self.is_open = False  # whether that start has happened
        self.is_replaced = False  # whether it lives on when the next one has its file

    def found(self):
        """The bytes that it is opened on: all of the file, or the journal in it."""
        data = bytes(self.file.data)
        return data if self.chance.random() < 0.5 else data[: max(journal_length(data)[0], len(EMPTY_JOURNAL))]

    # ---- what it is given ----

    def give(self, event, call, *words):
        call(self.site, *words)
        call(self.ahead.site, *words)
        outs = self.ahead.outs()
        self.waiting.append(Given(event, self.ahead.length, outs, [out for out in outs if isinstance(out, str)]))
        self.settle(self.stored)

    def submit(self, text, query):
        self.give(f"{'query' if query else 'submit'} {self.me} {text}", Site.submit, text, query)

    def deliver(self, message):
        self.give(message, Site.receive, message.bytes)

    def tick(self):
        self.give(f"tick {self.me}", Site.tick)

    def settle(self, length):
        """What is in the file now has happened."""
        while self.waiting and self.waiting[0].length <= length:
            given = self.waiting.popleft()
            self.schedule.happens(self.me, given)
            if not self.is_open:
                self.is_open = True
                self.schedule.starts(self.me)
            self.made.extend(given.outs)

    # ---- its host ----

    def ask(self):
        """The write that is next. One that was begun comes again, the same, whatever the site was given since."""
        again = self.site.next_write()
        if self.wanted is not None and again != self.wanted:
            raise Found(f"site {self.me} asks for another write than before")
        self.wanted = again
        return again is not None

    def write_some(self):
        """Some of the write has come into the file, or it has failed."""
        self.file.tear(self.wanted, self.chance)
        self.is_begun = True

    def write(self):
        self.file.write(self.wanted)
        self.is_synced = True

    def tell(self):
        """It is in the file, and the host says so."""
        write, self.wanted = self.wanted, None
        self.is_begun = self.is_synced = False
        self.site.written(write)
        if write.place >= self.stored:
            self.frames = write
        else:  # the gate before them
            _, records = journal_length(EMPTY_JOURNAL[:HEADER] + b"\1" + self.frames.bytes)
            self.deployment.count("writes of a record")
            self.deployment.count("writes of several", records > 1)
            self.stored, self.records = self.frames.place + len(self.frames.bytes), self.records + records
            self.settle(self.stored)

    def work(self):
        """One step of a write."""
        if self.wanted is None or not self.is_begun:
            if not self.ask():
                return False
        if self.is_synced:
            self.tell()
        elif self.chance.random() < self.deployment.failing:
            self.write_some()
        else:
            self.write()
        return True

    def let_out(self, most):
        """Takes what the site lets out, so many at most: it is what the schedule's run has made, in its order."""
        while most > 0 and (out := self.site.take()) is not None:
            most -= 1
            self.is_let_out(out)

    def is_let_out(self, out):
        if not self.made:
            raise Found(f"site {self.me} lets something out that isn't made: {out}")
        made = self.made.popleft()
        if isinstance(out, Message):
            if not isinstance(made, Sent) or (made.to, made.bytes) != (out.to, out.bytes):
                raise Found(f"site {self.me} lets another message out than is made: {out}")
            made.sender = self
            self.deployment.carry(made)
        elif made != out.line:
            raise Found(f"site {self.me} reports {out.line!r}, and {made!r} is made")
        elif made.startswith("txn "):
            self.deployment.reported[self.me].append(made.split()[1])
        self.deployment.count("let out")

    def readings(self):
        """What it shows of its items, where all is written."""
        is_written = self.is_open and not self.waiting and self.stored == self.ahead.length
        shown = {}
        for name in self.deployment.items[self.me]:
            try:
                shown[name] = self.site.read(name)
            except polydb.Unwritten:
                if is_written:
                    raise Found(f"{name} isn't shown, and all is written") from None
            else:
                if not is_written:
                    raise Found(f"{name} is shown before all is written")
                self.deployment.count("readings")
                self.deployment.count("readings in doubt", " if " in shown[name])
        return shown

    def outcomes(self):
        """What it tells of some transactions of its site, where all is written."""
        numbers, told = self.deployment.reported[self.me], {}
        for transaction in {*numbers[-3:], *self.chance.sample(numbers, min(len(numbers), 5))}:
            try:
                told[transaction] = self.site.outcome(transaction)
            except polydb.Unwritten:
                return {}
        self.deployment.count("outcomes told", len(told))
        return told

    # ---- its end ----

    def go(self):
        """It is killed, at any moment: within a write too, of which any bytes are left. Or it is replaced then, and what could have been taken from it is taken later."""
        if self.wanted is not None and not self.is_synced:
            self.file.tear(self.wanted, self.chance)
        left, records = journal_length(self.file.data)
        self.deployment.count("kills")
        self.deployment.count("kills with more in the file than was said", records > self.records)
        self.settle(left)
        self.deployment.count("inputs lost in kills", len(self.waiting) - (not self.is_open))
        self.deployment.count("epochs lost in kills", not self.is_open)
        if self.is_open:
            self.schedule.stops(self.me)
        self.ahead.site.close()
        if not self.is_replaced:
            self.site.close()
