"""Sites in processes of their own that have written down what they were given, let out and showed (`traced/trace.c`): all of it becomes one schedule, whose run by `polydb` has to print and show
the same.

Each process is gone through once more by a second site of the library, on the journal that it was opened on: so it is known which lines and messages each step made, and how long the journal was
after it. A step has happened if the journal that the process left is that long, and then it stands in the schedule; what a process took in after the last thing that anybody could see of it never
was. The sites' steps are put in one order in which a message is sent before it is delivered; there is one, since no process is given what no other has let out.

A host that lets something out before its write isn't found here where the write then comes: that is for `etcd_sites.py`, which finds what a process that was replaced lets out.
"""

import sys
from collections import deque
from pathlib import Path

sys.path.insert(0, str(Path(__file__).resolve().parent))

import etcd_store  # noqa: E402
from deployed import Ahead, Found, Given, Schedule, Sent, Shown, journal_length  # noqa: E402
from polydb import Site  # noqa: E402


class Reading:
    """What a process showed of an item."""

    def __init__(self, line):
        self.name, _, self.value = line.removeprefix("item ").partition(" ")


class Counts:
    def __init__(self):
        self.processes = self.inputs = self.let_out = self.readings = self.never = 0


def steps_of(config, me, journal, left, lines, counts):
    """What a process did that has happened: what it was given, one after another, and its readings. Its journal was this one, and is so long once it is gone."""
    ahead = Ahead(config, me, journal)
    steps, made, seen = [Given(f"start {me}", ahead.length, [], [f"started {me} {ahead.epoch}"])], deque(), 0
    for line in lines:
        verb, _, rest = line.partition(" ")
        if verb in ("submit", "query", "message", "tick"):
            counts.inputs += 1
            if verb == "message":
                event = bytes.fromhex(rest)
                ahead.site.receive(event)
            elif verb == "tick":
                event = f"tick {me}"
                ahead.site.tick()
            else:
                event = f"{verb} {me} {rest}"
                Site.submit(ahead.site, rest, verb == "query")
            outs = ahead.outs()
            made.extend((out, len(steps)) for out in outs if not (isinstance(out, Sent) and out.to == me))
            steps.append(Given(event, ahead.length, outs, [out for out in outs if isinstance(out, str)]))
        elif verb == "read":
            counts.readings += 1
            if ahead.length > left:
                raise Found(f"site {me} shows {rest!r}, which rests on what isn't in its journal")
            steps.append(Reading(rest))
            seen = len(steps)
        else:
            counts.let_out += 1
            if not made:
                raise Found(f"site {me} lets something out that isn't made: {line}")
            out, step = made.popleft()
            wanted = f"sent {out.to} {out.bytes.hex()}" if isinstance(out, Sent) else f"report {out}"
            if line != wanted:
                raise Found(f"site {me} lets out {line!r}, and {wanted!r} is made")
            if steps[step].length > left:
                raise Found(f"site {me} lets out {line!r}, which rests on what isn't in its journal")
            seen = max(seen, step + 1)
    ahead.site.close()
    while steps and isinstance(steps[-1], Given) and steps[-1].length > left:
        steps.pop()
        counts.never += 1
    while len(steps) > max(seen, 1) and isinstance(steps[-2], Given) and steps[-1].length == steps[-2].length:
        steps.pop()
        counts.never += 1
    return steps


STOP = object()


def steps_of_all(config, me, folder, writes, counts):
    """What stands at one site, in its order: the steps of each process, and its end."""
    steps, journal, writes = [], bytearray(), deque(writes)
    openings = sorted(int(path.name.split("-")[2]) for path in Path(folder).glob(f"site-{me}-*"))
    for opening in openings:
        while writes and writes[0][0] < opening:
            etcd_store.put(journal, writes.popleft()[1])
        before = bytes(journal)
        while writes and writes[0][0] == opening:
            etcd_store.put(journal, writes.popleft()[1])
        lines = (Path(folder) / f"site-{me}-{opening}").read_text().splitlines()
        found = steps_of(config, me, before, journal_length(journal)[0], lines, counts)
        counts.processes += 1
        if found:
            steps += [*found, STOP]
    return deque(steps)


def schedule_of(config, count, folder, writes):
    """All of it in one order, as a schedule: `writes` are those of each site's journal, as `etcd_store.writes_of` has them. Gives it with what was counted."""
    schedule, counts, sent = Schedule(config, count), Counts(), {}
    sites = [steps_of_all(config, me, folder, writes[me], counts) for me in range(count)]
    while left := sum(map(len, sites)):
        for me, steps in enumerate(sites):
            while steps and happens(schedule, me, steps[0], sent):
                steps.popleft()
        if sum(map(len, sites)) == left:
            raise Found("no site can go on: a message is delivered that nobody sent before")
    return schedule, counts


def happens(schedule, me, step, sent):
    """One step happens, unless it delivers a message that isn't sent yet."""
    if step is STOP:
        schedule.stops(me)
    elif isinstance(step, Reading):
        schedule.add("report", Shown({step.name: step.value}, {}))
    else:
        is_start = isinstance(step.event, str) and step.event.startswith("start ")
        if isinstance(step.event, bytes):
            if (me, step.event) not in sent:
                return False
            step.event = sent[me, step.event]
        elif is_start and not schedule.is_born[me]:  # the sites of a schedule begin by one
            step.event, step.lines = None, []
        schedule.happens(me, step)
        if is_start:
            schedule.starts(me)
        for out in step.outs:
            if isinstance(out, Sent):
                sent.setdefault((out.to, out.bytes), out)
    return True


def check(config, count, folder, writes):
    """Runs the schedule, and compares line by line; gives in words what was compared."""
    schedule, counts = schedule_of(config, count, folder, writes)
    schedule.run()
    return (
        f"the run of a schedule of {schedule.count:,} events has each of {counts.let_out:,} messages and reports that {counts.processes} processes let out, and {counts.readings} readings; "
        f"of {counts.inputs:,} inputs {counts.never} never were"
    )
