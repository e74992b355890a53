"""Drawn deployments whose journals are in etcd, as `deployments.py` has them on files: sites in processes of their own (`driven/site.c`), which reach etcd by a proxy that loses requests
and answers, lets requests come late, and answers what is nothing. They are killed at any moment, and replaced while they live; one that was replaced is then asked to go on, and has to refuse
and to let nothing out. Each deployment is written down as a schedule, whose run has to be what the sites have let out and shown.

    etcd_sites.py [EVENTS [SEED [ONLY]]]

After so many events (3,000). The seed is printed; with ONLY, the deployment of that number is drawn alone, and its schedule printed.
"""

import os
import random
import shutil
import signal
import subprocess
import sys
import tempfile
import threading
import time
from collections import Counter, deque
from http.server import BaseHTTPRequestHandler, ThreadingHTTPServer
from pathlib import Path

HERE = Path(__file__).resolve().parent
sys.path[:0] = [str(HERE.parent), str(HERE)]

import deployed  # noqa: E402
import etcd_store  # noqa: E402
from deployed import Ahead, Found, Given, Sent, journal_length  # noqa: E402
from deployments import Deployment, events_of  # noqa: E402
from polydb import Full, Message, Report, Site  # noqa: E402

SITE = Path(os.environ.get("POLYDB_PROGRAMS", HERE.parent / "out")) / "etcd_site"
PATIENCE = (60, 400)  # milliseconds that a site waits for etcd
REPLACED, STORE, ENGINE = 13, 14, 8  # causes of a host
UNWRITTEN, FULL = 37, 26  # statuses of the library


# ---- between a site and etcd ----


class Proxy(BaseHTTPRequestHandler):
    """Hands requests on to etcd, or does something else with them."""

    protocol_version = "HTTP/1.1"
    wbufsize = 1 << 16
    disable_nagle_algorithm = True
    member = ""
    chance = random.Random()
    failing = 0.0
    counts = Counter()
    late = []

    def do_POST(self):
        body = self.rfile.read(int(self.headers["Content-Length"]))
        fate = self.chance.choice(["lost", "unanswered", "late", "refused", "refused and done", "cut"]) if self.chance.random() < self.failing else None
        if fate is None:
            self.answer(200, self.hand_on(body))
            return
        self.counts[f"requests {fate}"] += 1
        if fate == "lost":
            self.close_connection = True
        elif fate == "unanswered":
            self.hand_on(body)
            self.close_connection = True
        elif fate == "late":
            timer = threading.Timer(self.chance.choice((0.001, 0.02, 0.3)), self.hand_on, [body])
            self.late.append(timer)
            timer.start()
            self.close_connection = True
        elif fate == "cut":
            said = self.hand_on(body)
            self.answer(200, said[: self.chance.randrange(len(said))])
        else:
            if fate == "refused and done":
                self.hand_on(body)
            self.answer(503, b'{"error":"etcdserver: request timed out","code":14}')

    def hand_on(self, body):
        link = etcd_store.http.client.HTTPConnection(self.member.removeprefix("http://"), timeout=30)
        link.request("POST", self.path, body)
        said = link.getresponse().read()
        link.close()
        return said

    def answer(self, status, body):
        self.send_response(status)
        self.send_header("Content-Length", str(len(body)))
        self.end_headers()
        try:
            self.wfile.write(body)
            self.wfile.flush()
        except OSError:
            pass  # killed

    def log_message(self, *_):
        pass


class Listener(ThreadingHTTPServer):
    daemon_threads = True

    def handle_error(self, *_):
        pass  # a site has been killed


# ---- sites ----


class Refused(Exception):
    def __init__(self, words):
        cause, status, self.words = words.split(" ", 2)
        self.cause, self.status = int(cause), int(status)
        super().__init__(words)


class EtcdProcess:
    """A process with a site, beside a second site of the library that knows at once what its steps make."""

    wanted = None  # its writes are its own

    def __init__(self, deployment, me):
        self.deployment, self.me, self.chance, self.schedule = deployment, me, deployment.chance, deployment.schedule
        words = [SITE, deployment.urls, deployment.prefix, str(me), deployment.config, str(deployment.patience)]
        while True:
            self.process = subprocess.Popen(words, stdin=subprocess.PIPE, stdout=subprocess.PIPE, text=True, bufsize=1)
            said = self.process.stdout.readline()
            if said.startswith("open "):
                break
            refused = Refused(said.removeprefix("refused ").rstrip("\n"))
            self.close()
            if refused.cause == ENGINE and refused.status == FULL:
                raise Full("an opening")
            if refused.cause != STORE:
                raise Found(f"site {me} can't be opened: {refused}")
        records, length, owner = map(int, said.split()[1:])
        journal = deployment.journal(me)
        self.stored, self.records = journal_length(journal)
        if (records, length) != (self.records, self.stored):
            raise Found(f"site {me} is opened on {records} records, and the journal has {self.records}")
        deployment.has_gone(me, self.stored)
        self.ahead = Ahead(deployment.config, me, journal)
        self.waiting, self.made = deque(), deque()
        self.is_open = self.is_up = False
        is_first = not self.schedule.is_born[me]
        self.waiting.append(Given(None if is_first else f"start {me}", self.ahead.length, [], [] if is_first else [f"started {me} {self.ahead.epoch}"]))
        self.fresh = []  # what the site has made since it was settled
        self.settling = None  # what tells it to settle while the next process takes the site

    def close(self):
        for pipe in (self.process.stdin, self.process.stdout):
            pipe.close()
        self.process.wait()

    # ---- what it is told ----

    def tell(self, line):
        """Tells it a line; gives what it says before `done`."""
        self.process.stdin.write(line + "\n")
        said = []
        while (word := self.process.stdout.readline().rstrip("\n")) != "done":
            if word.startswith("refused "):
                self.said = said
                raise Refused(word.removeprefix("refused "))
            assert word, f"site {self.me} has ended"
            said.append(word)
        return said

    def steps(self, event, call, *words):
        call(self.ahead.site, *words)
        outs = self.ahead.outs()
        self.fresh += outs
        self.waiting.append(Given(event, self.ahead.length, outs, [out for out in outs if isinstance(out, str)]))

    def give(self, line, event, call, *words):
        self.tell(line)
        self.steps(event, call, *words)
        self.settle_to(self.stored)

    def submit(self, text, query):
        self.give(f"{'query' if query else 'submit'} {text}", f"{'query' if query else 'submit'} {self.me} {text}", Site.submit, text, query)

    def deliver(self, message):
        self.give(f"message {message.bytes.hex()}", message, Site.receive, message.bytes)

    def tick(self):
        self.give("tick", f"tick {self.me}", Site.tick)

    def goes_on(self):
        """What the site does next, knowing of its messages to itself: these come back in their order, once all else that was made is let out."""
        while own := [out for out in self.fresh if isinstance(out, Sent) and out.to == self.me]:
            self.fresh = []
            for message in own:
                self.steps(message, Site.receive, message.bytes)
        self.fresh = []

    def settle(self):
        """It writes and lets out all that there is. What fails is made again."""
        self.goes_on()
        said = []
        while True:
            try:
                said += self.tell("settle")
                break
            except Refused as refused:
                said += self.said
                if refused.cause != STORE:
                    raise Found(f"site {self.me} doesn't settle: {refused}") from None
                self.deployment.count("settlings that etcd didn't answer")
        self.settle_to(self.ahead.length)
        self.are_let_out(said)
        if any(not (isinstance(out, Sent) and out.to == self.me) for out in self.made):
            raise Found(f"site {self.me} doesn't let out what is made")
        self.made.clear()

    def settle_to(self, length):
        """What is in the journal now has happened."""
        self.stored = max(self.stored, length)
        while self.waiting and self.waiting[0].length <= length:
            given = self.waiting.popleft()
            self.schedule.happens(self.me, given)
            if not self.is_open:
                self.is_open = self.is_up = True
                self.schedule.starts(self.me)
            self.made.extend(given.outs)

    def are_let_out(self, said):
        """These lines are what the schedule's run has made, in its order, but for messages to itself."""
        for line in said:
            while self.made and isinstance(self.made[0], Sent) and self.made[0].to == self.me:
                self.made.popleft()
            if not self.made:
                raise Found(f"site {self.me} lets something out that isn't made: {line}")
            made = self.made.popleft()
            wanted = f"message {made.to} {made.bytes.hex()}" if isinstance(made, Sent) else f"report {made}"
            if line != wanted:
                raise Found(f"site {self.me} lets out {line!r}, and {wanted!r} is made")
            if isinstance(made, Sent):
                made.sender = self
                self.deployment.carry(made)
            self.deployment.count("let out")

    def readings(self):
        is_written = self.is_open and not self.waiting and self.stored == self.ahead.length
        shown = {}
        for name in self.deployment.items[self.me]:
            try:
                [line] = self.tell(f"read {name}")
            except Refused as refused:
                if refused.cause == STORE:
                    continue
                if refused.cause != ENGINE or refused.status != UNWRITTEN or is_written:
                    raise Found(f"{name} isn't shown: {refused}") from None
            else:
                if not is_written:
                    raise Found(f"{name} is shown before all is written")
                shown[name] = line.removeprefix(f"item {name} ")
                self.deployment.count("readings")
        return shown

    def outcomes(self):
        return {}

    # ---- its end ----

    def go(self):
        """It is killed: also while it settles, and what it has asked of etcd may come there later."""
        if self.chance.random() < 0.7:
            self.goes_on()
            self.process.stdin.write("settle\n")
            time.sleep(self.chance.choice((0.0, 0.0005, 0.001, 0.002, 0.004, 0.01)))
        self.process.kill()
        said = self.process.stdout.read().split("\n")[:-1]
        self.close()
        self.settle_to(journal_length(self.deployment.journal(self.me))[0])
        self.are_let_out([line for line in said if line.startswith(("message ", "report "))])
        self.deployment.count("kills")

    def settle_beside(self):
        """It settles while the next process takes the site, and its writes may come at any moment of that."""
        self.goes_on()
        self.settling = threading.Timer(self.chance.uniform(0.0, 0.1), self.process.stdin.write, ["settle\n"])
        self.settling.start()

    def ends(self, length):
        """The journal has been found as long as this by the next process: what it has of this one has happened, and all else never was."""
        self.settle_to(length)
        if self.settling is not None:  # what it lets out now was made before
            self.settling.join()
            said = []
            while not (word := self.process.stdout.readline().rstrip("\n")).startswith(("done", "refused ")):
                assert word, f"site {self.me} has ended"
                said.append(word)
            self.are_let_out(said)
        if self.is_up:
            self.schedule.stops(self.me)
        self.ahead.site.close()

    def is_refused(self):
        """Another process has the site, and this one goes on: with what it was given before, and with more. It lets nothing out and shows nothing."""
        for line in self.chance.sample(["tick", "settle", f"submit {self.deployment.names[0]} := 1", f"read {self.deployment.items[self.me][0]}"], 4) + ["tick", "settle", "settle"]:
            while True:
                try:
                    said = self.tell(line)
                except Refused as refused:
                    said = self.said
                    if refused.cause == STORE:
                        continue
                    if refused.cause != REPLACED and not (line.startswith("read") and refused.status == UNWRITTEN):
                        raise Found(f"site {self.me}, replaced, answers {line!r} by {refused}") from None
                break
            if said:
                raise Found(f"site {self.me}, replaced, lets out {said} after {line!r}")
        try:
            self.tell("settle")
            self.tell("tick")
        except Refused as refused:
            if refused.cause != REPLACED:
                raise Found(f"site {self.me}, replaced, answers by {refused}") from None
        self.deployment.count("processes that were replaced, and are refused")
        self.close()


class EtcdDeployment(Deployment):
    def __init__(self, seed, store, urls, number, counts):
        self.store, self.urls, self.prefix = store, urls, f"test-{number}/"
        self.gone = {}  # the last process of a site, until the next one has found the journal
        self.replaced = []
        super().__init__(seed, EtcdProcess, counts)
        self.patience = self.chance.choice(PATIENCE)
        self.replacing = self.chance.choice((0.0, 0.005, 0.02))
        self.outliving = 0.0  # here a process is replaced at another moment than one is killed
        self.killing = self.chance.choice((0.0, 0.005, 0.02, 0.04))
        Proxy.chance, Proxy.failing = random.Random(f"{seed} proxy"), self.chance.choice((0.0, 0.02, 0.1, 0.3))

    def journal(self, me):
        return etcd_store.journal_of(self.store, me, self.prefix)[0]

    def has_gone(self, me, length):
        if me in self.gone:
            self.gone.pop(me).ends(length)

    def step(self):
        me = self.chance.randrange(self.sites)
        if self.processes[me] is not None and not self.is_full[me] and self.chance.random() < self.replacing:
            self.gone[me] = self.processes[me]
            self.replaced.append(self.processes[me])
            self.processes[me] = None
            if self.chance.random() < 0.7:
                self.gone[me].settle_beside()
            self.open(me)
        elif self.replaced and self.chance.random() < 0.05:
            self.replaced.pop(0).is_refused()
        else:
            super().step()

    def open(self, me):
        super().open(me)
        if self.is_full[me]:
            self.has_gone(me, journal_length(self.journal(me))[0])

    def kill(self, me):
        self.gone[me] = self.processes[me]
        super().kill(me)

    def settle(self, process, wholly):
        if wholly or self.chance.random() < 0.5:
            process.settle()

    def read(self):
        if all(process is None or not process.is_open or not process.fresh for process in self.processes):
            super().read()

    def run(self, events):
        try:
            super().run(events)
        finally:
            for process in [*self.processes, *self.replaced]:
                if process is not None and process.process.returncode is None:
                    process.process.kill()
                    process.close()

    def come_to_rest(self):
        Proxy.failing = 0.0
        super().come_to_rest()
        for process in self.replaced:
            process.is_refused()
        self.replaced = []


def main():
    if etcd_store.missing():
        print(f"left out: {etcd_store.missing()}")
        sys.exit(77)
    signal.signal(signal.SIGTERM, lambda *_: sys.exit(1))  # so that nothing is left behind
    events = int(sys.argv[1]) if len(sys.argv) > 1 else 3_000
    seed = int(sys.argv[2]) if len(sys.argv) > 2 else random.SystemRandom().getrandbits(32)
    only = int(sys.argv[3]) if len(sys.argv) > 3 else None
    print(f"seed {seed}; schedules run by {deployed.PROGRAM or 'the library, as there is no program'}", flush=True)
    folder = tempfile.mkdtemp(prefix="polydb-etcd-")
    member = etcd_store.Member("m0", folder, ports=(etcd_store.free_port(), etcd_store.free_port()), words=["nice"])
    begun, counts, number = time.monotonic(), Counter(), 0 if only is None else only
    Proxy.member, Proxy.counts = member.client, counts
    proxies = [Listener(("127.0.0.1", 0), Proxy) for _ in range(2)]
    try:
        member.start([member])
        for proxy in proxies:
            threading.Thread(target=proxy.serve_forever, daemon=True).start()
        store = etcd_store.Store(member.client)
        store.pairs("nothing")  # once it answers
        urls = ",".join(f"http://127.0.0.1:{proxy.server_address[1]}" for proxy in proxies)
        while counts["events"] < events:
            name = f"{seed} {number}"
            deployment = EtcdDeployment(name, store, urls, number, counts)
            try:
                deployment.run(events_of(name) // 3)
            except Found as found:
                print("".join(deployment.schedule.events), end="")
                raise SystemExit(f"deployment {number} of seed {seed}: {found}")
            if only is not None:
                print("".join(deployment.schedule.events), end="")
                break
            number += 1
        print(", ".join(f"{count:,} {what}" for what, count in sorted(counts.items())) + f"; {time.monotonic() - begun:.0f} seconds")
    finally:
        for timer in Proxy.late:
            timer.join()
        for proxy in proxies:
            proxy.shutdown()
        member.kill()
        shutil.rmtree(folder, ignore_errors=True)


if __name__ == "__main__":
    main()
