"""Three processes with a site each: the coordinator is killed while a transfer is in doubt, and work goes on with both values.

Each process is a host: it carries its site's messages as datagrams on 127.0.0.1, keeps its journal in a folder by `polydb.FileHost`, and takes
commands as lines on its standard input. What happens:

 1. Ten go from `a` at site 0 to `b` at site 1, and site 0 is killed (SIGKILL) once it has decided, before anyone hears of it.
 2. Site 1 has promised and doesn't know. After a few ticks it lets go of `b` and shows both values, each with its condition.
 3. Site 2 takes five off `b` all the same. That commits: with either value there is enough.
 4. Site 0 starts again on its file. Site 1 asks, hears of the commit, and the two values become one.
"""

import os
import select
import shutil
import signal
import socket
import subprocess
import sys
import tempfile
import time

import polydb

CONFIG = """\
sites 3
item a 0 100
item b 1 50
item c 2 0
"""
PATIENCE = 60.0  # seconds until the driver gives up


# ---- a host: one process, one site ----


class Host:
    """Carries the messages of a site, and does what it is told on standard input. Its files are `polydb.FileHost`'s."""

    def __init__(self, config, me, folder, ports):
        self.me = me
        self.addresses = [("127.0.0.1", port) for port in ports]
        self.site = polydb.FileHost(folder, config, me, self.carry)
        self.socket = socket.socket(socket.AF_INET, socket.SOCK_DGRAM)
        self.socket.bind(self.addresses[me])
        self.commands = b""

    def say(self, line):
        print(line, flush=True)

    def complain(self, line):
        print(f"site {self.me}: {line}", file=sys.stderr, flush=True)

    def settle(self):
        """Writes and syncs what the site's steps have put into its journal, and carries what it lets out, until there is nothing.

        Where a write or sync fails, nothing is let out that rests on it, and the next time it is made again.
        """
        try:
            self.site.settle()
        except (OSError, polydb.PolydbError) as error:
            self.complain(error)

    def carry(self, output):
        if isinstance(output, polydb.Report):
            self.say("report " + output.line)
        else:
            self.send(output)

    def send(self, message):
        try:
            self.socket.sendto(message.bytes, self.addresses[message.to])
        except (OSError, IndexError) as error:
            # A message may be lost. But a datagram has 65,507 bytes at most, and a longer message is lost each time, so its transaction never commits: where
            # 16 items with many outcomes go in one, a host needs streams.
            self.complain(f"a message of {len(message.bytes)} bytes to site {message.to} is lost: {error}")

    def hear(self, data):
        try:
            self.site.receive(data)
        except polydb.PolydbError as error:
            self.complain(f"a message is lost: {error}")

    def obey(self, line):
        word, _, rest = line.partition(" ")
        try:
            if word == "submit":
                self.site.submit(rest)
            elif word == "tick":
                self.site.tick()
            elif word == "read":
                self.say("value " + self.site.read(rest))
            else:
                self.say(f"error no command: {line}")
        except polydb.PolydbError as error:
            self.say(f"error {error}")

    def run(self):
        self.settle()
        self.say("ready")
        while True:
            ready, _, _ = select.select([self.socket, sys.stdin.fileno()], [], [])
            if self.socket in ready:
                data, sender = self.socket.recvfrom(65536)
                if sender in self.addresses:  # anyone may send a datagram, and the site takes a message as a site's
                    self.hear(data)
                    self.settle()
            if sys.stdin.fileno() in ready:
                data = os.read(sys.stdin.fileno(), 65536)
                if not data:
                    self.site.close()
                    return
                *lines, self.commands = (self.commands + data).split(b"\n")
                for line in lines:
                    self.obey(line.decode(errors="replace"))
                    self.settle()


class DoomedHost(Host):
    """Comes to a stop once its site has decided, before anyone hears of it."""

    def settle(self):
        self.kept = []
        super().settle()
        if any(isinstance(output, polydb.Report) and output.line.startswith("commit ") for output in self.kept):
            self.say("decided")
            signal.pause()  # until it is killed
        for output in self.kept:
            super().carry(output)

    def carry(self, output):
        self.kept.append(output)


# ---- the driver: starts the hosts, kills one, and looks ----


class Ended(Exception):
    """A host's process says no more."""


class Process:
    """A host's process, with lines in and out."""

    def __init__(self, words, me):
        self.me = me
        self.process = subprocess.Popen(words, stdin=subprocess.PIPE, stdout=subprocess.PIPE, bufsize=0)
        self.left = b""
        self.wait_for("ready")

    def tell(self, line):
        self.process.stdin.write(line.encode() + b"\n")

    def line(self):
        """The next line that it says."""
        end = time.monotonic() + PATIENCE
        while b"\n" not in self.left:
            ready, _, _ = select.select([self.process.stdout], [], [], max(0.0, end - time.monotonic()))
            data = os.read(self.process.stdout.fileno(), 65536) if ready else b""
            if not data:
                raise Ended(f"site {self.me} says no more (its status: {self.process.poll()})")
            self.left += data
        line, _, self.left = self.left.partition(b"\n")
        return line.decode()

    def wait_for(self, beginning):
        """The next line that begins so. Others on the way are passed over, but not errors."""
        while not (line := self.line()).startswith(beginning):
            if line.startswith("error "):
                raise SystemExit(f"site {self.me} says: {line}")
        return line

    def read(self, name):
        self.tell(f"read {name}")
        return self.wait_for("value ").removeprefix("value ")

    def kill(self):
        self.process.send_signal(signal.SIGKILL)
        self.process.wait()

    def end(self):
        self.process.stdin.close()
        if self.process.wait(PATIENCE) != 0:
            raise Ended(f"site {self.me} ended with status {self.process.returncode}")


def free_ports(count):
    """Ports on which nobody listens."""
    sockets = [socket.socket(socket.AF_INET, socket.SOCK_DGRAM) for _ in range(count)]
    for one in sockets:
        one.bind(("127.0.0.1", 0))
    ports = [one.getsockname()[1] for one in sockets]
    for one in sockets:
        one.close()
    return ports


def tick_until(processes, holds):
    """Lets time pass at these sites until that is so."""
    end = time.monotonic() + PATIENCE
    while not holds():
        if time.monotonic() > end:
            raise SystemExit("it takes too long")
        for process in processes:
            process.tell("tick")
        time.sleep(0.02)


def is_certain(shown):
    """Whether an item shows one value."""
    return not shown.startswith("locked") and " if " not in shown


def expect(what, found, wanted):
    print(f"{what}: {found}")
    if found != wanted:
        raise SystemExit(f"{what} should be: {wanted}")


def drive(folder):
    ports = free_ports(3)

    def start(me, word="host"):
        return Process([sys.executable, __file__, word, str(me), folder, ",".join(map(str, ports))], me)

    processes = [start(0, "doomed"), start(1), start(2)]
    try:
        processes[0].tell("submit a := a - 10 ; b := b + 10")
        processes[0].wait_for("decided")
        processes[0].kill()
        print("site 0 has decided, and was killed before anyone heard")

        tick_until(processes[1:], lambda: not processes[1].read("b").startswith("locked"))
        expect("b in doubt", processes[1].read("b"), "50 if -0.1.0 ; 60 if +0.1.0")

        processes[2].tell("submit b := b - 5 ; c := c + 5")
        print("site 2 takes five off b:", processes[2].wait_for("report commit").removeprefix("report "))
        tick_until(processes[1:], lambda: not processes[1].read("b").startswith("locked"))
        expect("b in doubt", processes[1].read("b"), "45 if -0.1.0 ; 55 if +0.1.0")

        processes[0] = start(0)
        print("site 0 has started again on its journal")
        items = list(zip("abc", processes))
        tick_until(processes, lambda: all(is_certain(process.read(name)) for name, process in items))
        for (name, process), value in zip(items, ["90", "55", "5"]):
            expect(name, process.read(name), value)
        for process in processes:
            process.end()
    finally:
        for process in processes:
            if process.process.poll() is None:
                process.kill()


def main():
    if len(sys.argv) > 1:
        word, me, folder, ports = sys.argv[1:]
        kind = DoomedHost if word == "doomed" else Host
        kind(CONFIG, int(me), folder, [int(port) for port in ports.split(",")]).run()
        return
    folder = tempfile.mkdtemp(prefix="polydb-")
    try:
        drive(folder)
    finally:
        shutil.rmtree(folder)


if __name__ == "__main__":
    main()
