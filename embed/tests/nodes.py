"""Sites in processes of their own, each a `polydbd`: transfers, kills, doubt; strangers, wrong keys, other configurations, bytes that are nothing, a full disk and a failing sync.

`Sites` starts and stops them; other tests use it too. The programs are looked for in `out`, or in the folder that POLYDB_PROGRAMS names.
"""

import json
import os
import random
import re
import shutil
import signal
import socket
import subprocess
import sys
import tempfile
import threading
import time
from pathlib import Path

HERE = Path(__file__).resolve().parent
PROGRAMS = Path(os.environ.get("POLYDB_PROGRAMS", HERE.parent / "out"))
PATIENCE = 60.0  # seconds until a test gives up

CONFIG = "sites 3\nitem a 0 100\nitem b 1 50\nitem c 2 0\n"


def free_port():
    """A port on which nobody listens."""
    with socket.socket() as one:
        one.bind(("127.0.0.1", 0))
        return one.getsockname()[1]


class Client:
    """A connection to a polydbd: requests as lines, and answers by their tags."""

    def __init__(self, path):
        self.socket = socket.socket(socket.AF_UNIX)
        self.socket.settimeout(PATIENCE)
        self.socket.connect(str(path))
        self.left = b""
        self.tag = 0

    def send(self, verb, rest=""):
        self.tag += 1
        self.socket.sendall(f"{verb} {self.tag} {rest}\n".encode())
        return self.tag

    def line(self):
        while b"\n" not in self.left:
            data = self.socket.recv(65536)
            if not data:
                raise ConnectionError("the site has gone")
            self.left += data
        line, _, self.left = self.left.partition(b"\n")
        return line.decode()

    def ask(self, verb, rest=""):
        """A request and its last answer, without the tag."""
        tag = self.send(verb, rest)
        while True:
            word, found, *more = self.line().split(" ", 2)
            assert int(found) == tag, (found, tag)
            if word != "txn":
                return " ".join([word, *more])

    def close(self):
        self.socket.close()


class Sites:
    """Processes with a site each, in a folder that goes at the end."""

    def __init__(self, config=CONFIG, count=3, tick=40, one_folder=False):
        self.folder = Path(tempfile.mkdtemp(prefix="polydb-"))
        self.count = count
        self.tick = tick
        self.one_folder = one_folder
        self.config = self.folder / "config"
        self.config.write_text(config)
        self.peers = self.folder / "peers"
        self.ports = [free_port() for _ in range(count)]
        self.processes = [None] * count
        self.logs = [self.folder / f"log-{me}" for me in range(count)]
        lines = []
        for me in range(count):
            key = self.new_site(me).stdout
            lines.append(f"{me} tcp://127.0.0.1:{self.ports[me]} {key}")
        self.peers.write_text("# site, address, public key\n" + "".join(lines))

    def new_site(self, me, status=0):
        """Makes the files of a site that isn't there yet; prints its public key."""
        made = subprocess.run([PROGRAMS / "polydbd", "--new", "--site", str(me), "--config", self.config, "--data", self.data(me)], capture_output=True, text=True)
        assert made.returncode == status, made
        return made

    def __enter__(self):
        return self

    def __exit__(self, kind, *_):
        for me in range(self.count):
            self.kill(me)
        if kind is not None:
            for log in self.logs:
                if log.exists():
                    print(log.read_text(), file=sys.stderr)
        shutil.rmtree(self.folder)

    def data(self, me):
        return self.folder / ("data" if self.one_folder else f"data-{me}")

    def socket(self, me):
        return self.data(me) / f"site-{me}.sock"

    def words(self, me, *more, config=None):
        return [PROGRAMS / "polydbd", "--site", str(me), "--config", config or self.config, "--peers", self.peers, "--data", self.data(me), "--tick", str(self.tick), *more]

    def start(self, me, *more, config=None, environment=None):
        """Starts a site and waits until it takes requests; gives what it says on its start."""
        before = self.log(me)
        with open(self.logs[me], "a") as log:
            self.processes[me] = subprocess.Popen(self.words(me, *more, config=config), stderr=log, env={**os.environ, **(environment or {})})
        return self.wait_for_log(me, "ready", before)

    def log(self, me):
        return self.logs[me].read_text() if self.logs[me].exists() else ""

    def wait_for_log(self, me, words, before=""):
        """What a site has said since, once these words are in it."""
        end = time.monotonic() + PATIENCE
        while words not in (said := self.log(me)[len(before) :]):
            if self.processes[me].poll() is not None and words not in self.log(me)[len(before) :]:
                raise AssertionError(f"site {me} ended with {self.processes[me].returncode}: {said}")
            if time.monotonic() > end:
                raise AssertionError(f"site {me} doesn't say {words!r}: {said}")
            time.sleep(0.01)
        return said

    def client(self, me):
        return Client(self.socket(me))

    def kill(self, me):
        process = self.processes[me]
        if process is not None and process.poll() is None:
            process.kill()
            process.wait()

    def stop(self, me):
        self.processes[me].send_signal(signal.SIGTERM)
        assert self.processes[me].wait(PATIENCE) == 0, self.log(me)

    def polydbc_commits(self, me, *words):
        """What polydbc prints of a request that commits, which is asked for again where the machine is slow and it expires."""
        return until(lambda: (said := self.polydbc(me, *words, status=None)) and "refuse" not in said[-1] and said, words)

    def polydbc(self, me, *words, status=0, lines=""):
        """What polydbc prints."""
        call = [PROGRAMS / "polydbc", "--socket", self.socket(me), "--timeout", str(PATIENCE), *words]
        done = subprocess.run(call, capture_output=True, text=True, input=lines)
        assert status in (None, done.returncode), (done.returncode, done.stdout, done.stderr)
        return done.stdout.splitlines()


def commits(client, program):
    """Asks until the program commits: while sites don't hear one another yet it expires."""
    end = time.monotonic() + PATIENCE
    while not (answer := client.ask("submit", program)).startswith("commit "):
        assert time.monotonic() < end, answer
    return answer


def until(holds, what):
    end = time.monotonic() + PATIENCE
    while not (found := holds()):
        assert time.monotonic() < end, what
        time.sleep(0.02)
    return found


def a_transfer_and_a_kill():
    """The coordinator is killed at any moment of a transfer; the others go on with both values, and know all once it is back."""
    with Sites() as sites:
        for me in range(3):
            said = sites.start(me)
            assert f"site {me}: new, on" in said, said
        for me in range(3):
            for other in {0, 1, 2} - {me}:
                sites.wait_for_log(me, f"site {other} is here")
        clients = [sites.client(me) for me in range(3)]
        commits(clients[0], "a := a - 10 ; b := b + 10")
        assert sites.polydbc(0, "read", "a") == ["item a 90"]
        assert sites.polydbc(1, "read", "--certain", "b") == ["item b 60"]
        assert re.fullmatch(r"commit 2\.1\.\d+ certain 150", sites.polydbc_commits(2, "query", "return a + b")[-1])
        assert re.match("error .*text is no program", sites.polydbc(1, "submit", "a := ", status=1)[0])
        assert re.match("error .*another", sites.polydbc(1, "read", "a", status=1)[0])
        [first, last] = [json.loads(line) for line in sites.polydbc_commits(0, "--json", "submit", "require a > 1000")]
        assert first.keys() == {"tag", "txn"} and last["replies"] == ["declined-require"], (first, last)
        assert json.loads(sites.polydbc(1, "--json", "read", "b")[0]) == {"cases": [{"value": 60, "when": []}], "item": "b", "tag": 1}
        said = sites.polydbc(0, "lines", status=None, lines="submit a := a + 0\n\nread a\nquery return a\nread a\n")
        assert [line.split()[0] for line in said if line.startswith("item ")] == ["item"] * 2 and len(said) == 6, said
        assert said[0].startswith("txn 0.") and said[3].startswith("txn 0.") and said[0] != said[3], said
        # Both processes are stopped in turn where it hurts, until a kill of the coordinator leaves its participant in doubt.
        doubted = None
        for _ in range(200):
            clients[0].send("submit", "a := a - 1 ; b := b + 1")
            time.sleep(random.uniform(0.0, 0.02))
            sites.kill(0)
            shown = until(lambda: (line := clients[1].ask("read", "b")) and " locked " not in line and line, "b stays locked")
            if " if " in shown:
                doubted = shown
                answer = commits(clients[2], "b := b - 5 ; c := c + 5")
                assert " if " in until(lambda: (line := clients[1].ask("read", "b")) and " locked " not in line and line, "b stays locked"), answer
            said = sites.start(0)
            assert "the process before didn't end well" in said, said
            clients[0] = sites.client(0)
            until(lambda: " " not in clients[1].ask("read", "b").removeprefix("item b "), "b stays in doubt")
            if doubted:
                break
        values = [int(until(lambda: (line := clients[me].ask("read", name).split()) and len(line) == 3 and line[2], name)) for me, name in enumerate("abc")]
        assert sum(values) == 150, values
        print(f"doubt: {doubted}; then {values}")
        for me in range(3):
            sites.stop(me)
        assert "already, whose journal has" in sites.new_site(0, status=3).stderr
        assert "the process before ended well" in sites.start(1)


def who_may_not():
    """A second process on one folder, another configuration, another site's folder, wrong keys, strangers."""
    with Sites() as sites:
        sites.start(0)
        sites.start(1)
        second = subprocess.run(sites.words(0), capture_output=True, text=True)
        assert second.returncode == 3 and "has the site open" in second.stderr, second
        other = sites.folder / "other"
        other.write_text(CONFIG.replace("item b", "item d 0 5\nitem b"))
        refused = subprocess.run(sites.words(2, config=sites.folder / "nowhere"), capture_output=True, text=True)
        assert refused.returncode == 3 and "No such file" in refused.stderr, refused
        assert "has the site open" in sites.new_site(0, status=3).stderr
        # A site whose files are lost isn't taken for a new one, nor one that was made with another configuration for this one.
        assert sites.new_site(2).stdout == sites.new_site(2).stdout
        refused = subprocess.run(sites.words(2, config=other), capture_output=True, text=True)
        assert refused.returncode == 3 and "another configuration" in refused.stderr, refused
        for path in sites.data(2).iterdir():
            if path.suffix != ".key":
                path.unlink()
        refused = subprocess.run(sites.words(2), capture_output=True, text=True)
        assert refused.returncode == 3 and "is made by --new" in refused.stderr, refused
        subprocess.run([PROGRAMS / "polydbd", "--new", "--site", "2", "--config", other, "--data", sites.data(2)], check=True, capture_output=True)
        sites.start(2, config=other)
        sites.wait_for_log(0, "site 2 is refused: it has another configuration")
        sites.wait_for_log(2, "site 0 is refused: it has another configuration")
        client = sites.client(0)
        assert "expired 2" in client.ask("submit", "a := a - 1 ; c := c + 1")
        sites.stop(2)
        refused = subprocess.run(sites.words(2), capture_output=True, text=True)
        assert refused.returncode == 3 and "another configuration" in refused.stderr, refused
        # Site 2 begins anew with a key that nobody knows.
        shutil.rmtree(sites.data(2))
        sites.new_site(2)
        refused = subprocess.run(sites.words(2), capture_output=True, text=True)
        assert refused.returncode == 3 and "has another key of site 2" in refused.stderr, refused
        peers = sites.folder / "false-peers"
        key = subprocess.run([PROGRAMS / "polydbd", "--new-key", sites.folder / "stranger"], check=True, capture_output=True, text=True).stdout
        peers.write_text(re.sub(r"(?m)^(2 \S+) \S+\n", lambda found: f"{found[1]} {key}", sites.peers.read_text()))
        before = sites.log(0)
        words = sites.words(2, "--key", sites.folder / "stranger")
        words[words.index(sites.peers)] = peers
        with open(sites.logs[2], "a") as log:
            sites.processes[2] = subprocess.Popen(words, stderr=log)
        sites.wait_for_log(0, "a stranger was kept out", before)
        assert "site 2 is here" not in sites.log(0)[len(before) :]
        # Once the others know its key it is let in, as it is.
        good = sites.peers.read_text()
        sites.peers.write_text(peers.read_text())
        sites.stop(0)
        before = sites.log(0)
        sites.start(0)
        sites.wait_for_log(0, "site 2 is here", before)
        client = sites.client(0)
        commits(client, "a := a - 1 ; c := c + 1")
        sites.kill(2)
        sites.peers.write_text(good)
        # What isn't the protocol: on the port of peers, and on the socket of clients.
        for data in (b"", b"GET / HTTP/1.0\r\n\r\n", random.randbytes(100_000), bytes.fromhex("ff00000000000000017f0300435552564500"), bytes.fromhex("ff00000000000000017f03")):
            stranger = socket.create_connection(("127.0.0.1", sites.ports[0]))
            try:
                stranger.sendall(data)
            except OSError:
                pass
            threading.Timer(2.0, stranger.close).start()
        lines = (b"\n\n", b"submit\n", b"submit x a\n", b"submit 99999999999999999999999 a\n", b"submit 1\0\n", b"nonsense 1 2\n", b"read 1 \n")
        for data in (*lines, random.randbytes(1000) + b"\n", b"x" * 100_000, b"submit 1 " + b"a" * 1500 + b"\n"):
            stranger = socket.socket(socket.AF_UNIX)
            stranger.connect(str(sites.socket(0)))
            try:
                stranger.sendall(data)
                stranger.settimeout(0.2)
                stranger.recv(65536)
            except OSError:
                pass
            stranger.close()
        commits(client, "a := a - 1 ; b := b + 1")
        assert "info" in client.ask("info")


def numbers_have_outcomes():
    """What became of a transaction is told by its number, also by the next process; and of no other site's, and of nothing that is no transaction."""
    with Sites() as sites:
        for me in range(3):
            sites.start(me)
        client = sites.client(0)
        tag = client.send("submit", "a := a - 10 ; b := b + 10")
        word, found, number = client.line().split()
        assert (word, found) == ("txn", str(tag))
        word = client.line().split()[0]
        wanted = {"commit": "committed", "refuse": "not-committed"}[word]
        assert client.ask("outcome", number) == f"outcome {number} {wanted}"
        assert client.ask("outcome", "0.1.4000000000") == "outcome 0.1.4000000000 none"
        assert client.ask("outcome", "1.1.0").startswith("error ")
        for words in ("", "0.1", "0.1.0 ", "0.1.x", "99999999999.1.0", "16.1.0", "-1.1.0"):
            assert client.ask("outcome", words).startswith("error "), words
        sites.kill(0)
        sites.start(0)
        client = sites.client(0)
        assert client.ask("outcome", number) == f"outcome {number} {wanted}"
        assert sites.polydbc(0, "outcome", number) == [f"outcome {number} {wanted}"]
        client.socket.sendall(b"json\n")
        client.send("outcome", number)
        assert json.loads(client.line()) == {"outcome": wanted, "tag": client.tag, "txn": number}


def configurations_grow():
    """All sites are stopped, and started with a later configuration: what they show stays, the later items are there, and the configuration before is refused."""
    with Sites() as sites:
        for me in range(3):
            sites.start(me)
        commits(sites.client(0), "a := a - 10 ; b := b + 10")
        for me in range(3):
            sites.stop(me)
        grown = sites.folder / "grown"
        grown.write_text(CONFIG.replace("item a", "journal 4000000000\nitem a") + "item d 2 5\n")
        refused = subprocess.run(sites.words(0, config=grown), capture_output=True, text=True)
        assert refused.returncode == 3 and "another configuration" in refused.stderr, refused  # its limit is lower than the greatest, which is where none is said
        grown.write_text(CONFIG + "item d 2 5\n")
        for me in range(3):
            sites.start(me, config=grown)
        client = sites.client(0)
        until(lambda: sites.client(1).ask("read", "b") == "item b 60", "b")
        commits(client, "a := a - 10 ; d := d + 10")
        until(lambda: sites.client(2).ask("read", "d") == "item d 15", "d")
        sites.stop(0)
        refused = subprocess.run(sites.words(0), capture_output=True, text=True)
        assert refused.returncode == 3 and "another configuration" in refused.stderr, refused
        sites.start(0, config=grown)


def peers_that_are_wrong():
    """Files of peers that aren't as they should be."""
    with Sites() as sites:
        good = sites.peers.read_text()
        wrong = [("", "has no site 0"), ("0\n", "line 1"), ("0 tcp://127.0.0.1:1 short\n", "line 1"), ("x y z\n", "line 1"), (good + good, "line 6")]
        for text, words in (*wrong, (good.replace("tcp", "nonsense", 1), "listen on")):
            sites.peers.write_text(text)
            refused = subprocess.run(sites.words(0), capture_output=True, text=True)
            assert refused.returncode == 3 and words in refused.stderr, (text, refused)
        sites.peers.write_text(good)
        key = sites.data(0) / "site-0.key"
        for mode in (0o644, 0o620, 0o604):
            key.chmod(mode)
            refused = subprocess.run(sites.words(0), capture_output=True, text=True)
            assert refused.returncode == 3 and f"open to others (mode {mode:03o})" in refused.stderr, refused
        key.chmod(0o600)
        key.write_text("secret no\n")
        refused = subprocess.run(sites.words(0), capture_output=True, text=True)
        assert refused.returncode == 3 and "the file of the key" in refused.stderr, refused
        for words in ([], ["--site", "1"], ["--site", "16", "--config", "x", "--peers", "x", "--data", "x"], ["--nonsense"]):
            assert subprocess.run([PROGRAMS / "polydbd", *words], capture_output=True).returncode == 2
        sites.start(1)
        # The name of another's socket, or of a file that is none.
        for path in (sites.socket(1), sites.config):
            taken = subprocess.run(sites.words(2, "--socket", path), capture_output=True, text=True)
            assert taken.returncode == 3 and "Address already in use" in taken.stderr and path.exists(), taken
        for words in (["read"], ["submit"], ["nonsense"], ["submit", "a", "b"], ["--timeout", "x", "info"]):
            sites.polydbc(1, *words, status=2)


def disks_that_fail():
    """A full disk and a sync that fails, by a library that is loaded before: nothing is let out that isn't in the file, a line says so, and what was asked
    for goes on afterwards."""
    library = PROGRAMS / "libfailing.so"
    for call, number in (("pwrite", "28"), ("fdatasync", "5")):
        with Sites() as sites:
            switch = sites.folder / "switch"
            sites.start(0, environment={"LD_PRELOAD": str(library), "FAILING_SWITCH": str(switch), "FAILING_CALL": call, "FAILING_NUMBER": number})
            sites.start(1)
            client = sites.client(0)
            commits(client, "a := a - 10 ; b := b + 10")
            other = sites.client(1)
            until(lambda: other.ask("read", "b") == "item b 60", "b")
            switch.write_text("")
            before = sites.log(0)
            client.send("submit", "a := a - 10 ; b := b + 10")
            sites.wait_for_log(0, "nothing is let out that rests on it", before)
            time.sleep(0.3)
            assert other.ask("read", "b").split()[2] in ("60", "locked")
            switch.unlink()
            sites.wait_for_log(0, "what had failed is done", before)
            while not client.line().startswith(("commit ", "refuse ")):
                pass
            switch.write_text("")
            client.send("submit", "a := a - 10 ; b := b + 10")
            time.sleep(0.2)
            sites.kill(0)
            switch.unlink()
            assert "written anew" in sites.start(0)
            client = sites.client(0)
            commits(client, "a := a - 10 ; b := b + 10")
            values = [int(until(lambda: (line := one.ask("read", name).split()) and len(line) == 3 and line[2], name)) for one, name in ((client, "a"), (other, "b"))]
            assert sum(values) == 150, values


def main():
    tests = [a_transfer_and_a_kill, who_may_not, numbers_have_outcomes, configurations_grow, peers_that_are_wrong, disks_that_fail]
    for test in tests:
        if len(sys.argv) < 2 or test.__name__ in sys.argv[1:]:
            test()
            print(f"passed: {test.__name__}", flush=True)


if __name__ == "__main__":
    main()
