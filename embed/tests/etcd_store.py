"""etcd for tests: members that are started, killed and started again, on 127.0.0.1 or in network namespaces of their own; and what a site's keys there say."""

import base64
import http.client
import json
import os
import shutil
import signal
import socket
import subprocess
import time

PATIENCE = 60.0


def missing():
    """What isn't there of that which these tests need; or nothing."""
    return None if shutil.which("etcd") else "no etcd"


def free_port():
    with socket.socket() as one:
        one.bind(("127.0.0.1", 0))
        return one.getsockname()[1]


def spell(text):
    return base64.b64encode(text if isinstance(text, bytes) else text.encode()).decode()


class Member:
    """One member: its address for clients and for the others, its folder, and its process, if it is there."""

    def __init__(self, name, folder, host="127.0.0.1", ports=(2379, 2380), words=()):
        self.name, self.folder, self.words = name, folder, list(words)
        self.client, self.peer = (f"http://{host}:{port}" for port in ports)
        self.process = None
        self.more = []  # words of its own

    def start(self, members):
        cluster = ",".join(f"{one.name}={one.peer}" for one in members)
        with open(f"{self.folder}/{self.name}.log", "a") as log:
            self.process = subprocess.Popen(
                [*self.words, "etcd", "--name", self.name, "--data-dir", f"{self.folder}/{self.name}", "--initial-cluster", cluster]
                + ["--listen-client-urls", self.client, "--advertise-client-urls", self.client, "--listen-peer-urls", self.peer, "--initial-advertise-peer-urls", self.peer, *self.more],
                stdout=log, stderr=log, start_new_session=True,
            )  # fmt: skip

    def kill(self):
        if self.process is not None and self.process.poll() is None:
            os.killpg(self.process.pid, signal.SIGKILL)
            self.process.wait()


class Store:
    """What a member says, by its JSON interface; `words` come before a command that asks it where it can't be asked from here."""

    def __init__(self, url, words=()):
        self.url, self.words = url, list(words)

    def ask(self, path, body):
        """An answer; where there is none, as while a leader is chosen, it is asked for again."""
        end = time.monotonic() + PATIENCE
        while True:
            try:
                return self.ask_once(path, body)
            except (OSError, ValueError, subprocess.CalledProcessError, http.client.HTTPException) as error:
                assert time.monotonic() < end, f"{self.url} doesn't answer: {error}"
                time.sleep(0.05)

    def ask_once(self, path, body):
        text = json.dumps(body)
        if self.words:
            said = subprocess.run([*self.words, "curl", "-sS", "-m", "10", "-d", "@-", self.url + path], input=text, capture_output=True, text=True, check=True).stdout
        else:
            link = http.client.HTTPConnection(self.url.removeprefix("http://"), timeout=10)
            link.request("POST", path, text)
            said = link.getresponse().read()
            link.close()
        answer = json.loads(said)
        if "header" not in answer:
            raise ValueError(f"{answer}")
        return answer

    def pairs(self, first, end=None, **more):
        body = {"key": spell(first), **({"range_end": spell(end)} if end else {}), **more}
        found = self.ask("/v3/kv/range", body).get("kvs", [])
        return [(base64.b64decode(one["key"]).decode(), base64.b64decode(one.get("value", "")), int(one["mod_revision"])) for one in found]


def writes_of(store, me, prefix="polydb/"):
    """The writes of a site's journal, each with the number of the opening that made it, its bytes, and the revision of etcd in which it is there."""
    found = []
    first = f"{prefix}site-{me}/journal/"
    while page := store.pairs(first + f"{len(found):016x}", first[:-1] + "0", limit="2000"):
        for key, value, revision in page:
            assert key == f"{first}{len(found):016x}", (key, len(found))
            found.append((int.from_bytes(value[:8], "big"), value[8:], revision))
    return found


def put(data, pieces):
    """Makes a write's pieces."""
    at = 0
    while at < len(pieces):
        place, length = int.from_bytes(pieces[at : at + 8], "big"), int.from_bytes(pieces[at + 8 : at + 12], "big")
        assert place <= len(data), (place, len(data))
        data[place : place + length] = pieces[at + 12 : at + 12 + length]
        at += 12 + length


def journal_of(store, me, prefix="polydb/"):
    """The journal of a site as bytes, and what was looked at: each write says which opening made it. No number is behind a greater one, and none is written after the next one has taken
    the site."""
    writes, data = writes_of(store, me, prefix), bytearray()
    for _, pieces, _ in writes:
        put(data, pieces)
    numbers = [number for number, _, _ in writes]
    taken = {}  # the revision in which each opening has taken the site, back from the last one
    owner = f"{prefix}site-{me}/owner"
    [(_, value, revision)] = store.pairs(owner)
    while True:
        taken[int(value.split(b",")[0])] = revision
        found = store.pairs(owner, revision=str(revision - 1)) if revision > 1 else []
        if not found:
            break
        [(_, value, revision)] = found
    for number, _, revision in writes:
        assert taken[number] <= revision, (number, revision, taken)
        assert number + 1 not in taken or revision < taken[number + 1], f"site {me}: opening {number} has written after opening {number + 1} took the site"
    assert numbers == sorted(numbers) and sorted(taken) == list(range(1, max(taken) + 1)), (numbers[-5:], sorted(taken))
    return bytes(data), len(writes), max(taken)
