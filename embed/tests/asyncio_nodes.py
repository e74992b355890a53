"""Nodes in Python: two of them in one program with a polydbd as the third site; transfers, both values, a process that is killed and comes back, and what is refused.
And peers with a good key that send what is nothing, a frame of 1 GiB, or half a frame."""

import asyncio
import errno
import random
import socket
import sys
import threading
import time
from pathlib import Path

import zmq

HERE = Path(__file__).resolve().parent
sys.path[:0] = [str(HERE.parent), str(HERE)]

import nodes  # noqa: E402
import polydb  # noqa: E402
from polydb.node import BadFile, Node, Unknown, new_key, read_key, read_peers  # noqa: E402


class Notices(list):
    """What a node had to say."""

    def __call__(self, words):
        self.append(words)

    async def has(self, part):
        for _ in range(3000):
            if any(part in words for words in self):
                return
            await asyncio.sleep(0.02)
        raise AssertionError(f"not said: {part}: {self}")


def opened(sites, me, notices, **more):
    return Node.open(sites.data(me), nodes.CONFIG, me, sites.peers, tick=0.04, notice=notices, **more)


async def commits(node, program):
    """Asks until it commits: where the machine is slow, a request expires."""
    while not (answer := await node.submit(program)):
        assert answer.cause in ("expired", "conflict", "grant-lost"), answer
    return answer


async def until(holds, what):
    for _ in range(3000):
        if holds():
            return
        await asyncio.sleep(0.02)
    raise AssertionError(what)


async def refused(error, call):
    try:
        await call
    except error as found:
        assert type(found) is error, found
        return str(found)
    raise AssertionError(f"not refused: {error}")


async def talk(sites):
    notices = [Notices(), Notices()]
    first = await opened(sites, 0, notices[0])
    second = await opened(sites, 1, notices[1])
    await asyncio.to_thread(sites.start, 2)
    for site in (1, 2):
        await notices[0].has(f"site {site} is here")
    sites.wait_for_log(2, "site 0 is here")
    assert first.found.records == 0 and first.hears(2)

    numbers, kept = [], []
    answer = await first.submit("a := a + 0", numbers.append, lambda number: kept.append((number, threading.current_thread().name)))
    assert numbers == [answer.transaction] and kept[0][0] == answer.transaction and kept[0][1].startswith("polydb-disk")
    assert await first.outcome(answer.transaction) is (polydb.Outcome.COMMITTED if answer else polydb.Outcome.NOT_COMMITTED)
    assert await first.outcome("0.1.1000") is None
    await refused(polydb.NotHere, first.outcome("1.1.0"))
    await refused(ValueError, first.outcome("0.1"))
    commit = await commits(first, "a := a - 10 ; b := b + 10 ; return a")
    assert commit.reply == 90 and commit.is_certain, commit
    assert await first.certain("a") == 90 and await second.certain("b") == 60
    assert (await commits(second, "c := c + 1 ; b := b - 1")).replies == ("nothing",)
    assert await asyncio.to_thread(sites.polydbc, 2, "read", "--certain", "c") == ["item c 1"]
    await asyncio.to_thread(sites.polydbc_commits, 2, "submit", "c := c - 1 ; b := b + 1")
    answer = await first.query("return a + b + c")
    assert not answer or answer.reply == 150
    await refused(polydb.BadText, first.submit("a :="))
    await refused(polydb.BadProgram, first.query("a := 1"))
    await refused(polydb.NotHere, first.read("b"))
    await refused(polydb.UnknownName, first.read("z"))
    await refused(polydb.Busy, opened(sites, 0, notices[0]))
    await refused(polydb.Busy, opened(sites, 2, notices[0]))  # a polydbd has it
    second_here = await asyncio.to_thread(nodes.subprocess.run, sites.words(0), capture_output=True, text=True)
    assert second_here.returncode == 3 and "has the site open" in second_here.stderr, second_here
    await refused(polydb.OtherConfig, Node.open(await closed(second, sites), nodes.CONFIG.replace("50", "51"), 1, sites.peers))

    # Several at once are answered each on its own.
    second = await opened(sites, 1, notices[1])
    assert not second.found.is_new and not second.found.is_copied
    answers = await asyncio.gather(*[first.submit("a := a + 0") for _ in range(50)], *[second.submit("b := b + 0") for _ in range(50)])
    numbers = [answer.transaction for answer in answers]
    assert len(set(numbers)) == 100 and [number[0] for number in numbers] == ["0"] * 50 + ["1"] * 50, numbers

    # The coordinator is killed at some moments of transfers, until its participant is in doubt.
    shown = None
    for _ in range(100):
        client = sites.client(2)
        client.send("submit", "c := c - 1 ; b := b + 1")
        await asyncio.sleep(random.uniform(0.0, 0.2))
        sites.kill(2)
        while (item := await second.read("b")).locked:
            await asyncio.sleep(0.02)
        await asyncio.to_thread(sites.start, 2)
        if not item.is_certain:
            shown = item
            assert len(item.cases) == 2 and item.values[1] == item.values[0] + 1, item
            break
    await second.certain("b")
    print(f"in doubt: {shown}")

    # A write that fails: the request waits, a notice says so, and it goes on.
    write, failing = first.host.files.write, [True]

    def fail(place, data):
        if failing[0]:
            raise OSError(28, "No space left on device")
        write(place, data)

    first.host.files.write = fail
    waits = asyncio.ensure_future(first.submit("a := a + 0"))
    await notices[0].has("nothing is let out that rests on it")
    await asyncio.sleep(0.1)
    assert not waits.done()
    failing[0] = False
    await waits
    await notices[0].has("what had failed is done")

    # What a node that is closed leaves is unknown.
    failing[0] = True
    waits = asyncio.ensure_future(first.submit("a := a + 0"))
    await asyncio.sleep(0.05)
    await first.close()
    await refused(Unknown, waits)
    await refused(Unknown, first.submit("a := a + 0"))
    await second.close()
    sites.stop(2)


async def closed(node, sites):
    await node.close()
    return sites.data(node.me)


async def wrong_keys(sites):
    notices = Notices()
    sites.start(2)
    (sites.folder / "stranger").unlink(missing_ok=True)
    public = new_key(sites.folder / "stranger")
    await refused(BadFile, opened(sites, 0, notices, key=sites.folder / "stranger"))
    peers = sites.peers.read_text().splitlines()
    peers[1] = f"{peers[1].rsplit(' ', 1)[0]} {public}"
    (sites.folder / "false-peers").write_text("\n".join(peers))
    before = sites.log(2)
    node = await Node.open(sites.data(0), nodes.CONFIG, 0, sites.folder / "false-peers", key=sites.folder / "stranger", tick=0.04, notice=notices)
    await until(lambda: "a stranger was kept out" in sites.log(2)[len(before) :], "it isn't kept out")
    connect, failures = node._connect, []

    def fail_once(peer):
        if not failures:
            failures.append(peer)
            raise zmq.ZMQError(errno.EMFILE)
        return connect(peer)

    node._connect = fail_once
    await until(lambda: failures, "site 2 isn't connected to anew")
    good = sites.peers.read_text()
    sites.peers.write_text((sites.folder / "false-peers").read_text())
    sites.stop(2)
    await asyncio.to_thread(sites.start, 2)
    await notices.has("site 2 is here")  # which knows its key by now
    await until(lambda: node._links[2].answered > 0.0, "site 2 doesn't answer")
    assert not any("has failed" in words for words in notices), notices
    sites.peers.write_text(good)
    await node.close()


def peak_memory(process):
    """The most memory that a process has had, in MiB."""
    status = Path(f"/proc/{process.pid}/status").read_text()
    return int(status.split("VmHWM:")[1].split()[0]) / 1024


def counted(sites, me, name):
    words = sites.polydbc(me, "info")[0].split()
    return int(words[words.index(name) + 1])


def bad_frames(sites):
    """Site 2's key in the hands of a program that sends what is no frame, or one of 1 GiB."""
    sites.start(0)
    sites.start(1)
    client = sites.client(0)
    nodes.commits(client, "a := a - 1 ; b := b + 1")
    peers, secret = read_peers(sites.peers), read_key(sites.data(2) / "site-2.key")
    net = zmq.Context()
    dealer = net.socket(zmq.DEALER)
    dealer.linger = 0
    dealer.curve_serverkey, dealer.curve_secretkey, dealer.curve_publickey = peers[0].key, secret, peers[2].key
    dealer.connect(peers[0].address)
    digest = polydb.node._digest_of(nodes.CONFIG)
    head = b"PV\2m" + digest
    from_1 = b"\5\1\0" + bytes(9)
    headless = (b"", b"P", b"PV\1h" + digest, b"PV\2h" + bytes(16), b"PV\2x" + digest, random.randbytes(300_000))
    messages = (b"", b"\5", from_1, b"\5\2\1" + bytes(9), random.randbytes(5000))
    for frame in (*headless, *(head + message for message in messages)):
        dealer.send(frame)
    dealer.send_multipart([head, b"more"])
    nodes.until(lambda: counted(sites, 0, "refused") >= 12, "frames are refused")
    nodes.commits(client, "a := a - 1 ; b := b + 1")
    before = peak_memory(sites.processes[0])
    dealer.send(bytes(1 << 30), copy=False)
    time.sleep(3.0)
    nodes.commits(client, "a := a - 1 ; b := b + 1")
    after = peak_memory(sites.processes[0])
    assert after < before + 16, (before, after)
    print(f"a frame of 1 GiB: site 0 had {before:.0f} MiB, and has {after:.0f} MiB")
    dealer.close()
    net.term()


class Lame:
    """Carries so many bytes from each connection to an address, and then nothing more, without closing it."""

    def __init__(self, port, most):
        self.port, self.most = port, most
        self.listener = socket.create_server(("127.0.0.1", 0))
        threading.Thread(target=self.run, daemon=True).start()

    def run(self):
        while True:
            try:
                one, _ = self.listener.accept()
                other = socket.create_connection(("127.0.0.1", self.port))
            except OSError:
                return
            threading.Thread(target=self.carry, args=(one, other, self.most), daemon=True).start()
            threading.Thread(target=self.carry, args=(other, one, 1 << 40), daemon=True).start()

    def carry(self, one, other, left):
        try:
            while left > 0 and (data := one.recv(min(left, 4096))):
                other.sendall(data)
                left -= len(data)
            time.sleep(nodes.PATIENCE)
        except OSError:
            pass


def half_frames(sites):
    """Site 2 reaches site 0 by a line that stops within a frame: what the others do goes on, and so does site 2 by a good line."""
    sites.start(0)
    sites.start(1)
    client = sites.client(0)
    for most in (5, 300, 700, 1000):
        lame = Lame(sites.ports[0], most)
        peers = sites.folder / "lame-peers"
        peers.write_text(sites.peers.read_text().replace(f":{sites.ports[0]} ", f":{lame.listener.getsockname()[1]} "))
        words = sites.words(2, "--listen", f"tcp://127.0.0.1:{sites.ports[2]}")
        words[words.index(sites.peers)] = peers
        with open(sites.logs[2], "a") as log:
            before = sites.log(2)
            sites.processes[2] = nodes.subprocess.Popen(words, stderr=log)
        sites.wait_for_log(2, "ready", before)
        for _ in range(3):
            sites.client(2).send("submit", "c := c + 1 ; a := a - 1")
            nodes.commits(client, "a := a + 0 ; b := b + 0")
        sites.kill(2)
        lame.listener.close()
    sites.start(2)
    nodes.commits(sites.client(2), "c := c + 0 ; a := a + 0")


async def numbers_that_are_not_kept(sites):
    """Where a number can't be kept nothing more goes out, so its transaction never commits."""
    notices, told = Notices(), []

    def keep(number):
        told.append(number)
        raise OSError(errno.ENOSPC, "no room")

    node = await opened(sites, 0, notices)
    await refused(Unknown, node.submit("a := a + 1", keep=keep))
    await notices.has("the node has failed")
    await refused(Unknown, node.submit("a := a + 1"))
    await node.close()
    node = await opened(sites, 0, notices)
    assert await node.outcome(told[0]) is polydb.Outcome.NOT_COMMITTED and (await node.read("a")).value == 100
    await node.close()


def main():
    with nodes.Sites() as sites:
        asyncio.run(talk(sites))
    with nodes.Sites() as sites:
        asyncio.run(numbers_that_are_not_kept(sites))
    with nodes.Sites() as sites:
        bad_frames(sites)
    with nodes.Sites() as sites:
        half_frames(sites)
    with nodes.Sites() as sites:
        asyncio.run(wrong_keys(sites))


if __name__ == "__main__":
    main()
