"""A node for asyncio: a site on a folder that talks with the sites of other processes over ZeroMQ. It speaks what the node in C speaks (`embed/node/polydb_node.h`), with the
same files of peers and keys. It needs pyzmq.

    async with await Node.open("data", CONFIG, 1, peers="peers", key="data/site-1.key") as node:
        answer = await node.submit("a := a - 10 ; b := b + 10")
        if isinstance(answer, Commit): ..
        item = await node.read("b")                         # item.cases has both values where it is in doubt

The syncs are made in a thread of their own, so the loop goes on meanwhile; what comes in that time is written together afterwards.
"""

from __future__ import annotations

import asyncio
import hashlib
import logging
import os
import re
import time
from concurrent.futures import ThreadPoolExecutor
from pathlib import Path
from typing import Any, Callable, Dict, List, NamedTuple, Optional, Set, Tuple, Union, cast

import zmq
import zmq.asyncio
from zmq.auth.asyncio import AsyncioAuthenticator
from zmq.utils import z85

from .answers import Answer, Item, answer_of, item_of
from .engine import Message, NoMemory, Outcome, Output, PolydbError, Report, Text, Unwritten, _bytes
from .files import FileHost, Found

__all__ = ["Node", "Peer", "BadFile", "Unknown", "read_peers", "read_key", "public_key", "new_key"]

_VERSION = 2
_HELLO, _WELCOME, _NO, _MESSAGE = b"hwnm"
_HEAD = 20
_MOST_MESSAGE = 8454261  # no message has more bytes; by its format it has at most 1,245,141
_QUEUE = 4096  # frames that wait for a peer
_LINGER = 250  # milliseconds in which what was sent last may still go
_HANDSHAKE = 5000  # milliseconds that a connection has to show its key
_RECONNECT, _RECONNECT_MOST = 20, 200  # milliseconds until a peer is tried again that is away: first, and later
_BEAT, _SILENT = 1.0, 4.0  # seconds between two hellos; without a sign of a peer until it counts as away
_SAID_AGAIN = 60.0  # seconds until it is said again that strangers are kept out
_LOGGER = logging.getLogger("polydb")


class BadFile(PolydbError, ValueError):
    """The file of peers, or of a key, isn't as it should be."""


class Unknown(PolydbError):
    """The node was closed, or has failed, before the request had its answer: it may have committed or not."""


class _NotKept(Exception):
    """A number wasn't kept, and nothing more is to be taken from the site: its transaction might commit."""


class Peer(NamedTuple):
    """A site in the file of peers."""

    address: str
    key: bytes  #: its public key in the letters of Z85


def read_peers(path: Union[str, Path]) -> Dict[int, Peer]:
    """The peers of a file, whose lines are `SITE ADDRESS KEY`, by their numbers."""
    peers: Dict[int, Peer] = {}
    for number, line in enumerate(Path(path).read_text().splitlines(), 1):
        words = line.split()
        if not words or words[0].startswith("#"):
            continue
        is_good = len(words) == 3 and re.fullmatch(r"\d+", words[0]) and int(words[0]) < 16 and int(words[0]) not in peers and len(words[2]) == 40
        if not is_good or words[2].encode() in [peer.key for peer in peers.values()]:
            raise BadFile(f"line {number} of the file of peers: {BadFile.__doc__}")
        peers[int(words[0])] = Peer(words[1], words[2].encode())
    return peers


def read_key(path: Union[str, Path]) -> bytes:
    """The secret key of a file, as polydbd --new-key makes one. One that others than its owner may read or write is refused: whoever has it, is this site."""
    mode = os.stat(path).st_mode & 0o777
    if mode & 0o077:
        raise BadFile(f"the file of the key, open to others (mode {mode:03o}): {BadFile.__doc__}")
    found = re.fullmatch(rb"secret (\S{40})\r?\n?", Path(path).read_bytes())
    if found is None:
        raise BadFile(f"the file of the key: {BadFile.__doc__}")
    return found[1]


def public_key(path: Union[str, Path]) -> str:
    """The public key of the secret one in a file."""
    public: bytes = zmq.curve_public(read_key(path))
    return public.decode()


def new_key(path: Union[str, Path]) -> str:
    """Makes a new pair of keys, and a file of the secret one, which isn't there yet and which only its owner can read. Gives the public one."""
    public, secret = zmq.curve_keypair()
    file = os.open(path, os.O_WRONLY | os.O_CREAT | os.O_EXCL, 0o600)
    with os.fdopen(file, "wb") as stream:
        stream.write(b"secret " + secret + b"\n")
        stream.flush()
        os.fsync(file)
    return public.decode()


class _Link:
    """What a node knows of a peer."""

    def __init__(self, socket: Any) -> None:
        self.socket = socket
        self.answered = 0.0  # when something came back by that socket
        self.heard: Optional[float] = None
        self.is_away = self.is_odd = False


class _Keys:
    """Says which keys may come in."""

    def __init__(self, peers: Dict[int, Peer], me: int, notice: Callable[[str], object]) -> None:
        self._keys = {peer.key for site, peer in peers.items() if site != me}
        self._notice = notice
        self._said: Optional[float] = None  # a stranger comes again and again: that is said now and then

    def callback(self, _domain: str, key: bytes) -> bool:
        may = key in self._keys
        now = time.monotonic()
        if not may and (self._said is None or now - self._said > _SAID_AGAIN):
            self._said = now
            self._notice("a stranger was kept out, whose key is in no line of the file of peers")
        return may


class Node:
    """A site on a folder, and its peers. `Node.open` makes one. All its calls are made in the loop in which it was opened."""

    me: int
    host: FileHost
    found: Found
    _notice: Callable[[str], object]
    _tick: float
    _digest: bytes
    _peers: Dict[int, Peer]
    _secret: bytes
    _public: bytes
    _disk: ThreadPoolExecutor
    _wake: asyncio.Event

    def __init__(self) -> None:
        self._inputs: List[Callable[[], None]] = []
        self._outputs: List[Output] = []
        self._links: Dict[int, _Link] = {}
        self._tag = 0  # of the last request
        self._waiting: Dict[int, Tuple[asyncio.Future[Any], Optional[Callable[[str], object]]]] = {}
        self._keeping: Dict[int, Callable[[str], object]] = {}
        self._numbered: Dict[str, asyncio.Future[Any]] = {}
        self._tasks: List[asyncio.Task[None]] = []
        self._readers: List[Callable[[], None]] = []
        self._open: Set[asyncio.Future[Any]] = set()  # all that somebody waits for
        self._is_failing = self._is_closed = self._is_spent = False
        self._beaten = 0.0
        self.sent = self.taken = self.lost = self.refused = 0

    @classmethod
    async def open(
        cls,
        folder: Union[str, Path],
        config: Text,
        me: int,
        peers: Union[str, Path],
        key: Union[str, Path, None] = None,
        listen: Optional[str] = None,
        tick: float = 0.1,
        adopts: bool = False,
        is_there: bool = False,
        notice: Callable[[str], object] = _LOGGER.warning,
    ) -> "Node":
        """Opens site `me` on its folder, and listens. `adopts` and `is_there` are a FileHost's. `key` is the file of the secret key, `site-ME.key` in the folder if it isn't said.
        `notice` is told in words what who looks after the node should know: a peer that has come, or that is refused; a write that has failed."""
        node = cls()
        node.me = me
        node._notice = notice
        node._tick = tick
        node._digest = _digest_of(config)
        node._peers = read_peers(peers)
        node._secret = read_key(key if key is not None else Path(folder) / f"site-{me}.key")
        node._public = zmq.curve_public(node._secret)
        if me not in node._peers or node._peers[me].key != node._public:
            raise BadFile(f"the file of peers has no site {me}, or another key of it")
        node.host = FileHost(folder, config, me, node._take_over, adopts, is_there)
        node.found = node.host.found
        node._disk = ThreadPoolExecutor(1, "polydb-disk")
        try:
            node._listen(listen or node._peers[me].address)
        except BaseException:
            node._drop()
            raise
        node._wake = asyncio.Event()
        node._wake.set()  # there is something at first: the record of the epoch
        loop = asyncio.get_running_loop()
        node._tasks = [loop.create_task(part()) for part in (node._work, node._hear_all, node._time)]
        for task in node._tasks:
            task.add_done_callback(node._has_ended)
        return node

    # ---- what a program asks for ----

    async def submit(self, program: Text, begun: Optional[Callable[[str], object]] = None, keep: Optional[Callable[[str], object]] = None) -> Answer:
        """A request, with this site as its coordinator: its end, a Commit or a Refusal. Where this is cancelled, it goes on all the same.

        `begun` is told the transaction's number, in the loop, as soon as it has one; but the site may have let out more by then, and the transaction may have committed.
        `keep` is told it before anything more is taken from the site, in the thread that writes: a number that it has on a disk when it returns is there before the
        transaction can commit. So who keeps each request before it is given, and its number so, can ask for its `outcome` after a crash, and a retry does nothing twice: a
        request without a number hasn't committed, and never will. Where `keep` raises, the node has failed, and is to be closed.
        """
        return await self._ask(program, False, begun, keep)

    async def query(self, program: Text, begun: Optional[Callable[[str], object]] = None, keep: Optional[Callable[[str], object]] = None) -> Answer:
        """A request that assigns nothing and has a `return`."""
        return await self._ask(program, True, begun, keep)

    async def outcome(self, transaction: str) -> Optional[Outcome]:
        """What became of a transaction of this site, `0.1.0`, once all is written; None where the site may still give its number to one."""
        return cast(Optional[Outcome], await self._look(lambda: self.host.outcome(transaction)))

    async def read(self, name: str) -> Item:
        """What the site shows of its item of this name, once all is written."""
        return item_of(name, cast(str, await self._look(lambda: self.host.read(name))))

    async def certain(self, name: str, pause: float = 0.02) -> int:
        """The value of an item, once it is neither held nor in doubt."""
        while not (item := await self.read(name)).is_certain:
            await asyncio.sleep(pause)
        return item.value

    def hears(self, site: int) -> bool:
        """Whether something was heard from this site within the last seconds."""
        link = self._links.get(site)
        return link is not None and link.heard is not None and not link.is_away and not link.is_odd

    async def close(self) -> None:
        """Stops. What was under way goes on when the node is opened again, and its requests here are Unknown."""
        if self._is_closed:
            return
        self._is_closed = True
        for task in self._tasks:
            task.cancel()
        await asyncio.gather(*self._tasks, return_exceptions=True)
        self._disk.shutdown(wait=True)  # a write that is under way is waited for: nobody may write once the lock is gone
        self._drop()
        self._give_up()

    async def __aenter__(self) -> "Node":
        return self

    async def __aexit__(self, *_: object) -> None:
        await self.close()

    def _has_ended(self, task: "asyncio.Task[None]") -> None:
        """A part of the node has come to its end by a fault, which none of them is meant to: nobody is to wait for it."""
        if not task.cancelled() and task.exception() is not None:
            self._is_spent = True
            self._notice(f"the node has failed, close it: {task.exception()!r}")
            self._give_up()

    def _give_up(self) -> None:
        for future in list(self._open):
            _fail(future, Unknown(str(Unknown.__doc__)))
        self._waiting.clear()
        self._numbered.clear()

    # ---- inputs and outputs ----

    async def _look(self, ask: Callable[[], object]) -> object:
        """What the site answers to a question, once all is written."""
        if self._is_closed:
            raise Unknown("the node is closed")
        done = self._new_future()

        def look() -> None:
            try:
                answer = ask()
            except Unwritten:
                self._readers.append(look)
            except (PolydbError, ValueError) as error:
                _fail(done, error)
            else:
                _give(done, answer)

        self._readers.append(look)
        self._give_input(lambda: None)
        return await done

    async def _ask(self, program: Text, is_query: bool, begun: Optional[Callable[[str], object]], keep: Optional[Callable[[str], object]]) -> Answer:
        if self._is_closed or self._is_spent:
            raise Unknown("the node is closed" if self._is_closed else "the site has no number left: open it again")
        done = self._new_future()
        self._tag += 1
        tag = self._tag

        def give() -> None:
            try:
                self.host.submit(program, is_query, tag)
            except PolydbError as error:
                _fail(done, error)
            else:
                self._waiting[tag] = done, begun
                if keep is not None:
                    self._keeping[tag] = keep

        self._give_input(give)
        return cast(Answer, await done)

    def _new_future(self) -> "asyncio.Future[Any]":
        done: asyncio.Future[Any] = asyncio.get_running_loop().create_future()
        self._open.add(done)
        done.add_done_callback(self._open.discard)
        return done

    def _give_input(self, give: Callable[[], None]) -> None:
        self._inputs.append(give)
        self._wake.set()

    async def _work(self) -> None:
        """Gives the site what came, writes what it wants written, in another thread, and hands over what it lets out. The site is used by one thread at a time."""
        loop = asyncio.get_running_loop()
        while True:
            await self._wake.wait()
            self._wake.clear()
            inputs, self._inputs = self._inputs, []
            for give in inputs:
                give()
            settling = loop.run_in_executor(self._disk, self.host.settle)
            try:
                await asyncio.shield(settling)
            except asyncio.CancelledError:
                await asyncio.wait([settling])
                settling.exception()  # a write that failed as well was told to nobody, and is made again when the node is opened
                raise
            except (OSError, PolydbError) as error:
                self._say_failing(error)
            else:
                if self._is_failing:
                    self._is_failing = False
                    self._notice("what had failed is done")
            outputs = self._outputs[:]
            self._outputs.clear()
            for output in outputs:
                self._hand_over(output)
            readers, self._readers = self._readers, []
            for look in readers:
                look()

    def _take_over(self, output: Output) -> None:
        """What the site lets out, within its `settle` and so in the thread that writes. All but the numbers that are to be kept waits for the loop."""
        keep = self._keeping.pop(output.tag, None) if isinstance(output, Report) else None
        if keep is not None and isinstance(output, Report):
            try:
                keep(output.line.partition(" ")[2])
            except Exception as error:
                raise _NotKept(f"{output.line} wasn't kept: {error!r}") from error
        self._outputs.append(output)

    def _say_failing(self, error: Exception) -> None:
        if not self._is_failing:
            self._is_failing = True
            self._notice(f"{error}; nothing is let out that rests on it, and it is made again")

    def _hand_over(self, output: Output) -> None:
        if isinstance(output, Report):
            self._report(output.line, output.tag)
        else:
            self._send(output)

    def _report(self, line: str, tag: int) -> None:
        word, _, rest = line.partition(" ")
        if word == "txn" and tag in self._waiting:
            self._numbered[rest], begun = self._waiting.pop(tag)
            if begun is not None:
                begun(rest)
        elif word in ("commit", "refuse"):
            done = self._numbered.pop(rest.split(" ", 1)[0], None)
            if done is not None:
                _give(done, answer_of(line))
        else:
            self._notice(line)  # `full ..`, `spent ..`
            if word == "spent":  # for a request or for a grant: from here on a number can't be told from another's
                self._is_spent = True
                for done, _ in self._waiting.values():
                    _fail(done, Unknown("the site has no number left: open it again"))
                self._waiting.clear()

    def _send(self, message: Message) -> None:
        link = self._links.get(message.to)
        if link is not None and self._send_frame(link, _MESSAGE, message.bytes):
            self.sent += 1
        else:
            self.lost += 1

    # ---- frames ----

    def _head(self, kind: int) -> bytes:
        return bytes((ord("P"), ord("V"), _VERSION, kind)) + self._digest

    def _send_frame(self, link: _Link, kind: int, data: bytes = b"") -> bool:
        try:
            link.socket.send(self._head(kind) + data, zmq.DONTWAIT)
        except zmq.ZMQError:
            return False
        return True

    def _kind(self, frame: bytes) -> Union[int, str]:
        """The kind of a frame, or what is wrong about it."""
        if len(frame) < _HEAD or frame[:2] != b"PV" or frame[2] != _VERSION:
            return "another version" if frame[:2] == b"PV" and len(frame) > 2 else "another protocol"
        return frame[3] if frame[4:_HEAD] == self._digest else "another configuration"

    def _hear(self, site: int) -> None:
        link = self._links[site]
        if link.is_away or link.is_odd or link.heard is None:
            self._notice(f"site {site} is here")
        link.heard = time.monotonic()
        link.is_away = link.is_odd = False

    def _say_odd(self, site: int, what: str) -> None:
        if not self._links[site].is_odd:
            self._links[site].is_odd = True
            self._notice(f"site {site} is refused: it has {what}")

    async def _hear_all(self) -> None:
        while True:
            parts = await self._all.recv_multipart(copy=False)
            if len(parts) != 2:
                self.refused += 1
                continue
            try:
                site = self._site_of[cast(Any, parts[1]).get("User-Id")]
            except (KeyError, zmq.ZMQError):
                self.refused += 1
                continue
            self._take(site, parts[0].bytes, parts[1].bytes)

    def _take(self, site: int, route: bytes, frame: bytes) -> None:
        kind = self._kind(frame)
        if isinstance(kind, str):
            self.refused += 1
            self._say_odd(site, kind)
            self._answer(route, _NO)
        elif kind == _HELLO:
            self._hear(site)
            self._answer(route, _WELCOME)
        elif kind == _MESSAGE:
            self._hear(site)
            self._give_input(lambda: self._receive(site, frame[_HEAD:]))
        else:
            self.refused += 1

    def _receive(self, site: int, message: bytes) -> None:
        """A message that names another sender than the one whose key it came by is nobody's."""
        try:
            if len(message) < 2 or message[1] != site:
                self.refused += 1
                return
            self.host.receive(message)
            self.taken += 1
        except PolydbError:
            self.refused += 1

    def _answer(self, route: bytes, kind: int) -> None:
        """Answers by the connection that a frame came by. Where it can't be sent now, the next hello has another answer."""
        try:
            self._back.send_multipart([route, self._head(kind)], zmq.DONTWAIT)
        except zmq.ZMQError:
            pass

    # ---- time ----

    async def _time(self) -> None:
        """Ticks: one at a time, however long nobody looked."""
        due = time.monotonic() + self._tick
        while True:
            await asyncio.sleep(max(0.0, due - time.monotonic()))
            due = max(due + self._tick, time.monotonic())
            self._give_input(self._give_tick)
            for site, link in self._links.items():
                self._take_answers(site, link)
            now = time.monotonic()
            if now - self._beaten >= _BEAT:
                self._say_hello()
                for site, link in self._links.items():
                    if link.heard is not None and not link.is_away and now - link.heard > _SILENT:
                        link.is_away = True
                        self._notice(f"site {site} is away")

    def _give_tick(self) -> None:
        try:
            self.host.tick()
        except NoMemory:
            self._notice("a tick is left out: no memory")

    def _say_hello(self) -> None:
        """Says hello to all peers. A peer that has kept this site out as a stranger isn't tried again by libzmq, and no frame can be sent to it from then on. It may know the key by now: so
        where nothing can be sent, and nothing has come back for a while, it is connected to anew. The same is done where a peer is away so long that its queue is full, which can't be told from
        that. What waited for it is lost then, which a message may be; of these `lost` has none."""
        self._beaten = time.monotonic()
        for site, link in self._links.items():
            if not self._send_frame(link, _HELLO) and self._beaten - link.answered > _SILENT:
                link.socket.close()
                try:
                    link.socket = self._connect(self._peers[site])
                except zmq.ZMQError:
                    continue  # by the closed one nothing can be sent, so the next hello tries again
                self._send_frame(link, _HELLO)

    def _take_answers(self, site: int, link: _Link) -> None:
        while True:
            try:
                frame = link.socket.recv(zmq.DONTWAIT)
            except zmq.ZMQError:
                return
            link.answered = time.monotonic()
            kind = self._kind(frame)
            if isinstance(kind, str):
                self.refused += 1
                self._say_odd(site, kind)
            elif kind == _WELCOME:
                self._hear(site)

    # ---- sockets ----

    def _listen(self, address: str) -> None:
        self._net = zmq.asyncio.Context()
        self._keeper = AsyncioAuthenticator(self._net)
        self._keeper.start()
        self._keeper.configure_curve_callback(domain="polydb", credentials_provider=_Keys(self._peers, self.me, self._notice))
        self._site_of = {peer.key.decode(): site for site, peer in self._peers.items()}
        self._all = self._net.socket(zmq.ROUTER)
        self._set_limits(self._all)
        self._all.curve_server = True
        self._all.curve_secretkey = self._secret
        self._all.zap_domain = b"polydb"
        self._all.bind(address)
        self._back = zmq.Socket.shadow(self._all.underlying)  # the same socket, for sending at once
        self._plain = zmq.Context.shadow(self._net.underlying)
        for site, peer in self._peers.items():
            if site != self.me:
                self._links[site] = _Link(self._connect(peer))
        self._say_hello()

    def _connect(self, peer: Peer) -> Any:
        socket = self._plain.socket(zmq.DEALER)
        try:
            self._set_limits(socket)
            socket.curve_serverkey = peer.key
            socket.curve_publickey = self._public
            socket.curve_secretkey = self._secret
            socket.connect(peer.address)
        except BaseException:
            socket.close()
            raise
        return socket

    @staticmethod
    def _set_limits(socket: Any) -> None:
        socket.linger = _LINGER
        socket.handshake_ivl = _HANDSHAKE
        socket.sndhwm = socket.rcvhwm = _QUEUE
        socket.heartbeat_ivl = int(_BEAT * 1000)
        socket.heartbeat_timeout = int(_SILENT * 1000)
        socket.reconnect_ivl, socket.reconnect_ivl_max = _RECONNECT, _RECONNECT_MOST
        socket.maxmsgsize = _HEAD + _MOST_MESSAGE

    def _drop(self) -> None:
        """Closes the sockets and the site."""
        for link in self._links.values():
            link.socket.close()
        if hasattr(self, "_all"):
            self._all.close()
        if hasattr(self, "_keeper"):
            self._keeper.stop()
        if hasattr(self, "_net"):
            self._net.term()
        self._disk.shutdown(wait=True)
        self.host.close()


def _digest_of(config: Text) -> bytes:
    return hashlib.blake2b(_bytes(config), digest_size=16).digest()


def _give(future: "asyncio.Future[Any]", result: Any) -> None:
    if not future.done():
        future.set_result(result)


def _fail(future: "asyncio.Future[Any]", error: Exception) -> None:
    if not future.done():
        future.set_exception(error)
