"""polydbd over the node in Python: the same words, the same lines on the same socket, so that the tests of the one are tests of the other."""

import argparse
import asyncio
import os
import signal
import sys
from pathlib import Path

sys.path.insert(0, str(Path(__file__).resolve().parent.parent.parent))

import polydb  # noqa: E402
from polydb.node import Node, new_key, public_key  # noqa: E402


def words_of(answer):
    """An answer as the line that it was made of."""
    if isinstance(answer, polydb.Commit):
        return f"{answer.transaction} {'certain' if answer.is_certain else 'possible'} {' '.join(map(str, answer.replies))}"
    return f"{answer.transaction} {answer.cause} {' '.join(map(str, answer.more.values()))}"


def cases_of(item):
    if item.locked is not None:
        return f"locked {item.locked}"
    return " ; ".join(f"{case.value} if {' '.join(case.when)}" if case.when else f"{case.value}" for case in item.cases)


class Client:
    """A connection: each line is answered when its answer is there."""

    def __init__(self, node, writer):
        self.node = node
        self.writer = writer

    def say(self, line):
        self.writer.write(line.encode() + b"\n")

    async def obey(self, line):
        verb, tag, rest = (line.split(" ", 2) + ["", ""])[:3]
        try:
            if verb in ("submit", "query"):
                answer = await (self.node.submit if verb == "submit" else self.node.query)(rest, lambda number: self.say(f"txn {tag} {number}"))
                self.say(f"{'commit' if answer else 'refuse'} {tag} {words_of(answer)}")
            elif verb == "read":
                self.say(f"item {tag} {rest} {cases_of(await self.node.read(rest))}")
            elif verb == "outcome":
                outcome = await self.node.outcome(rest)
                self.say(f"outcome {tag} {rest} {'none' if outcome is None else outcome.name.lower().replace('_', '-')}")
            elif verb == "info":
                hears = " ".join(str(site) for site in range(16) if self.node.hears(site))
                self.say(f"info {tag} site {self.node.me} sent {self.node.sent} taken {self.node.taken} lost {self.node.lost} refused {self.node.refused} hears {hears}")
            else:
                self.say(f"error {tag} no such request")
        except polydb.PolydbError as error:
            self.say(f"error {tag} {error}")
        except ConnectionError:
            pass


async def hear(node, reader, writer):
    client = Client(node, writer)
    asked = set()
    try:
        while line := await reader.readline():
            task = asyncio.ensure_future(client.obey(line.decode(errors="replace").strip()))
            asked.add(task)
            task.add_done_callback(asked.discard)
    except (ConnectionError, ValueError):
        pass
    writer.close()


def make_site(words):
    """Makes the files of a site that isn't there yet, and prints its public key."""
    folder = Path(words.data)
    folder.mkdir(0o700, exist_ok=True)
    try:
        with polydb.FileHost(folder, Path(words.config).read_bytes(), words.site, print) as host:
            if host.found.records > 0:
                print(f"polydbd: site {words.site}: it is on {folder} already, whose journal has {host.found.records} records", file=sys.stderr)
                return 3
        key = Path(words.key or folder / f"site-{words.site}.key")
        print(public_key(key) if key.exists() else new_key(key))
        return 0
    except (OSError, polydb.PolydbError) as error:
        print(f"polydbd: site {words.site}: {said(error)}", file=sys.stderr)
        return 3


def said(error):
    return str(error).replace("Another process, or another part of this one, has", "another process has")


async def run(words):
    me, folder = words.site, Path(words.data)

    def say(line):
        print(f"polydbd: site {me}: {line}", file=sys.stderr, flush=True)

    try:
        node = await Node.open(folder, Path(words.config).read_bytes(), me, words.peers, words.key, words.listen, words.tick / 1000, is_there=True, notice=say)
    except polydb.NotThere as error:
        say(f"{error}; a site that never was is made by --new")
        return 3
    except (OSError, polydb.PolydbError) as error:
        say(said(error))
        return 3
    if node.found.records == 0:
        say(f"new, on {folder}")
    else:
        say(f"on {folder}, whose journal has {node.found.records} records, {node.found.length} bytes")
        say("the process before didn't end well, so the journal was written anew" if node.found.is_copied else "the process before ended well")
    path = folder / f"site-{me}.sock"
    path.unlink(missing_ok=True)
    server = await asyncio.start_unix_server(lambda reader, writer: hear(node, reader, writer), path)
    stops = asyncio.Event()
    for number in (signal.SIGTERM, signal.SIGINT):
        asyncio.get_running_loop().add_signal_handler(number, stops.set)
    say(f"ready, takes requests at {path}")
    await stops.wait()
    say("stops")
    server.close()
    await node.close()
    return 0


def main():
    parser = argparse.ArgumentParser()
    parser.add_argument("--new-key")
    parser.add_argument("--new", action="store_true")
    parser.add_argument("--site", type=int)
    parser.add_argument("--tick", type=int, default=100)
    for name in ("config", "peers", "data", "key", "listen"):
        parser.add_argument(f"--{name}")
    words = parser.parse_args()
    if words.new_key:
        print(new_key(words.new_key))
        return
    if words.new:
        raise SystemExit(make_site(words))
    status = asyncio.run(run(words))
    sys.stderr.flush()
    os._exit(status)


if __name__ == "__main__":
    main()
