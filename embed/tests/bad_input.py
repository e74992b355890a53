"""Input that is none: closed handles, lengths of 0, bytes that are no message, a journal cut anywhere, and writes that were never asked for.

Each is refused by a status of its own, nothing is lost, and the site goes on.
"""

import sys
from ctypes import byref, c_size_t, c_uint8, c_uint64
from pathlib import Path

sys.path.insert(0, str(Path(__file__).resolve().parent.parent))

import polydb  # noqa: E402
from polydb import engine  # noqa: E402
from polydb import JournalWrite, Message, Report, Site, World, run  # noqa: E402

CONFIG = "sites 2\nitem a 0 100\nitem b 1 50\n"
TRANSFER = "a := a - 10 ; b := b + 10"


def refused(error, call, *arguments):
    """That the call is refused by exactly this error."""
    try:
        call(*arguments)
    except polydb.PolydbError as found:
        assert type(found) is error, (error, found)
    else:
        raise AssertionError(f"not refused: {error}")


def records_in(journal):
    """How many records a journal has: each stands behind an open gate, after its length in four bytes."""
    count, gate = 0, len(polydb.EMPTY_JOURNAL) - 1
    while journal[gate] == 1:
        count, gate = count + 1, gate + 5 + int.from_bytes(journal[gate + 1 : gate + 5], "big")
    return count


def new_site(me):
    return Site(CONFIG, me, polydb.EMPTY_JOURNAL)


class Hosted:
    """A site, and its file in memory."""

    def __init__(self, me, file=polydb.EMPTY_JOURNAL):
        self.site = Site(CONFIG, me, file)
        self.file = bytearray(file)
        self.writes = []

    def write(self, write, count=None):
        data = write.bytes[:count]
        self.file[write.place : write.place + len(data)] = data

    def settle(self):
        """Writes all that there is, and gives what is let out."""
        while (write := self.site.next_write()) is not None:
            self.writes.append((bytes(self.file), write))
            self.write(write)
            self.site.written(write)
            assert self.site.info().records == records_in(self.file)
        let_out = []
        while (output := self.site.take()) is not None:
            let_out.append(output)
        return let_out


def commit(hosts):
    """One transfer, carried to its end; gives the reports and all messages."""
    hosts[0].site.submit(TRANSFER)
    reports, messages = [], []
    under_way = True
    while under_way:
        under_way = False
        for host in hosts:
            for output in host.settle():
                if isinstance(output, Report):
                    reports.append(output.line)
                else:
                    messages.append(output.bytes)
                    hosts[output.to].site.receive(output.bytes)
                    under_way = True
    return reports, messages


def closed_handles():
    site = new_site(0)
    site.close()
    site.close()
    refused(polydb.Closed, site.tick)
    refused(polydb.Closed, site.submit, TRANSFER)
    refused(polydb.Closed, site.receive, b"")
    refused(polydb.Closed, site.next_write)
    refused(polydb.Closed, site.written, JournalWrite(10, b"1"))
    refused(polydb.Closed, site.take)
    refused(polydb.Closed, site.read, "a")
    world = World(CONFIG)
    world.close()
    refused(polydb.Closed, world.step, "tick 0")
    refused(polydb.Closed, world.take)


def lengths_of_zero():
    refused(polydb.Malformed, World, "")
    refused(polydb.Malformed, Site, "", 0, polydb.EMPTY_JOURNAL)
    refused(polydb.NotOurs, Site, CONFIG, 0, b"")
    assert run("") == (3, b"line 1: sites expected\n")
    site = new_site(0)
    refused(polydb.BadText, site.submit, "")
    refused(polydb.BadMessage, site.receive, b"")
    refused(polydb.UnknownName, site.read, "")
    world = World(CONFIG)
    refused(polydb.NotOneEvent, world.step, "")


def what_is_refused():
    for me in [2, 255, 256, 257, -1, 1 << 64]:
        refused(polydb.NoSite, new_site, me)
    refused(polydb.HasEvents, Site, CONFIG + "tick 0\n", 0, polydb.EMPTY_JOURNAL)
    refused(polydb.HasEvents, World, CONFIG + "tick 0\n")
    refused(polydb.Malformed, Site, "sites 17\n", 0, polydb.EMPTY_JOURNAL)
    refused(polydb.Full, Site, "sites 1\njournal 32\nitem a 0 1\n", 0, journal_of(2))
    site = new_site(0)
    refused(polydb.BadText, site.submit, "a := x")
    refused(polydb.BadProgram, site.submit, "a := 1", True)
    refused(polydb.BadProgram, site.submit, "return 1", True)
    refused(polydb.NotHere, site.read, "b")
    world = World(CONFIG)
    refused(polydb.Malformed, world.step, "tick 2")
    refused(polydb.NotOneEvent, world.step, "tick 0\ntick 0")


def what_is_no_bytes():
    """A number where bytes are wanted isn't so many zeroes. And a site isn't opened without a journal."""
    site, world = new_site(0), World(CONFIG)
    for call in [site.receive, site.submit, site.read, World, world.step, run, lambda journal: Site(CONFIG, 0, journal)]:
        for given in [5, [80, 86], None]:
            wrong(call, given)
    wrong(Site, CONFIG, 0)
    wrong(site.receive, "text")


def wrong(call, *arguments):
    """That these are no arguments of the call."""
    try:
        call(*arguments)
    except TypeError:
        return
    raise AssertionError(f"taken: {arguments}")


def journal_of(epochs):
    """The file of a site that was opened so often."""
    file = polydb.EMPTY_JOURNAL
    for _ in range(epochs):
        host = Hosted(0, file)
        host.settle()
        file = bytes(host.file)
    return file


def where_it_is_at_fault():
    """A refused text says where."""

    def fault(error, call, *arguments):
        try:
            call(*arguments)
        except error as found:
            return found.line, found.column, found.number
        raise AssertionError(f"not refused: {error}")

    site = new_site(0)
    assert fault(polydb.BadText, site.submit, "a := b + x") == (0, 10, 0)
    assert fault(polydb.BadText, site.submit, "a := 1" + " " * polydb.MAX_PROGRAM) == (0, 0, polydb.MAX_PROGRAM + 6)
    assert fault(polydb.BadProgram, site.submit, "return 1", True) == (0, 0, 0)
    assert fault(polydb.Malformed, Site, "sites 1\nitem A 0 1\n", 0, polydb.EMPTY_JOURNAL) == (2, 0, 0)
    assert fault(polydb.NotOurs, Site, CONFIG, 0, b"PVJRNL02\0") == (0, 0, 7)
    full = "sites 1\njournal 32\nitem a 0 1\n"
    assert fault(polydb.Full, Site, full, 0, journal_of(2)) == (0, 0, 39)
    Site(full.replace("32", "39"), 0, journal_of(2)).close()


def what_is_asked():
    """Items, how far a site is, and what became of a transaction."""
    host = Hosted(0)
    assert host.site.items() == [polydb.Placed("a", 0), polydb.Placed("b", 1)]
    assert host.site.info() == polydb.Info(9, 19, polydb.MAX_JOURNAL, None, 0)
    refused(polydb.Unwritten, host.site.outcome, "0.1.0")
    refused(polydb.NotHere, host.site.outcome, "1.1.0")
    host.settle()
    assert host.site.info() == polydb.Info(19, 19, polydb.MAX_JOURNAL, 1, 1)
    assert host.site.outcome("0.1.0") is None
    for wrong_name in ["", "0", "0.1", "0.1.0.0", "0.1.x", "256.1.0", "0.1.4294967296", "0.-1.0", "0.1. 0"]:
        try:
            host.site.outcome(wrong_name)
        except ValueError:
            continue
        raise AssertionError(wrong_name)
    hosts = [Hosted(0), Hosted(1)]
    hosts[0].site.submit(TRANSFER)
    hosts[0].settle()
    assert hosts[0].site.outcome("0.1.0") is polydb.Outcome.AT_WORK
    hosts = [Hosted(0), Hosted(1)]
    commit(hosts)
    assert hosts[0].site.outcome("0.1.0") is polydb.Outcome.COMMITTED
    later = Hosted(0, bytes(hosts[0].file))
    refused(polydb.Unwritten, later.site.outcome, "0.1.0")
    later.settle()
    assert later.site.outcome("0.1.0") is polydb.Outcome.COMMITTED
    assert later.site.outcome("0.1.1") is polydb.Outcome.NOT_COMMITTED


def limits():
    """What is at a limit is taken, and what is above it isn't. A journal at its limit opens under a higher one."""
    assert polydb.version() == (0, 3, 0)
    assert polydb.status_text(0) == "done" and polydb.status_text(27) == "the text is no program"
    assert polydb.status_text(5) is None and polydb.status_text(1 << 31) is None
    for sites, refusal in [(polydb.MAX_SITES, None), (polydb.MAX_SITES + 1, polydb.Malformed)]:
        opened(f"sites {sites}\nitem a 0 1\n", refusal)
    for items, refusal in [(polydb.MAX_ITEMS, None), (polydb.MAX_ITEMS + 1, polydb.Malformed)]:
        opened("sites 1\n" + "".join(f"item a{n} 0 1\n" for n in range(items)), refusal)
    for length, refusal in [(polydb.MAX_NAME, None), (polydb.MAX_NAME + 1, polydb.Malformed)]:
        opened(f"sites 1\nitem {'a' * length} 0 1\n", refusal)
    for limit, refusal in [(polydb.MIN_JOURNAL, None), (polydb.MIN_JOURNAL - 1, polydb.Malformed), (polydb.MAX_JOURNAL, None), (polydb.MAX_JOURNAL + 1, polydb.Malformed)]:
        opened(f"sites 1\njournal {limit}\nitem a 0 1\n", refusal)
    for length, refusal in [(polydb.MAX_INPUT, None), (polydb.MAX_INPUT + 1, polydb.TooLong)]:
        opened("sites 1\nitem a 0 1".ljust(length, "\n"), refusal)
    site = new_site(0)
    site.submit("a :=" + "1".rjust(polydb.MAX_PROGRAM - 4))
    refused(polydb.BadText, site.submit, "a :=" + "1".rjust(polydb.MAX_PROGRAM - 3))
    names = [f"a{n}" for n in range(polydb.MAX_PROGRAM_ITEMS + 1)]
    many = Site("sites 1\n" + "".join(f"item {name} 0 1\n" for name in names), 0, polydb.EMPTY_JOURNAL)
    many.submit(" ; ".join(f"{name} := 1" for name in names[1:]))
    refused(polydb.BadProgram, many.submit, " ; ".join(f"{name} := 1" for name in names))

    full = journal_of(2)
    assert len(full) == 29
    opened("sites 1\njournal 38\nitem a 0 1\n", polydb.Full, full)
    opened("sites 1\njournal 39\nitem a 0 1\n", None, full)


def opened(config, refusal, journal=polydb.EMPTY_JOURNAL):
    """That a site is opened, or is refused so."""
    if refusal is None:
        Site(config, 0, journal).close()
    else:
        refused(refusal, Site, config, 0, journal)


def no_messages():
    hosts = [Hosted(0), Hosted(1)]
    reports, messages = commit(hosts)
    assert reports == ["txn 0.1.0", "commit 0.1.0 certain nothing"], reports
    assert [host.site.read(name) for host, name in zip(hosts, "ab")] == ["90", "60"]
    for me, host in enumerate(hosts):
        for message in messages:
            for cut in range(len(message)):
                refused(polydb.BadMessage, host.site.receive, message[:cut])
            refused(polydb.BadMessage, host.site.receive, message + b"\0")
            # The third byte is the site that it goes to.
            if message[2] != me:
                refused(polydb.NotHere, host.site.receive, message)
        assert host.settle() == []
    assert [host.site.read(name) for host, name in zip(hosts, "ab")] == ["90", "60"]


def cut_journals():
    hosts = [Hosted(0), Hosted(1)]
    commit(hosts)
    for me, (host, name, values) in enumerate([(hosts[0], "a", {"100", "90"}), (hosts[1], "b", {"50", "60"})]):
        # Cut anywhere, it is a journal of the front records, or none.
        whole = bytes(host.file)
        opened = 0
        for cut in range(len(whole) + 1):
            try:
                host = Hosted(me, whole[:cut])
            except polydb.NotOurs:
                continue
            opened += 1
            host.settle()
            assert host.site.read(name) in values | {f"{old} if -0.1.0 ; {new} if +0.1.0" for old in values for new in values if old != new}
        assert opened > 0
        # As a crash leaves it in any write, it is a journal.
        for before, write in host.writes:
            for count in range(len(write.bytes) + 1):
                left = bytearray(before)
                left[write.place : write.place + count] = write.bytes[:count]
                Site(CONFIG, me, left).close()
                left[write.place : write.place + count] = bytes(255 - byte for byte in write.bytes[:count])
                Site(CONFIG, me, left).close()


def writes_never_asked_for():
    site = new_site(0)
    site.submit(TRANSFER)
    first = site.next_write()
    for place, data in [(0, b""), (first.place, b""), (first.place, first.bytes + b"\0"), (first.place + 1, first.bytes), (first.place - 1, b"\1")]:
        refused(polydb.NotNext, site.written, JournalWrite(place, data))
        assert site.next_write() == first
        assert site.take() is None
        refused(polydb.Unwritten, site.read, "a")
    site.written(first)
    refused(polydb.NotNext, site.written, first)
    second = site.next_write()
    assert second.bytes == b"\1" and second.place == first.place - 1
    assert site.take() is None
    refused(polydb.UnknownName, site.read, "c")
    refused(polydb.NotHere, site.read, "b")
    refused(polydb.Unwritten, site.read, "a")
    site.written(second)
    refused(polydb.NotNext, site.written, second)
    assert site.next_write() is None
    assert site.read("a") == "100"
    assert isinstance(site.take(), Message)


def small_rooms():
    """With too small a room nothing is written and nothing is lost."""
    host = Hosted(0)
    host.site.submit(TRANSFER)
    calls = [
        (engine._site_take_journal, lambda: host.site.next_write().bytes),
        (engine._site_take_message, None),
    ]
    for call, wanted in calls:
        if wanted is None:
            while (write := host.site.next_write()) is not None:
                host.site.written(write)
        needed = None
        room = 0
        while True:
            out = (c_uint8 * (room + 1))(*[46] * (room + 1))
            written, number = c_size_t(99), c_uint64(99)
            status = call(byref(host.site._handle), out, room, byref(written), byref(number))
            if status == 0:
                assert room == needed and written.value == needed and out[room] == 46
                break
            assert status == 18 and bytes(out) == b"." * (room + 1), (status, room)
            assert needed in (None, written.value)
            needed = written.value
            room += 1
        if wanted is not None:
            assert bytes(out[:needed]) == wanted()


def tags():
    """A tag comes with the report of its request's number, and with nothing else."""
    host = Hosted(0)
    for tag in (7, 0, 2**64 - 1):
        host.site.submit(TRANSFER, tag=tag)
    for tag in (-1, 2**64):
        try:
            host.site.submit(TRANSFER, tag=tag)
        except ValueError:
            continue
        raise AssertionError(f"not refused: {tag}")
    reports = [output for output in host.settle() if not isinstance(output, Message)]
    assert [report.tag for report in reports if report.line.startswith("txn ")] == [7, 0, 2**64 - 1]
    assert all(report.tag == 0 for report in reports if not report.line.startswith("txn "))


def configurations_that_grow():
    """What a configuration grows to, and what it doesn't; and texts that are none, the one before first."""
    limited = "sites 2\njournal 1000\nitem a 0 100\nitem b 1 50\n"
    grown = [CONFIG, CONFIG + "item c 0 -7\nitem d 1 0\n", "# one site more is another database\n\nsites 2\n" + CONFIG[8:], limited.replace("1000", "1001"), limited]
    for later in grown[:3]:
        assert polydb.config_grows(CONFIG, later) and polydb.config_grows(limited, later), later  # the greatest limit is the one where none is said
    assert polydb.config_grows(limited, grown[3]) and polydb.config_grows(limited, limited)
    for later in (
        limited,  # a lower limit
        CONFIG.replace("sites 2", "sites 3"),
        CONFIG.replace("100", "101"),
        CONFIG.replace("item b 1", "item b 0"),
        CONFIG.replace("item a", "item c"),
        CONFIG.replace("item b", "item c 0 0\nitem b"),
        "sites 2\nitem b 1 50\nitem a 0 100\n",
        "sites 2\nitem a 0 100\n",
    ):
        assert not polydb.config_grows(CONFIG, later), later
    assert not polydb.config_grows("sites 3\n", "sites 2\n") and polydb.config_grows("sites 1\n", "sites 1\nitem a 0 0\n")
    long = "#" * (1 << 24) + "\n"
    for error, text in ((polydb.Malformed, ""), (polydb.Malformed, "nonsense\n"), (polydb.HasEvents, CONFIG + "tick 0\n"), (polydb.TooLong, long)):
        refused(error, polydb.config_grows, text, CONFIG)
        refused(error, polydb.config_grows, CONFIG, text)
        refused(error, polydb.config_grows, text, "nonsense" * (1 << 21) + "!")
    assert engine._config_grows(None, 0, None, 0) == 3  # both are empty


def main():
    closed_handles()
    lengths_of_zero()
    what_is_refused()
    what_is_no_bytes()
    limits()
    where_it_is_at_fault()
    what_is_asked()
    no_messages()
    cut_journals()
    writes_never_asked_for()
    small_rooms()
    tags()
    configurations_that_grow()
    print("each is refused, and nothing is lost")


if __name__ == "__main__":
    main()
