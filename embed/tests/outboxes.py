"""Outboxes in Python: each call and each refusal; what a crash in any write leaves; drawn lives against the rules; and processes that are killed.

    outboxes.py [KILLS [SEED]]

Not here: a journal at its limit of 4 GiB, and want of memory.
"""

import copy
import os
import random
import signal
import subprocess
import sys
import tempfile
import time
from ctypes import byref, c_size_t, c_uint8, c_uint32, c_uint64
from pathlib import Path

HERE = Path(__file__).resolve().parent
sys.path[:0] = [str(HERE.parent), str(HERE.parent / "examples")]

import polydb  # noqa: E402
from payments import OutboxFile, condition, is_due  # noqa: E402
from polydb import JournalWrite, Outbox, Outcome, engine  # noqa: E402

IF_IT_COMMITS = "0 if -0.1.0 ; 1 if +0.1.0"
IF_IT_DOES_NOT = "1 if -0.1.0 ; 0 if +0.1.0"


def refused(error, call, *arguments):
    """That the call is refused by exactly this error, which is given."""
    try:
        call(*arguments)
    except Exception as found:
        assert type(found) is error, (error, found)
        return found
    raise AssertionError(f"not refused: {error}")


class Hosted:
    """An outbox, and its file in memory."""

    def __init__(self, file=polydb.EMPTY_JOURNAL):
        self.outbox = Outbox(file)
        self.file = bytearray(file)

    def write(self, write, count=None):
        data = write.bytes[:count]
        self.file[write.place : write.place + len(data)] = data

    def settle(self):
        while (write := self.outbox.next_write()) is not None:
            self.write(write)
            self.outbox.written(write)

    def release(self):
        while self.outbox.release():
            pass

    def taken(self):
        """All that is taken once all that is ready is released and written."""
        self.release()
        self.settle()
        outputs = []
        while (output := self.outbox.take()) is not None:
            outputs.append(output)
        return outputs

    def crashed(self):
        """The next process's, on the same file."""
        return Hosted(bytes(self.file))


# ---- calls and refusals ----


def closed_outboxes():
    host = Hosted()
    host.outbox.hold(1)
    write = host.outbox.next_write()
    host.outbox.close()
    host.outbox.close()
    outbox = host.outbox
    for call in (outbox.release, outbox.take, outbox.next_write, outbox.info):
        refused(polydb.Closed, call)
    refused(polydb.Closed, outbox.hold, 1)
    refused(polydb.Closed, outbox.learn, "0.1.0", True)
    refused(polydb.Closed, outbox.written, write)
    with Outbox(polydb.EMPTY_JOURNAL) as outbox:
        outbox.hold(1)
    refused(polydb.Closed, outbox.hold, 2)
    outbox = Outbox(polydb.EMPTY_JOURNAL)
    for call in (copy.copy, copy.deepcopy):
        refused(TypeError, call, outbox)


def an_output_waits_for_its_transaction():
    host = Hosted()
    outbox = host.outbox
    assert outbox.take() is None and not outbox.release() and outbox.next_write() is None
    assert outbox.info() == polydb.JournalInfo(9, 9, polydb.MAX_JOURNAL)
    outbox.hold(1, IF_IT_COMMITS)
    outbox.hold(2)
    outbox.hold(3, IF_IT_DOES_NOT)
    assert outbox.release() and not outbox.release()
    assert outbox.info().stored == 9 < outbox.info().asked
    refused(polydb.Unwritten, outbox.take)
    host.settle()
    assert outbox.info().stored == outbox.info().asked == len(host.file)
    assert outbox.take() == 2 and outbox.take() is None
    outbox.learn("0.1.0", True)
    outbox.hold(4)
    assert host.taken() == [1, 4]  # in the order in which they were held
    later = host.crashed()
    assert later.taken() == []
    later.outbox.learn("0.1.1", False)
    later.outbox.hold(5, IF_IT_DOES_NOT.replace("0.1.0", "0.1.1"))
    assert later.taken() == [5]


def the_first_of_several_counts():
    host = Hosted()
    outbox = host.outbox
    outbox.hold(0, IF_IT_COMMITS)
    refused(polydb.Unwritten, outbox.hold, 0)  # a crash may undo it
    outbox.learn("0.1.0", False)
    refused(polydb.Unwritten, outbox.learn, "0.1.0", True)
    host.settle()
    refused(polydb.Again, outbox.hold, 0)
    assert refused(polydb.Known, outbox.learn, "0.1.0", True).outcome is Outcome.NOT_COMMITTED
    outbox.learn("15.4294967295.4294967295", True)
    outbox.hold(2**32 - 1)
    assert host.taken() == [2**32 - 1]
    assert refused(polydb.Known, outbox.learn, "15.4294967295.4294967295", False).outcome is Outcome.COMMITTED
    refused(polydb.Again, outbox.hold, 2**32 - 1)  # released or not


def what_is_refused():
    host = Hosted()
    outbox = host.outbox
    names = [f"0.1.{number}" for number in range(13)]
    for cases in (
        "",
        " ",
        "2",
        "-1",
        "one",
        "1 ;",
        "1\n",
        "1\n1",
        "0 if +0.1.0",
        "1 if -0.1.0 ; 1 if +0.1.0",
        "1 if +0.1.0 ; 0 if -0.1.0",
        "0 if -16.1.0 ; 1 if +16.1.0",
        "0 if -0.1.0 ; 2 if +0.1.0",
        "1".ljust(polydb.MAX_CASES + 1),
        " ; ".join([f"0 if -{name}" for name in names] + [f"1 if {' '.join('+' + name for name in names)}"]),
        b"\xff",
        b"1\0",
    ):
        error = refused(polydb.BadCases, outbox.hold, 1, cases)
        assert isinstance(error, ValueError)
    for output in (-1, 2**32):
        refused(ValueError, outbox.hold, output)
    refused(polydb.NoSite, outbox.learn, "16.1.0", True)
    for name in ("", "0", "0.1", "0.1.0.0", "0.1.x", "256.1.0", "0.1.4294967296", "0.-1.0"):
        refused(ValueError, outbox.learn, name, True)
    for commits in (Outcome.NOT_COMMITTED, Outcome.COMMITTED, "no", None, 1):
        refused(TypeError, outbox.learn, "0.1.0", commits)
    for given in (5, [80, 86], None, "text"):
        refused(TypeError, Outbox, given)
    for given in (5, [49], None):
        refused(TypeError, outbox.hold, 1, given)
    assert outbox.next_write() is None and not outbox.release()  # nothing of it has counted

    outbox.hold(1, "1".ljust(polydb.MAX_CASES))
    first = outbox.next_write()
    for place, data in [(0, b""), (first.place, b""), (first.place, first.bytes + b"\0"), (first.place + 1, first.bytes), (first.place - 1, b"\1")]:
        refused(polydb.NotNext, outbox.written, JournalWrite(place, data))
        assert outbox.next_write() == first
    outbox.written(first)
    refused(polydb.NotNext, outbox.written, first)
    second = outbox.next_write()
    assert second == JournalWrite(first.place - 1, b"\1")
    outbox.written(second)
    refused(polydb.NotNext, outbox.written, second)
    assert outbox.next_write() is None


def what_is_no_journal():
    """Where the bytes are at fault is said. A site's records are none of an outbox, and the other way round."""
    for journal, number in ((b"", 0), (b"PVJRNL02\0", 7), (polydb.EMPTY_JOURNAL[:8], 8)):
        assert refused(polydb.NotOurs, Outbox, journal).number == number, journal
    site = polydb.Site("sites 1\nitem a 0 1\n", 0, polydb.EMPTY_JOURNAL)
    file = bytearray(polydb.EMPTY_JOURNAL)
    while (write := site.next_write()) is not None:
        file[write.place : write.place + len(write.bytes)] = write.bytes
        site.written(write)
    assert refused(polydb.BadRecord, Outbox, bytes(file)).number == 0
    host = Hosted()
    host.outbox.hold(1)
    host.settle()
    assert refused(polydb.BadRecord, polydb.Site, "sites 1\nitem a 0 1\n", 0, bytes(host.file)).number == 0
    # The second record is the first that is none: its kind is another.
    host.outbox.hold(2)
    place = len(host.file) - 1
    host.settle()
    host.file[place + 5] = 99
    assert refused(polydb.BadRecord, host.crashed).number == 1


def small_rooms():
    """With too small a room nothing is written and nothing is lost; and what has a status says nothing else."""
    host = Hosted()
    for output in range(3):
        host.outbox.hold(output)
    handle = byref(host.outbox._handle)
    needed = None
    for room in range(200):
        out = (c_uint8 * (room + 1))(*[46] * (room + 1))
        written, place = c_size_t(99), c_uint64(99)
        status = engine._outbox_take_journal(handle, out, room, byref(written), byref(place))
        if status == 0:
            assert written.value == room == needed and place.value == 9 and out[room] == 46
            break
        assert status == 18 and place.value == 0 and bytes(out) == b"." * (room + 1) and needed in (None, written.value)
        needed = written.value
    number = c_uint32(99)
    assert engine._outbox_take(handle, byref(number)) == 19 and number.value == 0
    host.settle()
    assert engine._outbox_learn(handle, 16, 1, 0, True, byref(number)) == 21 and number.value == 0
    assert engine._outbox_hold(handle, 7, None, 0) == 41


# ---- crashes ----


def crashes_in_any_write():
    """What a crash leaves in any write is a journal, with all of a group or none of it; and nothing is taken twice."""
    host = Hosted()
    taken = []
    for output in range(4):
        host.outbox.hold(output, IF_IT_COMMITS if output % 2 else "1")
        if output == 2:
            host.outbox.learn("0.1.0", True)
        host.release()
        while (write := host.outbox.next_write()) is not None:
            if any(output not in taken for output in range(output + 1)):
                for count in range(len(write.bytes) + 1):
                    for garbled in (False, True):
                        left = bytearray(host.file)
                        data = write.bytes[:count]
                        left[write.place : write.place + count] = bytes(255 - byte for byte in data) if garbled and write.bytes != b"\1" else data
                        later = Hosted(bytes(left))
                        assert not set(later.taken()) & set(taken)
            host.write(write)
            host.outbox.written(write)
        while (one := host.outbox.take()) is not None:
            assert one not in taken
            taken.append(one)
    assert taken == [0, 1, 2, 3], taken
    # Cut anywhere, the file is a journal of the first records, or none.
    for cut in range(len(host.file) + 1):
        try:
            Outbox(bytes(host.file[:cut])).close()
        except polydb.NotOurs:
            pass


class Rules:
    """What an outbox is to answer: the records that a file has, and those that wait."""

    def __init__(self):
        self.records = []

    def held(self):
        return {number: cases for kind, number, cases in self.records if kind == "held"}

    def outcomes(self):
        return {name: sign for kind, name, sign in self.records if kind == "learnt"}

    def released(self):
        return [number for kind, number, _ in self.records if kind == "released"]

    def next(self):
        return next((number for number, cases in self.held().items() if number not in self.released() and is_due(cases, self.outcomes())), None)


def drawn_cases(draw):
    names = sorted(draw.sample([f"{site}.1.{number}" for site in range(2) for number in range(4)], draw.randrange(3)))
    if not names:
        return draw.choice(["0", "1", "1"])
    if len(names) == 1:
        first = draw.randrange(2)
        return f"{first} if -{names[0]} ; {1 - first} if +{names[0]}"
    one, other = names
    return draw.choice([f"0 if -{one} ; 0 if +{one} -{other} ; 1 if +{one} +{other}", f"0 if -{one} -{other} ; 1 if -{one} +{other} ; 1 if +{one}"])


def drawn_lives(files, events, seed):
    """On so many files, lives of one outbox after another, drawn, each compared with the rules at each call; a crash may come in any write. Gives how much was taken, and how often it
    crashed."""
    draw = random.Random(seed)
    counts = [drawn_file(events, draw) for _ in range(files)]
    return tuple(map(sum, zip(*counts)))


def drawn_file(events, draw):
    host, rules, waits, stored, released, gone = Hosted(), Rules(), [], [], [], []
    crashes = 0
    for _ in range(events):
        outbox = host.outbox
        is_written = len(stored) == len(rules.records)
        event = draw.choices(["hold", "learn", "release", "take", "write", "crash"], [20, 3, 20, 20, 50, 3])[0]
        if event == "hold":
            number, cases = draw.randrange(150), drawn_cases(draw)
            if number in rules.held():
                refused(polydb.Again if is_written else polydb.Unwritten, outbox.hold, number, cases)
            else:
                outbox.hold(number, cases)
                rules.records.append(("held", number, cases))
        elif event == "learn":
            name, commits = f"{draw.randrange(2)}.1.{draw.randrange(4)}", draw.random() < 0.5
            if name not in rules.outcomes():
                outbox.learn(name, commits)
                rules.records.append(("learnt", name, "+" if commits else "-"))
            elif is_written:
                known = refused(polydb.Known, outbox.learn, name, commits)
                assert known.outcome is (Outcome.COMMITTED if rules.outcomes()[name] == "+" else Outcome.NOT_COMMITTED)
            else:
                refused(polydb.Unwritten, outbox.learn, name, commits)
        elif event == "release":
            number = rules.next()
            assert outbox.release() == (number is not None)
            if number is not None:
                rules.records.append(("released", number, None))
                released.append((number, len(rules.records)))
        elif event == "take":
            if not released:
                assert outbox.take() is None
            elif released[0][1] > len(stored):
                refused(polydb.Unwritten, outbox.take)
            else:
                number = released.pop(0)[0]
                assert outbox.take() == number and number not in gone
                gone.append(number)
        elif event == "write":
            write = outbox.next_write()
            assert (write is None) == is_written
            if write is not None:
                if write.bytes != b"\1" or not waits:
                    waits = list(rules.records) if write.bytes != b"\1" else waits
                host.write(write)
                outbox.written(write)
                if write.bytes == b"\1":
                    stored = waits
        else:
            # A group may have been asked for before, and then it is written as it was.
            write = outbox.next_write()
            if write is not None:
                group = waits if write.bytes == b"\1" else None
                host.write(write, draw.randrange(len(write.bytes) + 1))
            crashes += 1
            found = host.crashed()
            length = found.outbox.info().stored
            if write is not None and write.bytes == b"\1" and host.file[write.place] == 1:
                stored = group
            host, rules.records, released, waits = found, list(stored), [], []
            assert length == found.outbox.info().asked
    return len(gone), crashes


# ---- processes that are killed ----


def sender(folder):
    """Holds one output after another, and writes down each that it takes, until it is killed."""
    files = OutboxFile(folder)
    effects = os.open(Path(folder) / "effects", os.O_WRONLY | os.O_CREAT | os.O_APPEND, 0o600)
    number = int(sys.argv[3])
    print("ready", flush=True)
    while True:
        try:
            files.outbox.hold(number)
        except polydb.Again:
            pass
        files.outbox.release()
        files.settle()
        while (output := files.outbox.take()) is not None:
            os.write(effects, b"%d\n" % output)
        number += 1


def kills(count, seed):
    """A process that is killed again and again has each effect once at most, and loses one at a kill at most."""
    draw = random.Random(seed)
    with tempfile.TemporaryDirectory(prefix="polydb-") as folder:
        first = 0
        for _ in range(count):
            child = subprocess.Popen([sys.executable, __file__, "sender", folder, str(first)], stdout=subprocess.PIPE)
            assert child.stdout.readline() == b"ready\n"
            time.sleep(0.05 * draw.random())
            assert child.poll() is None
            child.send_signal(signal.SIGKILL)
            child.wait()
            child.stdout.close()
            effects = list(map(int, (Path(folder) / "effects").read_text().split()))
            first = max(effects, default=-1) + 1
        assert len(set(effects)) == len(effects), "an effect twice"
        lost = set(range(first)) - set(effects)
        assert len(lost) <= count, lost
        print(f"{count} kills: {len(effects)} effects, each once; {len(lost)} lost")


def main():
    if sys.argv[1:2] == ["sender"]:
        sender(sys.argv[2])
        return
    count = int(sys.argv[1]) if len(sys.argv) > 1 else 20
    seed = int(sys.argv[2]) if len(sys.argv) > 2 else random.randrange(1 << 32)
    assert condition("50 if -0.1.0 ; 70 if +0.1.0", 60) == IF_IT_COMMITS and condition("70", 60) == "1"
    closed_outboxes()
    an_output_waits_for_its_transaction()
    the_first_of_several_counts()
    what_is_refused()
    what_is_no_journal()
    small_rooms()
    crashes_in_any_write()
    taken, crashes = drawn_lives(20, 400, seed)
    print(f"seed {seed}: {taken} outputs taken, each once and as the rules say, over {crashes} crashes")
    kills(count, seed)


if __name__ == "__main__":
    main()
