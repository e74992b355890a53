"""polydb in a Python program, by ctypes.

`World` is a database of up to 16 sites that one program drives event by event. `Site` is one site, for a program that carries its
messages and writes its journal. `Outbox` holds outputs back until outcomes are known, and lets each out at most once. `run` gives what `polydb run` prints for a whole schedule, with its status. What each call does is written in
`polydb.h`, and what a host owes.

A status other than POLYDB_DONE is raised here as an exception of its own, and leaves the world, site or outbox as it was. But POLYDB_NOTHING is None;
POLYDB_TOO_SMALL is never seen, as the call is made again with more room; `run` raises nothing, and gives its status; and SentLimit and BrokenOff
end the world: it takes no more steps, and what it has printed can still be taken.

The library is libpolydb.so in this folder, or in `out` beside it, or the file that the environment variable POLYDB_LIBRARY names.
"""

from __future__ import annotations

import ctypes
import os
from ctypes import POINTER, byref, c_bool, c_char_p, c_size_t, c_uint8, c_uint32, c_uint64, c_void_p, string_at
from enum import Enum
from pathlib import Path
from threading import Lock
from typing import Any, Callable, List, NamedTuple, Optional, Tuple, Union

__all__ = [
    "EMPTY_JOURNAL",
    "MAX_CASES",
    "MAX_INPUT",
    "MAX_ITEMS",
    "MAX_JOURNAL",
    "MAX_MESSAGE",
    "MAX_NAME",
    "MAX_PROGRAM",
    "MAX_PROGRAM_ITEMS",
    "MAX_SITES",
    "MIN_JOURNAL",
    "Output",
    "World",
    "Site",
    "Outbox",
    "Info",
    "JournalInfo",
    "JournalWrite",
    "Message",
    "Outcome",
    "Placed",
    "Report",
    "config_grows",
    "run",
    "status_text",
    "version",
    "PolydbError",
    "Malformed",
    "TooLong",
    "NoMemory",
    "SentLimit",
    "Closed",
    "InUse",
    "HasEvents",
    "NoSite",
    "NotOurs",
    "BadRecord",
    "TooManyOutcomes",
    "EpochsSpent",
    "Full",
    "BadText",
    "BadProgram",
    "BadMessage",
    "NotHere",
    "NoSender",
    "NotNext",
    "UnknownName",
    "Unwritten",
    "NotOneEvent",
    "BrokenOff",
    "Ended",
    "Again",
    "Known",
    "BadCases",
]

_DONE = 0
_TOO_SMALL = 18
_NOTHING = 19
_NOT_GROWN = 38
_REPORT = 255

#: The file of a new site or outbox: a journal without records.
EMPTY_JOURNAL = b"PVJRNL01\0"

#: How much there may be: sites, and items of a configuration.
MAX_SITES = 16
MAX_ITEMS = 1024
#: Bytes of an item's name; bytes of a program's text, and items that it names.
MAX_NAME = 16
MAX_PROGRAM = 1000
MAX_PROGRAM_ITEMS = 16
#: Bytes of the condition of an output.
MAX_CASES = 1000
#: Bytes of a configuration, of a schedule, and of a catalog and a line together.
MAX_INPUT = 16_777_216
#: Bytes of a message.
MAX_MESSAGE = 8_454_261
#: Bytes of the limit of journals: the least that may be declared, and the greatest, which is the limit where none is.
MIN_JOURNAL = 32
MAX_JOURNAL = 4_294_967_296

_FIRST_ROOM = 4096
_WRITE_ROOM = 1 << 16  # bytes of a write; more is taken where one doesn't fit


class PolydbError(Exception):
    """A call was refused, and nothing has changed but where a kind of this error says so.

    Where an opening of a site or an outbox, or a request, is refused, `line`, `column` and `number` say where what was given is at fault, as `polydb_fault` of the header does; they are 0 elsewhere.
    """

    line: int = 0
    column: int = 0
    number: int = 0


class Malformed(PolydbError, ValueError):
    """A line isn't in the grammar."""


class TooLong(PolydbError, ValueError):
    """There are more than 16,777,216 bytes."""


class NoMemory(PolydbError, MemoryError):
    """There was no memory. The call can be made again."""


class SentLimit(PolydbError):
    """All messages together would have more than 268,435,456 bytes. The world takes no more steps."""


class Closed(PolydbError):
    """The world, site or outbox is closed."""


class InUse(PolydbError):
    """The world, site or outbox is open already."""


class HasEvents(PolydbError, ValueError):
    """The lines have an event, and are to declare only."""


class NoSite(PolydbError, ValueError):
    """There is no site of this number."""


class NotOurs(PolydbError):
    """The bytes are no journal."""


class BadRecord(PolydbError):
    """What the journal holds isn't a record."""


class TooManyOutcomes(PolydbError):
    """With the journal's records the value of an item would name too many outcomes."""


class EpochsSpent(PolydbError):
    """No epoch is left."""


class Full(PolydbError):
    """The journal has no room for one more record: in a site's opening for that of the new epoch."""


class BadText(PolydbError, ValueError):
    """The text is no program."""


class BadProgram(PolydbError, ValueError):
    """The program may not run."""


class BadMessage(PolydbError, ValueError):
    """The bytes are no message."""


class NotHere(PolydbError):
    """The message goes to another site, or the item is at another one."""


class NoSender(PolydbError):
    """There is no such site as the message comes from."""


class NotNext(PolydbError):
    """That isn't what is to be written next."""


class UnknownName(PolydbError, KeyError):
    """No item has this name."""


class Unwritten(PolydbError):
    """Records wait to be written into the file. What would be shown or told may rest on them, and a crash may undo it."""


class NotOneEvent(PolydbError, ValueError):
    """The line is no event, or more than one, or declares something."""


class BrokenOff(PolydbError, MemoryError):
    """There was no memory within the step. The world takes no more steps."""


class Ended(PolydbError):
    """The world takes no more steps."""


class Again(PolydbError):
    """The output was held before."""


class Known(PolydbError):
    """An outcome of the transaction was learnt before: `outcome`, which counts."""

    outcome: "Outcome"


class BadCases(PolydbError, ValueError):
    """The text is no condition."""


_ERRORS = {
    3: Malformed,
    6: TooLong,
    7: NoMemory,
    8: SentLimit,
    16: Closed,
    17: InUse,
    20: HasEvents,
    21: NoSite,
    22: NotOurs,
    23: BadRecord,
    24: TooManyOutcomes,
    25: EpochsSpent,
    26: Full,
    27: BadText,
    28: BadProgram,
    29: BadMessage,
    30: NotHere,
    31: NoSender,
    32: NotNext,
    33: UnknownName,
    34: NotOneEvent,
    35: BrokenOff,
    36: Ended,
    37: Unwritten,
    39: Again,
    40: Known,
    41: BadCases,
}


Text = Union[str, bytes, bytearray, memoryview]
Bytes = Union[bytes, bytearray, memoryview]


class _Fault(ctypes.Structure):
    """Where what was given is at fault, as C has it."""

    _fields_ = [("line", c_uint32), ("column", c_uint32), ("number", c_uint64)]


class _Info(ctypes.Structure):
    """How far a site is, as C has it."""

    _fields_ = [("stored", c_uint64), ("asked", c_uint64), ("limit", c_uint64), ("epoch", c_uint32), ("records", c_uint32)]


class _JournalInfo(ctypes.Structure):
    """How far an outbox is, as C has it."""

    _fields_ = [("stored", c_uint64), ("asked", c_uint64), ("limit", c_uint64)]


def _check(status: int, what: str, fault: Optional[_Fault] = None) -> None:
    if status == _DONE:
        return
    kind = _ERRORS.get(status, PolydbError)
    where = [f"{name} {value}" for name in ("line", "column", "number") if fault is not None and (value := getattr(fault, name))]
    error = kind(f"{what}: {' '.join([kind.__doc__ or '', *where])} (status {status})")
    if fault is not None:
        error.line, error.column, error.number = fault.line, fault.column, fault.number
    raise error


class _Handle(ctypes.Structure):
    """A handle as C has it: all zeroes are a closed one."""

    _fields_ = [("live", c_bool), ("at", c_void_p)]


def _load() -> ctypes.CDLL:
    named = os.environ.get("POLYDB_LIBRARY")
    here = Path(__file__).resolve().parent
    places = [Path(named)] if named else [here / "libpolydb.so", here.parent / "out" / "libpolydb.so"]
    for place in places:
        if place.exists():
            return ctypes.CDLL(str(place))
    raise ImportError("no libpolydb.so: run embed/build, or set POLYDB_LIBRARY (looked in " + ", ".join(map(str, places)) + ")")


_library = _load()


def _declare(name: str, *arguments: Any, result: Any = c_uint32) -> Any:
    call = getattr(_library, name)
    call.argtypes = arguments
    call.restype = result
    return call


_handle = POINTER(_Handle)
_out = POINTER(c_uint8)
_size = POINTER(c_size_t)
_place = POINTER(c_uint64)

_fault = POINTER(_Fault)

_version = _declare("polydb_version")
_status_text = _declare("polydb_status_text", c_uint32, _out, c_size_t, _size)
_run = _declare("polydb_run", c_char_p, c_size_t, _out, c_size_t, _size)
_world_open = _declare("polydb_world_open", _handle, c_char_p, c_size_t)
_world_step = _declare("polydb_world_step", _handle, c_char_p, c_size_t)
_world_take = _declare("polydb_world_take", _handle, _out, c_size_t, _size)
_world_close = _declare("polydb_world_close", _handle, result=None)
_config_grows = _declare("polydb_config_grows", c_char_p, c_size_t, c_char_p, c_size_t)
_site_open = _declare("polydb_site_open_at", _handle, c_char_p, c_size_t, c_uint8, c_char_p, c_size_t, _fault)
_site_submit = _declare("polydb_site_submit_tagged", _handle, c_char_p, c_size_t, c_bool, c_uint64, _fault)
_site_receive = _declare("polydb_site_receive", _handle, c_char_p, c_size_t)
_site_tick = _declare("polydb_site_tick", _handle)
_site_take_journal = _declare("polydb_site_take_journal", _handle, _out, c_size_t, _size, _place)
_site_journal_synced = _declare("polydb_site_journal_synced", _handle, c_uint64, c_size_t)
_site_take_message = _declare("polydb_site_take_message", _handle, _out, c_size_t, _size, _place)
_site_take_tagged = _declare("polydb_site_take_tagged", _handle, _out, c_size_t, _size, _place, _place)
_site_read = _declare("polydb_site_read", _handle, c_char_p, c_size_t, _out, c_size_t, _size)
_site_outcome = _declare("polydb_site_outcome", _handle, c_uint8, c_uint32, c_uint32, POINTER(c_uint32))
_site_info = _declare("polydb_site_info", _handle, POINTER(_Info))
_site_item = _declare("polydb_site_item", _handle, c_uint64, _out, c_size_t, _size, _place)
_site_close = _declare("polydb_site_close", _handle, result=None)
_outbox_open = _declare("polydb_outbox_open", _handle, c_char_p, c_size_t, _fault)
_outbox_hold = _declare("polydb_outbox_hold", _handle, c_uint32, c_char_p, c_size_t)
_outbox_learn = _declare("polydb_outbox_learn", _handle, c_uint8, c_uint32, c_uint32, c_bool, POINTER(c_uint32))
_outbox_release = _declare("polydb_outbox_release", _handle)
_outbox_take = _declare("polydb_outbox_take", _handle, POINTER(c_uint32))
_outbox_take_journal = _declare("polydb_outbox_take_journal", _handle, _out, c_size_t, _size, _place)
_outbox_journal_synced = _declare("polydb_outbox_journal_synced", _handle, c_uint64, c_size_t)
_outbox_info = _declare("polydb_outbox_info", _handle, POINTER(_JournalInfo))
_outbox_close = _declare("polydb_outbox_close", _handle, result=None)


def _raw(data: Bytes) -> bytes:
    """Bytes as they are. A number isn't taken for so many zeroes, as `bytes` takes it, nor a list for bytes."""
    if not isinstance(data, (bytes, bytearray, memoryview)):
        raise TypeError(f"bytes are needed, not {type(data).__name__}")
    return bytes(data)


def _bytes(text: Text) -> bytes:
    """The bytes of a text, or bytes as they are."""
    return text.encode() if isinstance(text, str) else _raw(text)


def _fill(call: Callable[[Any, int, Any], Any], room: int = _FIRST_ROOM) -> Tuple[int, bytes]:
    """What a call writes: it is called with a buffer and its room, and once more with a larger one where it is too small."""
    while True:
        out = (c_uint8 * room)()
        written = c_size_t(0)
        status = call(out, room, byref(written))
        if status != _TOO_SMALL:
            return status, string_at(out, written.value)
        room = written.value


def run(schedule: Text) -> Tuple[int, bytes]:
    """The status and the text that `polydb run` gives for a schedule: (0, text) where all of it was run."""
    text = _bytes(schedule)
    return _fill(lambda out, room, written: _run(text, len(text), out, room, written))


def config_grows(before: Text, later: Text) -> bool:
    """Whether a site that was opened with the configuration `before` may be opened with `later` from now on: the same sites, the same items and perhaps more behind
    them, and no lower a limit of journals."""
    old, new = _bytes(before), _bytes(later)
    status: int = _config_grows(old, len(old), new, len(new))
    if status != _NOT_GROWN:
        _check(status, "config_grows")
    return status == _DONE


def version() -> Tuple[int, int, int]:
    """The version of the library: (0, 3, 0)."""
    number = _version()
    return number // 10_000, number // 100 % 100, number % 100


def status_text(status: int) -> Optional[str]:
    """What a status says, or None where there is no such status."""
    found, text = _fill(lambda out, room, written: _status_text(status, out, room, written))
    return text.decode() if found == _DONE else None


class _Open:
    """What worlds, sites and outboxes have in common: a handle, which is closed at the end of a `with` and when nothing refers to it.

    A handle is used by one call of the library at a time, also where several threads share it: the others wait. What follows from that:

    - A signal handler that calls an object within a call of the same object waits for ever. It should note the signal, and leave the call to the program.
    - The `take` of a world, and where a buffer is too small that of a site, `next_write` and `read`, call the library twice or more, and a call of another
      thread may come in between. Two threads that both take from one world, site or outbox each get some of what there is, in no order between them.
    """

    _close_call: Any = None

    def __init__(self) -> None:
        self._handle = _Handle()
        self._lock = Lock()

    def _call(self, call: Any, *arguments: Any) -> Any:
        with self._lock:
            return call(byref(self._handle), *arguments)

    def close(self) -> None:
        """Closes it and frees its memory. It may be closed already."""
        self._call(self._close_call)

    def __enter__(self) -> Any:
        return self

    def __exit__(self, *_: object) -> None:
        self.close()

    def __del__(self) -> None:
        if hasattr(self, "_lock"):
            self.close()

    # A copy of a handle would be freed twice.
    def __copy__(self) -> Any:
        raise TypeError("a world, site or outbox can't be copied")

    def __deepcopy__(self, _: object) -> Any:
        raise TypeError("a world, site or outbox can't be copied")

    def __reduce__(self) -> Any:
        raise TypeError("a world, site or outbox can't be pickled")


class World(_Open):
    """All sites of a schedule, in memory, driven event by event."""

    _close_call = staticmethod(_world_close)

    def __init__(self, catalog: Text) -> None:
        """A world with the sites and items of a catalog: the first lines of a schedule."""
        super().__init__()
        text = _bytes(catalog)
        _check(self._call(_world_open, text, len(text)), "open")

    def step(self, line: Text) -> None:
        """One event, as a line of a schedule."""
        text = _bytes(line)
        _check(self._call(_world_step, text, len(text)), "step")

    def take(self) -> bytes:
        """All that was printed and not taken, as bytes."""
        pieces: List[bytes] = []
        out = (c_uint8 * _FIRST_ROOM)()
        written = c_size_t(0)
        while True:
            _check(self._call(_world_take, out, _FIRST_ROOM, byref(written)), "take")
            if written.value == 0:
                return b"".join(pieces)
            pieces.append(string_at(out, written.value))


class JournalWrite(NamedTuple):
    """What is to be written next into the journal of a site or an outbox: these bytes, from this place on."""

    place: int
    bytes: bytes


class Message(NamedTuple):
    """A message, to be carried to this site, which may be the one that sends it."""

    to: int
    bytes: bytes


class Report(NamedTuple):
    """A line for the host, as a run prints it: what became of a request. With the line `txn ..` comes the tag of the request whose number it is."""

    line: str
    tag: int = 0


Output = Union[Message, Report]


class Outcome(Enum):
    """What became of a transaction. The first two are final."""

    COMMITTED = 1
    NOT_COMMITTED = 2
    AT_WORK = 3


class Info(NamedTuple):
    """How far a site is: bytes of its journal in the file, as many as there are once all is written, as many as there may be; its epoch, or None while something is to be written; and records
    of its journal in the file."""

    stored: int
    asked: int
    limit: int
    epoch: Optional[int]
    records: int


class JournalInfo(NamedTuple):
    """How far an outbox is: bytes of its journal in the file, as many as there are once all is written, as many as there may be."""

    stored: int
    asked: int
    limit: int


class Placed(NamedTuple):
    """An item of the configuration, and the site that it is at."""

    name: str
    site: int


def _numbers_of(transaction: str) -> Tuple[int, int, int]:
    """The three numbers of a transaction's name, `0.1.0`. The first has eight bits in C, and the others have 32."""
    words = transaction.split(".")
    if len(words) != 3 or not all(word.isascii() and word.isdigit() and int(word) < 1 << 32 for word in words) or int(words[0]) > 255:
        raise ValueError(f"no transaction: {transaction}")
    site, epoch, number = map(int, words)
    return site, epoch, number


class Site(_Open):
    """One site, for a host that carries its messages and writes its journal."""

    _close_call = staticmethod(_site_close)

    def __init__(self, config: Text, me: int, journal: Bytes) -> None:
        """Site `me` of a configuration, going on from what the host's file holds: EMPTY_JOURNAL in a new site's, which the host has made and synced."""
        super().__init__()
        if not 0 <= me <= 255:  # in C it is a byte, and the rest would be cut off
            raise NoSite(f"open: {NoSite.__doc__} ({me})")
        text = _bytes(config)
        journal = _raw(journal)
        fault = _Fault()
        _check(self._call(_site_open, text, len(text), me, journal, len(journal), byref(fault)), "open", fault)

    def submit(self, program: Text, query: bool = False, tag: int = 0) -> None:
        """A request, with this site as its coordinator. A query assigns nothing and has a `return`. The tag, from 0 to 2**64 - 1, comes again with the Report of the request's
        number, as long as the site isn't closed before."""
        if not 0 <= tag < 1 << 64:  # in C it has 64 bits, and the rest would be cut off
            raise ValueError(f"submit: a tag is from 0 to 2**64 - 1 ({tag})")
        text = _bytes(program)
        fault = _Fault()
        _check(self._call(_site_submit, text, len(text), query, tag, byref(fault)), "submit", fault)

    def receive(self, message: Bytes) -> None:
        """A message that another site, or this one, has let out."""
        message = _raw(message)
        _check(self._call(_site_receive, message, len(message)), "receive")

    def tick(self) -> None:
        """Time has passed."""
        _check(self._call(_site_tick), "tick")

    def next_write(self) -> Optional[JournalWrite]:
        """What is to be written next into the journal, or None: all records that wait, as far as 64 KiB have room for them, and then the gate before them. The same comes
        until `written`."""
        place = c_uint64(0)
        status, data = _fill(lambda out, room, written: self._call(_site_take_journal, out, room, written, byref(place)), _WRITE_ROOM)
        if status == _NOTHING:
            return None
        _check(status, "next_write")
        return JournalWrite(place.value, data)

    def written(self, write: JournalWrite) -> None:
        """This has been written, and the file was synced."""
        _check(self._call(_site_journal_synced, write.place, len(write.bytes)), "written")

    def take(self) -> Optional[Output]:
        """The next Message or Report that is let out, or None for now: nothing comes before the journal has what it rests on."""
        to, tag = c_uint64(0), c_uint64(0)
        status, data = _fill(lambda out, room, written: self._call(_site_take_tagged, out, room, written, byref(to), byref(tag)))
        if status == _NOTHING:
            return None
        _check(status, "take")
        return Report(data.decode().rstrip("\n"), tag.value) if to.value == _REPORT else Message(to.value, data)

    def read(self, name: Text) -> str:
        """What the site shows of its item of this name, once all is written: `90`, `50 if -0.1.0 ; 60 if +0.1.0`, or `locked 0.1.0`."""
        text = _bytes(name)
        status, line = _fill(lambda out, room, written: self._call(_site_read, text, len(text), out, room, written))
        _check(status, "read")
        return line.decode().removeprefix(f"item {text.decode()} ").rstrip("\n")

    def outcome(self, transaction: str) -> Optional[Outcome]:
        """What became of a transaction of this site, `0.1.0`, once all is written; None where the site may still give its number to one."""
        site, epoch, number = _numbers_of(transaction)
        outcome = c_uint32(0)
        status = self._call(_site_outcome, site, epoch, number, byref(outcome))
        if status == _NOTHING:
            return None
        _check(status, "outcome")
        return Outcome(outcome.value)

    def info(self) -> Info:
        """How far the site is."""
        info = _Info()
        _check(self._call(_site_info, byref(info)), "info")
        return Info(info.stored, info.asked, info.limit, info.epoch or None, info.records)

    def items(self) -> List[Placed]:
        """All items of the configuration, in the order in which it declares them."""
        items: List[Placed] = []
        while True:
            at = c_uint64(0)
            status, name = _fill(lambda out, room, written: self._call(_site_item, len(items), out, room, written, byref(at)))
            if status == _NOTHING:
                return items
            _check(status, "items")
            items.append(Placed(name.decode(), at.value))


class Outbox(_Open):
    """Outputs that are held back until outcomes are known, and let out at most once, for a host that writes their journal.

    An output is a number of the caller's for an effect on the outside. It is ready once its condition is certain to be 1, whatever comes of transactions whose outcome wasn't learnt.
    `docs/OUTBOXES.md` says what at most once leaves to the caller.
    """

    _close_call = staticmethod(_outbox_close)

    def __init__(self, journal: Bytes) -> None:
        """An outbox that goes on from what the host's file holds: EMPTY_JOURNAL in a new one's, which the host has made and synced."""
        super().__init__()
        journal = _raw(journal)
        fault = _Fault()
        _check(self._call(_outbox_open, journal, len(journal), byref(fault)), "open", fault)

    def hold(self, output: int, cases: Text = "1") -> None:
        """Holds an output, from 0 to 2**32 - 1, back under a condition: `1`, or cases as an item shows them, `0 if -0.1.0 ; 1 if +0.1.0`. It is held for good once its record is in the
        file. An output that was held before is Again, whether it was released since or not, and Unwritten while records wait to be written."""
        if not 0 <= output < 1 << 32:  # in C it has 32 bits, and the rest would be cut off
            raise ValueError(f"hold: an output is from 0 to 2**32 - 1 ({output})")
        text = _bytes(cases)
        _check(self._call(_outbox_hold, output, text, len(text)), "hold")

    def learn(self, transaction: str, commits: bool) -> None:
        """Learns whether a transaction, `0.1.0`, commits: True or False, and no Outcome. It is learnt for good once its record is in the file. Where an outcome was learnt before it is
        Known, with that `outcome`, whichever is told now, and Unwritten while records wait to be written."""
        if not isinstance(commits, bool):  # in C any other object would count as its truth, and each Outcome is true
            raise TypeError(f"learn: whether it commits is True or False, not {commits!r}")
        site, epoch, number = _numbers_of(transaction)
        outcome = c_uint32(0)
        try:
            _check(self._call(_outbox_learn, site, epoch, number, commits, byref(outcome)), "learn")
        except Known as known:
            known.outcome = Outcome(outcome.value)
            raise

    def release(self) -> bool:
        """Releases the ready output that was held first, and gives whether there was one. Its record is to be written; once it is in the file, `take` gives the output."""
        status: int = self._call(_outbox_release)
        if status != _NOTHING:
            _check(status, "release")
        return status == _DONE

    def take(self) -> Optional[int]:
        """The next output that was released since the opening, once the record of its release is in the file, and Unwritten until then; or None where all are taken. Its effect may
        be done now, and never before. One that isn't taken before the outbox is closed, or its process killed, never is."""
        output = c_uint32(0)
        status = self._call(_outbox_take, byref(output))
        if status == _NOTHING:
            return None
        _check(status, "take")
        return output.value

    def next_write(self) -> Optional[JournalWrite]:
        """What is to be written next into the journal, or None, as of a site."""
        place = c_uint64(0)
        status, data = _fill(lambda out, room, written: self._call(_outbox_take_journal, out, room, written, byref(place)), _WRITE_ROOM)
        if status == _NOTHING:
            return None
        _check(status, "next_write")
        return JournalWrite(place.value, data)

    def written(self, write: JournalWrite) -> None:
        """This has been written, and the file was synced."""
        _check(self._call(_outbox_journal_synced, write.place, len(write.bytes)), "written")

    def info(self) -> JournalInfo:
        """How far the outbox is. What was held, learnt or released while `asked` was some number is in the file once `stored` is no less."""
        info = _JournalInfo()
        _check(self._call(_outbox_info, byref(info)), "info")
        return JournalInfo(info.stored, info.asked, info.limit)
