"""A site on a folder: what every host of a site needs of files. It is `embed/host/polydb_host.h` in Python, with the same files, and each excludes the other.

What is done here of that which a host owes by `polydb.h`:

- A lock excludes every other process, and every other opening in this one (an open file description lock on `site-S.lock`).
- After a fork the child is refused (`Forked`), and the parent goes on.
- The folder says which site it is and with which configuration (`site-S.id`), on the disk before anything else is written; it is compared at each opening. A configuration
  to which that one has grown takes its place there, once the library has opened the site with it and before the site is given anything.
- A new journal is on the disk with its entry in the folder before the site is given anything. A file without a byte counts as new, as `polydb show` makes one.
- Where the process before didn't end by `close`, or one of its writes or syncs has failed, the bytes that can be read needn't be on the disk, and a sync alone needn't bring
  them there: the journal is written anew under another name, synced, and takes the old one's place.
- Files that were copied, or set back to what they were before the last opening, are refused where it shows: the lock's file is another one (`Copied`), or the journal is shorter (`Lost`).
- A write or a sync that fails is never told to the site. The same bytes are written again at the next `settle`.
- A message of the site to itself is given back to it at once.
"""

from __future__ import annotations

import errno
import fcntl
import os
import re
import struct
from pathlib import Path
from typing import Callable, NamedTuple, Optional, Union

from .engine import EMPTY_JOURNAL, Bytes, HasEvents, Malformed, Message, Outcome, Output, PolydbError, Report, Site, Text, TooLong, _bytes, config_grows

__all__ = ["FileHost", "SiteFolder", "Found", "Busy", "OtherSite", "OtherConfig", "Unnamed", "Lost", "NotThere", "Damaged", "Copied", "Forked"]

_HEADER = EMPTY_JOURNAL[:8]
_HEAD = 5  # a gate, and the length of its record
_RUNS, _ENDED = b"runs\n", b"done\n"
_WINDOW = 1 << 16


class Busy(PolydbError):
    """Another process, or another part of this one, has the site open."""


class OtherSite(PolydbError):
    """The files are another site's."""


class OtherConfig(PolydbError):
    """The site was opened before with a configuration that hasn't grown to this one."""


class Unnamed(PolydbError):
    """The journal has records, and nothing says of which site and configuration. `adopts` takes it."""


class Lost(PolydbError):
    """The site was opened before, and its journal is gone or empty, or shorter than it was."""


class NotThere(PolydbError):
    """Nothing of the site is in the folder, and it was said to be there."""


class Damaged(PolydbError):
    """The file that says which site it is can't be read."""


class Copied(PolydbError):
    """The folder's files were copied, or moved from another file system. `adopts` takes them."""


class Forked(PolydbError):
    """The parent of this process has the site."""


class Found(NamedTuple):
    """What an opening has found."""

    is_new: bool  #: nobody has opened this site here before
    is_copied: bool  #: the process before didn't end well: the journal was written anew
    records: int  #: how many the journal had
    length: int  #: how long the journal was, from its header to its closed gate


def _write_at(file: int, data: Bytes, place: int) -> None:
    """Writes all of it. (Python itself goes on where a signal has come in between.)"""
    while data:
        count = os.pwrite(file, data, place)
        if count == 0:
            raise OSError(errno.EIO, os.strerror(errno.EIO))
        data, place = data[count:], place + count


def _read_at(file: int, length: int, place: int) -> bytes:
    """So many bytes from this place on, or fewer where the file ends."""
    pieces = []
    while length > 0 and (piece := os.pread(file, length, place)):
        pieces.append(piece)
        length, place = length - len(piece), place + len(piece)
    return b"".join(pieces)


def _set_lock(file: int, kind: int) -> None:
    """A lock of the open file and not of the process: it excludes a second opening in this one, too."""
    fcntl.fcntl(file, fcntl.F_OFD_SETLK, struct.pack("hhqqi4x", kind, os.SEEK_SET, 0, 0, 0))


def _has_grown(before: bytes, later: bytes) -> bool:
    """Whether the one configuration has grown to the other. A text that is none has not."""
    try:
        return config_grows(before, later)
    except (HasEvents, Malformed, TooLong):
        return False


class SiteFolder:
    """A site's files in its folder. The lock comes first, as all else is looked at and changed under it. What is changed comes last (`settle`),
    when all has been read and the library has taken it: so a refused opening leaves the files as they were."""

    def __init__(self, folder: Union[str, Path], config: Text, me: int, adopts: bool = False, is_there: bool = False) -> None:
        """Takes the lock, compares site and configuration, and reads the journal into `held`. Nothing is changed yet."""
        self.me = me
        self.config = _bytes(config)
        self.held = EMPTY_JOURNAL
        self.records = 0
        self._process = os.getpid()
        self._folder = self._lock = self._journal = -1
        self._is_named = self._grows = self._is_copy = self._has_journal = self._runs = self._has_failed = False
        self._noted = 0  # so long the journal was on the disk when a process opened it, if that was noted
        try:
            self._folder = os.open(folder, os.O_RDONLY | os.O_DIRECTORY | os.O_CLOEXEC)
            self._take_lock()
            self._compare()
            if self._is_copy and not adopts:
                raise Copied(f"{self.name('lock')}: {Copied.__doc__}")
            self._read(adopts)
            if is_there and not self._is_named and self.records == 0:
                raise NotThere(f"{self.name('pv')}: {NotThere.__doc__}")
        except BaseException:
            self.close()
            raise

    def name(self, end: str) -> str:
        """The name of one of the site's files."""
        return f"site-{self.me}.{end}"

    def _open(self, name: str, flags: int) -> int:
        return os.open(name, flags | os.O_CLOEXEC, 0o600, dir_fd=self._folder)

    # ---- the lock ----

    def _take_lock(self) -> None:
        name = self.name("lock")
        self._lock = self._open(name, os.O_RDWR | os.O_CREAT | os.O_NOFOLLOW)
        try:
            _set_lock(self._lock, fcntl.F_WRLCK)
        except OSError as error:
            if error.errno in (errno.EAGAIN, errno.EACCES):
                raise Busy(f"{name}: {Busy.__doc__}") from error
            raise
        opened = os.fstat(self._lock)
        try:
            named = os.stat(name, dir_fd=self._folder, follow_symlinks=False)
            is_there = (opened.st_dev, opened.st_ino) == (named.st_dev, named.st_ino)
        except FileNotFoundError:
            is_there = False
        if not is_there:  # somebody has removed it, and the lock on it excludes nobody
            raise Busy(f"{name}: {Busy.__doc__}")
        text = _read_at(self._lock, 128, 0)
        self._ended_well = text.startswith(_ENDED)
        if notes := re.match(rb"file (\d{20})\njournal (\d{20})\n", text[len(_ENDED) :]):
            self._is_copy, self._noted = int(notes[1]) != opened.st_ino, int(notes[2])

    def _say_it_runs(self) -> None:
        """Says in the lock's file that this process has the site, so that the next one knows where this one ends without a word; and which file that is, and how long the journal was
        on the disk, so that it knows of a copy, or of files that were set back."""
        _write_at(self._lock, _RUNS + b"file %020d\njournal %020d\n" % (os.fstat(self._lock).st_ino, self._noted), 0)
        os.fdatasync(self._lock)
        self._runs = True

    # ---- who the site is ----

    def _identity(self) -> bytes:
        return f"polydb site 1\nsite {self.me}\nconfig {len(self.config)}\n".encode()

    def _compare(self) -> None:
        name = self.name("id")
        try:
            file = self._open(name, os.O_RDONLY)
        except FileNotFoundError:
            return
        try:
            kept = _read_at(file, 64 + (16 << 20), 0)
        finally:
            os.close(file)
        head = re.match(rb"polydb site 1\nsite (\d{1,3})\nconfig (\d{1,9})\n", kept)
        if head is None or len(kept) - head.end() != int(head[2]):
            raise Damaged(f"{name}: {Damaged.__doc__}")
        if int(head[1]) != self.me:
            raise OtherSite(f"{name}: {OtherSite.__doc__} (site {int(head[1])})")
        config = kept[head.end() :]
        self._grows = config != self.config
        if self._grows and not _has_grown(config, self.config):
            lines = zip(config.split(b"\n"), self.config.split(b"\n"))
            line = next((number for number, (one, other) in enumerate(lines, 1) if one != other), 0)
            raise OtherConfig(f"{name}: {OtherConfig.__doc__} (line {line})")
        self._is_named = True

    # ---- the journal ----

    def _read(self, adopts: bool) -> None:
        name = self.name("pv")
        try:
            self._journal = self._open(name, os.O_RDWR)
        except FileNotFoundError:
            pass
        size = os.fstat(self._journal).st_size if self._journal >= 0 else 0
        self._has_journal = size > 0
        if not self._has_journal:
            if self._is_named:
                raise Lost(f"{name}: {Lost.__doc__}")
            return
        try:
            os.fdatasync(self._journal)
            os.fsync(self._folder)
        except OSError:
            self._ended_well, self._has_failed = False, True
            self._say_it_runs()  # the next sync may say nothing, so the doubt is kept for the next opening, if this one comes to nothing
        self.held = _read_at(self._journal, self._length(size), 0)
        if not self._is_named and self.records > 0 and not adopts:
            raise Unnamed(f"{name}: {Unnamed.__doc__}")

    def _length(self, size: int) -> int:
        """How long the journal in the file is. Of a file that is no journal it is as much as shows that: up to an open gate whose record goes past the end."""
        if _read_at(self._journal, len(_HEADER), 0) != _HEADER:
            return min(size, len(_HEADER))
        place, start, window = len(_HEADER), 0, b""
        while True:
            if place + _HEAD > start + len(window):
                start, window = place, _read_at(self._journal, _WINDOW, place)
            head = window[place - start : place - start + _HEAD]
            length = int.from_bytes(head[1:], "big")
            if len(head) < _HEAD or head[0] != 1 or place + _HEAD + length >= size:
                return place + min(len(head), 1)
            place += _HEAD + length
            self.records += 1

    # ---- what is changed ----

    def _put(self, name: str, beside: str, data: bytes) -> int:
        """Makes a file of these bytes: it is written beside, synced, and takes its place in one go. It is on the disk with its entry then."""
        file = self._open(beside, os.O_RDWR | os.O_CREAT | os.O_TRUNC | os.O_NOFOLLOW)
        try:
            _write_at(file, data, 0)
            os.fdatasync(file)
            os.rename(beside, name, src_dir_fd=self._folder, dst_dir_fd=self._folder)
            os.fsync(self._folder)
        except BaseException:
            os.close(file)
            raise
        return file

    def settle(self) -> None:
        """Makes that what was read is in the journal's file and on the disk, that the folder says whose it is, and with which configuration from now on, and that the next
        opening knows of this one."""
        if len(self.held) < self._noted:
            raise Lost(f"{self.name('pv')}: {Lost.__doc__}")
        if self._has_journal and self._ended_well:
            self._noted = len(self.held)  # else what can be read needn't be on the disk, and a crash may leave less
        try:
            self._say_it_runs()
            if not self._has_journal or not self._ended_well:
                file = self._put(self.name("pv"), self.name("new"), self.held)
                if self._journal >= 0:
                    os.close(self._journal)  # the old one, of which nothing counts any more
                self._journal = file
                self._has_failed = False  # what had failed was a sync of the old one
            if not self._is_named or self._grows:
                os.close(self._put(self.name("id"), self.name("id.new"), self._identity() + self.config))
        except BaseException:
            self._has_failed = True
            raise

    def found(self) -> Found:
        """What the opening has found."""
        is_copied = self._has_journal and not self._ended_well
        return Found(not self._is_named and self.records == 0, is_copied, self.records, len(self.held))

    def write(self, place: int, data: bytes) -> None:
        """Writes the bytes into the journal, from this place on, and syncs it."""
        try:
            _write_at(self._journal, data, place)
            os.fdatasync(self._journal)
        except BaseException:
            self._has_failed = True
            raise

    def check_process(self) -> None:
        """Raises Forked in a child of the process that has the site."""
        if os.getpid() != self._process:
            raise Forked(f"{self.name('pv')}: {Forked.__doc__}")

    def close(self) -> None:
        """Says that the process ended well, if so, and lets go of the lock. In a child of a fork, the child's descriptors alone are closed."""
        if self._lock >= 0 and os.getpid() == self._process:
            if self._runs and not self._has_failed:
                try:
                    _write_at(self._lock, _ENDED, 0)
                except OSError:
                    pass  # then a copy is made for nothing
            try:
                _set_lock(self._lock, fcntl.F_UNLCK)  # a child of a fork may have the file open, too
            except OSError:
                pass  # not locked
        for file in (self._journal, self._lock, self._folder):
            if file >= 0:
                os.close(file)
        self._journal = self._lock = self._folder = -1

    def __del__(self) -> None:
        if hasattr(self, "_lock"):
            self.close()


class FileHost:
    """A site that is open on its folder. It is used by one thread at a time."""

    def __init__(self, folder: Union[str, Path], config: Text, me: int, hand_over: Callable[[Output], object], adopts: bool = False, is_there: bool = False) -> None:
        """Opens site `me` on its folder. `hand_over` is called within `settle`, with each Message for another site and each Report. With
        `adopts`, a journal with records is taken beside which nothing says whose it is, and files that were copied. With `is_there`, the site was opened here before: a folder without it is
        refused, and not taken for a new site's. A site whose files were lost isn't to begin anew."""
        self.me = me
        self._hand_over = hand_over
        self.site: Optional[Site] = None
        self._left: Optional[Report] = None  # one at which `hand_over` has raised
        self.files = SiteFolder(folder, config, me, adopts, is_there)
        try:
            self.site = Site(config, me, self.files.held)
            self.files.settle()
        except BaseException:
            self.close()
            raise
        self.found = self.files.found()
        self.files.held = b""

    def _open(self) -> Site:
        self.files.check_process()
        if self.site is None:
            raise ValueError("the host is closed")
        return self.site

    def submit(self, program: Text, query: bool = False, tag: int = 0) -> None:
        """A request, with this site as its coordinator. The Report of its number has its tag."""
        self._open().submit(program, query, tag)

    def receive(self, message: Bytes) -> None:
        """A message of another site comes."""
        self._open().receive(message)

    def tick(self) -> None:
        """Time has passed."""
        self._open().tick()

    def read(self, name: Text) -> str:
        """What the site shows of its item of this name; `settle` comes first."""
        return self._open().read(name)

    def outcome(self, transaction: str) -> Optional[Outcome]:
        """What became of a transaction of this site, `0.1.0`, or None where the site may still give its number to one; `settle` comes first."""
        return self._open().outcome(transaction)

    def settle(self) -> None:
        """Writes and syncs what the site wants written, hands over what it lets out, and goes on until there is nothing of either. Nothing more is taken from the site before
        `hand_over` returns: so a number that it keeps on a disk is there before its transaction can commit. Where it raises, so does this: a Report comes again at the next
        call, before all else that is let out; a Message is lost, which it may be.

        A write or sync that fails raises OSError. What doesn't rest on it is handed over all the same; the rest waits, and the next call tries again.
        """
        site = self._open()
        while True:
            try:
                self._write_all(site)
            finally:
                any_out = self._let_out(site)
            if not any_out:
                return

    def _write_all(self, site: Site) -> None:
        """One write and its sync after another: of all records that wait and have room, and then of the gate before them."""
        while (write := site.next_write()) is not None:
            self.files.write(write.place, write.bytes)
            site.written(write)

    def _let_out(self, site: Site) -> bool:
        any_out = False
        while (output := self._left or site.take()) is not None:
            any_out, self._left = True, None
            if isinstance(output, Message) and output.to == self.me:
                try:
                    site.receive(output.bytes)
                except PolydbError:
                    pass  # it is lost, which a message may be: the next ticks ask again
            else:
                try:
                    self._hand_over(output)
                except BaseException:
                    self._left = output if isinstance(output, Report) else None
                    raise
        return any_out

    def close(self) -> None:
        """Closes the site and lets go of its lock. What wasn't settled is lost, as in a crash."""
        self.files.close()
        if self.site is not None:
            self.site.close()
            self.site = None

    def __enter__(self) -> "FileHost":
        return self

    def __exit__(self, *_: object) -> None:
        self.close()
