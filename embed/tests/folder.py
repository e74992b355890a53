"""A site on a folder in Python: it and the hosts in C and Rust exclude one another, use the same files, and refuse the same things.

    folder.py [PROGRAM]          with PROGRAM, the example `process` in Rust, only that the two exclude one another and take over from one another, and what it does where its disk fails
"""

import contextlib
import errno
import os
import select
import shutil
import signal
import socket
import subprocess
import sys
import tempfile
from pathlib import Path

sys.path.insert(0, str(Path(__file__).resolve().parent.parent))

import polydb  # noqa: E402

CONFIG = "sites 1\nitem a 0 100\nitem b 0 50\n"
TRANSFER = "a := a - 10 ; b := b + 10"


class Folder:
    """A folder that is there for a test, and the reports of the sites on it."""

    def __enter__(self):
        self.path = Path(tempfile.mkdtemp(prefix="polydb-"))
        self.reports = []
        return self

    def __exit__(self, *_):
        shutil.rmtree(self.path)

    def open(self, config=CONFIG, me=0, adopts=False, is_there=False):
        return polydb.FileHost(self.path, config, me, self.hear, adopts, is_there)

    def hear(self, output):
        assert isinstance(output, polydb.Report), output
        self.reports.append(output.line)

    def transfer(self, host):
        host.submit(TRANSFER)
        host.settle()
        assert self.reports[-1].startswith("commit "), self.reports

    def journal(self):
        return self.path / "site-0.pv"


def refused(error, call, *arguments, **more):
    """That the call is refused by exactly this error."""
    try:
        call(*arguments, **more)
    except (polydb.PolydbError, OSError) as found:
        assert type(found) is error, (error, found)
        return found
    raise AssertionError(f"not refused: {error}")


def in_child(part):
    """Runs a part in a child of this process, and gives its status as `os.waitpid` does."""
    child = os.fork()
    if child == 0:
        try:
            part()
        except BaseException as error:
            print(error, file=sys.stderr)
            os._exit(1)
        os._exit(0)
    return os.waitpid(child, 0)[1]


def one_at_a_time():
    with Folder() as folder:
        host = folder.open()
        assert host.found == polydb.Found(True, False, 0, 9), host.found
        refused(polydb.Busy, folder.open)
        assert in_child(lambda: refused(polydb.Busy, folder.open)) == 0
        os.close(os.open(folder.path / "site-0.lock", os.O_RDONLY))  # a lock of a process would be lost here
        refused(polydb.Busy, folder.open)

        def child():
            refused(polydb.Forked, host.settle)
            refused(polydb.Forked, host.submit, TRANSFER)
            host.close()

        assert in_child(child) == 0
        refused(polydb.Busy, folder.open)
        folder.transfer(host)
        host.close()
        with folder.open() as host:
            assert not host.found.is_new and not host.found.is_copied and host.found.records > 1
            host.settle()
            assert host.read("a") == "90"


def names_are_compared():
    with Folder() as folder:
        with folder.open() as host:
            folder.transfer(host)
        assert "line 3" in str(refused(polydb.OtherConfig, folder.open, CONFIG.replace("50", "51")))
        for end in ("id", "pv"):
            shutil.copy(folder.path / f"site-0.{end}", folder.path / f"site-1.{end}")
        refused(polydb.OtherSite, folder.open, me=1)
        for nonsense in (b"", b"nonsense", b"polydb site 1\nsite 0\nconfig 9\n"):
            (folder.path / "site-0.id").write_bytes(nonsense)
            refused(polydb.Damaged, folder.open)
        (folder.path / "site-0.id").unlink()
        refused(polydb.Unnamed, folder.open)
        folder.open(adopts=True).close()
        folder.open().close()


def configurations_grow():
    """One that has more items behind the others, or a higher limit of journals, is let in, and the one before not any more."""
    limited, grown = CONFIG.replace("item a", "journal 1000\nitem a"), CONFIG + "item c 0 7\n"
    with Folder() as folder:
        with folder.open(limited) as host:
            folder.transfer(host)
        for other in (limited.replace("1000", "999"), limited.replace("item a", "item c 0 7\nitem a"), limited.replace("50", "51"), "nonsense\n"):
            refused(polydb.OtherConfig, folder.open, other)
        assert polydb.config_grows(limited, CONFIG) and polydb.config_grows(CONFIG, grown) and not polydb.config_grows(grown, CONFIG)
        with folder.open(CONFIG) as host:
            host.settle()
            assert host.read("a") == "90"
        refused(polydb.OtherConfig, folder.open, limited)
        with folder.open(grown) as host:
            host.settle()
            assert host.read("a") == "90" and host.read("c") == "7"
        refused(polydb.OtherConfig, folder.open)
        folder.open(grown).close()


def copies_are_refused():
    """Files that were copied are refused, unless it is said that they may be, and a journal that was set back to what it was before the last opening."""
    with Folder() as folder, Folder() as other:
        for _ in range(2):
            with folder.open() as host:
                folder.transfer(host)
        kept = folder.journal().read_bytes()
        folder.open().close()
        whole = folder.journal().read_bytes()
        assert whole == kept
        with folder.open() as host:
            folder.transfer(host)
        folder.open().close()
        whole = folder.journal().read_bytes()
        folder.journal().write_bytes(kept)
        refused(polydb.Lost, folder.open)
        folder.journal().write_bytes(whole)
        for path in folder.path.iterdir():
            shutil.copy2(path, other.path)
        refused(polydb.Copied, other.open)
        refused(polydb.Copied, other.open, is_there=True)
        with other.open(adopts=True) as host:
            host.settle()
            assert host.read("a") == "70"
        other.open().close()
        for path in list(folder.path.iterdir()):
            path.rename(other.path / path.name)  # within a file system a file that is moved is the same
        other.open().close()


def reports_come_again():
    """A program that couldn't keep a number is told it again, and the transaction doesn't commit before."""
    heard = []

    def hear(output):
        heard.append(output)
        if len(heard) < 3:
            raise OSError(errno.ENOSPC, os.strerror(errno.ENOSPC))

    with Folder() as folder, polydb.FileHost(folder.path, CONFIG, 0, hear) as host:
        host.submit(TRANSFER, tag=7)
        for _ in range(2):
            refused(OSError, host.settle)
            assert host.outcome("0.1.0") is polydb.Outcome.AT_WORK
        host.settle()
        assert heard[:3] == 3 * [polydb.Report("txn 0.1.0", 7)] and heard[3].line.startswith("commit 0.1.0 ") and len(heard) == 4, heard
        assert host.outcome("0.1.0") is polydb.Outcome.COMMITTED


def journals():
    with Folder() as folder:
        folder.journal().write_bytes(b"")
        with folder.open() as host:
            assert host.found.is_new
            folder.transfer(host)
        kept = folder.journal().read_bytes()
        os.truncate(folder.journal(), 400 << 20)
        with folder.open() as host:
            assert host.found.length == len(kept)
        folder.journal().write_bytes(b"")
        refused(polydb.Lost, folder.open)
        folder.journal().unlink()
        refused(polydb.Lost, folder.open)
    for none in (b"P", b"PVJRNL0", b"PVJRNL01", b"QVJRNL01\0", b"PVJRNL01\1", b"PVJRNL01\1\0\0\0\0", b"PVJRNL01\1\xff\xff\xff\xff", b"PVJRNL01\1\0\0\0\5\1"):
        with Folder() as folder:
            folder.journal().write_bytes(none)
            refused(polydb.NotOurs, folder.open)
            assert not (folder.path / "site-0.id").exists()
    with Folder() as folder:
        refused(polydb.Malformed, folder.open, "nonsense\n")
        refused(polydb.NoSite, folder.open, me=1)
        assert sorted(path.suffix for path in folder.path.iterdir()) == [".lock", ".lock"]


def lost():
    """A site that was there before, and whose files are gone, isn't taken for a new one."""
    with Folder() as folder:
        for left in (None, b"", polydb.EMPTY_JOURNAL):
            if left is not None:
                folder.journal().write_bytes(left)
            refused(polydb.NotThere, folder.open, is_there=True)
            assert not (folder.path / "site-0.id").exists()
        folder.open().close()
        with folder.open(is_there=True) as host:
            folder.transfer(host)
        folder.open(is_there=True).close()
        (folder.path / "site-0.id").unlink()
        refused(polydb.Unnamed, folder.open, is_there=True)
        folder.open(adopts=True, is_there=True).close()


def doubt():
    with Folder() as folder:
        with folder.open() as host:
            folder.transfer(host)
        first = folder.journal().stat().st_ino
        with folder.open() as host:
            assert not host.found.is_copied and folder.journal().stat().st_ino == first

        def dies():
            host = folder.open()  # what nobody has any more is closed, and ends well
            folder.transfer(host)
            os.kill(os.getpid(), signal.SIGKILL)

        assert os.WTERMSIG(in_child(dies)) == signal.SIGKILL
        with folder.open() as host:
            second = folder.journal().stat().st_ino
            assert host.found.is_copied and second != first
            host.submit(TRANSFER)
            with a_failing_sync(errno.ENOSPC):
                assert refused(OSError, host.settle).errno == errno.ENOSPC
            assert len(folder.reports) == 2, folder.reports
            host.settle()
            assert host.read("a") == "70"
        with folder.open() as host:
            assert host.found.is_copied and folder.journal().stat().st_ino != second

        # A sync that fails at an opening may be told once only. Where that opening is refused then, the next one makes the copy.
        name, aside = folder.path / "site-0.id", folder.path / "aside"
        for ends in (dies, lambda: folder.open().close()):
            in_child(ends)
            name.rename(aside)
            with a_failing_sync(errno.EIO):
                refused(polydb.Unnamed, folder.open)
            aside.rename(name)
            with folder.open() as host:
                assert host.found.is_copied
        with a_failing_sync(errno.EIO), folder.open() as host:
            assert host.found.is_copied
        with folder.open() as host:
            assert not host.found.is_copied  # the copy ended the doubt
            host.settle()
            assert host.read("a") == "60"


@contextlib.contextmanager
def a_failing_sync(number):
    """The first sync within fails."""
    sync = os.fdatasync

    def fails(_):
        os.fdatasync = sync
        raise OSError(number, os.strerror(number))

    os.fdatasync = fails
    try:
        yield
        assert os.fdatasync is sync, "no sync"
    finally:
        os.fdatasync = sync


class Other:
    """A process in another language with a site, by lines."""

    def __init__(self, words, **environment):
        self.process = subprocess.Popen(words, stdin=subprocess.PIPE, stdout=subprocess.PIPE, stderr=subprocess.DEVNULL, text=True, env={**os.environ, **environment})
        self.says("ready")

    def says(self, *lines):
        for wanted in lines:
            assert (found := self.process.stdout.readline().strip()) == wanted, (found, wanted)

    def ask(self, line, *wanted):
        self.process.stdin.write(line + "\n")
        self.process.stdin.flush()
        self.says(*wanted)

    def is_silent(self, seconds):
        return not select.select([self.process.stdout], [], [], seconds)[0]

    def kill(self):
        self.process.kill()
        self.process.wait()


def words_of(program, folder):
    (folder.path / "config").write_text(CONFIG)
    with socket.socket(socket.AF_INET, socket.SOCK_DGRAM) as one:
        one.bind(("127.0.0.1", 0))
        return [program, "0", folder.path, str(one.getsockname()[1])]


def with_another(program):
    """A site goes from a process in another language to this one and back; while one has it, the other is refused."""
    with Folder() as folder:
        words = words_of(program, folder)
        other = Other(words)
        refused(polydb.Busy, folder.open)
        other.ask("submit " + TRANSFER, "report txn 0.1.0", "report commit 0.1.0 certain nothing")
        other.process.communicate()
        with folder.open() as host:
            assert not host.found.is_new and not host.found.is_copied
            folder.transfer(host)
            refused_process = subprocess.run(words, stdin=subprocess.DEVNULL, capture_output=True, text=True)
            assert refused_process.returncode != 0 and "Busy" in refused_process.stderr, refused_process
        other = Other(words)
        other.ask("read a", "value 80")
        other.kill()
        with folder.open() as host:
            assert host.found.is_copied


def another_whose_disk_fails(program):
    """A full disk and a sync that fails, by a library that is loaded before: nothing is reported that rests on what isn't in the file, what was asked for goes on afterwards,
    and so does a site that is killed meanwhile."""
    library = Path(__file__).resolve().parent.parent / "out" / "libfailing.so"
    for call, number in (("pwrite", errno.ENOSPC), ("fdatasync", errno.EIO)):
        with Folder() as folder:
            words, switch = words_of(program, folder), folder.path / "switch"
            other = Other(words, LD_PRELOAD=str(library), FAILING_SWITCH=str(switch), FAILING_CALL=call, FAILING_NUMBER=str(number))
            other.ask("submit " + TRANSFER, "report txn 0.1.0", "report commit 0.1.0 certain nothing")
            switch.write_text("")
            other.ask("submit " + TRANSFER, "report txn 0.1.1")  # which rests on no record
            assert other.is_silent(0.2)
            switch.unlink()
            other.ask("tick", "report commit 0.1.1 certain nothing")
            switch.write_text("")
            other.ask("submit " + TRANSFER, "report txn 0.1.2")
            assert other.is_silent(0.2)
            other.kill()
            with folder.open() as host:
                assert host.found.is_copied
                host.settle()
                assert host.read("a") == "80"
                folder.transfer(host)


def main():
    if len(sys.argv) > 1:
        with_another(sys.argv[1])
        another_whose_disk_fails(sys.argv[1])
        return
    one_at_a_time()
    names_are_compared()
    configurations_grow()
    copies_are_refused()
    reports_come_again()
    journals()
    lost()
    doubt()


if __name__ == "__main__":
    main()
