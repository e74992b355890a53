"""The engine that the tests use: the library; or, where that isn't built, the program `polydb`, which is run once for each event."""

import os
import subprocess
import tempfile
from functools import lru_cache
from pathlib import Path

import engine

#: An event that prints one line, known beforehand, and changes nothing: no message has this number.
MARK = "deliver 18446744073709551615"
MARKED = "no message 18446744073709551615\n"

ROOT = Path(__file__).resolve().parent.parent


def find_program():
    """The program `polydb`: the one that POLYDB_PROGRAM names, or the one that was built, or none."""
    program = Path(os.environ.get("POLYDB_PROGRAM", ROOT / "crates" / "pv_app" / "out" / "pv_app"))
    return program if program.exists() else None


def printed_by(program, schedule):
    """The status of a schedule, and what `polydb run` prints for it."""
    done = subprocess.run([program, "run"], input=schedule.encode(), capture_output=True, check=False)
    return done.returncode, done.stdout.decode("ascii")


def find_engine():
    """The engine and its name, or none where there is neither."""
    try:
        return engine.LibraryEngine(), "the library"
    except ImportError:
        program = find_program()
        if program:
            return ProgramEngine(program), f"the program {program.name}, as there is no library"
        return None, "left out: neither the library nor the program is built"


class ProgramEngine:
    """The engine by the program: a world is the lines so far, and a step runs all of them once more."""

    def __init__(self, program):
        self._program = str(program)
        self._folder = tempfile.TemporaryDirectory()
        self.run = lru_cache(maxsize=4096)(self._run)

    def _run(self, schedule):
        done = subprocess.run([self._program, "run"], input=schedule.encode(), capture_output=True, cwd=self._folder.name, check=False)
        return done.returncode, done.stdout.decode("ascii")

    def open_world(self, catalog):
        """A world with the sites and items of a catalog."""
        return _ProgramWorld(self, catalog)


class _ProgramWorld:
    def __init__(self, program, catalog):
        self._program = program
        self._lines = catalog.split("\n")
        self._printed = None
        status, _ = program.run(catalog + "\n")
        if status != 0:
            raise engine.BadLine(catalog)

    def step(self, line):
        """What one event prints."""
        if line not in ("sent", "report"):
            self._lines.append(line)
            self._printed = None
        try:
            printed = self._read()
        except engine.BadLine:
            self._lines.pop()
            self._printed = None
            raise
        return printed[{"sent": 1, "report": 2}.get(line, 0)]

    def close(self):
        """Nothing is held."""

    # What the last line, `sent` and `report` print.
    def _read(self):
        if self._printed is None:
            *before, last = self._lines
            text = "\n".join([*before, MARK, last, MARK, "sent", MARK, "report", MARK])
            if len(self._lines) == 1 or last.split(" ")[0] in ("sites", "journal", "item"):
                text = "\n".join([*self._lines, MARK, MARK, "sent", MARK, "report", MARK])
            status, printed = self._program.run(text + "\n")
            if status == engine.MALFORMED:
                raise engine.BadLine(last)
            self._printed = printed.split(MARKED)[-4:-1]
        return self._printed
