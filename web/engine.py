"""The engine behind the page, as two calls: `open_world` gives a world that is driven line by line, and `run` the status and the text of a whole schedule.

`LibraryEngine` is the proved one, in the library that `embed/build` makes. The tests give the server another object with these two calls.
"""

import sys
from pathlib import Path

#: The status of a schedule with a line that isn't in the grammar.
MALFORMED = 3


class BadLine(Exception):
    """The text isn't in the grammar, or isn't one event. The world is as it was."""


class Over(Exception):
    """The world takes no more steps: its messages passed their limit, or there was no memory within a step."""


class LibraryWorld:
    """All sites of a schedule, in the library."""

    def __init__(self, library, catalog):
        self._library = library
        self._world = _translated(library, lambda: library.World(catalog))

    def step(self, line):
        """What one event prints."""
        _translated(self._library, lambda: self._world.step(line))
        return self._world.take().decode("ascii")

    def close(self):
        """Frees what the world holds."""
        self._world.close()


class LibraryEngine:
    """The engine in `libpolydb.so`, by `embed/polydb/`. Making one raises ImportError where the library isn't built."""

    def __init__(self):
        folder = str(Path(__file__).resolve().parent.parent / "embed")
        if folder not in sys.path:
            sys.path.insert(0, folder)
        import polydb

        self._library = polydb

    def open_world(self, catalog):
        """A world with the sites and items that a catalog declares."""
        return LibraryWorld(self._library, catalog)

    def run(self, schedule):
        """The status and the text that `polydb run` gives for a schedule."""
        status, text = self._library.run(schedule)
        return status, text.decode("ascii")


def _translated(library, call):
    """What a call of the library gives, with the library's errors as those of this module."""
    try:
        return call()
    except (library.Malformed, library.NotOneEvent, library.HasEvents, library.TooLong) as error:
        raise BadLine(str(error)) from error
    except (library.SentLimit, library.BrokenOff, library.Ended) as error:
        raise Over(str(error)) from error
