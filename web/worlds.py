"""The worlds that the server holds, and the calls on them."""

import secrets
from threading import Lock
from time import monotonic

from pictures import CHARACTERS, picture_of
from run import Run
from state import choices_of, state_of, theorem_of
from stories import read_stories

#: How many worlds are open at once.
MOST_WORLDS = 16
#: How long a world stays open without a call, in seconds, where another one is asked for.
MOST_IDLE = 3600


class BadRequest(Exception):
    """A call that no page makes."""


class NoWorld(Exception):
    """There is no world of this name."""


class TooManyWorlds(Exception):
    """As many worlds are open as may be."""


class _Kept:
    """A world, and when it was last called."""

    def __init__(self, run):
        self.run = run
        self.called = monotonic()


class Worlds:
    """The worlds of all pages. One call at a time is answered."""

    def __init__(self, engine):
        self._engine = engine
        self._lock = Lock()
        self._worlds = {}

    def stories(self):
        """The stories, as the page shows them."""
        return read_stories()

    def answer(self, path, call):
        """What a call gives: `worlds` opens a world, and `worlds/NAME/VERB` calls it."""
        if not isinstance(call, dict):
            raise BadRequest("an object is needed")
        with self._lock:
            if path == "worlds":
                return self._open(call)
            words = path.split("/")
            if len(words) != 3 or words[0] != "worlds" or words[2] not in _VERBS:
                raise BadRequest("no such call")
            if words[1] not in self._worlds:
                raise NoWorld("this world isn't open any more")
            kept = self._worlds[words[1]]
            kept.called = monotonic()
            return _VERBS[words[2]](self, words[1], kept.run, call)

    def close_all(self):
        """Closes every world."""
        with self._lock:
            for name in list(self._worlds):
                self._drop(name)

    def _open(self, call):
        self._drop_idle()
        if len(self._worlds) >= MOST_WORLDS:
            raise TooManyWorlds(f"{MOST_WORLDS} worlds are open: close another page")
        run = Run(self._engine, _text_of(call, "schedule"))
        name = secrets.token_hex(8)
        self._worlds[name] = _Kept(run)
        return self._shown(name, run, call)

    def _append(self, name, run, call):
        run.append(_lines_of(call))
        return self._shown(name, run, call)

    def _undo(self, name, run, call):
        run.undo(_count_of(call))
        return self._shown(name, run, call)

    # Another schedule in the same world. Where it is faulty, the world stays as it is.
    def _replace(self, name, run, call):
        other = Run(self._engine, _text_of(call, "schedule"))
        run.close()
        self._worlds[name].run = other
        return self._shown(name, other, call)

    # All that the page shows of a run, in one answer: the picture of its newest events and the comparison with the serial run among it.
    def _shown(self, name, run, call):
        picture = picture_of(run, None, _characters_of(call))
        return {"world": name, **state_of(run), "picture": picture, "theorem": theorem_of(self._engine, run, _names_of(call))}

    def _theorem(self, _, run, call):
        return theorem_of(self._engine, run, _names_of(call))

    def _choices(self, _, run, __):
        return choices_of(self._engine, run)

    def _picture(self, _, run, call):
        return picture_of(run, _last_of(call), _characters_of(call))

    def _close(self, name, *_):
        self._drop(name)
        return {}

    def _drop(self, name):
        self._worlds.pop(name).run.close()

    def _drop_idle(self):
        now = monotonic()
        for name in [name for name, kept in self._worlds.items() if now - kept.called > MOST_IDLE]:
            self._drop(name)


_VERBS = {
    "lines": Worlds._append,
    "undo": Worlds._undo,
    "schedule": Worlds._replace,
    "theorem": Worlds._theorem,
    "choices": Worlds._choices,
    "picture": Worlds._picture,
    "close": Worlds._close,
}


def _text_of(call, key):
    text = call.get(key)
    if not isinstance(text, str) or not _is_whole(text):
        raise BadRequest(f"{key} is no text")
    return text


def _lines_of(call):
    lines = call.get("lines")
    if not isinstance(lines, list) or not all(isinstance(line, str) and _is_whole(line) and "\n" not in line for line in lines):
        raise BadRequest("lines are needed")
    return lines


# Which open transactions are switched on.
def _names_of(call):
    names = call.get("commit", [])
    if not isinstance(names, list) or not all(isinstance(name, str) for name in names):
        raise BadRequest("a list of transactions is needed")
    return names


def _count_of(call):
    count = call.get("count")
    if type(count) is not int or not 1 <= count <= 1000:
        raise BadRequest("a count is needed")
    return count


# The last event that a picture is to show.
def _last_of(call):
    last = call.get("last")
    if type(last) is not int:
        raise BadRequest("the number of an event is needed")
    return last


# How many characters of each event a picture has room for.
def _characters_of(call):
    characters = call.get("characters", CHARACTERS[-1])
    if type(characters) is not int or characters not in CHARACTERS:
        raise BadRequest(f"from {CHARACTERS[0]} to {CHARACTERS[-1]} characters are shown")
    return characters


# Whether a text has bytes: JSON may hold halves of pairs that none have.
def _is_whole(text):
    try:
        text.encode()
    except UnicodeEncodeError:
        return False
    return True
