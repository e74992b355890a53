"""Schedules: their lines, and the causes for which a line is malformed, in the order of docs/FORMATS.md."""
import re
from dataclasses import dataclass, field
from typing import Optional

from .programs import RESERVED, Program, ProgramFault, program_of

LONGEST_LINE = 1000
MOST_ITEMS = 1024
MOST_SITES = 16
NAME = re.compile(r"[a-z][a-z0-9_]{0,15}\Z")
MODES = ("lost", "kept", "torn")
SITE, MESSAGE, AMOUNT, CALL, MODE, VALUE, NEW_NAME, SITES, BYTES, TEXT = range(10)

# The words of a line behind its first one, in each form that it may have.
FORMS = {
    "sites": [(SITES,)],
    "journal": [(BYTES,)],
    "item": [(NEW_NAME, SITE, VALUE)],
    "submit": [(SITE, TEXT)],
    "query": [(SITE, TEXT)],
    "deliver": [(MESSAGE,)],
    "lose": [(MESSAGE,)],
    "pump": [(), (AMOUNT,)],
    "drop": [(SITE,)],
    "tick": [(SITE,)],
    "stop": [(SITE,)],
    "start": [(SITE,)],
    "cut": [(SITE, CALL, MODE)],
    "fail": [(SITE, CALL, MODE)],
    "mend": [(SITE,)],
    "checkpoint": [(SITE,)],
    "sent": [()],
    "report": [()],
    "total": [()],
}
DECLARATIONS = ("sites", "journal", "item")
RANGES = {
    MESSAGE: (0, 2**64 - 1),
    AMOUNT: (1, 1_000_000),
    CALL: (1, 1000),
    VALUE: (-(2**63), 2**63 - 1),
    SITES: (1, MOST_SITES),
    BYTES: (32, 2**32),
}


class Malformed(Exception):
    """A line has a cause."""

    def __init__(self, line, cause):
        super().__init__(f"line {line}: {cause}")
        self.line = line
        self.cause = cause


@dataclass(frozen=True)
class Item:
    """A declared item."""

    name: str
    site: int
    value: int


@dataclass(frozen=True)
class Event:
    """An event: its kind, the site that it is of, if it is of one, its number, and what else its line says."""

    kind: str
    text: str
    line: int
    site: Optional[int] = None
    number: Optional[int] = None
    mode: Optional[str] = None
    program: Optional[Program] = None


@dataclass
class Schedule:
    """What the lines so far declare and say."""

    sites: int = 0
    journal: Optional[int] = None
    items: dict = field(default_factory=dict)
    events: list = field(default_factory=list)


def lines_of(data):
    """The lines of a text in bytes, without line feeds and the carriage returns before them."""
    lines = data.split(b"\n")
    if not lines[-1]:
        lines.pop()
    return [line[:-1] if line.endswith(b"\r") else line for line in lines]


def is_significant(line):
    """The line isn't empty, and no comment."""
    return bool(line.strip(b" \t")) and not line.lstrip(b" \t").startswith(b"#")


def form_of(word, text):
    """What stands in the words behind the first one, and these words; the cause `wrong count` where there are others."""
    for form in FORMS[word]:
        most = len(form) if TEXT in form else 0
        words = [part for part in re.split(r"[ \t]+", text.strip(" \t"), maxsplit=most) if part][1:]
        if len(words) == len(form):
            return form, words
    raise ProgramFault("wrong count")


def number_of(word, least, most):
    """A number in its range."""
    pattern = r"-?[0-9]+\Z" if least < 0 else r"[0-9]+\Z"
    if not re.match(pattern, word) or len(word.lstrip("-0")) > 20 or not least <= int(word) <= most:
        raise ProgramFault("bad number")
    return int(word)


class Reader:
    """Reads the significant lines of a schedule, one by one."""

    def __init__(self):
        self.schedule = Schedule()

    def read(self, line, number):
        """Reads one line; an event is answered, if it is one."""
        try:
            return self.read_line(line, number)
        except ProgramFault as fault:
            raise Malformed(number, str(fault)) from None

    def read_line(self, line, number):
        """The same, where a cause has no line yet."""
        if len(line) > LONGEST_LINE:
            raise ProgramFault("too long")
        if any(byte != 9 and not 32 <= byte <= 126 for byte in line):
            raise ProgramFault("not text")
        text = line.decode("ascii").strip(" \t")
        word = re.split(r"[ \t]", text, maxsplit=1)[0]
        self.check_place(word)
        form, words = form_of(word, text)
        values = {kind: self.value(kind, given) for kind, given in zip(form, words) if kind not in (TEXT, NEW_NAME, MODE)}
        if MODE in form and words[-1] not in MODES:
            raise ProgramFault("bad mode")
        if word in DECLARATIONS:
            return self.declare(word, values, words)
        return self.event(word, text, number, values, words)

    def check_place(self, word):
        """The causes of a first word that stands where it may not."""
        schedule = self.schedule
        if not schedule.sites and word != "sites":
            raise ProgramFault("sites expected")
        if word not in FORMS:
            raise ProgramFault("unknown word")
        if word == "sites" and schedule.sites or word == "journal" and schedule.journal is not None:
            raise ProgramFault("twice")
        if word in ("journal", "item") and schedule.events:
            raise ProgramFault("too late")

    def value(self, kind, word):
        """The number of a word."""
        least, most = RANGES.get(kind, (0, self.schedule.sites - 1))
        return number_of(word, least, most)

    def declare(self, word, values, words):
        """What stands before the events."""
        schedule = self.schedule
        if word == "sites":
            schedule.sites = values[SITES]
        elif word == "journal":
            schedule.journal = values[BYTES]
        else:
            self.declare_item(words[0], values)

    def declare_item(self, name, values):
        """One more item."""
        items = self.schedule.items
        if not NAME.match(name) or name in RESERVED:
            raise ProgramFault("bad name")
        if name in items:
            raise ProgramFault("name taken")
        if len(items) == MOST_ITEMS:
            raise ProgramFault("too many items")
        items[name] = Item(name, values[SITE], values[VALUE])

    def event(self, word, text, line, values, words):
        """One more event."""
        program = None
        if word in ("submit", "query"):
            program = program_of(words[1], self.schedule.items, word == "query")
        number = next((values[kind] for kind in (MESSAGE, AMOUNT, CALL) if kind in values), None)
        mode = words[-1] if word in ("cut", "fail") else None
        event = Event(word, text, line, values.get(SITE), number, mode, program)
        self.schedule.events.append(event)
        return event


def read_schedule(data):
    """The schedule of a text in bytes."""
    reader = Reader()
    lines = lines_of(data)
    for number, line in enumerate(lines, 1):
        if is_significant(line):
            reader.read(line, number)
    if not reader.schedule.sites:
        raise Malformed(len(lines) + 1, "sites expected")
    return reader.schedule
