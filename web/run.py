"""The run of a schedule as it grows, event by event, and back again.

The engine says all of it. `sent` prints every message, `report` what the items show; what follows from the lines besides is in `tally.py`. A `pump` is
taken apart into its deliveries, so that each has a moment of its own.
"""

import re
from time import monotonic
from typing import NamedTuple

import engine as engines
from pictures import is_unsettled
from tally import Tally, message_of

#: What one run may have at most.
MOST_BYTES = 131072
MOST_LINES = 1200
MOST_MESSAGES = 2000
MOST_SECONDS = 10

#: The greatest number of a `pump`, which no run reaches, and the longest line of the grammar.
MOST_PUMPED = 1000000
MOST_LINE = 1000

DECLARATIONS = ("sites", "journal", "item")

_PUMP = re.compile(r"[ \t]*pump(?:[ \t]+0*([1-9][0-9]{0,6}))?[ \t]*\Z")
_COLUMN = re.compile(r"column ([0-9]+)\Z")


class Fault(Exception):
    """A line isn't in the grammar: its number in the schedule, the cause, and the column of the program where the cause has one."""

    def __init__(self, line, cause):
        super().__init__(f"line {line}: {cause}")
        column = _COLUMN.search(cause)
        self.line = line
        self.cause = cause
        self.column = int(column[1]) if column else None


class TooMuch(Exception):
    """The schedule is longer, or takes longer, than the server allows."""


class Moment(NamedTuple):
    """An event, or one delivery of a `pump`: the place of its line, the line that the engine was given, what the tally takes it for, which messages it sent, what the
    page is told of it, and which items of the site that it is about are held or in doubt then.
    """

    place: int
    given: str
    meant: str
    sent: list
    told: dict
    unsettled: dict


class Run:
    """The run of a schedule, from its declarations to its last event."""

    def __init__(self, engine, text):
        """The run of a whole schedule. It raises Fault or TooMuch, and then nothing stays open."""
        self._engine = engine
        self._world = None
        lines = _lines_of(text)
        first = next((place for place, line in enumerate(lines) if _is_event(line)), len(lines))
        self._start_clock()
        self._open(lines[:first])
        try:
            self._take(lines[first:])
        except (Fault, TooMuch):
            self.close()
            raise

    def close(self):
        """Frees the engine's world."""
        if self._world is not None:
            self._world.close()
            self._world = None

    def append(self, lines):
        """Runs more lines. Where one can't be run, the run is as it was before all of them, and Fault or TooMuch is raised."""
        self._check_world()
        count, moments = len(self.lines), len(self.moments)
        self._start_clock()
        try:
            self._take(lines)
        except (Fault, TooMuch):
            if len(self.moments) > moments or self._is_over:
                self._go_back(count)
            del self.lines[count:]
            raise

    def undo(self, count):
        """The run without its last events, this many, and what stands behind the first of them."""
        self._check_world()
        events = [place for place, line in enumerate(self.lines) if _is_event(line)]
        if events:
            self._go_back(events[max(len(events) - count, 0)])

    @property
    def text(self):
        """The schedule."""
        return "".join(line + "\n" for line in self.lines)

    # ---- running ----

    def _open(self, declarations):
        _check_room(declarations, [])
        text = "\n".join(declarations)
        try:
            self._world = self._engine.open_world(text)
        except engines.BadLine as error:
            raise self._fault_of(text) from error
        self._is_over = False
        self._declared = len(declarations)
        self.lines = list(declarations)
        self.moments = []
        words = [_words_of(line) for line in declarations if _is_significant(line)]
        self.items = [(word[1], int(word[2]), int(word[3])) for word in words if word[0] == "item"]
        self.tally = Tally(next(int(word[1]) for word in words if word[0] == "sites"))
        self._sent_length = 0
        self.report = self._ask("report").splitlines()

    def _take(self, lines):
        _check_room(self.lines, lines)
        for line in lines:
            if _is_significant(line):
                self._take_line(line)
            self.lines.append(line)

    def _take_line(self, line):
        most = _pumped(line)
        if most is None:
            self._event(line, line)
            return
        delivered = 0
        while delivered < most and self.tally.fresh:
            self._event("pump 1", f"deliver {self.tally.fresh[0]}")
            delivered += 1
        if not delivered:
            self._event("pump 1", "pump")

    # An event: the engine is given it, and asked what it has changed.
    def _event(self, given, meant):
        printed = self._give(given)
        text = self._ask("sent")
        sent = [message_of(line) for line in text[self._sent_length :].splitlines()]
        self._sent_length = len(text)
        self.report = self._ask("report").splitlines()
        told = {"line": len(self.lines), **self.tally.note(meant, printed, sent)}
        self.moments.append(Moment(len(self.lines), given, meant, sent, told, self._unsettled(told)))
        if len(self.tally.messages) > MOST_MESSAGES:
            raise TooMuch(f"a run may have {MOST_MESSAGES} messages")

    # Which items are held or in doubt now at the site that an event is about, and how: each behind the three lists of the report.
    def _unsettled(self, told):
        site = self.tally.messages[told["message"]]["to"] if "message" in told else told.get("site")
        shown = {name: line.split(" ", 2)[2] for (name, at, _), line in zip(self.items, self.report[3:]) if at == site}
        return {name: text for name, text in shown.items() if is_unsettled(text)}

    # The run without its lines from this place on. The events before are run again in a new world, which isn't asked what each has changed: that is known.
    def _go_back(self, place):
        lines, moments = self.lines[:place], [moment for moment in self.moments if moment.place < place]
        self.close()
        self._start_clock()
        self._open(lines[: self._declared])
        try:
            for moment in moments:
                printed = self._give(moment.given)
                assert printed == moment.told["printed"], f"the engine prints other lines than before: {printed}"
                self.tally.note(moment.meant, printed, moment.sent)
        except TooMuch:
            self.close()
            raise
        self.lines, self.moments = lines, moments
        self._sent_length = len(self._ask("sent"))
        self.report = self._ask("report").splitlines()

    # ---- the engine ----

    # What an event prints, line by line.
    def _give(self, line):
        if monotonic() > self._until:
            raise TooMuch(f"a run may take {MOST_SECONDS} seconds")
        try:
            return self._ask(line).splitlines()
        except engines.BadLine as error:
            raise self._fault_of("\n".join([*self.lines, line])) from error

    def _ask(self, line):
        try:
            return self._world.step(line)
        except engines.Over as error:
            self._is_over = True
            raise TooMuch("the messages passed their limit") from error

    def _check_world(self):
        if self._world is None:
            raise TooMuch("this run has ended: run another schedule")

    def _start_clock(self):
        self._until = monotonic() + MOST_SECONDS

    # Why the engine has refused the last line of a text. The text is malformed, so nothing of it is run; or else the line declares something.
    def _fault_of(self, text):
        status, said = self._engine.run(text)
        if status != engines.MALFORMED:
            return Fault(text.count("\n") + 1, "no event")
        place, cause = said.strip().split(": ", 1)
        return Fault(int(place.removeprefix("line ")), cause)


def _lines_of(text):
    lines = text.split("\n")
    if lines[-1] == "":
        lines.pop()
    return [line.removesuffix("\r") for line in lines]


def _check_room(lines, more):
    if len(lines) + len(more) > MOST_LINES:
        raise TooMuch(f"a schedule may have {MOST_LINES} lines")
    if sum(len(line) + 1 for line in lines) + sum(len(line) + 1 for line in more) > MOST_BYTES:
        raise TooMuch(f"a schedule may have {MOST_BYTES} bytes")


def _is_significant(line):
    text = line.lstrip(" \t")
    return text != "" and not text.startswith("#")


def _is_event(line):
    return _is_significant(line) and _words_of(line)[0] not in DECLARATIONS


# How many messages a line pumps at most, or nothing where it is no `pump` of the grammar.
def _pumped(line):
    pump = _PUMP.match(line)
    if not pump or len(line) > MOST_LINE:
        return None
    most = int(pump[1] or MOST_PUMPED)
    return most if most <= MOST_PUMPED else None


def _words_of(line):
    return [word for word in line.replace("\t", " ").split(" ") if word]
