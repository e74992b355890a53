"""Traces: events with the lines that they printed, read from a trace or from a schedule with its output, and compared with the rules."""
import re
from dataclasses import dataclass, field
from typing import Optional

from .polyvalues import tree_of_cases
from .protocol import Happening, World
from .schedule import Event, Malformed, Reader, Schedule, is_significant, lines_of, read_schedule

NUMBER = r"(?:0|[1-9][0-9]{0,19})"
SIGNED = r"(?:-?[1-9][0-9]{0,38}|0)"
TRANSACTION = rf"{NUMBER}\.{NUMBER}\.{NUMBER}"
NAME = r"[a-z][a-z0-9_]{0,15}"
REPLY = rf"(?:{SIGNED}|nothing|declined-require|declined-overflow|declined-zero-divisor)"
CONDITION = rf" if(?: [-+]{TRANSACTION})+"
CASES = rf"{SIGNED}(?:{CONDITION})?(?: ; {SIGNED}{CONDITION})*"
KINDS = "lock|granted|denied|prepare|yes|no|outcome|ask"
CAUSES = "|".join(
    [
        rf"conflict {NUMBER} {NAME} {TRANSACTION}",
        rf"outcome-limit {NUMBER}",
        rf"uncertain {NAME} {NUMBER}",
        rf"expired {NUMBER}",
        rf"grant-lost {NUMBER}",
        rf"journal-full {NUMBER} {NUMBER}",
    ]
)
PRINTED = re.compile(
    "|".join(
        [
            rf"txn {TRANSACTION}",
            rf"commit {TRANSACTION} (?:certain {REPLY}|possible {REPLY}(?: {REPLY})+)",
            rf"refuse {TRANSACTION} (?:{CAUSES})",
            rf"full {NUMBER} {NUMBER}",
            rf"(?:spent|down|up|stopped|fault) {NUMBER}",
            rf"started {NUMBER} {NUMBER}",
            rf"no message {NUMBER}",
            rf"sent {NUMBER} {NUMBER}>{NUMBER} (?:{KINDS}) {TRANSACTION}",
            rf"(?:order|committed|open)(?: {TRANSACTION})*",
            rf"item {NAME} (?:locked {TRANSACTION}|down|(?P<cases>{CASES}))",
            "end",
            rf"total (?:certain {SIGNED}|possible {SIGNED}(?: {SIGNED})+|locked {NAME}|down {NUMBER}|outcome-limit {NUMBER})",
        ]
    )
)

# Which words begin the lines that an event may print, and how many there may be, where that is fixed.
ONE = (1, 1)
MAY = (0, 1)
ANY = (0, None)
LINES_OF_EVENT = {
    "submit": ("txn down spent", ONE),
    "query": ("txn down spent", ONE),
    "deliver": ("commit refuse full spent down stopped fault no", MAY),
    "pump": ("commit refuse full spent down stopped fault", ANY),
    "lose": ("no", MAY),
    "drop": ("", MAY),
    "tick": ("refuse down", ANY),
    "stop": ("stopped down", ONE),
    "start": ("started full spent up stopped fault", ONE),
    "cut": ("", MAY),
    "fail": ("", MAY),
    "mend": ("", MAY),
    "checkpoint": ("down stopped fault spent", MAY),
    "sent": ("sent", ANY),
    "total": ("total", ONE),
}
PRINTS_ONLY = ("sent", "report", "total")


class MalformedOutput(Exception):
    """A line of an output has a cause."""

    def __init__(self, line, cause):
        super().__init__(f"output line {line}: {cause}")


@dataclass
class Part:
    """An event, the lines that it printed, and what the rules say that it comes to, as far as they can be followed.
    """

    event: Event
    lines: list = field(default_factory=list)
    happening: Optional[Happening] = None
    differs: bool = False


@dataclass
class Trace:
    """A whole trace: its schedule, the lines before the first event, its parts, and where it leaves the rules, if it does."""

    schedule: Schedule
    headers: list
    parts: list
    left_at: Optional[int] = None
    is_paired_by_form: bool = False


def is_printed(line):
    """The line is one that a run prints."""
    match = PRINTED.fullmatch(line)
    return bool(match) and (not match.group("cases") or tree_of_cases(match.group("cases")) is not None)


def is_report(lines, items):
    """The lines are a report on these items."""
    words = [line.split(" ", 2) for line in lines]
    expected = [["order"], ["committed"], ["open"], *(["item", name] for name in items), ["end"]]
    if len(words) != len(expected) or not all(map(is_printed, lines)):
        return False
    return all(found[: len(form)] == form for found, form in zip(words, expected))


def cause_of_part(part, items):
    """Whether the lines of a part can't be those of its event."""
    if part.event.kind in ("submit", "query"):
        return len(part.lines) != 1
    return part.event.kind == "report" and not is_report(part.lines, items)


def text_of(line):
    """A line as text, whatever its bytes are."""
    return line.decode("ascii", "backslashreplace")


def read_trace(data):
    """The trace of a text in bytes: schedule's lines behind `> `, and after each event what it printed."""
    reader, headers, parts, causes = Reader(), [], [], []
    lines = lines_of(data)
    for number, line in enumerate(lines, 1):
        if not line.startswith(b"> "):
            if not parts or not is_printed(text_of(line)):
                causes.append(Malformed(number, "not a trace"))
            if parts:
                parts[-1].lines.append(text_of(line))
        elif is_significant(line[2:]):
            try:
                event = reader.read(line[2:], number)
            except Malformed as malformed:
                causes.append(malformed)
                break
            if event:
                parts.append(Part(event))
            else:
                headers.append(text_of(line[2:]).strip())
    causes += [Malformed(part.event.line, "not a trace") for part in parts if cause_of_part(part, reader.schedule.items)]
    if not reader.schedule.sites:
        causes.append(Malformed(len(lines) + 1, "sites expected"))
    if causes:
        raise min(causes, key=lambda cause: cause.line)
    return followed(Trace(reader.schedule, headers, parts))


def followed(trace):
    """The trace compared with the rules, up to the first event that changes something and prints other lines than they say."""
    world = World(trace.schedule)
    for place, part in enumerate(trace.parts):
        happening = world.happen(part.event)
        part.differs = happening.lines != part.lines
        if part.differs and part.event.kind not in PRINTS_ONLY:
            trace.left_at = place
            break
        part.happening = happening
    return trace


def read_pair(schedule_data, output_data):
    """The trace of a schedule and of what a run of it printed."""
    schedule = read_schedule(schedule_data)
    headers = [text_of(line).strip() for line in lines_of(schedule_data) if is_significant(line)]
    headers = headers[: len(headers) - len(schedule.events)]
    output = [text_of(line) for line in lines_of(output_data)]
    for number, line in enumerate(output, 1):
        if not is_printed(line):
            raise MalformedOutput(number, "not a printed line")
    trace = Trace(schedule, headers, [Part(event) for event in schedule.events])
    pair(trace, output)
    return followed(trace)


def pair(trace, output):
    """Gives each event its lines: as many as the rules say while they say just these lines, and from there on by their forms."""
    world, place, by_rules = World(trace.schedule), 0, True
    for part in trace.parts:
        if by_rules:
            lines = world.happen(part.event).lines
            by_rules = output[place : place + len(lines)] == lines
        if not by_rules:
            trace.is_paired_by_form = True
            lines = lines_by_form(part.event, trace.schedule.items, output, place)
        part.lines = lines
        place += len(lines)
    if place < len(output):
        raise MalformedOutput(place + 1, "of no event")


def lines_by_form(event, items, output, place):
    """The lines from this place on that have the form of the event's lines. Where the output has ended, there are none."""
    if place == len(output):
        return []
    if event.kind == "report":
        lines = output[place : place + len(items) + 4]
        if not is_report(lines, items):
            raise Malformed(event.line, "no report in the output")
        return lines
    words, (least, most) = LINES_OF_EVENT[event.kind]
    end = place
    while end < len(output) and (most is None or end - place < most) and is_of_event(event, words, output[end], end - place):
        end += 1
    if end - place < least:
        raise Malformed(event.line, "no line in the output")
    return output[place:end]


def is_of_event(event, words, line, count):
    """The line may be the next one, behind so many, that the event prints."""
    parts = line.split(" ")
    if parts[0] not in words.split():
        return False
    if event.kind == "sent":
        return int(parts[1]) == count
    if event.kind == "tick":
        return parts[2] == "expired" if parts[0] == "refuse" else parts[1] == str(event.site)
    if event.kind in ("stop", "start") or parts[0] == "down" and event.site is not None:
        return parts[1] == str(event.site)
    return True
