"""The picture of a run, by the drawing code of `tools/picture`.

That tool works out which event sent which message by rules of its own. Here the engine has said it, so its answers stand in the place of these rules.
"""

import sys
from itertools import groupby
from pathlib import Path

_TOOLS = str(Path(__file__).resolve().parent.parent / "tools")
if _TOOLS not in sys.path:
    sys.path.append(_TOOLS)

from picturing.layout import Start, draw_from
from picturing.page import pieces_of, style_of
from picturing.protocol import Delivery, Happening, Message, is_unsettled
from picturing.schedule import Event, Item, Schedule
from picturing.trace import Part, Trace

__all__ = ["STYLE", "drawn", "is_unsettled", "picture_of"]

#: The style of pictures in the page, whose colours are set at the element that holds them.
STYLE = style_of("#drawing")

#: How many events a picture shows at most: the rest is drawn when it is asked for.
MOST_DRAWN = 40
#: Of how many characters of an event's text a page has the choice: at the least of its word, at the most of all.
CHARACTERS = range(8, 47)

_OF_A_SITE = ("submit", "query", "drop", "tick", "stop", "start", "cut", "fail", "mend", "checkpoint")


def picture_of(run, last, characters):
    """The picture of the newest events of a run, or of those up to a number: its head and the rest, and which events it shows of how many."""
    events = [list(moments) for _, moments in groupby(run.moments, lambda moment: moment.place)]
    last = len(events) if last is None else min(max(last, MOST_DRAWN), len(events))
    first = max(1, last - MOST_DRAWN + 1)
    head, body = pieces_of(drawn(run, events, first, last, characters))
    return {"first": first, "last": last, "count": len(events), "head": head, "body": body}


def drawn(run, events, first, last, characters):
    """The drawing of the events from the first to the last of these numbers. Each event is the list of its moments."""
    messages = [Message(it["kind"], it["from"], it["to"], it["transaction"], number=it["number"]) for it in run.tally.messages]
    schedule = Schedule(len(run.tally.up), items={name: Item(name, site, value) for name, site, value in run.items})
    parts = [_part_of(run.lines[moments[0].place], moments, messages) for moments in events[first - 1 : last]]
    return draw_from(_start_after(events[: first - 1], run.tally.messages), Trace(schedule, [], parts), first, characters)


# What stands after these events. Of an event that is about a site, what its moment says of the site's items stands until the next one.
def _start_after(events, messages):
    start = Start()
    for moment in (moment for moments in events for moment in moments):
        told = moment.told
        if "message" in told:
            start.unsettled[messages[told["message"]]["to"]] = moment.unsettled
            start.greatest = max(start.greatest, told["message"] if told["act"] == "deliver" else -1)
        elif "site" in told:
            start.unsettled[told["site"]] = moment.unsettled
        for word, site in (line.split()[:2] for line in told["printed"] if line.startswith(_TURNS)):
            (start.down.discard if word in ("started", "up") else start.down.add)(int(site))
    return start


_TURNS = ("stopped ", "fault ", "started ", "down ", "up ")


# An event with what it printed and what it came to: of a `pump` that is all of its deliveries.
def _part_of(line, moments, messages):
    event = _event_of(line.strip(" \t"), moments[0].place)
    lines = [text for moment in moments for text in moment.told["printed"]]
    deliveries = [delivery for moment in moments for delivery in _deliveries_of(moment, messages)]
    if deliveries or event.site is None:
        return Part(event, lines, Happening(lines, [], deliveries))
    (moment,) = moments
    return Part(event, lines, Happening(lines, _sends_of(moment, messages), [], moment.unsettled))


# The line is one that the engine has taken, so its numbers are numbers.
def _event_of(text, place):
    kind, *words = text.split()
    site = int(words[0]) if kind in _OF_A_SITE else None
    number = int(words[0]) if kind in ("deliver", "lose") else None
    return Event(kind, text, place + 1, site, number)


def _deliveries_of(moment, messages):
    told = moment.told
    if told["act"] == "drop":
        return [Delivery(messages[number], "lost", False) for number in told["lost"]]
    if "message" not in told:
        return []
    message, is_again = messages[told["message"]], told.get("again", False)
    if told["act"] == "lose":
        return [Delivery(message, "lost", is_again)]
    is_down = told["printed"] == [f"down {message.receiver}"]
    if is_down:
        return [Delivery(message, "down", is_again, [], told["printed"])]
    return [Delivery(message, "taken", is_again, _sends_of(moment, messages), told["printed"], moment.unsettled)]


def _sends_of(moment, messages):
    return [messages[number] for number in moment.told["sent"]]
