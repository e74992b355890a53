"""Where everything of a picture stands: a row for each thing that happens, time downwards, and a column for each site.

A site's column has lanes for the items that are held or in doubt, room for messages to itself, its line of life, and room for labels.
No two texts share a row of a column, so none overlaps another.
"""
from dataclasses import dataclass, field
from typing import Optional

from .protocol import Happening, is_unsettled

ROW = 18
CHARACTER = 6.7
SMALL_CHARACTER = 5.7
EVENT_GAP = 8
TOP = 10
GUTTER = 46
LEFT_CHARACTERS = 46
LABEL_CHARACTERS = 64
LANE = 14
LOOP = 40
LABEL_GAP = 12
MOST_SETTLED = 6
MARKS = {"txn": "request", "commit": "commit", "refuse": "refuse", "full": "refuse", "spent": "refuse", "stopped": "stop", "fault": "stop"}
MARKS |= {"started": "start", "down": "nothing", "up": "nothing"}


@dataclass
class Step:
    """One thing that happens at a site: a mark on its line of life, with a label in a style, and what is unsettled there then."""

    site: int
    mark: str
    label: str
    style: str = "plain"
    delivery: object = None
    sends: list = field(default_factory=list)
    line: Optional[str] = None
    unsettled: Optional[dict] = None


@dataclass
class Block:
    """An event's place: its number from 1, its part, the texts on its left, its steps, and its report by site."""

    number: int
    part: object
    texts: list
    steps: list
    report: dict
    y: float = 0
    height: float = 0

    def row(self, place):
        """The middle of one of its rows."""
        return self.y + ROW * place + ROW / 2


@dataclass
class Arrow:
    """A message between two points; `fate` is what became of it."""

    start: tuple
    end: tuple
    fate: str
    title: str
    number: int


@dataclass
class Bar:
    """An item that is held or in doubt between two heights, in a lane of its site."""

    site: int
    lane: int
    top: float
    bottom: float
    style: str
    text: str


@dataclass
class Life:
    """A stretch of a site's line of life, up or down."""

    site: int
    top: float
    bottom: float
    is_up: bool


@dataclass
class Start:
    """What stands where a picture begins: the items of each site that are held or in doubt, the sites that are down, and the greatest message that was delivered."""

    unsettled: dict = field(default_factory=dict)
    down: set = field(default_factory=set)
    greatest: int = -1


@dataclass
class Picture:
    """A picture: blocks in order, what lies between them, and how many characters of a text on the left are shown."""

    sites: int
    blocks: list
    characters: int = LEFT_CHARACTERS
    arrows: list = field(default_factory=list)
    bars: list = field(default_factory=list)
    lives: list = field(default_factory=list)
    columns: list = field(default_factory=list)
    left: float = 0
    width: float = 0
    height: float = 0


def shortened(text, most):
    """The text, or its beginning with dots."""
    return text if len(text) <= most else text[: most - 1] + "…"


# What an event says.


def site_of_line(line, sites):
    """The site that a printed line is of, or None; a trace that no run wrote may name one that there isn't."""
    words = line.split()
    if words[0] not in MARKS:
        return None
    site = int(words[1].split(".")[0])
    return site if site < sites else None


def steps_of_lines(lines, sites):
    """What printed lines say of sites."""
    steps = []
    for line in lines:
        site = site_of_line(line, sites)
        if site is not None:
            mark = MARKS[line.split()[0]]
            steps.append(Step(site, mark, line, mark, line=line))
    return steps


def message_text(message):
    """The number, kind and transaction of a message."""
    return f"{message.number} {message.kind} {message.transaction}"


class Teller:
    """Makes blocks of parts, in order: it remembers which messages have come, and which ones the trace tells."""

    def __init__(self, trace, greatest=-1):
        self.trace = trace
        self.sites = trace.schedule.sites
        self.greatest = greatest
        self.told = told_messages(trace)

    def block(self, number, part):
        """The block of an event, not placed yet."""
        texts, steps, report = [part.event.text], [], {}
        if part.event.kind == "report":
            report = report_columns(part.lines, self.trace.schedule.items)
            texts += [line for line in part.lines if line.split(" ")[0] in ("order", "committed", "open")]
        elif part.event.kind == "sent":
            texts.append(f"{sum(line.startswith('sent ') for line in part.lines)} messages")
        else:
            steps = self.steps(part)
            texts += [line for line in part.lines if site_of_line(line, self.sites) is None]
        if part.differs:
            texts.append("the rules print other lines")
        return Block(number, part, texts, steps, report)

    def steps(self, part):
        """What happens in an event, in order."""
        event, happening = part.event, part.happening
        if happening is None:
            return self.untold(part)
        if happening.deliveries:
            return [step for delivery in happening.deliveries for step in self.delivery_steps(delivery)]
        return event_steps(event, steps_of_lines(part.lines, self.sites), happening)

    def delivery_steps(self, delivery):
        """A message that comes to its end, and the lines that follow."""
        message = delivery.message
        words = {"lost": " lost", "down": " not taken"}.get(delivery.fate, "")
        words += " again" if delivery.is_again else ""
        words += " late" if self.is_late(delivery) else ""
        mark = "message" if delivery.fate == "taken" else "nothing"
        first = Step(message.receiver, mark, message_text(message) + words, delivery.fate, delivery, delivery.sends)
        first.unsettled = delivery.unsettled
        return [first, *steps_of_lines(delivery.lines, self.sites)]

    def is_late(self, delivery):
        """A message with a greater number was delivered before."""
        number, was = delivery.message.number, self.greatest
        if delivery.fate == "lost":
            return False
        self.greatest = max(was, number)
        return number < was and not delivery.is_again

    def untold(self, part):
        """The steps of an event that the rules don't tell of: what its line and its lines say by themselves."""
        event, message = part.event, self.told.get(part.event.number)
        steps = steps_of_lines(part.lines, self.sites)
        if event.kind in ("deliver", "lose") and message:
            words = " lost" if event.kind == "lose" else ""
            return [Step(message[0], "message", f"{event.number} {message[1]}{words}", "untold"), *steps]
        return event_steps(event, steps, Happening())


def event_steps(event, steps, happening):
    """The steps of an event that delivers nothing: those of its printed lines, behind the event itself where they don't say all of it."""
    if event.site is not None and event.kind not in ("drop", "submit", "query", "stop", "start"):
        text = event.kind if event.kind == "tick" else event.text
        steps = [Step(event.site, "tick" if event.kind == "tick" else "arm", text), *steps]
    if steps:
        steps[0].sends, steps[0].unsettled = happening.sends, happening.unsettled
    return steps


def told_messages(trace):
    """The receiver, and the kind and transaction, of the messages that `sent` lines tell of."""
    told = {}
    for part in trace.parts:
        for line in part.lines:
            if line.startswith("sent "):
                _, number, sites, kind, transaction = line.split()
                told[int(number)] = (int(sites.split(">")[1]), f"{kind} {transaction}")
    return {number: message for number, message in told.items() if message[0] < trace.schedule.sites}


def item_lines(lines):
    """The name of each item of a report, and what it says of it."""
    return [tuple(line.split(" ", 2)[1:]) for line in lines if line.startswith("item ")]


def report_columns(lines, items):
    """For each site its rows of a report, each a text and a style: what is held or in doubt, and some of the others."""
    columns, settled = {}, {}
    for name, text in item_lines(lines):
        site = items[name].site
        rows = columns.setdefault(site, [])
        if text.startswith("locked "):
            rows.append((f"{name} {text}", "held"))
        elif " if " in text:
            rows += [(f"{name} {case}", "doubt") for case in text.split(" ; ")]
        else:
            settled[site] = settled.get(site, 0) + 1
            if settled[site] <= MOST_SETTLED:
                rows.append((f"{name} {text}", "nothing" if text == "down" else "plain"))
    for site, count in settled.items():
        if count > MOST_SETTLED:
            columns[site].append((f"and {count - MOST_SETTLED} more items", "plain"))
    return columns


# Where it stands.


def place_blocks(blocks):
    """Gives each block its height and place; the height of all."""
    y = TOP
    for block in blocks:
        rows = max(1, len(block.texts), len(block.steps), *map(len, block.report.values()), 0)
        block.y, block.height = y, rows * ROW + EVENT_GAP
        y += block.height
    return y + EVENT_GAP


def column_places(picture):
    """The place of each site's line of life, the left edges of its lanes and the width of all."""
    lanes = [0] * picture.sites
    for bar in picture.bars:
        lanes[bar.site] = max(lanes[bar.site], bar.lane + 1)
    labels = [8] * picture.sites
    for block in picture.blocks:
        for step in block.steps:
            labels[step.site] = max(labels[step.site], len(shortened(step.label, LABEL_CHARACTERS)))
        for site, rows in block.report.items():
            labels[site] = max(labels[site], *(len(shortened(text, LABEL_CHARACTERS)) for text, _ in rows))
    texts = [len(shortened(text, picture.characters)) for block in picture.blocks for text in block.texts]
    x = picture.left = GUTTER + max(texts, default=8) * CHARACTER + 20
    for site in range(picture.sites):
        line = x + lanes[site] * LANE + LOOP
        picture.columns.append((x, line))
        x = line + LABEL_GAP + labels[site] * CHARACTER + 22
    picture.width = x


def reported(part, items):
    """The unsettled items of each site by a report that the rules don't tell of."""
    if part.event.kind != "report" or part.happening:
        return {}
    unsettled = {item.site: {} for item in items.values()}
    for name, text in item_lines(part.lines):
        if is_unsettled(text):
            unsettled[items[name].site][name] = text
    return unsettled


class Bars:
    """The bars so far, those that haven't ended by item, and the lanes that are taken at each site."""

    def __init__(self, sites, height):
        self.height = height
        self.all = []
        self.running = {}
        self.lanes = [set() for _ in range(sites)]

    def at(self, site, unsettled, y):
        """From this height on exactly these items of the site are unsettled."""
        for name in [name for name, (bar, text) in self.running.items() if bar.site == site and unsettled.get(name) != text]:
            bar, _ = self.running.pop(name)
            bar.bottom = y
            self.lanes[site].discard(bar.lane)
        for name, text in unsettled.items():
            if name not in self.running:
                self.begin(site, name, text, y)

    def begin(self, site, name, text, y):
        """A new bar, in the first lane that is free."""
        lane = next(lane for lane in range(len(self.lanes[site]) + 1) if lane not in self.lanes[site])
        self.lanes[site].add(lane)
        bar = Bar(site, lane, y, self.height, "held" if text.startswith("locked ") else "doubt", f"{name} {text}")
        self.running[name] = (bar, text)
        self.all.append(bar)

    def leave(self, y):
        """Nothing is known from this height on."""
        for site in range(len(self.lanes)):
            self.at(site, {}, y)


def bars_of(start, blocks, sites, items, height):
    """The bars of the items that are held or in doubt, also from before the picture. Where the rules don't tell, they end with a report."""
    bars = Bars(sites, height)
    for site, unsettled in start.unsettled.items():
        bars.at(site, unsettled, 0.0)
    for block in blocks:
        if block.part.happening is None:
            bars.leave(block.y)
        for site, unsettled in reported(block.part, items).items():
            bars.at(site, unsettled, block.y + 2)
        for place, step in enumerate(block.steps):
            if step.unsettled is not None:
                bars.at(step.site, step.unsettled, block.row(place))
    return bars.all


def unsettled_after(blocks):
    """The unsettled items of each site after these blocks, if the rules tell of them."""
    if blocks and blocks[-1].part.happening is None:
        return {}
    steps = [step for block in blocks for step in block.steps]
    return {step.site: step.unsettled for step in steps if step.unsettled is not None}


def turns_of(blocks):
    """Where printed lines say that a site is up or down: the site, which of both, and the height."""
    for block in blocks:
        for place, step in enumerate(block.steps):
            word = (step.line or "").split(" ")[0]
            if word in ("stopped", "fault", "started", "down", "up"):
                yield step.site, word in ("started", "up"), block.row(place)


def lives_of(start, blocks, sites, height):
    """The stretches in which each site is up or down, as the printed lines say, also those before the picture."""
    lives, since = [], [(0.0, site not in start.down) for site in range(sites)]
    for site, is_up, y in turns_of(blocks):
        top, was_up = since[site]
        if is_up != was_up:
            lives.append(Life(site, top, y, was_up))
            since[site] = (y, is_up)
    return lives + [Life(site, top, height, is_up) for site, (top, is_up) in enumerate(since)]


def arrows_of(picture):
    """The messages: from where they were sent to where they came, and those that never came."""
    arrows, sent, came = [], {}, set()
    for block in picture.blocks:
        for place, step in enumerate(block.steps):
            y = block.row(place)
            if step.delivery:
                arrows.append(arrow_to(picture, step.delivery, sent, y))
                came.add(step.delivery.message.number)
            for message in step.sends:
                sent[message.number] = (message, y)
    for number, (message, y) in sent.items():
        if number not in came:
            arrows.append(stub(picture, message, y))
    return arrows


def arrow_to(picture, delivery, sent, y):
    """The arrow of a message that came to its end at this height. One that was sent before the picture begins at its top."""
    message = delivery.message
    start = (picture.columns[message.sender][1], sent[message.number][1] if message.number in sent else 0)
    end = (picture.columns[message.receiver][1], y)
    fate = "again" if delivery.is_again and delivery.fate == "taken" else delivery.fate
    return Arrow(start, end, fate, f"{arrow_title(message)}, {fate}", message.number)


def arrow_title(message):
    """A message in words."""
    return f"message {message.number}: {message.kind} {message.transaction} from site {message.sender} to site {message.receiver}"


def stub(picture, message, y):
    """A short arrow of a message that doesn't come in this picture, or of which that isn't told."""
    x, goal = picture.columns[message.sender][1], picture.columns[message.receiver][1]
    length = 0 if goal == x else (24 if goal > x else -24)
    return Arrow((x, y), (x + length, y + 10), "waiting", f"{arrow_title(message)}, no end of it is drawn", message.number)


def start_after(blocks):
    """What stands after these blocks."""
    is_up = {site: is_up for site, is_up, _ in turns_of(blocks)}
    return Start(unsettled_after(blocks), {site for site in is_up if not is_up[site]})


def placed(schedule, start, blocks, characters):
    """The picture of these blocks, where so much stands before them."""
    picture = Picture(schedule.sites, blocks, characters)
    picture.height = place_blocks(blocks)
    picture.bars = bars_of(start, blocks, picture.sites, schedule.items, picture.height)
    picture.lives = lives_of(start, blocks, picture.sites, picture.height)
    column_places(picture)
    picture.arrows = arrows_of(picture)
    return picture


def draw(trace, first, last, characters=LEFT_CHARACTERS):
    """The picture of the events from the first to the last of these numbers, with so many characters of each text on the left."""
    teller = Teller(trace)
    blocks = [teller.block(number, part) for number, part in enumerate(trace.parts[:last], 1)]
    return placed(trace.schedule, start_after(blocks[: first - 1]), blocks[first - 1 :], characters)


def draw_from(start, trace, first, characters):
    """The same of a trace that is a part of a longer one: its first event has this number, and so much stands before it."""
    teller = Teller(trace, start.greatest)
    blocks = [teller.block(number, part) for number, part in enumerate(trace.parts, first)]
    return placed(trace.schedule, start, blocks, characters)
