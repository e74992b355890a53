"""Writes a picture as SVG, and as a page of HTML that shows the lines of an event when it is pointed at or chosen by key."""
from html import escape
from textwrap import wrap

from .layout import CHARACTER, GUTTER, LABEL_CHARACTERS, LABEL_GAP, LANE, ROW, SMALL_CHARACTER, shortened

HEAD = 30
CROSS_GAP = 8
CROSS_ROOM = 4
REPEAT = 600
NOTE_CHARACTERS = 100
FONT = "ui-monospace, 'DejaVu Sans Mono', Menlo, Consolas, monospace"

COLOURS = """
ROOT { color-scheme: light dark; --paper: #fff; --ink: #1c2430; --faint: #5a6675; --rule: #e3e7ec; --hover: #eef4fb; --focus: #1463b8;
  --message: #2f6db5; --good: #1b7a3d; --bad: #b3261e; --held: #ffd98a; --held-ink: #5b3d00; --doubt: #d9cdf7; --doubt-ink: #4a2a99; }
@media (prefers-color-scheme: dark) { ROOT {
  --paper: #14181e; --ink: #e4e9f0; --faint: #9aa7b6; --rule: #29313b; --hover: #1d2732; --focus: #7db8f5;
  --message: #7fb2ee; --good: #6fd08f; --bad: #ff8f84; --held: #5e4714; --held-ink: #ffdf9e; --doubt: #3d2f6b; --doubt-ink: #d3c4ff; } }
"""

RULES = """svg.picture { background: var(--paper); font: 11px FONT; }
svg.picture text { fill: var(--ink); white-space: pre; }
svg.picture .faint { fill: var(--faint); }
svg.picture .site { font-weight: bold; }
svg.picture .event rect { fill: transparent; }
svg.picture .event:hover rect, svg.picture .event.chosen rect { fill: var(--hover); }
svg.picture .event:focus { outline: none; }
svg.picture .event:focus rect { fill: var(--hover); stroke: var(--focus); stroke-width: 2px; }
svg.picture .event.even rect.ground { stroke: var(--rule); }
svg.picture .labels { pointer-events: none; }
svg.picture .labels .ground { fill: var(--paper); opacity: 0.82; }
svg.picture .life { stroke: var(--ink); stroke-width: 1.6px; }
svg.picture .life.down { stroke: var(--faint); stroke-width: 1.2px; stroke-dasharray: 2 4; }
svg.picture .bar { stroke: none; }
svg.picture .bar.held { fill: var(--held); } svg.picture .bar.doubt { fill: var(--doubt); }
svg.picture text.bar-text { font-size: 9.4px; }
svg.picture text.held { fill: var(--held-ink); } svg.picture text.doubt { fill: var(--doubt-ink); }
svg.picture text.commit, svg.picture text.start { fill: var(--good); }
svg.picture text.refuse, svg.picture text.stop, svg.picture text.lost, svg.picture text.down { fill: var(--bad); }
svg.picture text.nothing, svg.picture text.untold { fill: var(--faint); }
svg.picture .arrow { stroke: var(--message); stroke-width: 1.2px; fill: none; }
svg.picture .arrow.lost, svg.picture .arrow.down { stroke: var(--bad); stroke-dasharray: 5 3; }
svg.picture .arrow.again { stroke-dasharray: 2 3; }
svg.picture .arrow.waiting { stroke: var(--faint); stroke-dasharray: 2 2; }
svg.picture .arrow:hover { stroke-width: 3px; }
svg.picture .mark { fill: var(--ink); stroke: var(--paper); stroke-width: 1px; }
svg.picture .mark.commit, svg.picture .mark.start { fill: var(--good); }
svg.picture .mark.refuse { fill: var(--bad); }
svg.picture .mark.message { fill: var(--message); }
svg.picture .mark.open { fill: var(--paper); stroke: var(--ink); stroke-width: 1.4px; }
svg.picture .cross { stroke: var(--bad); stroke-width: 2px; fill: none; }
svg.picture .tip { fill: var(--message); }
""".replace("FONT", FONT)



def style_of(root=":root"):
    """The style of pictures. The colours are named at this element, so that a page around it may use such names for others."""
    return COLOURS.replace("ROOT", root) + RULES


PAGE_STYLE = """
* { box-sizing: border-box; }
body { margin: 0; background: var(--paper); color: var(--ink); font: 14px/1.45 system-ui, sans-serif; }
header, footer { padding: 12px 18px; max-width: 110ch; }
h1 { font-size: 18px; margin: 0 0 6px; } h2 { font-size: 15px; margin: 0 0 6px; }
p, ul.key { margin: 4px 0; } ul.key { list-style: none; padding: 0; display: flex; flex-wrap: wrap; gap: 2px 18px; }
ul.key svg { vertical-align: -4px; background: none !important; }
main { display: flex; align-items: flex-start; border-top: 1px solid var(--rule); border-bottom: 1px solid var(--rule); }
.canvas { flex: 1; min-width: 0; overflow: auto; max-height: 92vh; }
.canvas .head { position: sticky; top: 0; z-index: 1; box-shadow: 0 1px var(--rule); background: var(--paper); }
.canvas svg { display: block; }
aside { width: 34ch; flex: none; padding: 10px 14px; border-left: 1px solid var(--rule); max-height: 92vh; overflow: auto; position: sticky; top: 0; }
pre, code { font: 12px/1.5 FONT; margin: 0; white-space: pre-wrap; overflow-wrap: anywhere; }
ol.lines { padding-left: 5ch; margin: 6px 0; } ol.lines li { margin: 2px 0; } ol.lines li::marker { color: var(--faint); font-size: 11px; }
summary { cursor: pointer; font-weight: 600; }
@media (max-width: 800px) { main { display: block; } aside { width: auto; border-left: 0; position: static; } }
""".replace("FONT", FONT)

SCRIPT = """
(() => {
  const events = [...document.querySelectorAll('.event')];
  const heading = document.getElementById('chosen'), lines = document.getElementById('chosen-lines');
  let chosen = null;
  const choose = event => {
    if (chosen) chosen.classList.remove('chosen');
    chosen = event;
    chosen.classList.add('chosen');
    heading.textContent = 'Event ' + event.dataset.number;
    lines.textContent = document.getElementById('lines-' + event.dataset.number).textContent;
  };
  events.forEach((event, place) => {
    event.addEventListener('mouseenter', () => choose(event));
    event.addEventListener('focus', () => choose(event));
    event.addEventListener('click', () => event.focus());
    event.addEventListener('keydown', key => {
      const step = {ArrowDown: 1, ArrowUp: -1}[key.key];
      if (step && events[place + step]) { key.preventDefault(); events[place + step].focus(); }
    });
  });
})();
"""


def tag(name, content=None, **attributes):
    """An element; underscores of names are hyphens, and one at the end is dropped."""
    parts = [f'{key.rstrip("_").replace("_", "-")}="{attribute(value)}"' for key, value in attributes.items()]
    head = " ".join([name, *parts])
    return f"<{head}/>" if content is None else f"<{head}>{content}</{name}>"


def attribute(value):
    """A value of an attribute; numbers have one decimal at most."""
    return f"{value:.1f}".removesuffix(".0") if isinstance(value, float) else escape(str(value))


def text_at(x, y, text, style, **more):
    """A text whose middle is at this height."""
    return tag("text", escape(text), x=x, y=y + 4, class_=style, **more)


def titled(title):
    """What is shown where something is pointed at."""
    return tag("title", escape(title))


# The parts of a picture.


def event_element(picture, block, place):
    """The ground of an event with its texts on the left; it can be pointed at and chosen by key."""
    lines = "\n".join([f"> {block.part.event.text}", *block.part.lines])
    parts = [titled(f"event {block.number}\n{lines}")]
    parts.append(tag("rect", x=1, y=block.y, width=picture.width - 2, height=block.height, class_="ground"))
    parts.append(text_at(GUTTER - 10, block.row(0), str(block.number), "faint", text_anchor="end"))
    for row, text in enumerate(block.texts):
        parts.append(text_at(GUTTER, block.row(row), shortened(text, picture.characters), "plain" if row == 0 else "faint"))
    style = "event even" if place % 2 else "event"
    choice = {"tabindex": 0, "role": "button", "data_number": block.number, "aria_label": block.part.event.text}
    return tag("g", "".join(parts), class_=style, **choice)


def life_element(picture, life):
    """A stretch of a line of life."""
    x = picture.columns[life.site][1]
    words = "up" if life.is_up else "down"
    title = titled(f"site {life.site} is {words}")
    return tag("line", title, x1=x, x2=x, y1=life.top, y2=life.bottom, class_="life" if life.is_up else "life down")


def bar_element(picture, bar):
    """An item that is held or in doubt, with its text where there is room."""
    x = picture.columns[bar.site][0] + bar.lane * LANE
    height = max(bar.bottom - bar.top, 4)
    parts = [titled(bar.text), tag("rect", x=x, y=bar.top, width=LANE - 3, height=height, rx=2, class_=f"bar {bar.style}")]
    text = text_of_bar(bar, int((height - 8) / SMALL_CHARACTER))
    if text:
        tops = range(0, max(1, int(height) - REPEAT), REPEAT)
        parts += [bar_text(x + LANE / 2 + 1.8, bar.top + 4 + top, text, bar.style) for top in tops]
    return tag("g", "".join(parts))


def bar_text(x, y, text, style):
    """A text that is read upwards and ends at this height."""
    turn = f"rotate(-90 {attribute(x)} {attribute(y)})"
    return tag("text", escape(text), x=x, y=y, class_=f"bar-text {style}", text_anchor="end", transform=turn)


def text_of_bar(bar, most):
    """The longest text of a bar that has no more characters, or none."""
    name, _, rest = bar.text.partition(" ")
    values = " or ".join(case.split(" ")[0] for case in rest.split(" ; "))
    texts = [bar.text, f"{name} {values}", name] if bar.style == "doubt" else [bar.text, name]
    return next((text for text in texts if len(text) <= most), None)


def arrow_element(arrow):
    """A message's arrow, with its tip; a lost one ends with a cross before its goal."""
    (x1, y1), (x2, y2) = arrow.start, arrow.end
    parts = [titled(arrow.title)]
    if x1 == x2 and arrow.fate == "waiting":
        path = f"M{x1:.1f} {y1:.1f} q-14 2 -12 10"
    elif x1 == x2:
        bulge = 12 + 8 * (arrow.number % 3)
        path = f"M{x1:.1f} {y1:.1f} C{x1 - bulge:.1f} {y1:.1f} {x1 - bulge:.1f} {y2:.1f} {x2 - 5:.1f} {y2:.1f}"
    else:
        if arrow.fate in ("lost", "down"):
            x2 += -14 if x2 > x1 else CROSS_GAP
        path = f"M{x1:.1f} {y1:.1f} L{x2:.1f} {y2:.1f}"
    parts.append(tag("path", d=path, class_=f"arrow {arrow.fate}", **tip_of(arrow.fate)))
    if arrow.fate in ("lost", "down"):
        parts.append(cross_at(x2, y2, 3))
    return tag("g", "".join(parts))


def tip_of(fate):
    """The arrow's tip, where it has one."""
    return {"marker_end": "url(#tip)"} if fate in ("taken", "again") else {}


def cross_at(x, y, size=4):
    """A cross."""
    return tag("path", d=f"M{x - size:.1f} {y - size:.1f} l{2 * size} {2 * size} m0 {-2 * size} l{-2 * size} {2 * size}", class_="cross")


def mark_element(x, y, mark):
    """The mark of a step on a line of life."""
    if mark == "stop":
        return cross_at(x, y, 5)
    if mark == "start":
        return tag("path", d=f"M{x - 5:.1f} {y - 4:.1f} h10 l-5 9 z", class_="mark start")
    if mark == "tick":
        return tag("path", d=f"M{x - 5:.1f} {y:.1f} h10", class_="life")
    if mark == "refuse":
        return tag("rect", x=x - 4, y=y - 4, width=8, height=8, class_="mark refuse")
    if mark == "commit":
        return tag("circle", cx=x, cy=y, r=5, class_="mark commit")
    return tag("circle", cx=x, cy=y, r=3.4, class_="mark message" if mark == "message" else "mark open")


def label_at(x, y, text, style):
    """A label, on a ground that hides the arrows behind it."""
    text = shortened(text, LABEL_CHARACTERS)
    ground = tag("rect", x=x - 2, y=y - 7, width=len(text) * CHARACTER + 4, height=14, class_="ground")
    return ground + text_at(x, y, text, style)


def step_element(picture, block, place, step):
    """A step's mark, with its label on the right, behind the cross of a message that is lost."""
    x, y = picture.columns[step.site][1], block.row(place)
    room = CROSS_ROOM if step.delivery and step.style in ("lost", "down") else 0
    return mark_element(x, y, step.mark) + label_at(x + LABEL_GAP + room, y, step.label, step.style)


def report_element(picture, block):
    """A report's rows at each site."""
    parts = []
    for site, rows in block.report.items():
        x = picture.columns[site][1] + LABEL_GAP
        parts += [label_at(x, block.row(row), text, style) for row, (text, style) in enumerate(rows)]
    return "".join(parts)


def head_of(picture, y):
    """The names of the sites above their lines."""
    parts = [text_at(GUTTER, y, "event", "faint")]
    parts += [text_at(line, y, f"site {site}", "site", text_anchor="middle") for site, (_, line) in enumerate(picture.columns)]
    return "".join(parts)


def body_of(picture):
    """All of a picture but its head."""
    tip = tag("path", d="M0 0 L8 3.5 L0 7 z", class_="tip")
    marker = tag("marker", tip, id="tip", viewBox="0 0 8 7", refX=8, refY=3.5, markerWidth=8, markerHeight=7, orient="auto")
    parts = [tag("defs", marker)]
    parts += [event_element(picture, block, place) for place, block in enumerate(picture.blocks)]
    parts += [bar_element(picture, bar) for bar in picture.bars]
    parts += [life_element(picture, life) for life in picture.lives]
    parts += [arrow_element(arrow) for arrow in picture.arrows]
    steps = [step_element(picture, block, place, step) for block in picture.blocks for place, step in enumerate(block.steps)]
    reports = [report_element(picture, block) for block in picture.blocks]
    return "\n".join([*parts, tag("g", "\n".join(steps + reports), class_="labels")])


def svg_tag(content, width, height, **more):
    """An SVG element of this size."""
    size = {"width": round(width), "height": round(height), "viewBox": f"0 0 {round(width)} {round(height)}"}
    return tag("svg", content, xmlns="http://www.w3.org/2000/svg", class_="picture", **size, **more)


def svg_of(picture, name, notes):
    """The picture as one SVG file."""
    written = [row for note in notes for row in wrap(note, NOTE_CHARACTERS)]
    width = max(picture.width, *(len(row) * CHARACTER + 2 * GUTTER for row in written))
    height = HEAD + picture.height + ROW * (len(written) + 2)
    rows = [text_at(GUTTER, HEAD + picture.height + ROW * (place + 1), row, "faint") for place, row in enumerate(written)]
    content = [titled(name), tag("desc", escape(" ".join(notes))), tag("style", style_of()), head_of(picture, HEAD / 2)]
    content += [tag("g", body_of(picture), transform=f"translate(0 {HEAD})"), *rows]
    return svg_tag("\n".join(content), width, height) + "\n"


def pieces_of(picture):
    """The head and the rest of a picture, as two SVG elements for a page that has `style_of`: the head can stay while the rest goes by."""
    head = svg_tag(head_of(picture, HEAD / 2), picture.width, HEAD).replace('class="picture"', 'class="picture head"')
    return head, svg_tag(body_of(picture), picture.width, picture.height, role="group", aria_label="the run, time downwards")


# The page.

FATES = [
    ("lost", "lost, or its receiver is down"),
    ("again", "delivered again"),
    ("waiting", "no end of it is drawn: it hasn't come by then, or it isn't told"),
]
INVITATION = "Point at an event, or choose one by Tab and the arrow keys: its lines are shown here."
KEY = [
    ("message", "a message comes (its number, kind and transaction)"),
    ("open", "a request, or an event that does nothing"),
    ("tick", "a tick"),
    ("commit", "a commit"),
    ("refuse", "a refusal, or a record without room"),
    ("stop", "a stop, a fault"),
    ("start", "a start"),
]


def key_of():
    """What the marks and bars mean."""
    marks = [tag("li", svg_tag(mark_element(9, 9, mark), 18, 18, aria_hidden="true") + " " + escape(words)) for mark, words in KEY]
    for style, words in (("held", "an item that a transaction holds"), ("doubt", "an item in doubt, with its values and their conditions")):
        bar = tag("rect", x=4, y=1, width=LANE - 3, height=16, rx=2, class_=f"bar {style}")
        marks.append(tag("li", svg_tag(bar, 18, 18, aria_hidden="true") + " " + words))
    for fate, words in FATES:
        line = tag("path", d="M1 9 h34", class_=f"arrow {fate}") + (cross_at(29, 9) if fate == "lost" else "")
        marks.append(tag("li", svg_tag(line, 36, 18, aria_hidden="true") + f" a message: {words}"))
    return tag("ul", "".join(marks), class_="key")


def list_of_lines(picture, headers):
    """Every line of the trace as text."""
    head = tag("pre", escape("\n".join(f"> {line}" for line in headers)))
    items = []
    for block in picture.blocks:
        lines = "\n".join([f"> {block.part.event.text}", *block.part.lines])
        items.append(tag("li", tag("pre", escape(lines), id=f"lines-{block.number}"), value=block.number))
    return head + tag("ol", "\n".join(items), class_="lines")


def html_of(picture, name, notes, headers):
    """The picture as one page of HTML."""
    canvas = tag("div", "".join(pieces_of(picture)), class_="canvas")
    aside = tag("h2", "An event", id="chosen") + tag("pre", INVITATION, id="chosen-lines")
    return "\n".join(
        [
            '<!DOCTYPE html>\n<html lang="en">\n<head>\n<meta charset="utf-8">',
            '<meta name="viewport" content="width=device-width, initial-scale=1">',
            tag("title", escape(name)),
            tag("style", style_of() + PAGE_STYLE),
            "</head>\n<body>",
            tag("header", tag("h1", escape(name)) + "".join(tag("p", escape(note)) for note in notes) + key_of()),
            tag("main", canvas + tag("aside", aside, aria_live="polite")),
            tag("footer", tag("details", tag("summary", "Every line of the trace") + list_of_lines(picture, headers))),
            tag("script", SCRIPT),
            "</body>\n</html>\n",
        ]
    )
