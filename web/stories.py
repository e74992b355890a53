"""The stories: schedules in `stories/`, whose comments say what happens.

A story is a schedule like any other, so `polydb run` runs it. The comment before `sites` has the title in its first line, and then the
introduction. Each comment behind the declarations is a step: it says what the lines below it do.
"""

from pathlib import Path

FOLDER = Path(__file__).resolve().parent / "stories"

#: The stories in the order in which they are shown.
NAMES = (
    "transfer",
    "lost-outcome",
    "doubtful-work",
    "collapse",
    "coordinator-stops",
    "refused-conflict",
    "refused-expired",
    "refused-grant-lost",
    "refused-journal-full",
    "refused-outcome-limit",
    "refused-uncertain",
)


def read_stories():
    """All stories, each as a name, a title, an introduction, its declarations and its steps."""
    return [story_of(name, (FOLDER / f"{name}.schedule").read_text("ascii")) for name in NAMES]


def story_of(name, text):
    """The story that a schedule tells."""
    paragraphs = _paragraphs(text)
    (title, *introduction), _ = paragraphs[0]
    catalog = [line for _, lines in paragraphs for line in lines if _declares(line)]
    steps = [{"say": " ".join(said), "lines": lines} for said, lines in paragraphs[1:]]
    return {"name": name, "title": title.rstrip("."), "introduction": " ".join(introduction), "catalog": catalog, "steps": steps}


def _paragraphs(text):
    """The comments of a text, each with the lines between it and the next."""
    paragraphs = []
    was_comment = False
    for line in text.splitlines():
        is_comment = line.startswith("#")
        if is_comment and not was_comment:
            paragraphs.append(([], []))
        if is_comment:
            paragraphs[-1][0].append(line[1:].strip())
        elif line.strip():
            paragraphs[-1][1].append(line)
        was_comment = is_comment
    return paragraphs


def _declares(line):
    return line.split()[0] in ("sites", "journal", "item")
