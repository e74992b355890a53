"""What the page is told of a run: the report taken apart, and what else it shows, as one object of JSON."""

from itertools import combinations, islice

from serial import serial_of

#: How many choices of outcomes are tried at most.
MOST_CHOICES = 256

_LISTS = ("order", "committed", "open")


def state_of(run):
    """All that the page shows of a run."""
    tally = run.tally
    return {
        "schedule": run.text,
        "lines": run.lines,
        "items": [{"name": name, "site": site, "first": value} for name, site, value in run.items],
        "sites": [{"number": number, "up": up, "armed": tally.armed[number]} for number, up in enumerate(tally.up)],
        "moments": [moment.told for moment in run.moments],
        "messages": tally.messages,
        "fresh": tally.fresh,
        "programs": tally.programs,
        "report": report_of(run.report),
    }


def report_of(lines):
    """A printed report, as its three lists and what each item shows."""
    report = {"text": lines, "items": {}}
    for line in lines:
        word, _, rest = line.partition(" ")
        if word in _LISTS:
            report[word] = rest.split()
        elif word == "item":
            name, _, shown = rest.partition(" ")
            report["items"][name] = shown_of(shown)
    return report


def shown_of(text):
    """What a report prints of an item: its cases, or who holds it, or that its site is down."""
    if text == "down":
        return {"down": True}
    if text.startswith("locked "):
        return {"locked": text.removeprefix("locked ")}
    return {"cases": [_case_of(case) for case in text.split(" ; ")]}


def _case_of(text):
    value, _, condition = text.partition(" if ")
    return {"value": value, "when": condition.split()}


def theorem_of(engine, run, switched_on):
    """The serial run where the committed transactions and those that are switched on commit: its values and replies, beside what was shown and printed."""
    report = report_of(run.report)
    chosen = set(report["committed"]) | (set(switched_on) & set(report["open"]))
    order = [transaction for transaction in report["order"] if transaction in chosen]
    values, answers = serial_of(engine, run.items, [run.tally.programs[transaction] for transaction in order])
    met = {name: value_met(shown["cases"], chosen) for name, shown in report["items"].items() if "cases" in shown}
    replies = [{"transaction": name, "serial": reply, "printed": run.tally.replies.get(name)} for name, reply in zip(order, answers)]
    return {
        "commit": order,
        "items": {name: {"serial": values[name], "shown": met.get(name)} for name in values},
        "replies": replies,
        "agree": all(values[name] == value for name, value in met.items())
        and all(reply["serial"] in reply["printed"] for reply in replies if reply["printed"]),
    }


def choices_of(engine, run):
    """How many choices there are for the open transactions, how many of them were tried, and in how many all agrees."""
    open_ones = report_of(run.report)["open"]
    tried = [choice for size in range(len(open_ones) + 1) for choice in islice(combinations(open_ones, size), MOST_CHOICES)][:MOST_CHOICES]
    agree = sum(theorem_of(engine, run, choice)["agree"] for choice in tried)
    return {"choices": 2 ** len(open_ones), "tried": len(tried), "agree": agree}


def value_met(cases, chosen):
    """The value of the case that an assignment meets."""
    return next(case["value"] for case in cases if all((literal[1:] in chosen) == (literal[0] == "+") for literal in case["when"]))
