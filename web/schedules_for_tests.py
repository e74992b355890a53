"""Schedules drawn for the tests, each by its number: the same number gives the same schedule."""

from random import Random

NAMES = ("a", "b", "c", "stock", "till")
MODES = ("lost", "kept", "torn")

#: Lines that no schedule has.
FAULTY = ("tick", "deliver x", "pump 0", "cut 0 1 gone", "submit 0 a := (", "query 0 a := 1", "item late 0 1", "wait 3", "submit 0 nobody := 1", "tick 99")


def drawn(number, length=40):
    """A schedule with some more events than this. One in twelve has a line that is faulty."""
    chance = Random(number)
    sites = chance.randint(1, 4)
    items = NAMES[: chance.randint(1, len(NAMES))]
    lines = [f"sites {sites}"]
    if chance.random() < 0.2:
        lines.append(f"journal {chance.choice((64, 128, 400))}")
    lines += [f"item {name} {chance.randrange(sites)} {chance.randint(-20, 100)}" for name in items]
    for place in range(length):
        lines += _events(chance, sites, items, place)
    lines.append("report")
    if chance.random() < 1 / 12:
        lines.insert(chance.randint(1, len(lines)), chance.choice(FAULTY))
    return "".join(line + "\n" for line in lines)


def transfers(count):
    """A schedule of so many events: transfers whose messages are delivered one by one. Every seventh outcome is lost, and site 1 works on with two values for a while."""
    lines = ["sites 2", "item a 0 1000", "item b 1 0"]
    events = []
    turn = 0
    while len(events) < count:
        events += [f"submit 0 a := a - {1 + turn % 5} ; b := b + {1 + turn % 5}", *["pump 1"] * 8]
        events += {3: ["drop 1", "tick 1", "tick 1", "tick 1", "drop 0"], 6: ["pump 1", "tick 1", "pump"]}.get(turn % 7, ["pump 1"])
        turn += 1
    return "".join(line + "\n" for line in [*lines, *events[:count]])


def _events(chance, sites, items, place):
    site = chance.randrange(sites)
    kinds = {"submit": 6, "query": 1, "pump": 5, "deliver": 5, "lose": 2, "drop": 1, "tick": 2, "stop": 1, "start": 3, "cut": 1, "fail": 1, "mend": 1}
    kinds |= {"lost outcome": 3, "sent": 1, "report": 1, "total": 1, "#": 1}
    (kind,) = chance.choices(list(kinds), list(kinds.values()))
    if kind == "submit":
        return [f"submit {site} {_program(chance, items)}"]
    if kind == "query":
        return [f"query {site} return {_sum(chance, items)}"]
    if kind == "pump":
        return [chance.choice(("pump", f"pump {chance.randint(1, 9)}"))]
    if kind in ("deliver", "lose"):
        return [f"{kind} {chance.randint(0, 2 * place)}"]
    if kind == "tick":
        return [f"tick {site}"] * chance.randint(1, 4)
    if kind in ("cut", "fail"):
        return [f"{kind} {site} {chance.randint(1, 6)} {chance.choice(MODES)}"]
    if kind == "lost outcome":
        other = chance.randrange(sites)
        return ["pump", f"submit {site} {_program(chance, items)}", f"pump {chance.randint(4, 10)}", f"drop {other}", *[f"tick {other}"] * 3]
    if kind == "#":
        return [chance.choice(("", "# a comment", "  \t"))]
    return [kind if kind in ("sent", "report", "total") else f"{kind} {site}"]


def _program(chance, items):
    one, other = chance.choice(items), chance.choice(items)
    amount = chance.randint(1, 30)
    return chance.choice(
        (
            f"{one} := {one} - {amount} ; {other} := {other} + {amount}",
            f"require {one} >= {amount} ; {one} := {one} - {amount} ; return {one}",
            f"if {one} < {amount} {{ {other} := {other} + 1 }} else {{ {other} := {amount} }} ; return {other}",
            f"{one} := max({one}, {other}) ; return {_sum(chance, items)} / {amount - 15}",
            f"\t{one}:={amount}",
        )
    )


def _sum(chance, items):
    return " + ".join(chance.sample(items, chance.randint(1, len(items))))
