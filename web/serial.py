"""What the theorem says, computed: the serial run of the transactions that commit.

A database of one thread takes the programs one after another, in the order of lock points, and each is done before the next begins. That is the engine
again, with all items at one site.
"""


def serial_of(engine, items, programs):
    """The values after these programs, and the reply of each, by a run of one site."""
    declarations = ["sites 1", *(f"item {name} 0 {value}" for name, _, value in items)]
    events = [line for program in programs for line in (f"{program['kind']} 0 {program['program']}", "pump")]
    status, text = engine.run("\n".join([*declarations, *events, "report"]) + "\n")
    assert status == 0, f"the serial run ends with status {status}: {text}"
    lines = text.splitlines()
    replies = [line.split(" certain ", 1)[1] for line in lines if line.startswith("commit ")]
    values = dict(line.split()[1:] for line in lines if line.startswith("item "))
    return values, replies
