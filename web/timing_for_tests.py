"""How fast is fast enough, for the tests."""

from statistics import median
from time import perf_counter, process_time

#: How soon a click is to be answered, in milliseconds.
FLUENT = 100

#: How many times as long anything may take, on any machine: some are twice as slow as those on which it takes no longer than it is to.
AT_MOST = 2.5


def judge(test, milliseconds, name, limit=FLUENT):
    """Says where something took longer than it is to, and fails the test where it took too long; but for a machine on which other work holds it up: that is said."""
    if milliseconds < limit:
        return
    if is_busy():
        print(f"{name} isn't judged, as the machine has other work")
        return
    print(f"{name} {milliseconds:.0f} ms, where it is to take less than {limit}: on this machine, or from now on")
    test.assertLess(milliseconds, AT_MOST * limit, name)


def is_busy():
    """Whether other work holds this machine up: most pieces of work take longer than their own processor time."""
    ratios = []
    for _ in range(15):
        wall, own = perf_counter(), process_time()
        while process_time() - own < 0.02:
            pass
        ratios.append((perf_counter() - wall) / 0.02)
    return median(ratios) > 1.2
