"""How many events and releases the runs of a text's kernels have, counted from the text alone.

docs/DEVICE.md says what an event is: an assignment, a load, a store, the entry of a loop, the end
of a turn, the test of an `if`, and one release for each barrier that a group goes past. Which order
they come in doesn't matter to their number, so each work-item's steps are counted by themselves.
"""
import re
import sys
from pathlib import Path

sys.path.insert(0, str(Path(__file__).resolve().parent.parent / "tools"))
from kernels import Items, kernels_of, launches_of, names_of, statements


def number(expression, names):
    """The value of a start, bound or step; no such expression wraps."""
    python = re.sub(r"\(uint\)get_(\w+)\((\d)\)", r"\1_\2", expression)
    return eval(re.sub(r"\b(\d+)u\b", r"\1", python).replace("/", "//"), {}, names)


def steps(body, names):
    """The steps of one work-item, and how many barriers it goes past."""
    events = barriers = 0
    for it in body:
        if isinstance(it, str):
            barrier = it.startswith("barrier")
            events, barriers = events + (not barrier), barriers + barrier
            continue
        more, past = test(*it, names) if len(it) == 3 else loop(*it, names)
        events, barriers = events + more, barriers + past
    return events, barriers


def test(item, bound, inner, names):
    """Those of an `if`: its test, and its body where that holds."""
    taken = number(item, names) < number(bound, names)
    events, barriers = steps(inner, names) if taken else (0, 0)
    return events + 1, barriers


def loop(variable, start, bound, step, inner, names):
    """Those of a loop: its entry, and for each turn its body and its end."""
    events, barriers = 1, 0
    for turn in range(*(number(part, names) for part in (start, bound, step))):
        more, past = steps(inner, {**names, variable: turn})
        events, barriers = events + more + 1, barriers + past
    return events, barriers


def counts_of(kernel, launch):
    """Events, releases among them, and releases of a kernel's run."""
    body, items, events, releases = statements(kernel), Items(launch), 0, 0
    for item in range(items.count):
        taken, barriers = steps(body, names_of(item, launch))
        events += taken
        releases += barriers if items.number_in_group(item) == 0 else 0
    return events + releases, releases


def counts(text, launch):
    """Events, releases among them, and releases of the runs under a launch file, in all."""
    runs = zip(kernels_of(text), launches_of(launch), strict=True)
    return tuple(map(sum, zip(*(counts_of(*it) for it in runs))))
