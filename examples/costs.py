"""What a run costs, counted from the lines of its events: the lines that `lift cost --items` writes."""
from collections import Counter

MEMORY = {"a": "global", "o": "global", "l": "local"}
DONE = {"reads": "loads", "writes": "stores"}
KINDS = [f"{memory} {done}" for memory in ("global", "local") for done in DONE.values()]


def told(counts):
    """The numbers of each kind, as a line has them."""
    return ", ".join(f"{kind} {counts[kind]}" for kind in KINDS)


def costs(trace, items):
    """The lines of the cost of a run with this trace, by so many work-items."""
    each = [Counter() for _ in range(items)]
    releases = 0
    for line in trace.splitlines():
        match line.split():
            case ["release", _]:
                releases += 1
            case ["step", item, done, buffer, _]:
                width = 4 if done.endswith("4") else 1
                each[int(item)][f"{MEMORY[buffer[0]]} {DONE[done.rstrip('4')]}"] += width
    lines = [f"item {number}: {told(counts)}\n" for number, counts in enumerate(each)]
    total = sum(each, Counter())
    return "".join(lines) + f"cost: {told(total)}, releases {releases}\n"
