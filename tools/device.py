"""Runs of kernels in order, from their text alone: docs/DEVICE.md in plain Python.

`lift run --trace` tells the events of one kernel's run; no command tells those of several kernels,
so their pictures are drawn from what is here. An item's next event is an action, which is done when
the event is taken; which of those that can come next is taken, the launch file's schedule says, and
a release stands at its group's first item.
"""
import re
from collections import defaultdict
from functools import cache
from itertools import chain, repeat
from typing import Iterator, NamedTuple

from kernels import Items, kernels_of, launches_of, names_of, statements

TOKEN = re.compile(r"\(uint\)get_(\w+\(\d)\)|(\d+)u|(\w+)|(<<|>>|==|\S)")
WORDS = 2**32
BARRIER, END = object(), object()
# what is told of a step without an access
OTHER = "other step", "", 0, 1


class Event(NamedTuple):
    """An event by its number in the run; `who` is an item, or the group of a release. An access has
    one cell, or four from `cell` on."""

    number: int
    kind: str
    who: int
    array: str
    cell: int
    width: int = 1


# each operator on words, as Python has it
PYTHON = {"/": "({} // {})", "<<": "({} << ({} & 31))", ">>": "({} >> ({} & 31))"}


def expression(tokens):
    """The next expression of a text, in Python."""
    id_form, number, name, mark = next(tokens)
    if name in ("min", "max"):
        _, first, _, second, _ = (
            next(tokens),
            expression(tokens),
            next(tokens),
            expression(tokens),
            next(tokens),
        )
        return f"{name}({first}, {second})"
    if mark != "(":
        lane = "[lane]" if name[:1] == "w" else ""
        return id_form.replace("(", "_") or number or name + lane
    first, operator = expression(tokens), next(tokens)[3]
    if operator == ")":
        return first
    second = expression(tokens)
    if next(tokens)[3] == "?":
        chosen, _, other, _ = expression(tokens), next(tokens), expression(tokens), next(tokens)
        return f"({chosen} if {first} {operator} {second} else {other})"
    return f"({PYTHON.get(operator, '({} ' + operator + ' {})').format(first, second)} % {WORDS})"


@cache
def in_python(text):
    """An expression, or the lane of one of four words: what is spread is in each lane."""
    spread = text.replace("(uint4)", "")
    tokens = (it.groups(default="") for it in TOKEN.finditer(spread))
    return compile(expression(tokens), text, "eval")


def value(text, names):
    return eval(in_python(text), {"min": min, "max": max}, names)


def lanes(text, names):
    """The four words of an expression of four."""
    return [value(text, {**names, "lane": lane}) for lane in range(4)]


def arguments(call):
    """The arguments of a call."""
    made, depth = [""], 0
    for mark in call[call.index("(") + 1 : -1]:
        depth += (mark == "(") - (mark == ")")
        made = [*made, ""] if mark == "," and not depth else [*made[:-1], made[-1] + mark]
    return [it.strip() for it in made]


@cache
def parts(statement):
    """What a statement does: its kind, the variable that it sets, an array and an index in it, and
    the expression that is stored or assigned. Of four words the kind ends with a 4."""
    statement = statement.rstrip(";")
    if statement.startswith("vstore4"):
        source, offset, array = arguments(statement)
        return "write4", "", array, offset, source
    target, source = statement.split(" = ", 1)
    if source.startswith("vload4"):
        offset, array = arguments(source)
        return "read4", target, array, offset, ""
    if target.startswith("w"):
        return "set4", target, "", "", source
    read = re.fullmatch(r"([alop]\d+)\[(.*)\]", source)
    write = re.fullmatch(r"([olp]\d+)\[(.*)\]", target)
    if write:
        return "write", "", write[1], write[2], source
    if read:
        return "read", target, read[1], read[2], ""
    return "set", target, "", "", source


class Item:
    """A work-item: its names, and the arrays that it reaches, by name."""

    def __init__(self, number, launch, shared, local):
        self.number, self.names = number, names_of(number, launch)
        self.arrays = {"a": shared, "o": shared, "l": local, "p": defaultdict(dict)}

    def access(self, kind, array, cell, width=1):
        if array.startswith("p"):
            return OTHER
        return f"{'local' if array.startswith('l') else 'global'} {kind}", array, cell, width

    def assign_four(self, kind, target, array, offset, source):
        """The same of four words."""
        if kind == "set4":
            self.names[target] = lanes(source, self.names)
            return OTHER
        cell, cells = 4 * value(offset, self.names), self.arrays[array[0]][array]
        if kind == "write4":
            cells |= zip(range(cell, cell + 4), lanes(source, self.names))
        else:
            self.names[target] = [cells[it] for it in range(cell, cell + 4)]
        return self.access(kind.rstrip("4"), array, cell, 4)

    def assign(self, statement):
        """Does an assignment, a load or a store, and tells of it: its kind, its array, its first
        cell and how many there are."""
        kind, target, array, index, source = parts(statement)
        if kind.endswith("4"):
            return self.assign_four(kind, target, array, index, source)
        if kind == "write":
            cell = value(index, self.names)
            self.arrays[array[0]][array][cell] = value(source, self.names)
            return self.access(kind, array, cell)
        if kind == "read":
            cell = value(index, self.names)
            self.names[target] = self.arrays[array[0]][array][cell]
            return self.access(kind, array, cell)
        self.names[target] = value(source, self.names)
        return OTHER

    def step(self):
        return OTHER

    def actions(self, body):
        """What the item does in turn: an action for each event, and the barriers."""
        for it in body:
            if isinstance(it, str):
                yield BARRIER if it.startswith("barrier") else lambda it=it: self.assign(it)
            elif len(it) == 3:
                yield self.step
                start, bound, inner = it
                if value(start, self.names) < value(bound, self.names):
                    yield from self.actions(inner)
            else:
                yield from self.turns(*it)

    def turns(self, variable, start, bound, step, inner):
        yield self.step
        turns = range(*(value(it, self.names) for it in (start, bound, step)))
        for turn in turns:
            self.names[variable] = turn
            yield from self.actions(inner)
            yield self.step


def picks(schedule) -> Iterator[int]:
    """The numbers of a schedule, without an end."""
    if isinstance(schedule, dict):
        return generated(schedule["seed"])
    return chain(schedule, repeat(0))


def generated(number: int) -> Iterator[int]:
    while True:
        number = (1664525 * number + 1013904223) % WORDS
        yield number // 65536


class Ready:
    """Which of so many items can come next. Over them stands a tree of counts, whose leaves are the
    last half of a list, so that the k-th of these items is found in few steps."""

    def __init__(self, items: int):
        self.leaves = 1 << (items - 1).bit_length()
        self.counts = [0] * (2 * self.leaves)

    @property
    def total(self) -> int:
        return self.counts[1]

    def set(self, item: int, ready: bool):
        node = self.leaves + item
        change = ready - self.counts[node]
        while change and node:
            self.counts[node] += change
            node //= 2

    def item(self, k: int) -> int:
        """The k-th of the items that can come next."""
        node = 1
        while node < self.leaves:
            node *= 2
            if k >= self.counts[node]:
                k -= self.counts[node]
                node += 1
        return node - self.leaves


class Run:
    """A run: each item's actions to come, the next one known, and who can come next: an item with
    an action, and for a group that waits at a barrier its first."""

    def __init__(self, kernel, launch, shared):
        body, self.items = statements(kernel), Items(launch)
        count, groups = self.items.count, self.items.group_count
        local = [defaultdict(dict) for _ in range(groups)]
        items = [Item(k, launch, shared, local[self.items.group_of(k)]) for k in range(count)]
        self.actions = [item.actions(body) for item in items]
        self.next, self.ready = [END] * count, Ready(count)
        self.waiting = [0] * groups
        for k in range(count):
            self.go_on(k)

    def go_on(self, item):
        action = self.next[item] = next(self.actions[item], END)
        self.ready.set(item, action is not BARRIER and action is not END)
        if action is BARRIER:
            group = self.items.group_of(item)
            self.waiting[group] += 1
            if self.waiting[group] == self.items.of_group:
                self.ready.set(self.items.members(group)[0], True)

    def release(self, group):
        self.waiting[group] = 0
        for item in self.items.members(group):
            self.go_on(item)

    def event(self, number, pick):
        """The next event, none at the end: of those that can come next the one that is picked."""
        if not self.ready.total:
            return None
        item = self.ready.item(pick % self.ready.total)
        action = self.next[item]
        if action is BARRIER:
            group = self.items.group_of(item)
            self.release(group)
            return Event(number, "release", group, "", 0)
        kind, array, cell, width = action()
        self.go_on(item)
        return Event(number, kind, item, array, cell, width)


def events(kernel, launch, shared):
    """The events of a kernel's run; it leaves what it writes in the shared arrays."""
    run, made = Run(kernel, launch, shared), []
    for number, pick in enumerate(picks(launch.get("schedule", [])), 1):
        event = run.event(number, pick)
        if event is None:
            return made
        made.append(event)


def runs(text, launch, lists):
    """The runs of a text's kernels in order, each with its launch, its events and its counts: the
    first has the lists of the inputs, and each those that the ones before it left."""
    ins = list(lists)
    for kernel, started in zip(kernels_of(text), launches_of(launch), strict=True):
        shared = {f"a{k}": dict(enumerate(cells)) for k, cells in enumerate(ins)}
        outs = [f"o{k}" for k in range(kernel.count("__global uint *"))]
        shared |= {name: {} for name in outs}
        told = events(kernel, started, shared)
        releases = sum(event.kind == "release" for event in told)
        yield started, told, {"events": len(told), "releases": releases}
        ins += [[shared[name][k] for k in sorted(shared[name])] for name in outs]


def numbers(value):
    """The numbers of a value from left to right: row-major, the parts of a pair together."""
    return [it for part in value for it in numbers(part)] if isinstance(value, list) else [value]


def input_lists(inputs, launch):
    """The lists of inputs in order, one for each component; an input has its type's text."""
    flat = [(numbers(launch["inputs"][name]), told.count("u32")) for name, told in inputs.items()]
    return [cells[k::components] for cells, components in flat for k in range(components)]
