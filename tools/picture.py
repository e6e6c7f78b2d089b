#!/usr/bin/env python3
"""Draws a picture of a run, of one kernel or of several in order.

    tools/picture.py PROGRAM SCRIPT LAUNCH > run.svg
    tools/picture.py PROGRAM SCRIPT LAUNCH --from EVENT [--kernel K] > run.svg

Above stands the run: a row for each work-item, a column for each event, a line between groups. A
run of many events has a row for each group instead, with what its items do between barriers; from
EVENT on a part of it is drawn event by event. Below stand the arrays at the run's end in rows of
their type, a local one once for each group, with who wrote each cell and who read it since. Items
of a group have a hue, and kernels in order stand below one another. A run of a million events takes
a minute. The environment's LIFT names the program; if it isn't set, it is the one that ./lift
built.
"""
import argparse
import json
import math
import re
import sys
from pathlib import Path
from typing import NamedTuple

import calls
import device
import grammar
import places
from arrays_drawn import memory
from device import Event
from kernel_terms import KernelTerm, typed_kernels
from kernels import Items, kernels_of, told_size
from run_drawn import by_phases, fits_whole, legend, shown, timeline
from svg import Colours, Part, document, paragraph, stacked
from term_types import Type, components, lengths


class Run(NamedTuple):
    """A kernel's run: its name, its launch, its events and their counts, and the lengths of its
    arrays' types."""

    name: str
    launch: dict
    events: list[Event]
    counts: dict
    lengths: dict[str, list[int]]


def event_of(number: int, words: list[str]) -> Event:
    """The event that a line of a trace tells."""
    if words[0] == "release" or len(words) == 2:
        kind = "release" if words[0] == "release" else "other step"
        return Event(number, kind, int(words[1]), "", 0)
    _, item, verb, array, cell = words
    access, width = ("read" if verb.startswith("read") else "write"), (4 if "4" in verb else 1)
    kind = f"{'local' if array.startswith('l') else 'global'} {access}"
    return Event(number, kind, int(item), array, int(cell), width)


def traced(source: Path, script: Path, launch: Path) -> tuple[list[Event], dict]:
    """The events of one kernel's run, and its counts, as `lift run` tells them."""
    *lines, result = calls.lift("run", source, script, launch, "--trace").splitlines()
    events = [event_of(number, told.split()) for number, told in enumerate(lines, 1)]
    return events, json.loads(result)


def buffers(prefix: str, types: list[Type], sizes: dict) -> dict[str, list[int]]:
    """The lengths of buffers by name, one for each component of each type."""
    each = [lengths(it, sizes) for it in types for _ in range(components(it))]
    return {f"{prefix}{number}": it for number, it in enumerate(each)}


def local_arrays(text: str, kernel: KernelTerm, sizes: dict) -> dict[str, list[int]]:
    """The lengths of a kernel's local arrays, where their cells are those that the text has."""
    copies = [node for _, node in places.nodes(kernel.term) if node.form == "toLocal"]
    named = buffers("l", [kernel.types[id(node)] for node in copies], sizes)
    declared = re.findall(r"__local uint (l\d+)\[(\d+)\];", text)
    return named if [(name, str(math.prod(it))) for name, it in named.items()] == declared else {}


def array_lengths(text: str, kernel: KernelTerm, sizes: dict) -> dict[str, list[int]]:
    """The lengths of a kernel's arrays by name, from its text and its term."""
    ins = buffers("a", list(kernel.reads.values()), sizes)
    outs = buffers("o", [kernel.types[id(kernel.term)]], sizes)
    return ins | outs | local_arrays(text, kernel, sizes)


def runs_of(source: Path, script: Path, launch: Path) -> list[Run]:
    """The runs of a script's kernels in order under a launch file."""
    steps, program = calls.text_of(script), grammar.read(calls.text_of(source))
    several = calls.has_cut(steps)
    text = calls.lift("stages" if several else "compile", source, script)
    # a refusal of the launch file is lift's own
    first = None if several else traced(source, script, launch)
    if several:
        calls.lift("run-stages", source, script, launch)
    told = json.loads(launch.read_text())
    told["sizes"] = {name: told["sizes"][name] for name in program.sizes}
    kernels = zip(
        kernels_of(text), typed_kernels(program, calls.last_term(source, steps)), strict=True
    )
    each = [array_lengths(*kernel, told["sizes"]) for kernel in kernels]
    if first:
        return [Run("lift", told, *first, each[0])]
    runs = device.runs(text, told, device.input_lists(program.inputs, told))
    return [Run(f"lift{k}", *run, own) for k, (run, own) in enumerate(zip(runs, each, strict=True))]


def title(run: Run, several: bool) -> str:
    """How much a run is, and by whom."""
    launch, counts = run.launch, run.counts
    told = f"{counts['events']} events, {counts['releases']} of them releases"
    items = f"{told_size(launch['global'])} work-item{'s' if Items(launch).count > 1 else ''}"
    name = f"{run.name}: " if several else ""
    return f"{name}{told}, by {items} in groups of {told_size(launch['local'])}"


def drawn_events(run: Run, first: int | None) -> list[Part]:
    """The run: event by event where all are to be told apart, or where a first one is told."""
    colours = Colours(Items(run.launch))
    if first is None and not fits_whole(run.events, run.launch):
        return [by_phases(run.events, run.launch, colours)]
    part = shown(run.events, run.launch, first or 1)
    drawn = [timeline(part, run.launch, colours)]
    if len(part.events) == len(run.events):
        return drawn
    last = part.events[-1].number
    told = f"Drawn are {len(part.events)} of the events {part.events[0].number} to {last}, by"
    told += f" {len(part.items)} work-items; the arrays are those of the whole run's end."
    return [paragraph([told]), *drawn]


def cells_told() -> Part:
    return paragraph(
        [
            "A box is a cell of an array, in the colour of the work-item that wrote it last, grey where"
            " it was given; rows are those of",
            "the array's type. The strip below it has the colours of the items that read it since, or of"
            " their groups, and is dark for many.",
        ]
    )


def picture(runs: list[Run], first: int | None = None) -> str:
    """The picture's text."""
    parts = []
    for number, run in enumerate(runs):
        parts.append(paragraph([title(run, len(runs) > 1)]))
        parts += [legend()] if number == 0 else []
        parts += drawn_events(run, first)
        parts += [cells_told()] if number == 0 else []
        parts.append(memory(run.events, run.launch, run.lengths))
    return document(stacked(parts, gap=8))


def main():
    usage = argparse.ArgumentParser(
        description=__doc__, formatter_class=argparse.RawDescriptionHelpFormatter
    )
    for name in ("program", "script", "launch"):
        usage.add_argument(name, metavar=name.upper(), type=Path)
    usage.add_argument("--from", dest="first", type=int, metavar="EVENT", help="from 1")
    usage.add_argument("--kernel", type=int, metavar="K", help="that of several alone, from 0")
    words = usage.parse_args()
    try:
        runs = runs_of(words.program, words.script, words.launch)
    except calls.Refused as refused:
        sys.exit(f"{refused.line}; tools/why.py explains it")
    if words.kernel is not None:
        runs = runs[words.kernel :][:1] or sys.exit(
            f"tools/picture.py: there are {len(runs)} kernels"
        )
    most = min(len(run.events) for run in runs)
    if words.first is not None and not 1 <= words.first <= most:
        sys.exit(f"tools/picture.py: the run has the events 1 to {most}")
    print(picture(runs, words.first), end="")


if __name__ == "__main__":
    main()
