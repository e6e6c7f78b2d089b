#!/usr/bin/env python3
"""Calls `lift`, and explains a refusal.

    tools/why.py COMMAND FILE..         as in: tools/why.py compile PROGRAM SCRIPT

Behind lift's own line stand the line and the column of the file, what is wanted there, what may
have been meant, the tree around the place, where a step could be made, and what docs/REFUSALS.md
says of it. All that stands on standard error; what `lift` writes, and its status, stay as they are.
The environment's LIFT names the program; if it isn't set, it is the one that ./lift built.
"""
import argparse
import difflib
import os
import re
import sys
from pathlib import Path
from typing import Callable, Iterator

import calls
import grammar
import places
import refusal_rows
import slips
from kernel_terms import typed_kernels
from launch_faults import launch_fault
from rules import Rule, fits, rules
from term_types import Array, binders, components, types_of

COMMANDS = {
    "compile": ["PROGRAM", "SCRIPT"],
    "steps": ["PROGRAM", "SCRIPT"],
    "run": ["PROGRAM", "SCRIPT", "LAUNCH", "[--trace]"],
    "cost": ["PROGRAM", "SCRIPT", "LAUNCH", "[--items]"],
    "eval": ["PROGRAM", "LAUNCH"],
    "stages": ["PROGRAM", "SCRIPT"],
    "run-stages": ["PROGRAM", "SCRIPT", "LAUNCH"],
    "demo": ["SEED"],
}
TYPES_MOST = 4
Lines = Iterator[str]


class Call:
    """A call that was refused: its words, its files, and its line."""

    def __init__(self, words: list[str], line: str):
        self.words, self.line = words, line
        self.command = words[0] if words else ""
        self.files = [it for it in words[1:] if not it.startswith("--")]

    @property
    def program(self) -> str:
        return self.files[0]

    @property
    def script(self) -> str:
        return self.files[1]

    def term(self, script: str) -> tuple[places.Node, dict]:
        """The term behind a script's text, and the types of its nodes."""
        term = calls.last_term(self.program, script)
        return term, types_of(grammar.read(calls.text_of(self.program)), term)


# what is shown of a file


def spot(file: str, text: str, at: int, width: int) -> Lines:
    """A byte's line, with a mark below it."""
    begin = text.rfind("\n", 0, at) + 1
    line = text[begin:].split("\n")[0]
    yield f"{file}, line {text.count(chr(10), 0, at) + 1}, column {at - begin + 1}:"
    yield "    " + line.replace("\t", " ")
    yield "    " + " " * (at - begin) + "^" * max(1, min(width, len(line) - (at - begin)))


def script_line(file: str, text: str, number: int, word: int | None = None) -> Lines:
    """A script's line, with a mark below one of its words."""
    line = text.split("\n")[number - 1]
    words = list(re.finditer(r"\S+", line))
    at = words[word].start() if word is not None and word < len(words) else len(line.rstrip())
    yield f"{file}, line {number}:"
    yield "    " + line.replace("\t", " ")
    if word is not None:
        width = len(words[word][0]) if word < len(words) else 1
        yield "    " + " " * at + "^" * width


def around(term: places.Node, place: tuple[int, ...], types: dict) -> Lines:
    """The part of a term's tree around a place: the way to it, what stands beside that, and two
    levels below; with types at the place and right below it."""
    rows = [(at, node) for at, node in places.nodes(term) if is_near(at, place)]
    width = max(len(places.named(at)) for at, _ in rows) + 2
    for at, node in rows:
        below = at[: len(place)] == place and len(at) <= len(place) + 1
        told = types.get(id(node)) if below else None
        mark = ">" if at == place else " "
        label = f"{places.named(at):<{width}}{'  ' * len(at)}{node.label()}"
        yield f"  {mark} " + (f"{label:<{width + 30}}  {told}" if told else label)


def is_near(at: tuple[int, ...], place: tuple[int, ...]) -> bool:
    on_the_way = at[:-1] == place[: len(at[:-1])] and len(at) <= len(place)
    return on_the_way or (at[: len(place)] == place and len(at) <= len(place) + 2)


def place_of(text: str) -> tuple[int, ...]:
    return () if text == "." else tuple(map(int, text.split(".")))


def named(found: list[tuple[int, ...]]) -> str:
    return ", ".join(map(places.named, found))


# each kind of refusal


def words_fault(call: Call) -> Lines:
    forms = [" ".join(["lift", command, *files]) for command, files in COMMANDS.items()]
    near = difflib.get_close_matches(call.command, COMMANDS, 1, 0.5)
    if call.command in COMMANDS:
        yield "wanted: " + " ".join(["lift", call.command, *COMMANDS[call.command]])
    elif near:
        yield f"slip:   `{call.command}` is no command; near it: " + near[0]
    else:
        yield "wanted: one of these"
        yield from (f"    {it}" for it in forms)


def file_fault(call: Call) -> Lines:
    path = Path(call.line.removeprefix("lift: read "))
    folder = path.parent
    if not folder.is_dir():
        yield f"slip:   there is no folder {folder}, seen from {Path.cwd()}"
        return
    there = "is no file that may be read" if path.exists() else "isn't there"
    yield f"slip:   {path} {there}, seen from {Path.cwd()}"
    near = difflib.get_close_matches(path.name, sorted(os.listdir(folder)), 3, 0.5)
    if near:
        yield "near it: " + ", ".join(str(folder / it) for it in near)


def program_fault(call: Call) -> Lines:
    """The token at which the program's text stops."""
    text = calls.text_of(call.program)
    token, at = map(int, re.findall(r"\d+", call.line))
    stop = stopped_at(text)
    told = stop if stop and (stop.token.number, stop.token.offset) == (token, at) else None
    yield from spot(call.program, text, at, len(told.token.text) if told else 1)
    if told:
        yield f"wanted: {told.wanted}" + ("" if ": " in told.around else f", in `{told.around}`")
        slip = slips.slip_of(told)
        yield from [f"slip:   {slip}"] if slip else []


def stopped_at(text: str) -> grammar.Stopped | None:
    """Where a text stops being a program's, None where it is one."""
    try:
        grammar.read(text)
    except grammar.Stopped as stop:
        return stop
    return None


def type_fault(call: Call) -> Lines:
    """The place in the program's own term, or the input."""
    text = calls.text_of(call.program)
    program = grammar.read(text)
    which, where = re.fullmatch(r"lift: type: \w+ at (input )?(\S+)", call.line).groups()
    if which:
        name = list(program.inputs)[int(where)]
        at = re.search(rf"\binput\s+{name}\b", text)
        yield from spot(call.program, text, at.start() if at else 0, len(at[0]) if at else 1)
        return
    place, types = place_of(where), types_of(program)
    node = dict(places.nodes(program.term))[place]
    yield from spot(call.program, text, node.at, len(node.form))
    yield f"the program's term around {where}, with types:"
    # the place's own type is what can't be told
    yield from around(
        program.term, place, {key: it for key, it in types.items() if key != id(node)}
    )


def script_fault(call: Call) -> Lines:
    """The line that is no step."""
    text, number = calls.text_of(call.script), int(call.line.split()[-1])
    line = text.split("\n")[number - 1].rstrip("\r")
    words = line.split()
    if words[0] == "launch":
        yield from script_line(call.script, text, number, 2 if words[1:2] == ["local"] else 1)
        yield "wanted: `launch local K`, K from 1 to 256, once and before all steps"
    elif words[0] != "at":
        yield from script_line(call.script, text, number, 0)
        yield "wanted: `at PLACE RULE`"
        yield from near_words(words[0], ["at", "launch"])
    elif not is_place(words[1:2]):
        yield from script_line(call.script, text, number, 1)
        yield "wanted: a place: `.`, or numbers joined by points, as 0.1.0"
    else:
        yield from rule_fault(call.script, text, number, words[2:])


def is_place(words: list[str]) -> bool:
    return all(re.fullmatch(r"\.|(0|[1-9]\d*)(\.(0|[1-9]\d*))*", it) for it in words) and bool(
        words
    )


def near_words(word: str, words) -> Lines:
    near = difflib.get_close_matches(word, words, 4, 0.5)
    if near:
        yield f"near it: {', '.join(near)}"


def rule_fault(file: str, text: str, number: int, words: list[str]) -> Lines:
    """What is wrong behind the place of a step."""
    known = rules()
    rule = known.get(words[0]) if words else None
    if rule is None:
        yield from script_line(file, text, number, 2)
        yield "wanted: a rule" + (f"; there is no `{words[0]}`" if words else "")
        yield from near_words(words[0].lower(), known) if words else []
        return
    behind = 3 if len(words) < 2 or not rule.numbered or not words[1].isdigit() else 4
    yield from script_line(file, text, number, behind)
    if "#" in "".join(words):
        yield "wanted: the line's end: a comment stands on a line of its own"
    elif rule.numbered:
        yield f"wanted: one number behind `{rule.name}`, as in `{rule.name} 4`"
    else:
        yield f"wanted: the line's end: nothing stands behind `{rule.name}`"


def step_fault(call: Call) -> Lines:
    """The step, the term before it, and where it could be made."""
    text = calls.text_of(call.script)
    count, fault = re.fullmatch(r"lift: step (\d+): (.*)", call.line).groups()
    step = calls.steps_of(text)[int(count) - 1]
    before = calls.before_step(text, step)
    term, types = call.term(before)
    yield from script_line(call.script, text, step.line)
    place, there = place_of(step.place), dict(places.nodes(term))
    nearest = next(place[:k] for k in range(len(place), -1, -1) if place[:k] in there)
    yield f"the term before it, around {places.named(nearest)}:"
    yield from around(term, nearest, types)
    name = step.rule.split()[0]
    yield from FAULTS_OF_STEPS.get(fault, side)(fault, rules()[name], step, there, types)
    yield from possible(call, before, step, term)
    if fault == "shape":
        yield from possible_behind(call, before, step, there[place])


def no_place(fault: str, rule: Rule, step: calls.Step, there: dict, types: dict) -> Lines:
    place = place_of(step.place)
    above = next(place[:k] for k in range(len(place), -1, -1) if place[:k] in there)
    count = len(there[above].children)
    children = f"{count} child" + ("" if count == 1 else "ren")
    yield f"wanted: a place of this term: {places.named(above)} has {children}"


def shape(fault: str, rule: Rule, step: calls.Step, there: dict, types: dict) -> Lines:
    yield f"wanted: `{rule.name}` is for `{rule.told}`"
    form = rule.shape.form
    stand = [place for place, node in there.items() if node.form == form]
    lowered = [
        place for place, node in there.items() if node.form.startswith(form) and node.form != form
    ]
    yield f"`{form}` stands at: {named(stand) or 'no place'}" + (
        f"; lowered already at: {named(lowered)}" if lowered else ""
    )


def side(fault: str, rule: Rule, step: calls.Step, there: dict, types: dict) -> Lines:
    broken = [it for it in rule.side.split("; ") if it.startswith(f"`{fault.split()[-1]}`:")]
    yield from (f"wanted: {it}" for it in broken)
    node = there[place_of(step.place)]
    array = types.get(id(node.children[0])) if node.children else None
    if isinstance(array, Array) and rule.numbered:
        yield f"the array there is {array}"


def closed(fault: str, rule: Rule, step: calls.Step, there: dict, types: dict) -> Lines:
    """The binders around a cut, and how a let goes away."""
    yield from side(fault, rule, step, there, types)
    place = place_of(step.place)
    for depth in range(len(place)):
        node, where = there[place[:depth]], places.named(place[:depth])
        if binders(node) and place[depth] == len(node.children) - 1:
            away = f"; `at {where} let-inline` takes it away" if node.form == "let" else ""
            yield f"around it is `{node.label()}` at {where}{away}"


FAULTS_OF_STEPS: dict[str, Callable] = {
    "no place": no_place,
    "shape": shape,
    "side closed": closed,
}


def possible(call: Call, before: str, step: calls.Step, term: places.Node) -> Lines:
    """The places at which the step's rule can be made at this term."""
    rule = rules()[step.rule.split()[0]]
    if rule.is_for_any_array:
        return
    tried = [place for place, node in places.nodes(term) if fits(rule.shape, node)]
    made = [place for place in tried if can_be_made(call.program, before, place, step.rule)]
    yield f"`{step.rule}` can be made at: {named(made) or 'no place of this term'}"


def possible_behind(call: Call, before: str, step: calls.Step, node: places.Node) -> Lines:
    """The rules behind which the step's own can be made at its place."""
    first = [it for it in rules().values() if not it.numbered and not it.is_for_any_array]
    for rule in first:
        if fits(rule.shape, node):
            behind = f"{before}at {step.place} {rule.name}\n"
            if can_be_made(call.program, behind, place_of(step.place), step.rule):
                yield f"it can be made there behind `at {step.place} {rule.name}`"


def can_be_made(program: str, before: str, place: tuple[int, ...], rule: str) -> bool:
    try:
        calls.with_script("steps", program, f"{before}at {places.named(place)} {rule}\n")
    except calls.Refused:
        return False
    return True


PARALLEL = ("mapGlb", "mapWrg", "mapLcl", "mapGlb1", "mapWrg1", "mapLcl1")
# the forms that alone break a rule of the nest, as docs/LANGUAGE.md has them; any may break another
BREAKING = {
    "1": ("map", "reduce", "fold"),
    "2": ("mapLcl", "mapLcl1"),
    "3": ("mapGlb", "mapWrg", "mapGlb1", "mapWrg1"),
    "5": ("toLocal",),
    "6": ("toLocal",),
    "8": ("toPrivate",),
    "9": PARALLEL,
    "10": ("zip", "slide", "pad", "first", "second"),
    "14": PARALLEL,
}


def nest_fault(call: Call) -> Lines:
    """The place in the last term, or in that of the kernels that may be meant."""
    rule, where = re.fullmatch(r"lift: nest: N(\d+) at (\S+)", call.line).groups()
    term, types = call.term(calls.text_of(call.script))
    kernels = typed_kernels(grammar.read(calls.text_of(call.program)), term)
    place = place_of(where)
    if rule == "13" or len(kernels) == 1:
        yield f"the last term around {where}:"
        yield from around(term, place, types)
        yield from plain_forms(term) if rule == "1" else []
        return
    for number, kernel in enumerate(kernels):
        node = dict(places.nodes(kernel.term)).get(place)
        if node and node.form in BREAKING.get(rule, (node.form,)):
            yield f"the term of lift{number} around {where}:"
            yield from around(kernel.term, place, kernel.types)


def plain_forms(term: places.Node) -> Lines:
    """The places at which nobody does the work yet."""
    for form in BREAKING["1"]:
        stand = [place for place, node in places.nodes(term) if node.form == form]
        if stand:
            yield f"plain `{form}` stands at: {named(stand)}"


def limit_fault(call: Call) -> Lines:
    """The nodes that may be meant by a limit on types."""
    which = call.line.split()[2]
    if which not in ("components:", "arrays:") or not call.files:
        return
    program = grammar.read(calls.text_of(call.program))
    types = types_of(program)
    for place, node in places.nodes(program.term):
        if passes(which, types[id(node)]):
            yield f"passed at {places.named(place)}, {node.label()}: {types[id(node)]}"


def passes(which: str, it) -> bool:
    """Whether a type passes the limit on pairs, or that on arrays in one another."""
    if which == "components:":
        return components(it) > TYPES_MOST
    depth = 0
    while isinstance(it, Array):
        it, depth = it.element, depth + 1
    return depth > TYPES_MOST


def launch(call: Call) -> Lines:
    yield from launch_fault(call.line, calls.text_of(call.program), Path(call.files[-1]))


EXPLAINED: list[tuple[str, Callable[[Call], Lines]]] = [
    ("lift: words", words_fault),
    ("lift: read ", file_fault),
    ("lift: program: ", program_fault),
    ("lift: type: ", type_fault),
    ("lift: script: ", script_fault),
    ("lift: step ", step_fault),
    ("lift: nest: ", nest_fault),
    ("lift: limit ", limit_fault),
    ("lift: launch: ", launch),
]


def likeness(call: Call, row: refusal_rows.Row) -> int:
    """How much a row's input is like what was called, where several rows have such a line."""
    codes = re.findall("`([^`]*)`", row.input)
    if call.line == "lift: words":
        return ("demo" in row.input) == (call.command == "demo")
    if call.line.startswith("lift: program: "):
        return stops_at_name(codes[0]) == stops_at_name(calls.text_of(call.program))
    if call.line.startswith("lift: script: "):
        number = int(row.lines[0].split()[-1])
        here = calls.text_of(call.script).split("\n")
        return order_of(codes, number) == order_of(here, int(call.line.split()[-1]))
    if call.line.startswith("lift: step ") and "side" in call.line:
        step = calls.steps_of(calls.text_of(call.script))[int(re.findall(r"\d+", call.line)[0]) - 1]
        return step.rule.split()[0] in row.input
    if call.line.startswith("lift: launch: global"):
        return ("launch" in row.input) == ("launch" in calls.text_of(call.script))
    return ("stages" in row.input) == ("stages" in call.command)


def stops_at_name(text: str) -> bool:
    """Whether a text stops being a program's at a name that isn't known."""
    stop = stopped_at(text)
    return stop is not None and stop.token.is_name and "name" in stop.wanted


def order_of(lines: list[str], number: int) -> tuple[bool, bool]:
    """Whether a script's line is meant to fix the local size, and comes too late for that."""
    first = [line.split()[:1] for line in lines[:number]]
    launches = first[-1] == ["launch"]
    return launches, launches and any(it in (["at"], ["launch"]) for it in first[:-1])


def explained(call: Call) -> Lines:
    for begin, explain in EXPLAINED:
        if call.line.startswith(begin):
            yield from explain(call)
    for row in refusal_rows.rows_for(call.line, lambda row: likeness(call, row)):
        yield from refusal_rows.told(row)


def main() -> int:
    usage = argparse.ArgumentParser(
        description=__doc__, formatter_class=argparse.RawDescriptionHelpFormatter
    )
    usage.add_argument("words", nargs=argparse.REMAINDER, metavar="COMMAND FILE..")
    words = usage.parse_args().words
    try:
        print(calls.lift(*words), end="")
    except calls.Refused as refused:
        print(refused.line, *explained(Call(words, refused.line)), sep="\n", file=sys.stderr)
        return refused.status
    return 0


if __name__ == "__main__":
    sys.exit(main())
