"""What is wrong with a launch file, beside lift's own line."""
import json
from pathlib import Path
from typing import Iterator

import grammar
from term_types import Array, Pair, Type, declared

WORD_MOST = 2**32 - 1


def launch_fault(line: str, text: str, file: Path) -> Iterator[str]:
    """The lines on a refusal of a program's launch file."""
    told = line.removeprefix("lift: launch: ")
    raw = file.read_bytes().decode("latin-1")
    program = grammar.read(text)
    if told == "not json":
        yield from not_json(raw, file)
        return
    launch = json.loads(raw)
    if told.startswith("missing "):
        yield from missing(told.removeprefix("missing ").split("."), launch)
    elif told.startswith("size "):
        name = told.split()[1]
        yield f"wanted: {declaration(name, program.sizes[name])}"
    elif told.startswith("shape "):
        name = told.removeprefix("shape ")
        yield f"wanted: {name}: {program.inputs[name]}, at {sizes_told(launch)}"
        wrong = differs(launch["inputs"][name], declared(program.inputs[name]), launch["sizes"])
        yield from [f"slip:   {name}{wrong}"] if wrong else []


def not_json(raw: str, file: Path) -> Iterator[str]:
    try:
        made = json.loads(raw)
    except json.JSONDecodeError as why:
        line = raw.split("\n")[why.lineno - 1]
        begin = max(0, why.colno - 60)
        yield f"{file}, line {why.lineno}, column {why.colno}: {why.msg}"
        yield "    " + line[begin : begin + 80]
        yield "    " + " " * (why.colno - 1 - begin) + "^"
    else:
        if not isinstance(made, dict):
            yield f"{file} has no object: it begins with `{{`, and has keys"


def missing(keys: list[str], launch) -> Iterator[str]:
    """What stands where a key is wanted."""
    at = launch
    for key in keys[:-1]:
        at = at[int(key)] if isinstance(at, list) else at.get(key, {})
    last = keys[-1]
    path = ".".join(keys)
    if isinstance(at, dict) and last in at:
        yield f"slip:   {path} is {json.dumps(at[last])[:60]}, of another kind than is wanted"
    elif isinstance(at, dict):
        yield f"wanted: {path}; the keys there are: {', '.join(at) or 'none'}"


def declaration(name: str, size: grammar.Size) -> str:
    multiple = f"a multiple of {size.multiple}, " if size.multiple > 1 else ""
    return f"{name} is {multiple}from {size.least} to {size.most}"


def sizes_told(launch: dict) -> str:
    return ", ".join(f"{name} = {it}" for name, it in launch["sizes"].items()) or "no sizes"


def differs(value, wanted: Type, sizes: dict[str, int]) -> str:
    """The first place at which a value isn't of a type, and how."""
    if isinstance(wanted, Array):
        return list_differs(value, [wanted.element] * wanted.length.at(sizes), sizes)
    if isinstance(wanted, Pair):
        return list_differs(value, [wanted.first, wanted.second], sizes)
    is_word = isinstance(value, int) and not isinstance(value, bool) and 0 <= value <= WORD_MOST
    return (
        "" if is_word else f" is {json.dumps(value)[:40]}, and a number below 4294967296 is wanted"
    )


def list_differs(value, wanted: list[Type], sizes: dict[str, int]) -> str:
    if not isinstance(value, list):
        return f" is {json.dumps(value)[:40]}, and a list of {len(wanted)} is wanted"
    if len(value) != len(wanted):
        return f" has {len(value)} elements, and {len(wanted)} are wanted"
    for number, (part, its) in enumerate(zip(value, wanted)):
        wrong = differs(part, its, sizes)
        if wrong:
            return f"[{number}]{wrong}"
    return ""
