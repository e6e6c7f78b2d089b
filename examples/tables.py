#!/usr/bin/env python3
"""Runs what docs/STRATEGIES.md, docs/NUMPY.md and docs/OPENCL.md have in tables.

    examples/tables.py [PROGRAM]      PROGRAM is ./lift where none is given

- STRATEGIES, tables of a name, a layout and a type: each layout's value by `lift eval` has the
  lengths of its type.
- STRATEGIES, 'Which device': the times are those of bench/strategies.json, and so are the relations
  of times that the table of choices tells; LESSON_MATRIX: its times.
- STRATEGIES, 'What a strategy saves': the loads, stores and releases of a run's trace.
- NUMPY: each term's value behind the page's declarations is that of numpy's expression, modulo
  2^32. Where no Python here has numpy, that is told, and these rows aren't run.
- OPENCL: the kernel of each term along its script, or the kernels where a step is `then`, have the
  words that the row says.
"""
import json
import os
import re
import subprocess
import sys
import tempfile
from pathlib import Path

TOP = Path(__file__).resolve().parent.parent
EXAMPLES = TOP / "examples"
WAYS = ("loopvec", "loops")
# What the table of choices tells in its last column, choice by choice: each relation by pairs of
# rows of bench/strategies.json, how many times as long as the second the first takes.
RELATIONS = [
    [
        [
            ("sum by a tree, numbers side by side", "sum by a tree, numbers in blocks"),
            ("sum in two kernels, numbers side by side", "sum in two kernels, numbers in blocks"),
        ]
    ],
    [
        [
            ("nearest points, local size fixed", "nearest points, any local size"),
            (
                "two stencil steps, one kernel, local size fixed",
                "two stencil steps, one kernel, any local size",
            ),
        ],
        [
            ("histogram, local size fixed", "histogram, any local size"),
            ("prefix sums, local size fixed", "prefix sums, any local size"),
            (
                "matrix by vector, vector in local memory, local size fixed",
                "matrix by vector, vector in local memory",
            ),
        ],
    ],
    [
        [("five points, tiles in local memory", "five points, no tiles")],
        [("transposition, blocks in local memory", "transposition, a column an item")],
        [("convolution, tiles in local memory", "convolution, no tiles")],
    ],
    [
        [("convolution, no tiles", "convolution, windows in private memory")],
        [
            (
                "convolution without pad, no tiles",
                "convolution without pad, windows in private memory",
            )
        ],
    ],
    [[("convolution, no tiles", "convolution without pad, no tiles")]],
    [
        [
            (f"matrix product, 2 by 2 sums an item, {where}", "matrix product, tiles of eight rows")
            for where in ("rows in local memory", "global memory")
        ]
    ],
    [
        [
            (
                "a map of 65,536 numbers by 4,096 items",
                "a map of 65,536 numbers by 65,536 items",
            )
        ]
    ],
]


def page(name):
    return (TOP / "docs" / name).read_text()


def tables(text, head):
    """The tables whose first row begins so: of each its rows, a row's cells."""
    for part in text.split(f"\n{head}")[1:]:
        rows = part.split("\n\n")[0].splitlines()[2:]
        yield [[cell.strip() for cell in re.split(r"(?<!\\)\|", row)[1:-1]] for row in rows]


def code(cell):
    """What stands in a cell between back quotes, first to last."""
    return [it.replace("\\|", "|") for it in re.findall("`([^`]*)`", cell)]


class Lift:
    """The program, in a folder for its files."""

    def __init__(self, program, folder):
        self.program, self.folder = program, Path(folder)

    def called(self, command, *texts):
        """What it writes, and its line where it refuses."""
        files = [self.folder / str(k) for k in range(len(texts))]
        for file, text in zip(files, texts):
            file.write_text(text)
        done = subprocess.run([self.program, command, *files], capture_output=True, text=True)
        return done.stdout, done.stderr.strip()

    def traffic(self, script):
        """Loads and stores of global and of local memory, and releases, of an example's run."""
        launch = script.with_suffix(".json")
        files = [script.parent / "program.lift", script, launch]
        files[2] = launch if launch.exists() else script.parent / "launch.json"
        words = [self.program, "run", *files, "--trace"]
        done = subprocess.run(words, stdout=subprocess.PIPE, text=True, check=True)
        *events, result = done.stdout.splitlines()
        told = (" reads a", " writes o", " reads l", " writes l")
        counts = [sum(access in event for event in events) for access in told]
        return [*counts, json.loads(result)["releases"]]

    def value(self, program, launch):
        out, line = self.called("eval", program, json.dumps(launch))
        return json.loads(out)["value"] if out else line


def lengths(type_, sizes):
    """The lengths of an array type at sizes, the outermost first."""
    array = re.fullmatch(r"\[(.*); ([^;\]]*)\]", type_)
    if not array:
        return []
    return [eval(array[2], {}, dict(sizes)), *lengths(array[1], sizes)]


def shape(value):
    return [len(value), *shape(value[0])] if isinstance(value, list) else []


def layouts_otherwise(lift):
    """The layouts whose value has other lengths than the type beside them."""
    source = (EXAMPLES / "transpose_blocks" / "program.lift").read_text()
    head = source[: source.index("output")]
    launch = json.loads((EXAMPLES / "transpose_blocks" / "launch.json").read_text())
    lets = ""
    for rows in tables(page("STRATEGIES.md"), "| Name | Layout | Type |"):
        for name, layout, type_, _ in rows:
            (name,), (layout,), (type_,) = code(name), code(layout), code(type_)
            value = lift.value(f"{head}output {lets}{layout}", launch)
            if shape(value) != lengths(type_, launch["sizes"]):
                yield f"STRATEGIES: {layout}: {shape(value)}, and not {type_}"
            lets += f"let {name} = {layout} in\n"
    # the last layout's value is the program's
    if value != lift.value(source, launch):
        yield "STRATEGIES: the layouts don't come to transpose_blocks"


def span(numbers):
    """The least and the greatest, to one place, as the page tells them."""
    ends = [f"{end:.1f}" for end in (min(numbers), max(numbers))]
    return " to ".join(dict.fromkeys(ends))


def times_otherwise():
    """The times that aren't those stored, and the relations that they don't have."""
    stored = json.loads((TOP / "bench" / "strategies.json").read_text())
    times = {name: [f"{it[way]:.2f}" for way in WAYS] for name, it in stored.items()}
    (told,) = tables(page("STRATEGIES.md"), "| Nanoseconds an element |")
    lesson = "lesson, "
    wanted = [
        [name, f"`{it['script']}`", *times[name]]
        for name, it in stored.items()
        if not name.startswith(lesson)
    ]
    if told != wanted:
        yield "STRATEGIES: the times aren't those of bench/strategies.json"
    (told,) = tables(page("LESSON_MATRIX.md"), "| Kernel |")
    if [times.get(lesson + code(kernel)[0]) for kernel, *_ in told] != [it[1:] for it in told]:
        yield "LESSON_MATRIX: the times aren't those of bench/strategies.json"
    (choices,) = tables(page("STRATEGIES.md"), "| Choice |")
    for (choice, *_, seen), relations in zip(choices, RELATIONS, strict=True):
        found = re.findall(r"(\d\.\d(?: to \d\.\d)?) times as long", seen)
        wanted = [
            span([stored[long][way] / stored[short][way] for long, short in pairs for way in WAYS])
            for pairs in relations
        ]
        if found != wanted:
            yield f"STRATEGIES: {choice}: {'; '.join(wanted)} times"


def traffic_otherwise(lift):
    """The rows of which a script's run loads and stores otherwise."""
    (told,) = tables(page("STRATEGIES.md"), "| Program | Script |")
    folder = None
    for program, scripts, *counts in told:
        folder = code(program)[0] if program else folder
        for name in code(scripts):
            found = [f"{it:,}" for it in lift.traffic(EXAMPLES / folder / f"{name}.txt")]
            if found != counts:
                yield f"STRATEGIES: {folder}/{name}: {' | '.join(found)}"


# What numpy is asked, in a Python that has it: the values of expressions of words of 32 bits.
ASKED = """
import json, sys
import numpy as np
from numpy.lib.stride_tricks import sliding_window_view

told = json.load(sys.stdin)
names = {name: np.array(it, np.uint32) for name, it in told["inputs"].items()} | told["sizes"]
names |= {"np": np, "sliding_window_view": sliding_window_view}
values = [np.atleast_1d(np.array(eval(it, names))).astype(np.uint32) for it in told["expressions"]]
json.dump([it.tolist() for it in values], sys.stdout)
"""


def words(count, below=2**32):
    """So many words, the same at each call."""
    made, state = [], 1
    for _ in range(count):
        state = (state * 1664525 + 1013904223) % 2**32
        made.append((state >> 7 ^ state << 9) % below)
    return made


def numpys_launch():
    """The sizes and inputs of NUMPY."""
    sizes = {"N": 12, "M": 6, "K": 4}
    numbers = words(100)
    rows = [numbers[30 + 4 * row : 34 + 4 * row] for row in range(6)]
    columns = [numbers[60 + 6 * row : 66 + 6 * row] for row in range(4)]
    inputs = {"x": numbers[:12], "y": numbers[12:24], "A": rows, "B": columns, "z": words(12, 8)}
    inputs |= {"i": list(range(12)), "b": list(range(8)), "k": numbers[24:27]}
    return {"sizes": sizes, "inputs": inputs}


def numpys_values(expressions, launch):
    """The expressions' values, None where no Python here has numpy."""
    asked = json.dumps({**launch, "expressions": expressions})
    for python in (sys.executable, "/usr/bin/python3"):
        if subprocess.run([python, "-c", "import numpy"], capture_output=True).returncode == 0:
            words = [python, "-c", ASKED]
            done = subprocess.run(words, input=asked, stdout=subprocess.PIPE, text=True, check=True)
            return json.loads(done.stdout)
    return None


def numpy_otherwise(lift):
    """The terms that haven't numpy's value."""
    text = page("NUMPY.md")
    head = re.search("^```lift\n(.*?)^```", text, re.M | re.S)[1]
    rows = [(*code(left), *code(right)) for it in tables(text, "| numpy |") for left, right in it]
    launch = numpys_launch()
    wanted = numpys_values([expression for expression, _ in rows], launch)
    if wanted is None:
        print(f"NUMPY: no Python here has numpy, so {len(rows)} rows weren't run")
        return
    for (expression, term), value in zip(rows, wanted, strict=True):
        came = lift.value(f"{head} {term}", launch)
        if came != value:
            yield f"NUMPY: {expression}: numpy has {value}, lift {came}"


def opencl_otherwise(lift):
    """The kernels that haven't the words that their rows say."""
    text = page("OPENCL.md")
    head = re.search("^```lift\n(.*?)^```", text, re.M | re.S)[1]
    for _, term, script, wanted in sum(tables(text, "| By hand |"), []):
        if not script:
            continue
        command = "stages" if "then" in script else "compile"
        kernel, line = lift.called(command, f"{head} {code(term)[0]}", "\n".join(code(script)))
        absent = [it for it in code(wanted) if it not in kernel]
        if absent:
            yield f"OPENCL: {code(term)[0]}: no {absent} in {kernel or line}"


def otherwise(lift):
    yield from layouts_otherwise(lift)
    yield from times_otherwise()
    yield from traffic_otherwise(lift)
    yield from numpy_otherwise(lift)
    yield from opencl_otherwise(lift)


def main():
    program = Path(sys.argv[1] if sys.argv[1:] else TOP / "lift").resolve()
    if not os.access(program, os.X_OK):
        sys.exit(f"examples/tables.py: there is no program {program}")
    with tempfile.TemporaryDirectory() as folder:
        wrong = list(otherwise(Lift(program, folder)))
    print("\n".join([*wrong, f"tables: {len(wrong)} not so"]))
    return bool(wrong)


if __name__ == "__main__":
    sys.exit(main())
