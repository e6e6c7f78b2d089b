#!/usr/bin/env python3
"""Times scripts and launches on one's own OpenCL device, the fastest first.

    tools/tune.py PROGRAM SCRIPT.. --size N=262144 [--k 16,64] [--local 32,64] [--groups 8,64]
    tools/tune.py PROGRAM SCRIPT.. --launch LAUNCH

Where PROGRAM or a SCRIPT has `{K}`, each number of --k is written for it. Each kernel is run with
each local size (its own, where the script fixes one) and each number of groups; a time is the least
of some turns, by the device's own clock, all kernels of a script together. The inputs are random,
or those of a launch file; all values have to be the same. It wants pyopencl and numpy: `pip install
./python` at the repository's top has both. The environment's LIFT names the program, PYOPENCL_CTX
the device.
"""
import argparse
import json
import os
import sys
from pathlib import Path
from typing import Any, Iterator, NamedTuple

import calls

LOCAL_MOST, ITEMS_MOST, SEED = 256, 65536, 1


class Tried(NamedTuple):
    """A script, the number in it, and a launch: as it is told behind a time."""

    script: str
    k: int | None
    local: int | None
    groups: int | None


class Timed(NamedTuple):
    seconds: float
    tried: Tried
    work_items: str


def package():
    """The package lift_opencl, that of the repository where none is installed."""
    sys.path.append(str(calls.TOP / "python"))
    try:
        import lift_opencl
    except ImportError as why:
        sys.exit(f"tools/tune.py: {why}, for {sys.executable}; `pip install ./python` has it")
    return lift_opencl


def numbers(text: str) -> list[int]:
    return [int(it) for it in text.split(",")]


def written(path: str, k: int | None) -> str:
    text = calls.text_of(path)
    return text if k is None else text.replace("{K}", str(k))


def functions(lift, program: str, scripts: list[str], each: list[int]) -> Iterator[tuple]:
    """Each script with each number: its name, the number, and the function or the refusal."""
    for script in scripts:
        has_number = "{K}" in calls.text_of(program) + calls.text_of(script)
        for k in [*each] if has_number else [None]:
            try:
                yield script, k, lift.Function.from_text(written(program, k), written(script, k))
            except lift.LiftError as refused:
                yield script, k, refused


def random_inputs(function, sizes: dict[str, int]) -> dict[str, Any]:
    """Random words for each input."""
    import numpy
    from lift_opencl import arrays, array_types

    chance, made = numpy.random.default_rng(SEED), {}
    for name, its in function.inputs.items():
        shape = array_types.shape(its, sizes)
        words = [
            chance.integers(0, 2**32, shape, numpy.uint32) for _ in array_types.components(its)
        ]
        made[name] = arrays.nested(iter(words), array_types.element(its))
    return made


def launch_inputs(function, launch: dict) -> dict[str, Any]:
    from lift_opencl import launch_files

    return launch_files.inputs_of(launch, function.inputs)


def launches(function, local: list[int], groups: list[int]) -> Iterator[tuple]:
    """The local sizes and numbers of groups to try; none of either for what the package takes."""
    if all(kernel.one_item for kernel in function.kernels):
        yield None, None
        return
    fixed = {kernel.local_size for kernel in function.kernels} - {None}
    for size in fixed or local or [None]:
        for count in groups or [None]:
            if size is None or count is None or size * count <= ITEMS_MOST:
                yield size, count


def timed(function, tried: Tried, inputs: dict, sizes: dict, turns: int) -> tuple[Timed, Any]:
    """The least time of some turns, and the value."""
    total = tried.local * tried.groups if tried.local and tried.groups else None
    best = float("inf")
    for _ in range(turns):
        value = function.run(inputs, sizes, global_size=total, local_size=tried.local)
        best = min(best, sum(function.times))
    items = ", then ".join(f"{each} by {group}" for each, group in function.work_items)
    return Timed(best, tried, items), value


def same(value, other) -> bool:
    import numpy

    if isinstance(value, tuple):
        return all(map(same, value, other))
    return numpy.array_equal(value, other)


def table(rows: list[Timed]) -> Iterator[str]:
    """A line for each, the fastest first."""
    width = max(len(row.tried.script) for row in rows)
    yield f"{'us':>10}  {'script':<{width}}  {'K':>5}  work-items, by groups of"
    for row in sorted(rows, key=lambda it: it.seconds):
        k = "" if row.tried.k is None else row.tried.k
        yield f"{row.seconds * 1e6:10.1f}  {row.tried.script:<{width}}  {k:>5}  {row.work_items}"


def measured(words) -> tuple[list[Timed], list[str]]:
    """The times, and what was refused or differs."""
    lift, rows, wrong, wanted = package(), [], [], None
    launch = json.loads(Path(words.launch).read_text()) if words.launch else {}
    sizes = launch.get("sizes") or dict(words.size)
    for script, k, function in functions(lift, words.program, words.scripts, words.k):
        name = script + ("" if k is None else f", K = {k}")
        if isinstance(function, lift.LiftError):
            wrong.append(f"{name}: {function.line}")
            continue
        missing = [size for size in function.sizes if size not in sizes]
        if missing:
            sys.exit(f"tools/tune.py: a size is missing: --size {missing[0]}=NUMBER")
        inputs = launch_inputs(function, launch) if launch else random_inputs(function, sizes)
        for local, groups in launches(function, words.local, words.groups):
            tried = Tried(script, k, local, groups)
            try:
                row, value = timed(function, tried, inputs, sizes, words.turns)
            except (TypeError, ValueError) as why:
                wrong.append(f"{name}: {why}")
                continue
            wanted = value if wanted is None else wanted
            rows.append(row)
            wrong += [] if same(value, wanted) else [f"{name}, {row.work_items}: another value"]
    return rows, wrong


def size_of(text: str) -> tuple[str, int]:
    name, _, number = text.partition("=")
    return name, int(number)


def main() -> int:
    usage = argparse.ArgumentParser(
        description=__doc__, formatter_class=argparse.RawDescriptionHelpFormatter
    )
    usage.add_argument("program", metavar="PROGRAM")
    usage.add_argument("scripts", metavar="SCRIPT", nargs="+")
    usage.add_argument("--size", type=size_of, action="append", default=[], metavar="NAME=NUMBER")
    usage.add_argument("--launch", metavar="LAUNCH", help="a launch file, for sizes and inputs")
    usage.add_argument("--k", type=numbers, default=[8, 16, 32, 64, 128, 256], metavar="K,..")
    usage.add_argument("--local", type=numbers, default=[], metavar="L,..", help="local sizes")
    usage.add_argument(
        "--groups", type=numbers, default=[], metavar="G,..", help="numbers of groups"
    )
    usage.add_argument("--turns", type=int, default=5, metavar="T", help="turns of each, 5")
    words = usage.parse_args()
    os.environ.setdefault("LIFT", calls.program())
    rows, wrong = measured(words)
    print("\n".join([*wrong, *(table(rows) if rows else [])]))
    return any(it.endswith("another value") for it in wrong) or not rows


if __name__ == "__main__":
    sys.exit(main())
