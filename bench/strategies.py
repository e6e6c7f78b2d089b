#!/usr/bin/env python3
"""Times the choices of docs/STRATEGIES.md, 'Which device', on PoCL, by one thread of this machine.

    bench/strategies.py [--store] [ROW ..]     all rows where none is named

A row is a script of an example or of docs/LESSON_MATRIX.md at larger sizes, some with other words
in the program or the script. All rows run by turns, AT_ONCE runs in each; what is told is the least
processor time of TURNS turns, all kernels of a run together, in nanoseconds an element. `loopvec`
is PoCL as it is installed, `loops` with POCL_WORK_GROUP_METHOD=loops, which makes no vectors of
work-items. Each value is compared with numpy's. With --store the times go to bench/strategies.json,
which examples/tables.py compares the pages with.

Wants PoCL, pyopencl and numpy (/usr/bin/python3 on Debian, with python3-pyopencl); the
environment's LIFT names the program `lift`.
"""
import json
import os
import re
import subprocess
import sys
import tempfile
import time
from dataclasses import dataclass, field
from pathlib import Path

import numpy as np

TOP = Path(__file__).resolve().parent.parent
STORED = TOP / "bench" / "strategies.json"
LIFT = os.environ.get("LIFT", str(TOP / "crates/lift_cli/out/lift_cli"))
METHODS = ("loopvec", "loops")
TURNS, AT_ONCE = 25, 8
RNG = np.random.default_rng(1)


@dataclass
class Row:
    """A script, the sizes in their order, the inputs and the output by component, what its time is
    divided by, the launch of each kernel, and the lengths of the arrays between kernels."""

    name: str
    script: str
    sizes: list
    inputs: list
    value: list
    elements: int
    launches: list
    between: list = field(default_factory=list)
    changed: dict = field(default_factory=dict)

    def changed_text(self, path):
        text = path.read_text()
        for old, new in self.changed.items():
            text = text.replace(old, new)
        return text

    def kernels(self):
        """The text of the row's kernels."""
        script = next(it for it in TOP.glob(f"*/{self.script}.txt"))
        source = script.with_suffix(".lift")
        with tempfile.TemporaryDirectory() as folder:
            program, steps = Path(folder, "program.lift"), Path(folder, "script.txt")
            named = source if source.exists() else script.parent / "program.lift"
            program.write_text(self.changed_text(named))
            steps.write_text(self.changed_text(script))
            command = "stages" if self.between else "compile"
            words = [LIFT, command, program, steps]
            return subprocess.run(words, capture_output=True, text=True, check=True).stdout


def numbers(*shape, below=2**32):
    return RNG.integers(0, below, shape, dtype=np.uint32)


def windows(xs, width):
    return np.lib.stride_tricks.sliding_window_view(xs, width)


def halves(pairs):
    """The components of an array of pairs, each an array of its own."""
    return [np.ascontiguousarray(pairs[..., k]) for k in range(2)]


FEW, MANY, ALL = (1024, 16), (4096, 64), (65536, 64)
WIDER = {"to 65536": "to 1048576"}


def convolutions():
    xs, weights = numbers(2**18), numbers(5)
    padded = np.pad(xs, 2, "edge")
    value = [windows(padded, 5) @ weights]

    def row(name, script, changed=None, inputs=(xs, weights)):
        changes = {**WIDER, **(changed or {})}
        return Row(name, script, [2**18], inputs, value, 2**18, [MANY], changed=changes)

    yield row("convolution, tiles in local memory", "convolution/tiled")
    yield row("convolution, no tiles", "convolution/items")
    yield row("convolution, windows in private memory", "convolution/private")
    framed = (padded, weights)
    yield row("convolution without pad, no tiles", "convolution_inside/items", inputs=framed)
    name = "convolution without pad, windows in private memory"
    yield row(name, "convolution_inside/private", inputs=framed)


def products():
    m, n, k = 256, 256, 64
    a, b = numbers(m, k), numbers(k, n)
    value = a @ b
    sums, wide = m * n * k, {"; 16]": f"; {k}]", "]; 16": f"]; {k}", "split(16": f"split({k}"}
    yield Row("matrix product, tiles of eight rows", "matrix_product_tiles/tiles", [m, n], [a, b],
              [value], sums, [MANY], changed=wide)
    pairs = [*halves(a.reshape(m // 2, 2, k).swapaxes(1, 2)), *halves(b.reshape(k, n // 2, 2))]
    blocks = [value[j::2, l::2] for j in range(2) for l in range(2)]
    deep = {"; 8]": f"; {k}]", "]; 8": f"]; {k}"}
    for name, script in (("rows in local memory", "local"), ("global memory", "global")):
        yield Row(f"matrix product, 2 by 2 sums an item, {name}", f"matrix_product_block/{script}",
                  [m // 2, n // 2], pairs, blocks, sums, [MANY], changed=deep)
    yield Row("matrix product, a row an item", "matrix_product/rows", [k, m, n], [a, b], [value],
              sums, [(256, 1)])
    wide = {"; 8]": f"; {k}]", "split(8": f"split({k}"}
    for step, launch in (("one", (1, 1)), ("rows", (256, 1)), ("columns", MANY), ("local", MANY),
                         ("tiles", MANY), ("blocks", MANY)):
        given = ([m // 2, n // 2], pairs, blocks) if step == "blocks" else ([m, n], [a, b], [value])
        yield Row(f"lesson, {step}", f"lesson_matrix/{step}", *given, sums, [launch], changed=wide)
    a, x = numbers(4096, 256), numbers(256)
    value, wide = [a @ x], {"; 16]": "; 256]"}
    launch_local = {"# The items of a group copy": "launch local 8\n# The items of a group copy"}
    for name, script, changed in (
        ("vector in local memory", "local", wide),
        ("vector in local memory, local size fixed", "local", {**wide, **launch_local}),
        ("no copy", "items", wide),
    ):
        launch = (1024, 8) if "fixed" in name else MANY
        yield Row(f"matrix by vector, {name}", f"matrix_vector/{script}", [4096], [a, x], value,
                  a.size, [launch], changed=changed)


def sums():
    parts = numbers(256, 1024)
    value = [parts.sum(axis=1, dtype=np.uint32)]
    blocks = {"transpose(split(16, part))": "split(T, part)"}
    for name, changed in (("side by side", {}), ("in blocks", blocks)):
        yield Row(f"sum by a tree, numbers {name}", "tree_sums/tree", [256, 64], [parts], value,
                  parts.size, [(4096, 16)], changed=changed)
    # rows and columns of the same list of numbers
    blocks = {"[[u32; 256*G]; T]": "[[u32; T]; 256*G]", "transpose(rows)": "rows"}
    for name, changed in (("side by side", {}), ("in blocks", blocks)):
        yield Row(f"sum in two kernels, numbers {name}", "sum_coalesced/groups", [4, 256], [parts],
                  [parts.sum(dtype=np.uint32)], parts.size, [FEW, (16, 16)], [64], changed)
    xs, bins = numbers(2**16, below=16), np.arange(8, dtype=np.uint32)
    value = [np.stack([(xs.reshape(-1, 64) == it).sum(axis=1) for it in bins], axis=1)]
    fixed = {"# A copy of each part": "launch local 8\n# A copy of each part"}
    for name, changed in (("any local size", {}), ("local size fixed", fixed)):
        yield Row(f"histogram, {name}", "histogram/local", [2**16], [xs, bins], value, 8 * 2**16,
                  [(1024, 8)], changed=changed)
    xs = numbers(4096, 16)
    value = [xs.cumsum(axis=1, dtype=np.uint32)]
    for name, script, ids, launch in (
        ("any local size", "prefix_sums/local", 16, FEW),
        ("local size fixed", "prefix_sums/fixed", 16, FEW),
        ("in log steps", "prefix_sums_steps/groups", 17, (1088, 17)),
    ):
        inputs = [xs, np.arange(ids, dtype=np.uint32)]
        yield Row(f"prefix sums, {name}", script, [4096], inputs, value, xs.size, [launch])


def matrices():
    xs = numbers(512, 512)
    padded = np.pad(xs, 1, "edge")
    weights = np.array([0, 1, 0, 1, 1, 1, 0, 1, 0], np.uint32)
    near = np.lib.stride_tricks.sliding_window_view(padded, (3, 3)).reshape(512, 512, 9)
    value = [near @ weights]
    inputs = [xs, weights]
    yield Row("five points, tiles in local memory", "five_point/tiles", [64, 64], inputs, value,
              xs.size, [MANY])
    yield Row("five points, no tiles", "five_point_rows/groups", [512, 512], inputs, value,
              xs.size, [MANY])
    for name, script in (("blocks in local memory", "local"), ("blocks without a copy", "items")):
        yield Row(f"transposition, {name}", f"transpose_blocks/{script}", [64, 64], [xs], [xs.T],
                  xs.size, [MANY])
    yield Row("transposition, a column an item", "transpose/columns", [512, 512], [xs], [xs.T],
              xs.size, [(512, 64)])


def others():
    points, queries = numbers(512, 2, below=1000), numbers(2048, 2, below=1000)
    far = ((points[None].astype(int) - queries[:, None].astype(int)) ** 2).sum(axis=2)
    order = np.argsort(far, axis=1, kind="stable")[:, :2]
    value = [it[:, k] for k in range(2) for it in (np.take_along_axis(far, order, 1), order)]
    inputs = [*halves(points), np.arange(512, dtype=np.uint32), *halves(queries)]
    for name, script in (("any local size", "local"), ("local size fixed", "fixed")):
        yield Row(f"nearest points, {name}", f"nearest_points/{script}", [2048], inputs, value,
                  far.size, [(1024, 8)], changed={"; 16]": "; 512]"})
    xs = numbers(2**18 + 4)
    once = windows(xs, 3).sum(axis=1, dtype=np.uint32)
    value = [windows(once, 3).sum(axis=1, dtype=np.uint32)]
    more = {"16*T": "64*T", "slide(20, 16": "slide(68, 64", "local 16": "local 64"}
    for name, script, launches, between in (
        ("two kernels", "two_steps/kernels", [MANY, MANY], [once.size]),
        ("one kernel, any local size", "two_steps_tiles/local", [FEW], []),
        ("one kernel, local size fixed", "two_steps_tiles/fixed", [MANY], []),
    ):
        yield Row(f"two stencil steps, {name}", script, [2**12], [xs], value, 2**18, launches,
                  between, {**more, "to 1024": "to 4096"})
    xs = numbers(2**16)
    changed = {"to 1000": "to 65536", "to-seq": "to-glb"}
    for launch in (MANY, ALL):
        name, value = f"a map of 65,536 numbers by {launch[0]:,} items", [xs + np.uint32(1)]
        yield Row(name, "increment/script", [xs.size], [xs], value, xs.size, [launch],
                  changed=changed)


def vectors():
    xs = numbers(2**20, below=256)
    value = [np.minimum((xs * 300) >> 8, 255)]
    for name, script in (("one by one", "items"), ("in fours", "fours")):
        yield Row(f"grey values, {name}", f"brightened/{script}", [xs.size], [xs], value, xs.size,
                  [MANY])
    rows = xs[: 2**18].reshape(-1, 64)
    value = [np.minimum((rows * 300) >> 8, 255)]
    one_by_one = {"at 1 vector\nat 1.0 to-": "at 1 to-"}
    for name, changed in (("one by one", one_by_one), ("in fours", {})):
        for what, script, launch in (("item", "rows", FEW), ("group of 16", "groups", (4096, 16))):
            yield Row(f"rows of grey values, {name}, a row for each {what}",
                      f"brightened_rows/{script}", [len(rows)], [rows], value, rows.size, [launch],
                      changed=changed)


def rows():
    for some in (convolutions, products, sums, matrices, others, vectors):
        yield from some()


class Run:
    """A row on the device: what its kernels are called with."""

    def __init__(self, cl, context, queue, row):
        self.cl, self.queue, self.row = cl, queue, row
        text = row.kernels()
        program = cl.Program(context, text).build()
        flags = cl.mem_flags.READ_WRITE | cl.mem_flags.COPY_HOST_PTR

        def buffer(cells):
            cells = np.ascontiguousarray(cells, np.uint32)
            return cl.Buffer(context, flags, hostbuf=cells)

        given, self.calls = [buffer(it) for it in row.inputs], []
        sizes = [np.uint32(it) for it in row.sizes]
        heads = re.findall(r"void (\w+)\((.*)\)", text)
        lengths = [*row.between, np.asarray(row.value[0]).size]
        for (name, words), launch, length in zip(heads, row.launches, lengths, strict=True):
            made = [buffer(np.zeros(length)) for _ in range(words.count("__global uint *"))]
            kernel = getattr(program, name)
            kernel.set_args(*given, *made, *sizes)
            self.calls.append((kernel, launch))
            given += made
        # a kernel's arguments don't keep their buffers
        self.given, self.made = given, made

    def go(self):
        """The processor time of a run."""
        began = time.process_time()
        for kernel, (total, group) in self.calls * AT_ONCE:
            self.cl.enqueue_nd_range_kernel(self.queue, kernel, (total,), (group,))
        self.queue.finish()
        return (time.process_time() - began) / AT_ONCE

    def right(self):
        """Whether the last run left numpy's value."""
        for out, wanted in zip(self.made, self.row.value, strict=True):
            cells = np.empty(np.asarray(wanted).size, np.uint32)
            self.cl.enqueue_copy(self.queue, cells, out)
            if not np.array_equal(cells, np.asarray(wanted).astype(np.uint32).ravel()):
                return False
        return True


def measure(names):
    """The rows' times in nanoseconds an element, by this process's device."""
    import pyopencl as cl

    context = cl.create_some_context(interactive=False)
    queue = cl.CommandQueue(context)
    runs = [Run(cl, context, queue, it) for it in rows() if not names or it.name in names]
    least = {}
    for turn in range(TURNS):
        for run in runs:
            took = run.go()
            if turn == 0 and not run.right():
                sys.exit(f"bench/strategies.py: {run.row.name}: another value than numpy's")
            # the first run of a row compiles its kernels
            if turn > 0:
                least[run.row.name] = min(took, least.get(run.row.name, took))
    return {run.row.name: 1e9 * least[run.row.name] / run.row.elements for run in runs}


def measured(method, names):
    """The same by a process of its own, with one thread and that way of running a group. PoCL keeps
    what it compiled without a word of the way, so each has a folder of its own for that."""
    with tempfile.TemporaryDirectory() as folder:
        told = {
            "POCL_MAX_PTHREAD_COUNT": "1",
            "POCL_WORK_GROUP_METHOD": method,
            "POCL_CACHE_DIR": folder,
        }
        words = [sys.executable, __file__, "--one", *names]
        env = {**os.environ, **told}
        done = subprocess.run(words, env=env, stdout=subprocess.PIPE, text=True, check=True)
        return json.loads(done.stdout)


def main():
    names = [it for it in sys.argv[1:] if not it.startswith("--")]
    if "--one" in sys.argv:
        print(json.dumps(measure(names)))
        return
    times = {method: measured(method, names) for method in METHODS}
    told = {
        row.name: {"script": row.script, **{way: round(times[way][row.name], 2) for way in METHODS}}
        for row in rows()
        if row.name in times["loops"]
    }
    width = max(map(len, told))
    for name, row in told.items():
        print(f"{name:<{width}}", *(f"{row[method]:8.2f}" for method in METHODS))
    if "--store" in sys.argv:
        STORED.write_text(json.dumps(told, indent=1) + "\n")


if __name__ == "__main__":
    main()
