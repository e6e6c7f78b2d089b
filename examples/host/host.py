#!/usr/bin/env python3
"""Runs a program along a script on an OpenCL device, and compares with the program's value.

    host.py PROGRAM SCRIPT LAUNCH

A launch file with the key `launches` is for kernels in order. Prints the value. Exit status 0: the
device gave the value that `lift eval` gives; 1: another; 2: it didn't come so far. LIFT in the
environment names the program `lift`, PYOPENCL_CTX the device. All is done by the package in
python/, which docs/HOST.md explains.
"""
import json
import sys
from pathlib import Path

import pyopencl

sys.path.insert(0, str(Path(__file__).resolve().parents[2] / "python"))
from lift_opencl import Function, LiftError  # noqa: E402
from lift_opencl.command import lift  # noqa: E402
from lift_opencl.launch_files import inputs_of, to_lists  # noqa: E402


def fail(message):
    print(f"host: {message}", file=sys.stderr)
    sys.exit(2)


def work_items(launch, key):
    """The number of work-items at a key, for each kernel; a tuple where it is a list of two."""
    launches = launch.get("launches", [launch])
    if not isinstance(launches, list):
        fail("the launch file has no list at the key launches")
    numbers = [it.get(key) if isinstance(it, dict) else None for it in launches]
    numbers = [tuple(it) if isinstance(it, list) and len(it) == 2 else it for it in numbers]
    if any(type(part) is not int for it in numbers for part in (it if isinstance(it, tuple) else [it])):
        fail(
            f"the launch file has no number of work-items at the key {key}: "
            "`lift eval` needs none, a kernel does"
        )
    return numbers


def main():
    if len(sys.argv) != 4:
        fail("the words are PROGRAM SCRIPT LAUNCH")
    program, script, launch_path = sys.argv[1:]
    # `eval` refuses a launch file that is none, so it is well formed below.
    wanted = lift("eval", program, launch_path)
    launch = json.loads(Path(launch_path).read_bytes())
    function = Function(program, script)
    print(f"host: {function.queue.device.name.strip()}", file=sys.stderr)
    value = function.run(
        inputs_of(launch, function.inputs),
        {name: launch["sizes"][name] for name in function.sizes},
        global_size=work_items(launch, "global"),
        local_size=work_items(launch, "local"),
    )
    line = json.dumps({"value": to_lists(value)}, separators=(",", ":")) + "\n"
    print(line, end="")
    if line != wanted:
        print(f"host: lift eval gives {wanted}", end="", file=sys.stderr)
        sys.exit(1)


if __name__ == "__main__":
    try:
        main()
    except (LiftError, pyopencl.Error, RuntimeError, TypeError, ValueError) as why:
        fail(why)
