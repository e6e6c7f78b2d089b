"""What the measurements share: the program `lift`, what a call of it costs, and the terms that it is given.

The environment's LIFT names the program (that of this checkout where it isn't set).
"""
import os
import re
import subprocess
import time
from pathlib import Path

LIFT = Path(os.environ.get("LIFT", Path(__file__).resolve().parent.parent / "crates" / "lift_cli" / "out" / "lift_cli"))
HEAD = "size N from 1 to 1000;\ninput xs: [u32; N];\noutput "


def wide(nodes):
    """A balanced tree of sums with this many nodes, at most one fewer."""
    if nodes < 3:
        return "7"
    left = (nodes - 1) // 2
    return f"add({wide(left)}, {wide(nodes - 1 - left)})"


def instructions(folder, words, status=0):
    """The instructions of one call, as valgrind's callgrind counts them, and what the call wrote."""
    words = ["valgrind", "--tool=callgrind", f"--callgrind-out-file={folder / 'callgrind'}", LIFT, *words]
    done = subprocess.run(words, stdout=subprocess.PIPE, stderr=subprocess.PIPE, text=True)
    assert done.returncode == status, done.stderr[-300:]
    return int(re.search(r"Collected : (\d+)", done.stderr).group(1)), done.stdout


def on_device(folder, words):
    """The instructions of the device in one call of `lift run` or `lift demo`, with its start; those of all else in the call; and
    what the call wrote."""
    whole, wrote = instructions(folder, words)
    told = subprocess.run(["callgrind_annotate", "--inclusive=yes", folder / "callgrind"], stdout=subprocess.PIPE, stderr=subprocess.DEVNULL, text=True, check=True)
    device = max(int(it.replace(",", "")) for it in re.findall(r"^ *([0-9,]+) .*ndrange_device::", told.stdout, re.M))
    return device, whole - device, wrote


def seconds(words, times=1, program=LIFT):
    """The least time of some calls."""
    def once():
        begun = time.perf_counter()
        subprocess.run([program, *words], stdout=subprocess.DEVNULL, check=True)
        return time.perf_counter() - begun

    return min(once() for _ in range(times))


def peak(words):
    """The most memory that one call took, in bytes. GNU's time starts it: of a child of this script the system tells what this
    script takes itself, where that is more."""
    words = ["/usr/bin/time", "-f", "%M", LIFT, *words]
    done = subprocess.run(words, stdout=subprocess.DEVNULL, stderr=subprocess.PIPE, text=True, check=True)
    return int(done.stderr.split()[-1]) * 1024
