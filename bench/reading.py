#!/usr/bin/env python3
"""How the time to read and type a program grows with its nodes.

usage: bench/reading.py [RUNS]

Compiles programs of 512, 1,024, 2,048 and 4,096 nodes, once as chains of maps, each bound by a let, and once as a map whose
body is a wide tree of sums, and prints the time less that of a program of three nodes, in microseconds, and per node. Each
program is well typed and has an empty script, so that `compile` ends once it was read, typed and its nest judged (status 11).
"""
import subprocess
import sys
import tempfile
import time
from pathlib import Path

from programs import HEAD, LIFT, wide


def sums(nodes):
    """A map whose body is a wide tree of sums."""
    return f"map(\\x. {wide(nodes - 2)}, xs)"


def chains(nodes):
    """Chains of 99 maps, of 199 nodes, each bound by a let; the innermost body is one more."""
    chain = "xs"
    for _ in range(99):
        chain = f"map(\\x. x, {chain})"
    term = "map(\\x. x, xs)"
    for _ in range(max(1, round(nodes / 200))):
        term = f"let y = {chain} in {term}"
    return term


def seconds(folder, text, runs):
    (folder / "p").write_text(HEAD + text)
    (folder / "s").write_text("")
    words = [LIFT, "compile", folder / "p", folder / "s"]
    best = None
    for _ in range(5):
        begin = time.perf_counter()
        for _ in range(runs):
            status = subprocess.run(words, stdout=subprocess.DEVNULL, stderr=subprocess.DEVNULL).returncode
            assert status == 11, status
        spent = (time.perf_counter() - begin) / runs
        best = spent if best is None else min(best, spent)
    return best


def main(runs="40"):
    runs = int(runs)
    with tempfile.TemporaryDirectory() as name:
        folder = Path(name)
        base = seconds(folder, "map(\\x. x, xs)", runs)
        print(f"a program of three nodes takes {base * 1e6:.0f} us")
        for shape in (sums, chains):
            print(f"{shape.__name__}:")
            for nodes in (512, 1024, 2048, 4096):
                spent = seconds(folder, shape(nodes), runs) - base
                print(f"  {nodes} nodes: {spent * 1e6:.0f} us, {spent * 1e9 / nodes:.0f} ns a node")


if __name__ == "__main__":
    main(*sys.argv[1:])
