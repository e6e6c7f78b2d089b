#!/usr/bin/env python3
"""Runs each command on the longest and the deepest files that the limits admit, with 8 MiB of stack.

usage: bench/longest.py [WORD]      with WORD just the cases whose name has it

A program's and a script's text has at most 65,536 bytes, a term and an expression nests at most 256 deep, a type 64, and a
launch file has at most 16,777,216 bytes. Each case is as long or as deep as these allow; some are one beyond. Each command has
to end with the status that the case names, and none by a signal: a depth that hangs on a text would end the call where the
stack does. The last line says in how many calls it was so; where there was another answer, it is printed, and the script ends
with the status 1.
"""
import json
import resource
import subprocess
import sys
import tempfile
from pathlib import Path

from programs import LIFT

STACK = 8 << 20
LONGEST = 65536
STATUSES = {0, 2, 3, 4, 6, 7, 8, 9, 10, 11, 12, 13}
DEEPEST = 256

ADDED = "size N from 1 to 1000;\ninput xs: [u32; N];\noutput map(\\x. add(x, 1), xs)"
EIGHT = "input xs: [u32; 8];\noutput "
LAUNCH = {"global": 1, "local": 1, "sizes": {}, "inputs": {"xs": [*range(1, 9)]}, "launches": [{"global": 1, "local": 1}]}
OF_THREE = {**LAUNCH, "sizes": {"N": 3}, "inputs": {"xs": [1, 2, 3]}}
SEQUENTIAL = "at . to-seq\n"


def repeated(before, part, behind, most=LONGEST):
    """The part as often as so many bytes hold it between these."""
    return before + part * ((most - len(before) - len(behind)) // len(part)) + behind


def nested(before, inner, behind, times):
    return before * times + inner + behind * times


def programs():
    """Each program by its name, with its script, its launch file, and the statuses of `steps`, `compile` and `eval`; those of the
    other commands are of the same stage."""
    product = repeated("input xs: [u32; 8", "*1", "];\noutput map(\\x. x, xs)")
    total = repeated("input xs: [u32; 8", "+1-1", "];\noutput map(\\x. x, xs)")
    sizes = repeated("size N from 3 to 3;\ninput xs: [u32; N", "+N-N", "];\noutput map(\\x. x, xs)")
    yield "a product of numbers in an input", product, SEQUENTIAL, LAUNCH, (0, 0, 0)
    yield "a sum of numbers in an input", total, SEQUENTIAL, LAUNCH, (0, 0, 0)
    yield "a sum of sizes in an input", sizes, SEQUENTIAL, OF_THREE, (0, 0, 0)
    yield "a product that is too large", repeated("input xs: [u32; 8", "*9", "];\noutput xs"), "", LAUNCH, (10, 10, 10)
    yield "a product of sizes of too high a degree", repeated("size N from 1 to 9;\ninput xs: [u32; N", "*N", "];\noutput xs"), "", LAUNCH, (10, 10, 10)
    yield "a sum that falls below 1", repeated("input xs: [u32; 8", "-1", "];\noutput xs"), "", LAUNCH, (7, 7, 7)
    for layout, of in (("split", "join(split({}, xs))"), ("stride", "stride({}, xs)")):
        before, behind = of.split("{}")
        yield f"a product in a {layout}", repeated(f"{EIGHT}map(\\x. x, {before}2", "*1", f"{behind})"), SEQUENTIAL, LAUNCH, (0, 0, 0)
        text = EIGHT + of
        yield f"a product in a {layout} that doesn't divide", text.replace("{}", "3" + "*1" * 32000), "", LAUNCH, (7, 7, 7)
        yield f"a product in a {layout} that is too large", text.replace("{}", "3" + "*7" * 32000), "", LAUNCH, (10, 10, 10)
    both = f"stride(2{'*1' * 16000}, stride(4{'*1' * 16000}, xs))"
    yield "two strides, made none", EIGHT + both, "at . stride-stride\n", LAUNCH, (0, 11, 0)
    yield "a stride, made layouts", EIGHT + f"map(\\x. x, stride(2{'*1' * 32000}, xs))", "at 0 stride-layout\nat . to-seq\n", LAUNCH, (0, 0, 0)

    sums = nested("add(1, ", "x", ")", DEEPEST - 2)
    yield "a deep expression", EIGHT + f"map(\\x. {sums}, xs)", SEQUENTIAL, LAUNCH, (0, 0, 0)
    yield "an expression one too deep", EIGHT + f"map(\\x. add(1, {sums}), xs)", SEQUENTIAL, LAUNCH, (6, 6, 6)
    yield "an expression as deep as a text is long", EIGHT + nested("add(1, ", "1", ")", 8000), SEQUENTIAL, LAUNCH, (6, 6, 6)
    yield "open brackets", repeated(EIGHT, "first(", ""), SEQUENTIAL, LAUNCH, (6, 6, 6)
    lets = "".join(f"let a{k} = add({x}, {x}) in " for k, x in enumerate(["x", *(f"a{k}" for k in range(251))]))
    yield "deep lets", EIGHT + f"map(\\x. {lets}a251, xs)", SEQUENTIAL, LAUNCH, (0, 0, 0)
    values = nested("let y = ", "x", " in y", DEEPEST - 2)
    yield "lets in one another's values", EIGHT + f"map(\\x. {values}, xs)", SEQUENTIAL, LAUNCH, (0, 0, 0)
    selects = nested("select(x, 1, ", "x", ")", DEEPEST - 2)
    yield "deep selects", EIGHT + f"map(\\x. {selects}, xs)", SEQUENTIAL, LAUNCH, (0, 0, 0)
    chain = nested("map(\\x. add(x, 1), ", "xs", ")", DEEPEST - 2)
    yield "deep maps", EIGHT + chain, "at . fuse-map\n" * (DEEPEST - 3) + SEQUENTIAL, LAUNCH, (0, 0, 0)
    yield "deep reverses", EIGHT + f"map(\\x. x, {nested('reverse(', 'xs', ')', DEEPEST - 2)})", SEQUENTIAL, LAUNCH, None
    yield "deep pads", EIGHT + f"map(\\x. x, {nested('pad(1, 1, ', 'xs', ')', DEEPEST - 2)})", SEQUENTIAL, LAUNCH, None
    yield "deep strides", EIGHT + f"map(\\x. x, {nested('stride(2, ', 'xs', ')', DEEPEST - 2)})", SEQUENTIAL, LAUNCH, None
    yield "deep splits and joins", EIGHT + f"map(\\x. x, {nested('join(split(2, ', 'xs', '))', (DEEPEST - 2) // 2)})", SEQUENTIAL, LAUNCH, None
    yield "a fold of reduces", EIGHT + "reduce(add, 0, join(map(\\y. reduce(add, y, xs), xs)))", "", LAUNCH, None
    yield "a deep let's value in a deep body", EIGHT + f"map(\\x. let y = {nested('add(1, ', 'x', ')', 253)} in {nested('add(1, ', 'y', ')', 253)}, xs)", "at 1 let-inline\n", LAUNCH, (10, 10, 0)
    wide = "let y = " + tree(2039, "x") + " in " + tree(2039, "y")
    yield "a wide let's value in a wide body", EIGHT + f"map(\\x. {wide}, xs)", "at 1 let-inline\n", LAUNCH, (10, 10, 0)
    pairs = "".join(f"let a{k} = {nested('pair(x, ', f'a{k - 1}' if k else 'x', ')', 6)} in " for k in range(240))
    yield "a high type in many lets", EIGHT + f"map(\\x. {pairs}first(a239), xs)", SEQUENTIAL, LAUNCH, (0, 0, 0)
    typed = nested("(u32, ", "u32", ")", 62)
    yield "a deep type", f"input xs: [{typed}; 1];\noutput map(\\x. first(x), xs)", SEQUENTIAL, LAUNCH, (10, 10, 10)
    yield "a type as deep as a text is long", repeated("input xs: ", "[", ""), "", LAUNCH, (6, 6, 6)
    yield "deep arrays", f"input xs: {nested('[', 'u32', '; 1]', 64)};\noutput xs", "", LAUNCH, (10, 10, 10)

    yield "a name as long as a text", f"input {'x' * (LONGEST - 6)}", "", LAUNCH, (6, 6, 6)
    yield "a number as long as a text", f"input xs: [u32; {'1' * 65000}];", "", LAUNCH, (6, 6, 6)
    yield "a long comment", repeated(EIGHT + "map(\\x. x, xs)\n#", "x", ""), SEQUENTIAL, LAUNCH, (0, 0, 0)
    yield "a long script's comment", EIGHT + "map(\\x. x, xs)", repeated(SEQUENTIAL + "#", "x", ""), LAUNCH, (0, 0, 0)
    yield "empty lines", EIGHT + "map(\\x. x, xs)", repeated(SEQUENTIAL, "\n", ""), LAUNCH, (0, 0, 0)
    yield "many lines", ADDED, repeated("", "at . copy\n", ""), OF_THREE, (10, 10, 0)
    yield "a long place", ADDED, repeated("at 0", ".0", " copy\n"), OF_THREE, (9, 9, 0)
    yield "a place of a long number", ADDED, repeated("at ", "1", " copy\n"), OF_THREE, (8, 8, 0)
    yield "a place of dots", ADDED, repeated("at ", ".", " copy\n"), OF_THREE, (8, 8, 0)
    yield "a long rule", ADDED, repeated("at . ", "c", "\n"), OF_THREE, (8, 8, 0)
    yield "a program one byte too long", repeated(ADDED + "\n#", "x", "") + "x", "", OF_THREE, (10, 10, 10)
    yield "a script one byte too long", ADDED, repeated("#", "x", "") + "x", OF_THREE, (10, 10, 0)

    lists = {**LAUNCH, "inputs": {"xs": [1] * 10**6}}
    yield "a long list", EIGHT.replace("8", "1000000") + "map(\\x. x, xs)", SEQUENTIAL, lists, (0, 0, 0)
    lists = {**LAUNCH, "schedule": [1] * 10**6}
    yield "a long schedule", EIGHT + "map(\\x. x, xs)", SEQUENTIAL, lists, (0, 0, 0)
    text = json.dumps(LAUNCH)[:-1] + ', "more": ' + nested("[", "1", "]", 10**6) + "}"
    yield "lists in one another", EIGHT + "map(\\x. x, xs)", SEQUENTIAL, text, (0, 0, 12)
    text = json.dumps(LAUNCH)[:-1] + ', "more": ' + nested('{"a": ', "1", "}", 10**6) + "}"
    yield "objects in one another", EIGHT + "map(\\x. x, xs)", SEQUENTIAL, text, (0, 0, 12)
    text = json.dumps(LAUNCH)[:-1] + ', "' + "x" * 10**6 + '": 1}'
    yield "a long key", EIGHT + "map(\\x. x, xs)", SEQUENTIAL, text, (0, 0, 0)
    text = json.dumps(LAUNCH)[:-1] + ", " + ", ".join(f'"k{k}": 1' for k in range(10**5)) + "}"
    yield "many keys", EIGHT + "map(\\x. x, xs)", SEQUENTIAL, text, (0, 0, 0)


def tree(nodes, leaf):
    """A balanced tree of sums with this many nodes, at most one fewer."""
    if nodes < 3:
        return leaf
    left = (nodes - 1) // 2
    return f"add({tree(left, leaf)}, {tree(nodes - 1 - left, leaf)})"


def calls():
    """The name of each call, its words, its files, and the status that it is to have, if one is said."""
    for name, program, script, launch, statuses in programs():
        launch = launch if isinstance(launch, str) else json.dumps(launch)
        files = {"p": program, "s": script, "l": launch}
        steps, compiled, value = statuses or (None, None, None)
        yield f"{name}: steps", ["steps", "p", "s"], files, steps
        yield f"{name}: compile", ["compile", "p", "s"], files, compiled
        yield f"{name}: stages", ["stages", "p", "s"], files, compiled
        yield f"{name}: eval", ["eval", "p", "l"], files, value
        run = None if statuses is None else compiled or value
        yield f"{name}: run", ["run", "p", "s", "l"], files, run
        yield f"{name}: run --trace", ["run", "p", "s", "l", "--trace"], files, run
        yield f"{name}: run-stages", ["run-stages", "p", "s", "l"], files, run
    yield "a word of 100,000 bytes", ["x" * 100000], {}, 2
    yield "9,000 words", ["x"] * 9000, {}, 2
    yield "a file's name of 100,000 bytes", ["eval", "x" * 100000, "l"], {}, 3
    yield "a seed of 100,000 bytes", ["demo", "1" * 100000], {}, 2
    yield "the demo", ["demo", "7"], {}, 0


def limited():
    resource.setrlimit(resource.RLIMIT_STACK, (STACK, resource.getrlimit(resource.RLIMIT_STACK)[1]))


def main():
    word = sys.argv[1] if len(sys.argv) > 1 else ""
    count = bad = 0
    with tempfile.TemporaryDirectory() as folder:
        for name, words, files, wanted in calls():
            if word not in name:
                continue
            for file, text in files.items():
                (Path(folder) / file).write_text(text)
            done = subprocess.run([LIFT.resolve(), *words], cwd=folder, stdout=subprocess.DEVNULL, stderr=subprocess.PIPE, check=False, preexec_fn=limited)
            count += 1
            if done.returncode not in STATUSES or wanted not in (None, done.returncode):
                bad += 1
                print(f"{name}: {done.returncode}, not {wanted}: {done.stderr[-100:].decode(errors='replace').strip()}", flush=True)
    print(f"{count} calls, {bad} of them with another answer")
    return 1 if bad or not count else 0


if __name__ == "__main__":
    sys.exit(main())
