#!/usr/bin/env python3
"""Runs the built program on an input for each refusal of docs/REFUSALS.md, and compares status and
line; and on inputs mended as the page says, which may not be refused.

    examples/refusals.py [PROGRAM]      PROGRAM is ./lift where none is given

Each line of the page is run, but for want of memory.
"""
import json
import os
import re
import subprocess
import sys
import tempfile

TOP = os.path.dirname(os.path.dirname(os.path.abspath(__file__)))
PROGRAM = os.path.abspath(sys.argv[1]) if len(sys.argv) > 1 else f"{TOP}/lift"
ADDED = "size N from 1 to 1000; input xs: [u32; N]; output map(\\x. add(x, 1), xs)"
ROWS_OF = "input xs: [[u32; 2]; 3]; output "
ARRAY = "size N from 1 to 1000; input xs: [u32; N]; output "
NESTED = ROWS_OF + "map(\\r. map(\\x. x, r), xs)"
CUBE = "input xs: [[[u32; 2]; 2]; 2]; output map(\\p. map(\\r. map(\\x. x, r), p), xs)"
# a map over rows and along them
PAIR = "at 1 to-glb\nat . to-glb1"
FOUR = "input xs: [(u32, (u32, (u32, u32))); 2]; input ys: [u32; 2]; output "
LAUNCH = {"global": 1, "local": 1, "sizes": {"N": 3}, "inputs": {"xs": [1, 2, 3]}}


def launch(**changes):
    made = {**LAUNCH, **changes}
    return json.dumps({key: it for key, it in made.items() if it is not None})


def declarations(form, count):
    return "".join(form.format(n) for n in range(count))


def monomials(count):
    """A sum of so many different products of two of eight sizes, at most 36."""
    return " + ".join([f"N{j}*N{k}" for k in range(8) for j in range(k + 1)][:count])


# a tree of 2^levels variables: 2^(levels + 1) - 1 nodes
def tree(levels):
    return "x" if levels == 0 else f"add({tree(levels - 1)}, {tree(levels - 1)})"


# a program in two stages, the script that cuts it between them, and launches of its two kernels
STAGED = "input xs: [u32; 4]; output map(\\x. add(x, 1), map(\\x. mul(x, 2), xs))"
CUTS = "at 0 to-glb\nat 0 then\nat . to-glb"
TWO = [{"global": 2, "local": 1}, {"global": 2, "local": 1}]
# two maps, of which each may be worked out in fours
TWICE = "input xs: [u32; 8]; output map(\\x. add(x, 1), map(\\x. mul(x, 2), xs))"
UNDER = "input xs: [u32; 2]; output let y = map(\\x. x, xs) in map(\\z. fold(\\a b. add(a, b), z, y), xs)"

# each row less its least number, which one item of a group makes for all
LEAST = (
    "size R from 1 to 9; input a: [[u32; 8]; R]; output map(\\row. "
    "let least = join(map(\\all. reduce(min, 9, all), split(8, row))) in "
    "map(\\p. sub(first(p), second(p)), zip(row, pad(0, 7, least))), a)"
)
LEAST_FIRST = (
    "launch local 8\nat 1.0.0.1 reduce-fold\nat 1.0.0.1 fold-seq\nat 1.0.0 to-lcl\n"
    "at 1.0.0 local\nat 1.1 to-lcl\nat . to-wrg"
)

# an array that two later kernels read, and the cuts of both, of which one stands in a let's body
READ_TWICE = (
    "input xs: [u32; 2]; output let s = map(\\x. mul(x, x), xs) in let t = map(\\x. add(x, 1), s) in"
    " map(\\p. add(first(p), second(p)), zip(s, t))"
)
FIRST_CUTS = "at 0 to-glb\nat 0 then\nat . let-inline\nat 0 to-glb\nat 0 then\n"


def launches(each):
    return launch(**{"global": None, "local": None, "sizes": {}, "inputs": {"xs": [1, 2, 3, 4]}, "launches": each})


# a term in so many stages, each a kernel's
def stages(count):
    return "input xs: [u32; 2]; output " + "map(\\x. x, " * count + "xs" + ")" * count


def cuts(count):
    places = [".".join("0" * k) or "." for k in range(count)]
    return "\n".join([f"at {it} to-seq" for it in places] + [f"at {it} then" for it in places[:0:-1]])


# a step whose term has two kernels
CUT = "at 0 copy\nat 0 to-glb\nat 0 then\n"
# (program, script or None, launch file or None, status, line): without a script it is an evaluation
ROWS = [
    ("output map(", None, None, 6, "lift: program: token 4, byte 11"),
    ("size N from 1 to 10; input xs: [u32; N]; output ys", None, None, 6, "lift: program: token 18, byte 48"),
    (declarations("size N{} from 1 to 2; ", 9) + "input xs: [u32; 1]; output xs", None, None, 10, "lift: limit sizes: 9"),
    (declarations("input x{}: [u32; 1]; ", 9) + "output x0", None, None, 10, "lift: limit inputs: 9"),
    (ARRAY + f"map(\\x. {tree(11)}, xs)", None, None, 10, "lift: limit nodes: 4097"),
    (ARRAY + "add(xs, 1)", None, None, 7, "lift: type: operator at ."),
    (ARRAY + "map(\\x. pair(x, xs), xs)", None, None, 7, "lift: type: pair at 1"),
    (ARRAY + "map(\\x. first(x), xs)", None, None, 7, "lift: type: project at 1"),
    (ARRAY + "map(\\x. x, 1)", None, None, 7, "lift: type: map at ."),
    (ARRAY + "reduce(add, xs, xs)", None, None, 7, "lift: type: reduce at ."),
    (ARRAY + "fold(\\a x. xs, 0, xs)", None, None, 7, "lift: type: fold at ."),
    (ARRAY + "zip(xs, pad(1, 0, xs))", None, None, 7, "lift: type: zip at ."),
    (ARRAY + "split(4, xs)", None, None, 7, "lift: type: split at ."),
    (ARRAY + "join(xs)", None, None, 7, "lift: type: join at ."),
    (ARRAY + "transpose(xs)", None, None, 7, "lift: type: transpose at ."),
    (ARRAY + "reverse(1)", None, None, 7, "lift: type: reverse at ."),
    (ARRAY + "stride(4, xs)", None, None, 7, "lift: type: stride at ."),
    (ARRAY + "slide(3, 1, xs)", None, None, 7, "lift: type: slide at ."),
    (ARRAY + "pad(1, 1, 1)", None, None, 7, "lift: type: pad at ."),
    ("size N from 1 to 9; input xs: [u32; N - 1]; output xs", None, None, 7, "lift: type: length at input 0"),
    ("output 1", None, None, 7, "lift: type: output at ."),
    ("input xs: [[[[[u32; 1]; 1]; 1]; 1]; 1]; output xs", None, None, 10, "lift: limit arrays: 5"),
    ("input xs: [(u32, (u32, (u32, (u32, u32)))); 1]; output xs", None, None, 10, "lift: limit components: 5"),
    (FOUR + "map(\\p. add(first(first(p)), second(p)), zip(xs, ys))", None, None, 10, "lift: limit components: 5"),
    (declarations("size N{} from 1 to 2; ", 8) + f"input xs: [u32; {monomials(33)}]; output xs", None, None, 10, "lift: limit terms: 33"),
    ("size N from 1 to 2; input xs: [u32; N*N*N*N*N]; output xs", None, None, 10, "lift: limit degree: 5"),
    ("input xs: [u32; 2*4294967295*0]; output xs", None, None, 10, "lift: limit coefficient: 8589934590"),
    ("size M from 1 to 65536; size N from 1 to 32768; input xs: [[u32; M]; N]; output xs", None, None, 10, "lift: limit scalars: 2147483648"),
    (ADDED, "at . to-seq\nat . to-sequence", None, 8, "lift: script: line 2"),
    (ADDED, "launch local 257\nat . to-glb", None, 8, "lift: script: line 1"),
    (ADDED, "launch local 16 17\nat . to-glb", None, 8, "lift: script: line 1"),
    (ADDED, "at . to-glb\nlaunch local 64", None, 8, "lift: script: line 2"),
    (ADDED, "at 0 copy\n" * 257, None, 10, "lift: limit steps: 257"),
    (ADDED, "at 7 copy", None, 9, "lift: step 1: no place"),
    (ADDED, "at . join-split", None, 9, "lift: step 1: shape"),
    (ADDED, "at . split-map 0", None, 9, "lift: step 1: side positive"),
    (ADDED, "at . split-map 4", None, 9, "lift: step 1: side divides"),
    (ADDED, "at 1 copy", None, 9, "lift: step 1: side array"),
    ("input xs: [u32; 4]; output slide(3, 1, xs)", "at . tile-slide 4", None, 9, "lift: step 1: side length"),
    ("input xs: [[u32; 2]; 6]; output split(3, join(xs))", "at . split-join", None, 9, "lift: step 1: side same"),
    ("input xs: [u32; 6]; output stride(3, stride(3, xs))", "at . stride-stride", None, 9, "lift: step 1: side same"),
    ("input xs: [u32; 4]; output map(\\r. map(\\x. reduce(add, x, r), r), split(2, xs))", "at . map-split", None, 9, "lift: step 1: side mentions"),
    ("input xs: [[u32; 4]; 2]; output map(\\p. first(p), zip(xs, xs))", "at 0 then", None, 9, "lift: step 1: side whole"),
    ("input xs: [[u32; 4]; 2]; output map(\\r. map(\\x. x, r), xs)", "at 1 then", None, 9, "lift: step 1: side closed"),
    ("input xs: [u32; 8]; output map(\\x. lt(x, 1), xs)", "at . vector", None, 9, "lift: step 1: side lanes"),
    ("input xs: [u32; 10]; output map(\\x. add(x, 1), xs)", "at . vector", None, 9, "lift: step 1: side divides"),
    (ADDED, "at 0 copy\n" * 255, None, 10, "lift: limit depth: 257"),
    (ADDED, "", None, 11, "lift: nest: N1 at ."),
    (ADDED, "at . to-lcl", None, 11, "lift: nest: N2 at ."),
    (ROWS_OF + "map(\\r. map(\\x. x, r), xs)", "at . to-glb\nat 1 to-glb", None, 11, "lift: nest: N3 at 1"),
    (ADDED, "at . to-wrg", None, 11, "lift: nest: N4 at 1"),
    (ADDED, "at . to-seq\nat . local", None, 11, "lift: nest: N5 at ."),
    ("size N from 1 to 64; input xs: [u32; 2*N]; output join(map(\\r. map(\\x. x, r), split(N, xs)))", "at 0.1.0 local-copy\nat 0.1 to-lcl\nat 0 to-wrg", None, 11, "lift: nest: N6 at 0.1.0"),
    (ADDED, "at 0 copy\nat 0 to-seq\nat . to-seq", None, 11, "lift: nest: N7 at 0"),
    (ADDED, "at 0 private-copy\nat . to-seq", None, 11, "lift: nest: N8 at 0"),
    (ROWS_OF + "map(\\r. map(\\x. x, r), xs)", "at 1 to-glb\nat . to-seq", None, 11, "lift: nest: N9 at 1"),
    ("input xs: [u32; 5]; output slide(3, 1, xs)", "", None, 11, "lift: nest: N10 at ."),
    ("input xs: [u32; 5]; output xs", "", None, 11, "lift: nest: N11 at ."),
    (ADDED, "launch local 2\nat . to-seq", None, 11, "lift: nest: N12 at ."),
    (ADDED, "launch local 2 2\nat . to-glb", None, 11, "lift: nest: N12 at ."),
    (ADDED, "at . to-glb1", None, 11, "lift: nest: N14 at ."),
    (CUBE, "at 1.1 to-lcl\nat 1 to-wrg\nat . to-wrg1", None, 11, "lift: nest: N14 at 1.1"),
    ("input xs: [[u32; 4]; 4]; output map(\\r. map(\\x. x, r), transpose(xs))", "at 1 vector\nat 1.0 to-seq\nat . to-seq", None, 11, "lift: nest: N15 at 1.0.0"),
    (TWICE, "at 0 vector\nat 0.0 to-seq\nat . to-seq", None, 11, "lift: nest: N15 at 0"),
    (ADDED, CUT + "at . to-glb", None, 11, "lift: nest: N13 at 0"),
    (ADDED, CUT, launch(**{"global": 2}), 11, "lift: nest: N13 at 0"),
    (ARRAY + f"map(\\x. x, {'join(split(1, ' * 13}xs{'))' * 13})", "at . to-seq", None, 10, "lift: limit layouts: 26"),
    ("input xs: [u32; 16386]; output map(\\x. x, xs)", "at . split-map 8193\nat 0.1.0 local-copy\nat 0.1 to-lcl\nat 0 to-wrg", None, 10, "lift: limit local: 32772"),
    ("input xs: [u32; 257]; output map(\\x. x, xs)", "at 0 private-copy\nat . to-seq", None, 10, "lift: limit private: 257"),
    (ADDED, "at . to-seq", launch()[:-1], 12, "lift: launch: not json"),
    (ADDED, "at . to-seq", launch(local=None), 12, "lift: launch: missing local"),
    (ADDED, "at . to-seq", launch(sizes={}), 12, "lift: launch: missing sizes.N"),
    (ADDED, "at . to-seq", launch(inputs={}), 12, "lift: launch: missing inputs.xs"),
    (ADDED, "at . to-seq", launch(sizes={"N": 0}), 12, "lift: launch: size N is 0"),
    (ADDED, "at . to-seq", launch(**{"global": 6, "local": 4}), 12, "lift: launch: global 6, local 4"),
    (ADDED, "launch local 2\nat . to-glb", launch(**{"global": 4}), 12, "lift: launch: global 4, local 1"),
    (NESTED, PAIR, launch(**{"global": [2, 2], "local": [1, 3]}), 12, "lift: launch: global [2,2], local [1,3]"),
    (ADDED, "at . to-glb", launch(**{"global": [2, 2], "local": [1, 1]}), 12, "lift: launch: rows 2 for one row"),
    (ADDED, "launch local 2\nat . to-glb", launch(**{"global": 4, "inputs": {}}), 12, "lift: launch: global 4, local 1"),
    (ADDED, "at . to-seq", launch(**{"global": 2}), 12, "lift: launch: global 2 for one item"),
    (ADDED, "at . to-seq", launch(inputs={"xs": [1, 2]}), 12, "lift: launch: shape xs"),
    ("#" * 65537, None, None, 10, "lift: limit bytes: 65537"),
]
# the same of several kernels
IN_ORDER = [
    (UNDER, "at 0 then\nat . let-inline", None, 11, "lift: nest: N13 at 1.0"),
    (READ_TWICE, FIRST_CUTS + "at 1 to-glb", None, 11, "lift: nest: N13 at 1.0.0"),
    (READ_TWICE, "at 0 then\nat 1.0 then", None, 9, "lift: step 2: side closed"),
    (STAGED, "at 0 to-wrg\nat 0 then\nat . to-glb", None, 11, "lift: nest: N4 at 1"),
    (STAGED, "at 0 to-glb\nat 0 then", None, 11, "lift: nest: N1 at ."),
    (stages(17), cuts(17), None, 10, "lift: limit kernels: 17"),
    (STAGED, CUTS, launch(**{"global": 2, "sizes": {}, "inputs": {"xs": [1, 2, 3, 4]}}), 12, "lift: launch: missing launches"),
    (STAGED, CUTS, launches(TWO[:1]), 12, "lift: launch: missing launches"),
    (STAGED, CUTS, launches([TWO[0], {"local": 1}]), 12, "lift: launch: missing launches.1.global"),
    (STAGED, CUTS, launches([{"global": 2}, {}]), 12, "lift: launch: missing launches.0.local"),
]

MULTIPLE = ADDED.replace("from 1", "multiple 4 from 4")
TILED = "at . split-map 4\nat 0.1 to-lcl\nat 0 to-wrg"
LAYERS = ARRAY + f"map(\\x. x, {'join(split(1, ' * 13}xs{'))' * 13})"
ARRAY_3 = ARRAY.replace("from 1", "from 3")
DOUBLED = ARRAY + "reduce(add, 0, map(\\x. mul(x, 2), xs))"
LARGE = "input xs: [u32; 16386]; output map(\\x. x, xs)"
LOCAL_COPY = "at . split-map {}\nat 0.1.0 local-copy\nat 0.1 to-lcl\nat 0 to-wrg"
# (what the page says of it, program, script or None): with a script a kernel is made, or several for
# one that has a `then`, and without one the program is typed
MENDED = [
    ("operator", ARRAY + "map(\\x. add(x, 1), xs)", None),
    ("project", ARRAY + "map(\\p. first(p), zip(xs, xs))", None),
    ("pair", ARRAY + "zip(xs, xs)", None),
    ("fold", ARRAY + "fold(\\a x. pair(x, first(a)), pair(0, 0), xs)", None),
    ("split", ARRAY.replace("from 1", "multiple 4 from 4") + "split(4, xs)", None),
    ("split", "size T from 1 to 9; input xs: [u32; 4*T]; output split(4, xs)", None),
    ("stride", "size T from 1 to 9; input xs: [u32; 4*T]; output stride(4, xs)", None),
    ("reverse", ARRAY + "reverse(pad(1, 1, xs))", None),
    ("side same", "input xs: [u32; 6]; output map(\\x. x, stride(2, stride(3, xs)))", "at 0 stride-stride\nat . to-seq"),
    ("join", ARRAY + "join(split(1, xs))", None),
    ("slide", ARRAY_3 + "slide(3, 1, xs)", None),
    ("slide", ARRAY + "slide(3, 1, pad(1, 1, xs))", None),
    ("length", "size N from 2 to 9; input xs: [u32; N - 1]; output xs", None),
    ("output", ARRAY + "reduce(add, 0, xs)", None),
    ("side whole", "input xs: [[u32; 4]; 2]; output map(\\p. first(p), zip(xs, xs))", "at 0.0 then"),
    ("side closed", "input xs: [[u32; 4]; 2]; output map(\\r. map(\\x. x, r), xs)", "at . then"),
    ("line 1", ADDED, "launch local 64\nat . to-glb"),
    ("line 1", NESTED, f"launch local 16 16\n{PAIR}"),
    ("line 2", ADDED, "# first\n\nlaunch local 64\nat . to-glb"),
    ("shape", DOUBLED, "at . reduce-fold\nat . fuse-fold\nat . fold-seq"),
    ("side divides", MULTIPLE, "at . split-map 4\nat 0.1 to-seq\nat 0 to-seq"),
    ("side length", "input xs: [u32; 4]; output map(\\w. reduce(add, 0, w), slide(3, 1, xs))", "at 0 tile-slide 2\nat . map-join\nat 0 fuse-map\nat 0.1 let-inline\nat 0.1.1 reduce-fold\nat 0.1.1 fold-seq\nat 0.1 to-seq\nat 0 to-seq"),
    ("N1", ADDED, "at . to-seq"),
    ("N2", MULTIPLE, TILED),
    ("N2", ADDED, "at . to-glb"),
    ("N3", NESTED, "at . to-glb\nat 1 to-seq"),
    ("N3", NESTED, "at . to-wrg\nat 1 to-lcl"),
    ("N5", MULTIPLE, LOCAL_COPY.format(4)),
    ("N5", LEAST, LEAST_FIRST),
    ("N6", "size N from 1 to 64; input xs: [u32; 64*N]; output join(map(\\r. map(\\x. x, r), split(64, xs)))", "at 0.1.0 local-copy\nat 0.1 to-lcl\nat 0 to-wrg"),
    ("N7", ADDED, "at 0 copy\nat . fuse-map\nat . to-seq"),
    ("N7", ADDED.replace("u32; N", "u32; 9"), "at 0 copy\nat 0 to-seq\nat 0 private\nat . to-seq"),
    ("N7", ARRAY + "map(\\x. let ys = xs in x, xs)", "at 1 let-inline\nat . to-seq"),
    ("N7", ADDED, CUT + "at . to-glb"),
    ("N8", MULTIPLE, "at . split-map 4\nat 0.1.0 private-copy\nat 0.1 to-seq\nat 0 to-glb"),
    ("N9", NESTED, "at . to-glb\nat 1 to-seq"),
    ("N10", "input xs: [u32; 5]; output slide(3, 1, xs)", "at . copy\nat 1 copy\nat 1 to-seq\nat . to-seq"),
    ("N11", "input xs: [u32; 5]; output xs", "at . copy\nat . to-seq"),
    ("N12", ADDED, "launch local 2\nat . to-glb"),
    ("N12", ADDED, "launch local 1\nat . to-seq"),
    ("N12", ADDED, "launch local 4\nat . to-glb"),
    ("N12", NESTED, f"launch local 2 2\n{PAIR}"),
    ("N13", ADDED, "at 0 copy\nat . fuse-map\nat . to-glb"),
    ("N13", ADDED, CUT + "at . to-glb"),
    ("N13", UNDER, "at 1.1 fold-seq\nat 0 to-glb\nat 0 then\nat 1 to-glb"),
    ("N13", READ_TWICE, FIRST_CUTS + "at . let-inline\nat . to-glb"),
    ("side closed", READ_TWICE, FIRST_CUTS),
    ("N14", NESTED, PAIR),
    ("N14", CUBE, "at 1.1 to-seq\nat 1 to-glb\nat . to-glb1"),
    ("N15", TWICE, "at 0 vector\nat . vector\nat 0.0 vector-scalar\nat 0 fuse-map\nat 0 to-seq"),
    ("N15", "input xs: [[u32; 4]; 4]; output map(\\r. map(\\x. x, r), transpose(xs))", "at 1 vector\nat 1.0.0.0 local-copy\nat 1.0 to-lcl\nat . to-wrg"),
    ("side divides", "size F from 1 to 9; input xs: [u32; 4*F]; output map(\\x. add(x, 1), xs)", "at . vector"),
    ("side lanes", "input xs: [u32; 8]; output map(\\x. min(x, 1), xs)", "at . vector"),
    ("components", FOUR + "map(\\x. map(\\y. add(first(x), y), ys), xs)", None),
    ("kernels", stages(16), cuts(16)),
    ("layouts", LAYERS, "at 0 join-split\nat . to-seq"),
    ("local", LARGE, LOCAL_COPY.format(6)),
    ("private", LARGE.replace("16386", "257"), "at . to-seq"),
]


def answer(folder, program, script, launch_text, commands=("compile", "run")):
    names = {"program.lift": program, "script.txt": script, "launch.json": launch_text}
    for name, text in names.items():
        with open(f"{folder}/{name}", "w") as file:
            file.write(text or "")
    if script is None:
        words = ["eval", "program.lift", "launch.json"]
    elif launch_text is None:
        words = [commands[0], "program.lift", "script.txt"]
    else:
        words = [commands[1], "program.lift", "script.txt", "launch.json"]
    return called(folder, words)


def called(folder, words, out=subprocess.PIPE):
    """The status of a call, its line and what it wrote."""
    ran = subprocess.run([PROGRAM, *words], cwd=folder, stdout=out, stderr=subprocess.PIPE, text=True)
    return ran.returncode, ran.stderr, ran.stdout


def answers(folder):
    """What is wanted, the status and the line, and what came, for each row and for what words and files are refused for."""
    for program, script, launch_text, status, line in ROWS:
        yield (status, line), answer(folder, program, script, launch_text)
    for program, script, launch_text, status, line in IN_ORDER:
        came = answer(folder, program, script, launch_text, ("stages", "run-stages"))
        yield (status, line), came
    yield (2, "lift: words"), called(folder, ["compile", "p"])
    yield (2, "lift: words"), called(folder, ["demo", "07"])
    yield (3, "lift: read NAME"), called(folder, ["compile", "NAME", "NAME"])
    for name, text in {"program.lift": ADDED, "script.txt": "at . to-seq"}.items():
        with open(f"{folder}/{name}", "w") as file:
            file.write(text)
    with open("/dev/full", "w") as full:
        status, line, _ = called(folder, ["compile", "program.lift", "script.txt"], full)
    yield (4, "lift: write"), (status, line, "")


def mended(folder):
    """What the page says how to mend, and the line where it is refused all the same."""
    for what, program, script in MENDED:
        for name, text in {"program.lift": program, "script.txt": script}.items():
            with open(f"{folder}/{name}", "w") as file:
                file.write(text or "")
        command = "steps" if script is None or what.startswith("side") else "compile"
        if command == "compile" and " then" in script:
            command = "stages"
        yield what, called(folder, [command, "program.lift", "script.txt"])[1]


def told():
    """The lines of the page, but for want of memory: they stand in the second column of its tables, behind a status."""
    with open(f"{TOP}/docs/REFUSALS.md") as page:
        columns = [row.split(" | ")[1] for row in page if re.match(r"\| \d+ \|", row)]
    lines = [line for column in columns for line in re.findall("`([^`]*)`", column)]
    return {f"lift: step 1: {line}" if line.startswith("side ") else line for line in lines} - {"lift: memory"}


def main():
    if not os.access(PROGRAM, os.X_OK):
        sys.exit(f"examples/refusals.py: there is no program {PROGRAM}")
    failed, untold = 0, told()
    with tempfile.TemporaryDirectory() as folder:
        for count, ((status, line), came) in enumerate(answers(folder), 1):
            untold.discard(line)
            if came != (status, line + "\n", ""):
                failed += 1
                print(f"{line!r} wanted with status {status}: status {came[0]}, {came[1]!r}")
        for count, (what, line) in enumerate(mended(folder), count + 1):
            if line:
                failed += 1
                print(f"{what} mended as docs/REFUSALS.md says: {line!r}")
    for line in sorted(untold):
        print(f"{line!r} stands in docs/REFUSALS.md, and no input here gives it")
    print(f"refusals: {count - failed} as told, {failed + len(untold)} not")
    return 1 if failed or untold else 0


if __name__ == "__main__":
    sys.exit(main())
