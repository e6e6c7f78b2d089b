#!/usr/bin/env python3
"""Writes docs/GALLERY.md and its pictures, of every strategy in the folders beside this file.

    examples/gallery.py [--check] [PROGRAM]      PROGRAM is ./lift where none is given

The comment at a program's head says what is computed, that at the head of a script NAME.txt what
the strategy is: the page has these, the rest of the script, the last term, the kernel and the run
on NAME.json, or on launch.json where there is none, drawn by tools/picture.py. A line that is empty
parts a head from a comment on the first step. With --check nothing is written, and what isn't as it
would be is named.
"""
import os
import subprocess
import sys
from pathlib import Path

EXAMPLES = Path(__file__).resolve().parent
sys.path.insert(0, str(EXAMPLES.parent / "tools"))
from kernels import Items, kernels_of, told_size
from picture import Run, picture, runs_of

DOCS = EXAMPLES.parent / "docs"
PICTURES = DOCS / "gallery"
# From what is simple on; folders that aren't named come behind, by name.
ORDER = [
    "increment",
    "dot_product",
    "transpose",
    "matrix_product",
    "matrix_product_short",
    "partial_sums",
    "blocked_sums",
    "strided_sums",
    "transpose_tiles",
    "stencil",
]
HEAD = """# Gallery

What one program becomes under different strategies: the script, with a word why each step stands
there, the term behind its last step, the kernel that `lift compile` writes, and the run that `lift
run` makes of it on the launch file beside the script, which gives the same value under every
schedule. [examples](../examples/README.md) has the files, `lift steps` shows the term behind each
step, and [LESSON.md](LESSON.md) goes through one program step by step. `examples/gallery.py` writes
this page.

A script that cuts its term by `then` has several kernels in order, of which `lift stages` writes the
text; their runs stand below one another in one picture, and are made by `tools/device.py` from the
text alone.

A script `fixed` begins with `launch local K`: its kernel asks for groups of K, and has an `if` or no
statement at all where the one beside it has a loop over items ([PRINTED.md](PRINTED.md)).

A picture shows a run: a row for each work-item and a column for each event, or, of a run of many
events, a row for each group with what its items do between barriers. Below stand the arrays at the
run's end in rows of their type, a local one once for each group, with who wrote each cell and who
read it; the items of a group have one hue. Accesses of private memory are among the other steps.
`tools/picture.py PROGRAM SCRIPT LAUNCH > run.svg` draws a run of your own.
"""


def order(folder):
    known = folder.name in ORDER
    return (ORDER.index(folder.name) if known else len(ORDER), folder.name)


def head_and_rest(path):
    """What the comment at the file's head says, and the lines behind it."""
    lines = path.read_text().splitlines()
    count = next(k for k, it in enumerate([*lines, ""]) if not it.startswith("#"))
    head = " ".join(it.lstrip("# ") for it in lines[:count])
    return head, "\n".join(lines[count:]).strip("\n")


def unfolded(text):
    """The text with each paragraph in one line, as the pages have them."""
    paragraphs = text.strip().split("\n\n")
    return "\n\n".join(it.replace("\n", " ") for it in paragraphs) + "\n"


def block(language, text):
    return f"```{language}\n{text.rstrip()}\n```\n"


def last_term(program, script):
    words = [program, "steps", script.parent / "program.lift", script]
    done = subprocess.run(words, capture_output=True, text=True, check=True)
    return done.stdout.splitlines()[-1]


def launch_of(script):
    launch = script.with_suffix(".json")
    return launch if launch.exists() else script.parent / "launch.json"


def counted(kernel: str, run: Run) -> str:
    """The counts of a kernel's run, in words."""
    counts, items = run.counts, run.launch["global"]
    return (
        f"{counts['events']} events, {counts['releases']} releases,"
        f" {kernel.count('barrier(')} barriers in the text, by {told_size(items)}"
        f" work-item{'s' if Items(run.launch).count > 1 else ''} in groups of"
        f" {told_size(run.launch['local'])}."
    )


def strategy(program, script):
    """A strategy's part of the page, and its pictures by their names."""
    told, steps = head_and_rest(script)
    runs = runs_of(script.parent / "program.lift", script, launch_of(script))
    text = script.with_suffix(".cl").read_text()
    counts = list(map(counted, kernels_of(text), runs))
    if len(runs) > 1:
        counts = [f"`{run.name}`: {told}" for run, told in zip(runs, counts)]
    name = f"{script.parent.name}-{script.stem}.svg"
    parts = [
        f"### {script.stem}\n\n{told}\n",
        block("", steps),
        "The last term:\n",
        block("", last_term(program, script)),
        "Its kernel:\n" if len(runs) == 1 else "Its kernels, in order:\n",
        block("c", text),
        *[f"{it}\n" for it in counts],
        f"![{told or script.stem}](gallery/{name})\n",
    ]
    return "\n".join(parts), {name: picture(runs)}


def scripts_of(folder):
    """The scripts beside a program, that of one work-item first, and that of a fixed size last."""
    places = {"sequential": 0, "fixed": 2}
    return sorted(folder.glob("*.txt"), key=lambda it: (places.get(it.stem, 1), it.stem))


def made(program):
    """Each file, and its text."""
    page, files = [unfolded(HEAD)], {}
    for folder in sorted({it.parent for it in EXAMPLES.glob("*/*.cl")}, key=order):
        told, source = head_and_rest(folder / "program.lift")
        page.append(f"## {folder.name}\n\n{told}\n\n{block('', source)}")
        for script in scripts_of(folder):
            text, pictures = strategy(program, script)
            page.append(text)
            files |= {PICTURES / name: drawn for name, drawn in pictures.items()}
    return {**files, DOCS / "GALLERY.md": "\n".join(page)}


def check(files):
    """Names what isn't as it would be written, and pictures of nothing."""
    wrong = [path for path, text in files.items() if not path.exists() or path.read_text() != text]
    wrong += [path for path in PICTURES.glob("*.svg") if path not in files]
    for path in wrong:
        print(f"{path.relative_to(DOCS)} isn't what examples/gallery.py makes")
    print(f"gallery: {len(files) - len(wrong)} files as made, {len(wrong)} not")
    return bool(wrong)


def main():
    words = [it for it in sys.argv[1:] if it != "--check"]
    program = Path(words[0] if words else EXAMPLES.parent / "lift").resolve()
    if not os.access(program, os.X_OK):
        sys.exit(f"examples/gallery.py: there is no program {program}")
    os.environ["LIFT"] = str(program)
    files = made(program)
    if "--check" in sys.argv:
        return check(files)
    PICTURES.mkdir(exist_ok=True)
    for path in set(PICTURES.glob("*.svg")).difference(files):
        path.unlink()
    for path, text in files.items():
        path.write_text(text)
    return False


if __name__ == "__main__":
    sys.exit(main())
