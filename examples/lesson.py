#!/usr/bin/env python3
"""Runs the lessons and README, and writes into them what comes.

    examples/lesson.py [--check] [PROGRAM]      PROGRAM is ./lift where none is given

- A heading `### K. STEP` is the K-th step of a script, behind the K - 1 steps before it. What the
  steps of a part come to is a script of docs/lesson. The first lesson alone has such headings.
- A block ```term gets the term after the step.
- A line `Tried first:` has steps and, behind them, the line by which `lift compile` refuses them
  behind the steps before this one.
- In a block that begins with `$ ` each such line is run, in a folder that has the program as
  ./lift, examples, tools and docs; what it writes stands below it. A picture made there is one of
  docs/lesson.

With --check nothing is written, and what differs is told.
"""
import os
import re
import subprocess
import sys
import tempfile
from itertools import zip_longest
from pathlib import Path

TOP = Path(__file__).resolve().parent.parent
FIRST, FILES = TOP / "docs" / "LESSON.md", TOP / "docs" / "lesson"
PAGES = [FIRST, TOP / "docs" / "LESSON_MATRIX.md", TOP / "README.md"]
PROGRAM = "docs/lesson/program.lift"


class Lesson:
    """A folder to work in, and the steps of the script so far."""

    def __init__(self, folder, program):
        self.folder, self.steps, self.made = Path(folder), [], []
        (self.folder / "lift").symlink_to(program)
        for name in ("examples", "tools", "docs"):
            (self.folder / name).symlink_to(TOP / name)

    def called(self, command):
        """What a command writes, to both outputs."""
        words = ["bash", "-c", f"exec 2>&1; {command}"]
        lift = {**os.environ, "LIFT": str(self.folder / "lift")}
        done = subprocess.run(words, cwd=self.folder, env=lift, stdout=subprocess.PIPE, text=True)
        return done.stdout.rstrip("\n")

    def of_script(self, command, steps):
        (self.folder / "script.txt").write_text("".join(f"{step}\n" for step in steps))
        return self.called(f"./lift {command} {PROGRAM} script.txt")

    def heading(self, number, step):
        self.steps = [*self.steps[: number - 1], step]

    def term(self):
        return self.of_script("steps", self.steps).splitlines()[-1]

    def tried(self, text):
        """The sentence, with the line that its steps give behind those before this one."""
        codes = re.findall("`([^`]*)`", text)
        count = next(k for k, code in enumerate(codes) if not code.startswith("at "))
        line = self.of_script("compile", [*self.steps[:-1], *codes[:count]]).splitlines()[0]
        return text.replace(f"`{codes[count]}`", f"`{line}`", 1)

    def block(self, lines):
        """A block of commands, with what they write."""
        written = []
        for command in [it for it in lines if it.startswith("$ ")]:
            out = self.called(command[2:])
            written += [command, *([out] if out else [])]
        return written

    def refreshed(self, text):
        """The page, run from the first line to the last."""
        parts = re.split(r"(^```.*?^```$)", text, flags=re.M | re.S)
        return "".join(map(self.part, parts))

    def part(self, text):
        if text.startswith("```term"):
            return f"```term\n{self.term()}\n```"
        if text.startswith("```\n$ "):
            return "\n".join(["```", *self.block(text.splitlines()[1:-1]), "```"])
        if text.startswith("```"):
            return text
        return "\n".join(map(self.line, text.split("\n")))

    def line(self, text):
        heading = re.fullmatch(r"### (\d+)\. `(at .*)`", text)
        if heading:
            self.heading(int(heading[1]), heading[2])
        if text.startswith("## ") and self.steps and self.steps not in self.made:
            self.made.append(self.steps)
        return self.tried(text) if text.startswith("Tried first:") else text


def stored_scripts():
    """The steps of each script of docs/lesson."""
    texts = [path.read_text().splitlines() for path in FILES.glob("*.txt")]
    return sorted([it for it in lines if it and not it.startswith("#")] for lines in texts)


def faults(lesson, page, refreshed):
    """What isn't as the page has it."""
    pairs = zip_longest(page.read_text().splitlines(), refreshed.splitlines())
    for stands, comes in [(old, new) for old, new in pairs if old != new][:1]:
        yield f"{page.name}: {stands!r} stands there, and {comes!r} comes"
    if page == FIRST and sorted(lesson.made) != stored_scripts():
        yield "the steps aren't those of docs/lesson"
    for path in lesson.folder.glob("*.svg"):
        if not (FILES / path.name).exists() or path.read_text() != (FILES / path.name).read_text():
            yield f"docs/lesson/{path.name} isn't the picture that is made"


def page_otherwise(page, program, check):
    """What isn't as the page has it, which is written where it isn't to be checked alone."""
    with tempfile.TemporaryDirectory() as folder:
        lesson = Lesson(folder, program)
        refreshed = lesson.refreshed(page.read_text())
        if not check:
            page.write_text(refreshed)
            for path in lesson.folder.glob("*.svg"):
                (FILES / path.name).write_text(path.read_text())
        return list(faults(lesson, page, refreshed))


def main():
    words = [it for it in sys.argv[1:] if it != "--check"]
    program = Path(words[0] if words else TOP / "lift").resolve()
    if not os.access(program, os.X_OK):
        sys.exit(f"examples/lesson.py: there is no program {program}")
    wrong = [it for page in PAGES for it in page_otherwise(page, program, "--check" in sys.argv)]
    print("\n".join([*wrong, f"lessons: {len(PAGES)} pages, {len(wrong)} faults"]))
    return bool(wrong)


if __name__ == "__main__":
    sys.exit(main())
