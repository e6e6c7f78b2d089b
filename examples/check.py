#!/usr/bin/env python3
"""Runs the built program on every example, and compares what it writes with what is stored.

    examples/check.py [--store] [PROGRAM]      PROGRAM is ./lift where none is given

Beside a script NAME.txt, NAME.cl is its kernel and NAME.result the line of its run on NAME.json, or
on launch.json where there is none; of a script with the rule `then` they are what `lift stages` and
`lift run-stages` write. The value in that line is compared with that of `lift eval`, and
with that of values.py, its counts with those that counts.py makes of the kernel's text, and the
lines of `lift cost --items` with those that costs.py makes of the run's events. A launch file may
say more, for this check alone:

    "given": 41             the caller has 41 elements, and filled up what is missing: values.py has
                            the first 41 of each input, and the first 41 of the value are compared
    "after": "EXAMPLE"      the first input is that example's value: the second of two calls

Then each rule of docs/RULES.md has to stand in some script, and docs/STRATEGIES.md has to show the
files as they are (pages.py).

With --store the kernels and the lines are written anew, but for an example whose values differ.
Look at what changed before it is handed on: no other check knows what a kernel's text should be.
"""
import json
import os
import subprocess
import sys
from functools import cached_property
from pathlib import Path

import pages
from costs import costs
from counts import Items, counts
from values import VALUES

EXAMPLES = Path(__file__).resolve().parent


def value_in(line):
    """The value in a result line, None where there is no line."""
    return None if line is None else json.loads(line)["value"]


class Example:
    """A script, and what stands beside it."""

    def __init__(self, program, script):
        self.lift, self.script = program, script
        self.source = script.parent / "program.lift"
        self.kernel, self.result, launch = map(script.with_suffix, (".cl", ".result", ".json"))
        self.launch = launch if launch.exists() else script.parent / "launch.json"
        self.told = json.loads(self.launch.read_text())
        self.compile, self.run = pages.commands(script)

    def made(self, command, *files):
        """What the program writes, or None where it refuses."""
        words = [self.lift, command, self.source, *files]
        done = subprocess.run(words, capture_output=True, text=True)
        return done.stdout if done.returncode == 0 else None

    @cached_property
    def of_kernel(self):
        return self.made(self.compile, self.script)

    @cached_property
    def of_run(self):
        return self.made(self.run, self.script, self.launch)

    def values_differ(self):
        """Which value isn't that of values.py: of the run, of `eval`, of the call before."""
        given = slice(self.told.get("given"))
        inputs = {name: value[given] for name, value in self.told["inputs"].items()}
        wanted = VALUES[self.script.parent.name](**inputs)
        lines = {self.run: self.of_run, "eval": self.made("eval", self.launch)}
        values = {command: value_in(line) for command, line in lines.items()}
        wrong = [name for name, value in values.items() if value is None or value[given] != wanted]
        return [f"value of {name}" for name in wrong + self.calls_before_differ()]

    def counts_differ(self):
        """Whether the run's counts aren't those of its kernel's text."""
        text, line = self.of_kernel, self.of_run
        if text is None or line is None:
            return ["counts"]
        run = json.loads(line)
        same = (run["events"], run["releases"]) == counts(text, self.told)
        return [] if same else ["counts"]

    def costs_differ(self):
        """Whether `cost --items` tells otherwise than the run's events; it is of one kernel."""
        if self.run != "run":
            return []
        trace = self.made("run", self.script, self.launch, "--trace")
        lines = self.made("cost", self.script, self.launch, "--items")
        same = trace is not None and lines == costs(trace, Items(self.told).count)
        return [] if same else ["cost"]

    def calls_before_differ(self):
        """The example that the launch file has at `after`, if its value isn't the first input."""
        name = self.told.get("after")
        if name is None:
            return []
        first = json.loads((EXAMPLES / name / "launch.json").read_text())["inputs"]
        same = VALUES[name](**first) == next(iter(self.told["inputs"].values()))
        return [] if same else [name]

    def differs(self):
        """What isn't as stored."""
        texts = {self.compile: (self.kernel, self.of_kernel), self.run: (self.result, self.of_run)}
        return [
            command
            for command, (file, text) in texts.items()
            if not file.exists() or file.read_text() != text
        ]

    def store(self):
        """Writes the kernel and the result line anew, and says whether one of them changed."""
        changed = self.differs()
        text, line = self.of_kernel, self.of_run
        self.kernel.write_text(text)
        self.result.write_text(line)
        return changed


def examples_differ(program, store):
    """Checks each example, tells of each that isn't as stored, and says how many aren't."""
    failed = 0
    examples = [Example(program, script) for script in sorted(EXAMPLES.glob("*/*.txt"))]
    for it in examples:
        wrong = it.values_differ() + it.counts_differ() + it.costs_differ()
        stored = it.store() if store and not wrong else []
        wrong += it.differs()
        failed += bool(wrong)
        for what, commands in (("stored anew", stored), ("differs", wrong)):
            if commands:
                print(f"{it.script.relative_to(EXAMPLES)}: {', '.join(commands)}: {what}")
    print(f"examples: {len(examples) - failed} as stored, {failed} not")
    return failed


def pages_differ():
    """Tells what the pages say of the examples that isn't so, and says how much that is."""
    unused, unknown = pages.rules_otherwise()
    wrong = [f"{rule}: in no script of an example" for rule in unused]
    wrong += [f"{rule}: in a script, and not in docs/RULES.md" for rule in unknown]
    wrong += [f"{file}: docs/STRATEGIES.md has it otherwise" for file in pages.shown_otherwise()]
    for line in wrong:
        print(line)
    print(f"pages: {len(pages.rules())} rules, {len(pages.shown())} blocks, {len(wrong)} not so")
    return len(wrong)


def main():
    words = [it for it in sys.argv[1:] if it != "--store"]
    program = Path(words[0] if words else EXAMPLES.parent / "lift").resolve()
    if not os.access(program, os.X_OK):
        sys.exit(f"examples/check.py: there is no program {program}")
    failed = examples_differ(program, "--store" in sys.argv)
    failed += pages_differ()
    return bool(failed)


if __name__ == "__main__":
    sys.exit(main())
