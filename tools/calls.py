"""Calls of the program `lift` by the tools, and scripts' texts as they stand in files.

The environment's LIFT names the program; where it isn't set, it is the one that `./lift` built.
"""
import os
import subprocess
import sys
import tempfile
from pathlib import Path
from typing import NamedTuple

import places

TOP = Path(__file__).resolve().parent.parent
BUILT = TOP / "crates" / "lift_cli" / "out" / "lift_cli"


class Refused(Exception):
    """What `lift` refuses: its line, and the status of the call."""

    def __init__(self, line: str, status: int):
        super().__init__(line)
        self.line, self.status = line, status


class Step(NamedTuple):
    """A step: the number of its line, its place, and its rule with a number or none."""

    line: int
    place: str
    rule: str


def program() -> str:
    """The program's name. It isn't built here, since that takes long and says how far it is."""
    named = os.environ.get("LIFT")
    if not named and not BUILT.exists():
        sys.exit("the program isn't built yet: `./lift demo 1` does that, or LIFT names another")
    return named or str(BUILT)


def lift(*words) -> str:
    """What a call writes; a refusal is raised."""
    try:
        done = subprocess.run([program(), *map(str, words)], capture_output=True)
    except OSError as why:
        sys.exit(f"can't run {program()}: {why.strerror}; LIFT names the program")
    if done.returncode:
        raise Refused(done.stderr.decode("latin-1").rstrip("\n"), done.returncode)
    return done.stdout.decode("latin-1")


def with_script(command: str, source, script: str) -> str:
    """What a call writes for a script that is given by its text."""
    with tempfile.NamedTemporaryFile("w", suffix=".txt", encoding="latin-1") as file:
        file.write(script)
        file.flush()
        return lift(command, source, file.name)


def last_term(source, script: str) -> places.Node:
    """The term behind a script's steps, the program's own where there are none."""
    return places.parsed(with_script("steps", source, script).splitlines()[-1])


def text_of(path) -> str:
    """A file's text, a character for each byte."""
    try:
        return Path(path).read_bytes().decode("latin-1")
    except OSError as why:
        sys.exit(f"can't read {path}: {why.strerror}")


def steps_of(script: str) -> list[Step]:
    """The steps of a script's text, which `lift` took for one."""
    lines = [(number, line.split()) for number, line in enumerate(script.split("\n"), 1)]
    return [Step(n, words[1], " ".join(words[2:])) for n, words in lines if words[:1] == ["at"]]


def before_step(script: str, step: Step) -> str:
    """The script's lines before a step."""
    return "".join(f"{line}\n" for line in script.split("\n")[: step.line - 1])


def has_cut(script: str) -> bool:
    """Whether a script cuts its term into several kernels."""
    return any(step.rule == "then" for step in steps_of(script))
