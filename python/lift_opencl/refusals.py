"""Where in the texts it is that `lift` refuses, for an error's second line."""
from __future__ import annotations

import re

# how many bytes of a long line are shown before the spot, and half as many behind it
AROUND = 60


def where(line: str, program: str, script: str) -> str:
    """The spot that a line of `lift` speaks of, with its text; empty where it tells none."""
    if found := re.match(r"lift: program: token \d+, byte (\d+)", line):
        return in_program(int(found[1]), program)
    if found := re.match(r"lift: script: line (\d+)", line):
        return in_script(int(found[1]), script)
    if found := re.match(r"lift: step (\d+)", line):
        steps = [k for k, it in enumerate(script.split("\n"), 1) if is_step(it)]
        return in_script(steps[int(found[1]) - 1], script)
    return ""


def is_step(line: str) -> bool:
    """Whether a line of a script is a step: no empty line, no comment and no local size."""
    words = line.split()
    return bool(words) and words[0] != "launch" and not words[0].startswith("#")


def in_program(byte: int, program: str) -> str:
    """The line of a byte and a mark under it; of a long line what is around the byte."""
    begin = max(program.rfind("\n", 0, byte) + 1, byte - AROUND)
    text = program[begin : byte + AROUND // 2].split("\n")
    number = program.count("\n", 0, byte) + 1
    return f"program, line {number}:\n  {text[0]}\n  {' ' * (byte - begin)}^"


def in_script(number: int, script: str) -> str:
    return f"script, line {number}:\n  {script.split(chr(10))[number - 1].strip()}"
