#!/usr/bin/env python3
"""Holds the indices and bounds of the kernels that one build of `lift` writes against those of another, as a law of indices changes them.

usage: bench/accesses.py OLD NEW [CASES ..]

OLD and NEW are two programs `lift`. Each example is compiled by both, and so is each case of the files CASES: a line is an object
in JSON, with the texts of a program and a script under `files`, `P` and `S`. Two kernels of one term have the same statements but
for their indices and bounds. Where two of these differ, both are worked out on words at 60 points: sizes in their ranges, work-items
of some launch in one row, loops' variables at the first turn, the last and one between, within the ifs around. A value that differs
and an index that got longer are told, and the status is then 1. Prints how many kernels, accesses and points there were.
"""
import json
import random
import re
import subprocess
import sys
import tempfile
from collections import Counter
from pathlib import Path

TOP = Path(__file__).resolve().parent.parent
POINTS = 60
WORD = 1 << 32
TOKEN = re.compile(r"\s*(?:\(uint\))?(\d+u|get_\w+\(\d\)|min|max|[a-z]\d+|[()+\-*/%,])")
LOOP = re.compile(r"for \(uint (i\d+) = (.*?); \1 < (.*?); \1 \+= .*\) \{")
IF = re.compile(r"if \((.*?) < (.*)\) \{")


def parsed(text):
    """An expression as nested tuples: a number, a name, or an operation with two arguments."""
    tokens = TOKEN.findall(text.replace("(uint)", ""))

    def expect(token):
        assert tokens.pop(0) == token, text

    def part():
        token = tokens.pop(0)
        if token == "(":
            inner = expression()
            expect(")")
            return inner
        if token in ("min", "max"):
            expect("(")
            first = expression()
            expect(",")
            second = expression()
            expect(")")
            return token, first, second
        return (int(token[:-1]),) if token[:-1].isdigit() else (token,)

    def expression():
        found = part()
        while tokens and tokens[0] in "+-*/%":
            found = tokens.pop(0), found, part()
        return found

    found = expression()
    assert not tokens, text
    return found


def nodes(expression):
    return 1 + sum(nodes(it) for it in expression[1:])


def value(expression, at):
    """Its value on words; ZeroDivisionError where it divides by 0."""
    if len(expression) == 1:
        return at[expression[0]] if isinstance(expression[0], str) else expression[0]
    a, b = value(expression[1], at), value(expression[2], at)
    by = {"+": int.__add__, "-": int.__sub__, "*": int.__mul__, "/": int.__floordiv__, "%": int.__mod__, "min": min, "max": max}
    return by[expression[0]](a, b) % WORD


def indices(line):
    """The text of each index of a line, in order."""
    found = []
    for begin in re.finditer(r"\b[aolp]\d+\[", line):
        depth, end = 1, begin.end()
        while depth:
            depth += {"[": 1, "]": -1}.get(line[end], 0)
            end += 1
        found.append(line[begin.end() : end - 1])
    return found


def point(around, sizes, local):
    """A point in these loops and ifs; None where nobody gets so far."""
    items = local or random.choice([1, 2, 4, 16])
    groups = random.choice([1, 2, 5])
    item, group = random.randrange(items), random.randrange(groups)
    at = {name: random.choice([least, most, random.randint(least // step, most // step) * step]) for name, (least, most, step) in sizes.items()}
    at |= {"get_local_id(0)": item, "get_group_id(0)": group, "get_global_id(0)": group * items + item}
    at |= {"get_local_size(0)": items, "get_num_groups(0)": groups, "get_global_size(0)": groups * items}
    for name, start, bound in around:
        first, end = value(start, at), value(bound, at)
        if first >= end:
            return None
        if name:
            at[name] = random.choice([first, end - 1, random.randrange(first, end)])
    return at


class Held:
    """What was found so far."""

    def __init__(self):
        self.count = Counter()
        self.told = []

    def beside(self, was, now, around, case):
        if was == now:
            return
        old, new = parsed(was), parsed(now)
        self.count["changed"] += 1
        if nodes(new) > nodes(old):
            self.told.append(f"{case.name}: {was} got longer: {now}")
        for _ in range(POINTS):
            at = point(around, case.sizes, case.local)
            try:
                if at and value(old, at) != value(new, at):
                    self.told.append(f"{case.name}: {was} is not {now} at {at}")
                    return
                self.count["points"] += bool(at)
            except ZeroDivisionError:
                pass

    def kernel(self, was, now, case):
        self.count["kernels"] += 1
        around, opened = [], []
        for old, new in zip(was.splitlines(), now.splitlines(), strict=True):
            old, new = old.strip(), new.strip()
            if old == "}":
                if opened and opened.pop():
                    around.pop()
                continue
            loops, ifs = LOOP.match(old), IF.match(old)
            if loops or ifs:
                name, start, bound = loops.groups() if loops else (None, *ifs.groups())
                changed = (LOOP if loops else IF).match(new).groups()[-1]
                self.beside(bound, changed, around, case)
                around.append((name, parsed(start), parsed(bound)))
            opened += [bool(loops or ifs)] * old.endswith("{")
            if not old.endswith("{"):
                for one, other in zip(indices(old), indices(new), strict=True):
                    self.count["accesses"] += 1
                    self.beside(one, other, around, case)


class Case:
    def __init__(self, name, program, script):
        self.name, self.program, self.script = name, program, script
        declared = re.findall(r"size\s+\w+\s+(?:multiple\s+(\d+)\s+)?from\s+(\d+)\s+to\s+(\d+)", program)
        self.sizes = {f"s{k}": (int(least), int(most), int(step or 1)) for k, (step, least, most) in enumerate(declared)}
        fixed = re.search(r"launch local (\d+)", script)
        self.local = int(fixed[1]) if fixed else None

    def text(self, lift, folder):
        """The text of its kernels; None where it has none."""
        (folder / "P").write_text(self.program, encoding="latin-1")
        (folder / "S").write_text(self.script, encoding="latin-1")
        verb = "stages" if re.search(r"\bthen\b", self.script) else "compile"
        done = subprocess.run([lift, verb, folder / "P", folder / "S"], capture_output=True, text=True)
        return None if done.returncode else done.stdout


def cases(files):
    for program in sorted((TOP / "examples").glob("*/program.lift")):
        for script in sorted(program.parent.glob("*.txt")):
            yield Case(f"{program.parent.name}/{script.stem}", program.read_text(), script.read_text())
    for file in files:
        for line in Path(file).read_text().splitlines():
            texts = json.loads(line)["files"]
            if "P" in texts and "S" in texts:
                yield Case(f"{Path(file).name}: {texts['S']!r}", texts["P"], texts["S"])


def main(old, new, *files):
    random.seed(1)
    held, seen = Held(), set()
    with tempfile.TemporaryDirectory() as name:
        for case in cases(files):
            if (case.program, case.script) in seen:
                continue
            seen.add((case.program, case.script))
            texts = [case.text(Path(lift).resolve(), Path(name)) for lift in (old, new)]
            if all(texts) and "(1)" not in texts[0]:
                held.kernel(*texts, case)
    print(*held.told, sep="\n", end="\n" * bool(held.told))
    print(", ".join(f"{held.count[it]} {it}" for it in ("kernels", "accesses", "changed", "points")))
    return bool(held.told)


if __name__ == "__main__":
    sys.exit(main(*sys.argv[1:]))
