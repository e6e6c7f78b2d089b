#!/usr/bin/env python3
"""Runs the tools on stored inputs, and compares what comes with what is stored.

    tools/check.py [--store] [PROGRAM]      PROGRAM is ./lift where none is given

- Each line behind `$` in tools/README.md is run, and what comes has to stand below it; --store
  writes it there anew.
- Each tool has a row there, and tells its use at --help.
- why_check.py holds why.py against `lift` and docs/REFUSALS.md.
- device.py has to make the events that `lift run --trace` tells, of each example with one kernel.
- Each step of each example has to fit its rule's shape, as rules.py has it.
- The words of the shell's and the editors' files have to be those of the grammar and of `lift`.
- The build of cmake/example is made, vim colours a program, tune.py runs: each where what it wants
  is there, and it is told which couldn't be run.
"""
import json
import os
import re
import shutil
import subprocess
import sys
import tempfile
from pathlib import Path
from typing import Iterator

import calls
import device
import grammar
import places
import why
import why_check
from kernels import kernels_of
from rules import fits, rules

TOOLS = Path(__file__).resolve().parent
TOP = TOOLS.parent
PAGE = TOOLS / "README.md"
sys.path.insert(0, str(TOP / "examples"))
from lesson import Lesson

NOT_TOOLS = ("check.py", "why_check.py")
Faults = Iterator[str]


class Missing(Exception):
    """What a check wants isn't there."""


def ran(*words, **options) -> subprocess.CompletedProcess:
    return subprocess.run([str(it) for it in words], capture_output=True, text=True, **options)


# the page


def refreshed() -> str:
    """The page as it comes."""
    with tempfile.TemporaryDirectory() as folder:
        return Lesson(folder, Path(calls.program())).refreshed(PAGE.read_text())


def page_faults() -> Faults:
    stands, comes = PAGE.read_text().split("\n"), refreshed().split("\n")
    differ = [k for k, (old, new) in enumerate(zip(stands, comes)) if old != new]
    if differ:
        yield f"tools/README.md: {stands[differ[0]]!r} stands there, and {comes[differ[0]]!r} comes"
    elif len(stands) != len(comes):
        yield f"tools/README.md has {len(stands)} lines, and {len(comes)} come"


def help_faults() -> Faults:
    told = re.findall(r"^\| `(\w+\.py)` \|", PAGE.read_text(), re.M)
    there = [it.name for it in TOOLS.glob("*.py") if os.access(it, os.X_OK)]
    if sorted(told) != sorted(set(there).difference(NOT_TOOLS)):
        yield f"tools/README.md has {told}"
    for name in told:
        done = ran(sys.executable, TOOLS / name, "--help")
        if done.returncode or f"tools/{name}" not in done.stdout:
            yield f"{name} --help: status {done.returncode}"


# what the modules know


def spots() -> Faults:
    with tempfile.TemporaryDirectory() as folder:
        for found, tried in (
            why_check.wrong_spots(Path(folder)),
            why_check.wrong_rows(Path(folder)),
        ):
            yield from found
            print(f"why: {tried}, {len(found)} faults")


def launch_of(script: Path) -> Path:
    own = script.with_suffix(".json")
    return own if own.exists() else script.parent / "launch.json"


def told(event: device.Event) -> str:
    """The line of a trace that tells an event."""
    if event.kind == "release":
        return f"release {event.who}"
    verb = event.kind.split()[1] + ("s4" if event.width == 4 else "s")
    access = f" {verb} {event.array} {event.cell}" if event.array else ""
    return f"step {event.who}{access}"


def events_of(script: Path) -> list[str]:
    """The events of an example's run, as device.py makes them."""
    launch = json.loads(launch_of(script).read_text())
    program = grammar.read(calls.text_of(script.parent / "program.lift"))
    text = script.with_suffix(".cl").read_text()
    lists = device.input_lists(program.inputs, launch)
    return [told(event) for _, events, _ in device.runs(text, launch, lists) for event in events]


def event_faults() -> Faults:
    for script in scripts():
        if len(kernels_of(script.with_suffix(".cl").read_text())) == 1:
            files = script.parent / "program.lift", script, launch_of(script)
            if events_of(script) != calls.lift("run", *files, "--trace").splitlines()[:-1]:
                yield f"{script.relative_to(TOP)}: device.py makes other events than lift"


def scripts() -> list[Path]:
    return sorted(it for it in TOP.glob("examples/*/*.txt") if it.with_suffix(".cl").exists())


def shape_faults() -> Faults:
    """The steps of examples at nodes that aren't of the rule's shape."""
    known = rules()
    for script in scripts():
        lines = calls.lift("steps", script.parent / "program.lift", script).splitlines()
        for step, line in zip(calls.steps_of(calls.text_of(script)), lines):
            node = dict(places.nodes(places.parsed(line)))[why.place_of(step.place)]
            if not fits(known[step.rule.split()[0]].shape, node):
                yield f"{script.relative_to(TOP)}: at {step.place} {step.rule}: no such shape"


def word_faults() -> Faults:
    """The files that have other words than the grammar, or other commands than `lift`."""
    for name in ("vim/syntax/lift.vim", "textmate/syntaxes/lift.tmLanguage.json"):
        # in a JSON text a word's border is written \\b, with the word right behind it
        text = (TOOLS / name).read_text().replace("\\\\b", " ")
        words = set(re.findall(r"[A-Za-z]\w*", text))
        missing = sorted(grammar.RESERVED.difference(words))
        if missing:
            yield f"{name} lacks {', '.join(missing)}"
    commands = re.search(r"-W '(compile [^']*)'", (TOOLS / "completion/lift.bash").read_text())
    if commands is None or set(commands[1].split()) != set(why.COMMANDS):
        yield "completion/lift.bash has other commands than lift"


# what wants more than Python


def completion_faults() -> Faults:
    """The words that bash completes."""
    wanted = {
        "./lift ru": "run run-stages",
        "./lift compile pro": "program.lift",
        "./lift run program.lift i": "item.txt items.txt",
        "./lift run program.lift item.txt m": "many.json",
        "./lift cost program.lift item.txt many.json --i": "--items",
        "tools/places.py --a": "--all",
    }
    for typed, want in wanted.items():
        words = typed.split(" ")
        function = "_lift_tool" if "tools/" in typed else "_lift"
        state = f"COMP_WORDS=({typed}); COMP_CWORD={len(words) - 1}"
        call = f'source "{TOOLS}/completion/lift.bash"; {state}'
        done = ran(
            "bash",
            "-c",
            f'{call}; {function}; echo "${{COMPREPLY[@]}}"',
            cwd=TOP / "docs" / "lesson",
        )
        if sorted(done.stdout.split()) != want.split():
            yield f"bash completes {typed!r} by {done.stdout.strip()!r}"


def build_faults() -> Faults:
    """The build of cmake/example, whose program writes the kernel."""
    if not shutil.which("cmake") or not shutil.which("cc"):
        raise Missing("cmake/example: no cmake or no C compiler")
    with tempfile.TemporaryDirectory() as folder:
        program = f"-DLIFT_PROGRAM={Path(calls.program()).resolve()}"
        done = ran("cmake", "-S", TOOLS / "cmake" / "example", "-B", folder, program)
        built = ran("cmake", "--build", folder)
        if done.returncode or built.returncode:
            yield f"cmake/example: {(done.stderr or built.stdout + built.stderr)[-300:]}"
            return
        lesson = TOP / "docs" / "lesson"
        kernel = calls.lift("compile", lesson / "program.lift", lesson / "tiled.txt")
        if ran(f"{folder}/show").stdout != kernel or Path(folder, "tiled.cl").read_text() != kernel:
            yield "cmake/example makes another text than lift"


def vim_faults() -> Faults:
    """The groups that vim has for some words of the lesson's program."""
    if not shutil.which("vim"):
        raise Missing("vim/: no vim")
    wanted = {
        "size": "liftDeclaration",
        "map": "liftPattern",
        "u32": "liftType",
        "4096": "liftNumber",
    }
    group = "synIDattr(synID(line('.'), col('.'), 1), 'name')"
    asked = [
        f"call search('\\<{word}\\>', 'w') | call writefile([{group}], 'groups', 'a')"
        for word in wanted
    ]
    with tempfile.TemporaryDirectory() as folder:
        shutil.copy(TOP / "docs" / "lesson" / "program.lift", folder)
        first = [f"set runtimepath+={TOOLS}/vim", "syntax on", "edit program.lift"]
        words = [it for command in [*first, *asked, "qa!"] for it in ("-c", command)]
        ran("vim", "-Nu", "NONE", "-i", "NONE", "-n", "-es", *words, cwd=folder, timeout=20)
        file = Path(folder, "groups")
        found = file.read_text().split() if file.exists() else []
    if found != list(wanted.values()):
        yield f"vim has {found} for {list(wanted)}"


def tune_faults() -> Faults:
    """The rows that tune.py prints, but for their times."""
    for python in (sys.executable, "/usr/bin/python3"):
        code = f"import sys; sys.path.append({str(TOP / 'python')!r}); import lift_opencl, pyopencl"
        if shutil.which(python) and ran(python, "-c", code).returncode == 0:
            break
    else:
        raise Missing("tune.py: no pyopencl, or no package lift_opencl")
    files = [TOOLS / "cases" / it for it in ("convolution.lift", "tiled.txt", "fixed.txt")]
    options = "--size N=4096 --k 16,64 --local 16 --groups 2,4 --turns 1".split()
    done = ran(python, TOOLS / "tune.py", *files, *options)
    if "no OpenCL device" in done.stderr:
        raise Missing("tune.py: no OpenCL device")
    rows = sorted(re.findall(r"(\w+)\.txt +(\d+) +(\d+) by (\d+)", done.stdout))
    tiled = [("tiled", k, g, "16") for k in ("16", "64") for g in ("32", "64")]
    fixed = [("fixed", k, str(int(k) * g), k) for k in ("16", "64") for g in (2, 4)]
    if rows != sorted(tiled + fixed) or done.returncode:
        yield f"tune.py: {done.stdout or done.stderr}"


CHECKS = (
    page_faults,
    help_faults,
    spots,
    event_faults,
    shape_faults,
    word_faults,
    completion_faults,
    build_faults,
    vim_faults,
    tune_faults,
)


def main() -> int:
    words = [it for it in sys.argv[1:] if it != "--store"]
    os.environ["LIFT"] = str(Path(words[0] if words else TOP / "lift").resolve())
    if not os.access(os.environ["LIFT"], os.X_OK):
        sys.exit(f"tools/check.py: there is no program {os.environ['LIFT']}")
    if "--store" in sys.argv:
        PAGE.write_text(refreshed())
    wrong: list[str] = []
    for check in CHECKS:
        try:
            wrong += check()
        except Missing as what:
            print(f"not run: {what}")
    print("\n".join([*wrong, f"tools: {len(CHECKS)} checks, {len(wrong)} faults"]))
    return bool(wrong)


if __name__ == "__main__":
    sys.exit(main())
