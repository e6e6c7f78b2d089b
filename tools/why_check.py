#!/usr/bin/env python3
"""Checks what why.py says against the built program.

    tools/why_check.py [PROGRAM]      PROGRAM is ./lift where none is given

- Every example's program is spoilt many times: a token left out, doubled, put in or changed, two
  that change places, the text cut. `lift` and grammar.py have to stop at the same token and byte,
  or both at none.
- On each input of examples/refusals.py why.py has to find the page's row for the line, and no
  other.
"""
import os
import random
import re
import sys
import tempfile
from pathlib import Path

import calls
import grammar
import why

TOP = Path(__file__).resolve().parent.parent
SEED, EACH = 11, 14
# what is put in or written for another token
OTHERS = [
    *"( ) [ ] , ; : = . \\ + - * / < > { ^ 0 1 3 01 4294967296 5000000 f32 x then _0 é".split(),
    *sorted(grammar.RESERVED),
]


def spoilt(text: str, chance: random.Random) -> str:
    """The text with one fault, or with one change that is none."""
    words = grammar.tokens(text)[:-1]
    token = chance.choice(words)
    begin, end = token.offset, token.offset + len(token.text)
    before, behind = text[:begin], text[end:]
    other = chance.choice([*OTHERS, *(it.text for it in words)])
    texts = {
        "left out": before + behind,
        "doubled": f"{before}{token.text} {token.text}{behind}",
        "put in": f"{before}{other} {token.text}{behind}",
        "changed": f"{before}{other}{behind}",
        "joined": before.rstrip() + token.text + behind,
        "cut": before,
        "places": exchanged(text, token, chance.choice(words)),
        "name": before + (token.text[:-1] or "y") + behind,
    }
    return texts[chance.choice(sorted(texts))]


def exchanged(text: str, one: grammar.Token, other: grammar.Token) -> str:
    """The text with two tokens in each other's place."""
    first, last = sorted((one, other), key=lambda it: it.offset)
    if first == last:
        return text
    between = text[first.offset + len(first.text) : last.offset]
    behind = text[last.offset + len(last.text) :]
    return text[: first.offset] + last.text + between + first.text + behind


def stop_of(text: str) -> tuple[int, int] | None:
    """The token and the byte at which grammar.py stops."""
    stop = why.stopped_at(text)
    return stop and (stop.token.number, stop.token.offset)


def stop_of_lift(text: str, file: Path, empty: Path) -> tuple[int, int] | None:
    """Those at which `lift` does: a text that it refuses for something else is a program's."""
    file.write_bytes(text.encode("utf-8"))
    try:
        calls.lift("steps", file, empty)
    except calls.Refused as refused:
        found = re.fullmatch(r"lift: program: token (\d+), byte (\d+)", refused.line)
        return found and (int(found[1]), int(found[2]))
    return None


def spoilt_programs() -> list[str]:
    """The spoilt texts of all examples, each byte a character."""
    chance, made = random.Random(SEED), []
    for path in sorted(TOP.glob("examples/*/program.lift")):
        text = calls.text_of(path)
        made += [spoilt(text, chance).encode("utf-8").decode("latin-1") for _ in range(EACH)]
    return [*made, *deep_programs()]


def deep_programs() -> list[str]:
    """Programs with a term or a type as deep as may be, and one deeper."""
    head = "input xs: [u32; 1]; output "
    terms = [head + "reverse(" * k + "xs" + ")" * k for k in (255, 256)]
    lists = ["input xs: " + "[" * k + "u32" + "; 1]" * k + "; output xs" for k in (64, 65)]
    pairs = ["input xs: [" + "(" * k + "u32" + ", u32)" * k + "; 1]; output xs" for k in (63, 64)]
    return terms + lists + pairs


def wrong_spots(folder: Path) -> tuple[list[str], str]:
    """Where both stop otherwise, and how many texts were tried."""
    file, empty = folder / "program.lift", folder / "empty.txt"
    empty.write_text("")
    wrong, stopped, texts = [], 0, spoilt_programs()
    for text in texts:
        mine, its = stop_of(text), stop_of_lift(text.encode("latin-1").decode("utf-8"), file, empty)
        stopped += its is not None
        if mine != its:
            wrong.append(f"lift stops at {its}, and grammar.py at {mine}, in {text!r}")
    return wrong, f"{len(texts)} spoilt programs, {stopped} of them refused at a token"


def page_inputs():
    """The inputs of examples/refusals.py, each with its line: program, script or None, launch or
    None, and the commands that compile and run."""
    sys.path.insert(0, str(TOP / "examples"))
    sys.argv = sys.argv[:1]
    import refusals

    one, several = ("compile", "run"), ("stages", "run-stages")
    yield from [(*it[:3], it[4], one) for it in refusals.ROWS]
    yield from [(*it[:3], it[4], several) for it in refusals.IN_ORDER]


def explanation(folder: Path, program, script, launch, commands) -> tuple[str, str]:
    """What why.py says of an input, and lift's line."""
    texts = {"program.lift": program, "script.txt": script, "launch.json": launch}
    for name, text in texts.items():
        (folder / name).write_text(text or "")
    names = [str(folder / name) for name in texts]
    if script is None:
        words = ["eval", names[0], names[2]]
    else:
        words = [commands[launch is not None], *names[: 2 + (launch is not None)]]
    try:
        calls.lift(*words)
    except calls.Refused as refused:
        return "\n".join(why.explained(why.Call(words, refused.line))), refused.line
    return "", ""


def wrong_rows(folder: Path) -> tuple[list[str], str]:
    """The inputs of the page that aren't explained by one of its rows."""
    wrong, count = [], 0
    for count, (program, script, launch, line, commands) in enumerate(page_inputs(), 1):
        told, came = explanation(folder, program, script, launch, commands)
        rows = re.findall("^why:", told, re.M)
        if came != line:
            wrong.append(f"{line} wanted, and {came} came")
        elif len(rows) != 1:
            wrong.append(f"{line}: {len(rows)} rows of the page, in {program!r}, {script!r}")
    return wrong, f"{count} refusals of the page"


def main() -> int:
    if len(sys.argv) > 1:
        os.environ["LIFT"] = str(Path(sys.argv[1]).resolve())
    with tempfile.TemporaryDirectory() as folder:
        faults = [wrong_spots(Path(folder)), wrong_rows(Path(folder))]
    wrong = [it for found, _ in faults for it in found]
    tried = ", ".join(it for _, it in faults)
    print("\n".join([*wrong, f"why: {tried}, {len(wrong)} faults"]))
    return bool(wrong)


if __name__ == "__main__":
    sys.exit(main())
