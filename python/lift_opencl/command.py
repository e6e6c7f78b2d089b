"""Runs the program `lift`."""
from __future__ import annotations

import os
import shutil
import subprocess
import sys
import tempfile
from pathlib import Path

REPOSITORY = Path(__file__).resolve().parents[2]


class LiftError(Exception):
    """`lift` refused a program or a script, or couldn't be run.

    `line` is the line that it wrote, as `lift: step 3: shape`, and `status` its exit status:
    docs/REFUSALS.md has a row for each. `status` is None where it didn't run.
    """

    def __init__(self, line: str, status: int | None = None, about: str = "") -> None:
        ended = "" if status is None else f" (status {status}; docs/REFUSALS.md)"
        super().__init__(line + ended + (f"\n{about}" if about else ""))
        self.line, self.status = line, status


def found_lift() -> str:
    """What the environment's LIFT names, or the repository's `lift`, or the one on PATH.

    It is in the repository where the package or the current folder is.
    """
    if os.environ.get("LIFT"):
        return os.environ["LIFT"]
    for folder in (REPOSITORY, Path.cwd(), *Path.cwd().parents):
        if (folder / "crates" / "lift_cli").is_dir() and (folder / "lift").is_file():
            return str(folder / "lift")
    found = shutil.which("lift")
    if not found:
        raise LiftError(
            "there is no program lift: name it by the environment's LIFT, "
            "put it on PATH, or work in lift's repository"
        )
    return found


def lift(*words: object, program: str | None = None) -> str:
    """What `lift` writes on these words; LiftError where it refuses.

    What it writes on standard error beside the line of a refusal is shown there as it comes: the
    first call of the repository's `lift` proves and builds it, and says how far it is.
    """
    program = program or found_lift()
    said = ""
    with tempfile.TemporaryFile() as out:
        try:
            run = subprocess.Popen([program, *map(str, words)], stdout=out, stderr=subprocess.PIPE)
        except OSError as why:
            raise LiftError(f"can't run {program}: {why.strerror}") from None
        with run:
            for line in run.stderr or ():
                sys.stderr.write(said)
                said = line.decode("utf-8", "replace")
        out.seek(0)
        text = out.read().decode("latin-1")
    if run.returncode:
        raise LiftError(said.strip() or f"{program} ended", run.returncode)
    sys.stderr.write(said)
    return text
