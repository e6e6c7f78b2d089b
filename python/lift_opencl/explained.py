"""What the repository's tools/why.py says of a refusal, for an error's further lines."""
from __future__ import annotations

import os
import shutil
import subprocess
import sys
import tempfile
from pathlib import Path
from typing import Iterator

from .command import REPOSITORY, found_lift

# the longest that is waited for it, in seconds
LONGEST = 30


def explained(line: str, command: str, program: str, script: str, lift: str | None = None) -> str:
    """What is said of the line that a command gives on the texts of a program and a script.

    Empty where no repository with the tools is at hand: neither the package nor `lift` is in one.
    """
    named = lift or found_lift()
    lift = os.path.abspath(shutil.which(named) or named)
    tool = next(tools(lift), None)
    if tool is None:
        return ""
    with tempfile.TemporaryDirectory() as folder:
        for name, text in (("program", program), ("script", script)):
            Path(folder, name).write_bytes(text.encode("latin-1"))
        words = [sys.executable, str(tool), command, "program", "script"]
        try:
            done = subprocess.run(
                words,
                cwd=folder,
                env={**os.environ, "LIFT": lift},
                capture_output=True,
                timeout=LONGEST,
            )
        except (OSError, subprocess.TimeoutExpired):
            return ""
    first, _, others = done.stderr.decode("utf-8", "replace").partition("\n")
    return others.rstrip() if first == line else ""


def tools(lift: str) -> Iterator[Path]:
    for folder in (REPOSITORY, *Path(lift).resolve().parents):
        if (folder / "crates" / "lift_cli").is_dir() and (folder / "tools" / "why.py").is_file():
            yield folder / "tools" / "why.py"
