"""What `lift` refuses, with the lines and statuses of docs/REFUSALS.md."""
import contextlib
import io
import os
import tempfile
import unittest
from pathlib import Path
from unittest import mock

from lift_opencl import Function, LiftError, explained
from lift_opencl.command import found_lift, lift

from .examples import REPOSITORY

PLUS = r"size N from 1 to 1000; input xs: [u32; N]; output map(\x. add(x, 1), xs)"
# a program, a script, the line, the status, the spot where there is one, and what is wanted
REFUSED = [
    (
        "output map(",
        "",
        "lift: program: token 4, byte 11",
        6,
        "output map(\n             ^",
        "`\\`",
    ),
    (
        "# map\noutput ys",
        "",
        "lift: program: token 2, byte 13",
        6,
        "line 2:\n  output ys\n         ^",
        "a declared name",
    ),
    (
        PLUS.replace("\\x", "\a"),
        "",
        "lift: program: token 20, byte 54",
        6,
        PLUS.replace("\\x", "\a"),
        "begins with r",
    ),
    (
        PLUS.replace("x, 1", "xs, 1"),
        "",
        "lift: type: operator at 1",
        7,
        "",
        "operands are numbers",
    ),
    (
        PLUS,
        "at . to-seq\nat . to-sequence",
        "lift: script: line 2",
        8,
        "at . to-sequence",
        "near it: to-seq",
    ),
    (
        PLUS,
        "# one\n\nat . copy\n at . join-split",
        "lift: step 2: shape",
        9,
        "line 4:\n  at . join-split",
        "`join-split` is for `join",
    ),
    (
        PLUS,
        "launch local 4\nat 7 copy",
        "lift: step 1: no place",
        9,
        "line 2:\n  at 7 copy",
        "a place of this term",
    ),
    (PLUS, "", "lift: nest: N1 at .", 11, "", "plain `map` stands at: ."),
]


def refused(program: str, script: str) -> LiftError:
    """The error that comes of two texts."""
    try:
        Function.from_text(program, script)
    except LiftError as error:
        return error
    raise AssertionError("it isn't refused")


class Refusals(unittest.TestCase):
    def test_lines(self) -> None:
        for program, script, line, status, _, wanted in REFUSED:
            with self.subTest(line):
                error = refused(program, script)
                self.assertEqual((error.line, error.status), (line, status))
                self.assertIn(f"{line} (status {status}; docs/REFUSALS.md)", str(error))
                self.assertIn(wanted, str(error))
                self.assertIn("do:", str(error))

    def test_spots(self) -> None:
        """What is shown where the repository's tools aren't there."""
        with mock.patch.object(explained, "tools", return_value=iter(())):
            for program, script, line, status, spot, _ in REFUSED:
                with self.subTest(line):
                    told, *about = str(refused(program, script)).split("\n", 1)
                    self.assertEqual(told, f"{line} (status {status}; docs/REFUSALS.md)")
                    self.assertEqual(bool(about), bool(spot))
                    self.assertIn(spot, "".join(about))

    def test_no_file(self) -> None:
        with self.assertRaises(LiftError) as caught:
            Function("no-such-program.lift", "no-such-script.txt")
        error = caught.exception
        self.assertEqual((error.line, error.status), ("lift: read no-such-program.lift", 3))

    def test_texts_for_files(self) -> None:
        with self.assertRaisesRegex(ValueError, "Function.from_text takes texts"):
            Function(PLUS + "\n", "at . to-seq\n")

    def test_high_term(self) -> None:
        """A term is at most 256 high."""
        body = "let a = " * 253 + "x" + " in add(a, 1)" * 253
        function = Function.from_text(PLUS.replace("add(x, 1)", body), "at . to-seq")
        self.assertEqual(function(xs=[0, 1, 2]).tolist(), [253, 254, 255])

    def test_long_line(self) -> None:
        """Of a long line some characters around the spot are shown."""
        program = PLUS.replace("x, 1", "add(x, " * 100 + "1 " + ")" * 100)
        with mock.patch.object(explained, "tools", return_value=iter(())):
            _, _, text, mark = str(refused(program, "")).split("\n")
        self.assertEqual(text[len(mark) - 1 :].rstrip(")"), "), xs")
        self.assertLess(len(text), 100)


class Program(unittest.TestCase):
    def ran(self, ending: str) -> tuple[str, str]:
        """What is shown on standard error, and what comes of a program that says how far it is."""
        with tempfile.TemporaryDirectory() as folder:
            program = Path(folder, "lift")
            program.write_text(
                f"#!/bin/sh\necho 1 of 2 >&2\necho 2 of 2 >&2\necho text\n{ending}\n"
            )
            program.chmod(0o755)
            shown = io.StringIO()
            with contextlib.redirect_stderr(shown):
                try:
                    text = lift("steps", program=str(program))
                except LiftError as error:
                    text = str(error)
        return shown.getvalue(), text

    def test_progress(self) -> None:
        both = "1 of 2\n2 of 2\n"
        self.assertEqual(self.ran(""), (both, "text\n"))
        refused = "echo lift: step 1: shape >&2; exit 9"
        line = "lift: step 1: shape (status 9; docs/REFUSALS.md)"
        self.assertEqual(self.ran(refused), (both, line))

    def test_environment_first(self) -> None:
        with mock.patch.dict(os.environ, LIFT="/somewhere/lift"):
            self.assertEqual(found_lift(), "/somewhere/lift")
            with self.assertRaisesRegex(LiftError, "can't run /somewhere/lift: No such file"):
                Function.from_text(PLUS, "at . to-seq")

    def test_then_the_repository(self) -> None:
        with mock.patch.dict(os.environ):
            os.environ.pop("LIFT", None)
            self.assertEqual(found_lift(), str(REPOSITORY / "lift"))


if __name__ == "__main__":
    unittest.main()
