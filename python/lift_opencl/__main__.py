"""Prints the kernels of a program with their parameters, as hosts in any language need them.

    python3 -m lift_opencl PROGRAM SCRIPT [SIZE=NUMBER ..]

A line for each buffer: its name in the kernel, what it holds, its type and its length in words;
then the sizes.
"""
import signal
import sys

from .command import LiftError
from .function import Function


def main() -> None:
    signal.signal(signal.SIGPIPE, signal.SIG_DFL)
    files, told = sys.argv[1:3], dict(it.partition("=")[::2] for it in sys.argv[3:])
    if len(files) < 2 or not all(it.isdigit() for it in told.values()):
        sys.exit(__doc__)
    try:
        Function(*files).explain(**{name: int(it) for name, it in told.items()})
    except (LiftError, TypeError, ValueError) as why:
        sys.exit(f"lift_opencl: {why}")


if __name__ == "__main__":
    main()
