#!/usr/bin/env python3
"""The loop nest of a kernel: who takes the turns of each loop, what it reads and writes, and where
barriers stand.

    ./lift compile PROGRAM SCRIPT | tools/nest.py       of several kernels: ./lift stages
    tools/nest.py KERNEL..                              of files

A line is a loop or an `if`, further in than the one that it stands in, with what is read and
written there. `all items` are those of the launch, `groups` its work-groups, `items` those of a
group, `each item` stands where an item has one turn and no loop, `in turn` is a loop of one
work-item.
"""
import argparse
import re
import signal
import sys

from calls import text_of
from kernels import LOOP, TEST

TAKERS = {"global": "all items", "group": "groups", "local": "items"}
ID = re.compile(r"\(uint\)get_(global|group|local)_id\((\d)\)")


def accesses(statement):
    """What a statement reads or writes in an array: `v0 = a0[..]`, `o0[..] = v0`, and in fours
    `w0 = vload4(.., a0)`, `vstore4(.., o0)`."""
    fours = re.search(r"^(w\d+ = vload4|vstore4)\(.*, (\w+)\);", statement)
    if fours:
        return [f"{'writes' if fours[1] == 'vstore4' else 'reads'} {fours[2]} in fours"]
    reads = [f"reads {it}" for it in re.findall(r" = ([alp]\d+)\[", statement)]
    return reads + [f"writes {it}" for it in re.findall(r"^([olp]\d+)\[", statement)]


def plain(bound):
    return re.sub(r"\b(\d+)u\b", r"\1", bound)


def taker(start):
    """Who takes the turns from a start on; a dimension behind the first is told."""
    found = ID.fullmatch(start)
    if not found:
        return "in turn" if start == "0u" else f"in turn from {plain(start)}"
    return TAKERS[found[1]] + ("" if found[2] == "0" else f" of dimension {found[2]}")


def head_of(statement):
    """Who takes the turns of a loop or of an `if`, None for another statement."""
    loop, test = LOOP.fullmatch(statement), TEST.fullmatch(statement)
    if loop:
        return f"{taker(loop[2])} {loop[1]} < {plain(loop[3])}"
    return f"{taker(test[1])} below {plain(test[2])}" if test else None


class Nest:
    """A kernel's loops, `if`s and barriers so far, each a line: its words, then its accesses.

    A local map that is neither a loop nor an `if` has the line `each item`: what stands in the body
    over groups itself, from one barrier, loop or `if` of all items to the next; so have the loads
    of a row of groups.
    """

    def __init__(self):
        # what is around, the innermost last
        self.lines, self.around = [], []

    def line(self, words):
        self.lines.append(["  " * len(self.around) + words])
        return self.lines[-1]

    def go_into(self, words):
        self.around.append(self.line(words))

    def begin_item(self):
        if self.around and all(it[0].strip().startswith("groups") for it in self.around):
            self.go_into("each item")

    def end_item(self):
        if self.around and self.around[-1][0].strip() == "each item":
            self.around.pop()

    def take(self, statement):
        head = head_of(statement)
        of_several = re.match(r"__kernel .*void (lift\d+)\(", statement)
        if of_several:
            self.line(of_several[1])
        if head and head.startswith("in turn"):
            self.begin_item()
            self.go_into(head)
        elif head:
            self.end_item()
            self.go_into(head)
        elif statement.startswith("barrier"):
            self.end_item()
            self.line("barrier")
        elif statement == "}" and self.around:
            self.end_item()
            self.around.pop()
        elif self.around and accesses(statement):
            self.begin_item()
            line = self.around[-1]
            line += [it for it in accesses(statement) if it not in line]


def nest(kernel):
    """A kernel's loops, `if`s and barriers: who takes turns, and what they read and write."""
    made = Nest()
    for statement in map(str.strip, kernel.splitlines()):
        made.take(statement)
    return "".join(f"{head}{': ' if did else ''}{', '.join(did)}\n" for head, *did in made.lines)


def main():
    usage = argparse.ArgumentParser(
        description=__doc__, formatter_class=argparse.RawDescriptionHelpFormatter
    )
    usage.add_argument("kernels", nargs="*", metavar="KERNEL", help="files; none: standard input")
    files = usage.parse_args().kernels
    signal.signal(signal.SIGPIPE, signal.SIG_DFL)
    for text in list(map(text_of, files)) or [sys.stdin.read()]:
        print(nest(text), end="")


if __name__ == "__main__":
    main()
