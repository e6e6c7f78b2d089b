"""Kernels: their parameters and work-items."""
from __future__ import annotations

import re
from dataclasses import dataclass
from functools import reduce
from operator import mul
from typing import Mapping, Union

from .array_types import Type, array, components, lengths
from .lengths import Length
from .program import Declarations, Term, made_by_kernels, of_one_kernel

MOST_ITEMS, MOST_LOCAL = 65536, 256
# the local size of a kernel without groups, where none is given
USUAL_LOCAL = 64
# work-items along a row, or along a row and from row to row
Size = Union[int, tuple[int, int]]
# the maps along a row, and those over rows
FORMS = [("mapGlb", "mapWrg", "mapLcl"), ("mapGlb1", "mapWrg1", "mapLcl1")]


def pair(size: Size) -> tuple[int, int]:
    """A size along both dimensions: a number is one row."""
    return size if isinstance(size, tuple) else (size, 1)


def told(across: int, down: int) -> Size:
    """A size as a number where it is one row."""
    return across if down == 1 else (across, down)


@dataclass(frozen=True)
class Parameter:
    """A buffer of a kernel: what it holds, and the type of which it is one component."""

    name: str
    holds: str
    type: Type

    def words(self, sizes: Mapping[str, int]) -> Length:
        """How many words it has, as far as the sizes are told."""
        told = (it.given(sizes) for it in lengths(self.type))
        return reduce(mul, told, Length.number(1))

    def count(self, sizes: Mapping[str, int]) -> int:
        """The same where all sizes are told."""
        return int(self.words(sizes).at(sizes))


@dataclass(frozen=True)
class Kernel:
    """A kernel in OpenCL C.

    `inputs` and `outputs` are its buffers in order, and behind them come the program's sizes.
    `local_size` is the one that its first line asks for, a tuple where it has several rows, None
    where it takes any. What it makes is the value of `term`.
    """

    name: str
    text: str
    inputs: list[Parameter]
    outputs: list[Parameter]
    local_size: Size | None
    term: Term

    @property
    def one_item(self) -> bool:
        """Whether it is for one work-item."""
        return "get_" not in self.text

    @property
    def one_row(self) -> bool:
        """Whether its work-items are one row: it has no map over rows."""
        return not re.search(r"get_\w+\(1\)", self.text)

    def spread(self, form: str, sizes: Mapping[str, int]) -> int:
        """The length of the longest map of a form, 0 where there is none."""
        maps = (it for it in of_one_kernel(self.term) if it.form == form)
        return int(max((array(it.type).length.at(sizes) for it in maps), default=0))

    def work_items(
        self,
        sizes: Mapping[str, int],
        most: int,
        global_size: Size | None = None,
        local_size: Size | None = None,
    ) -> tuple[Size, Size]:
        """The global and the local size of a launch, on a device with groups of at most `most`.

        A size of several rows is a tuple: how many items a row has, and how many rows. Where they
        aren't given, a group has an item for each element of the longest `mapLcl`, or 64 where
        there is none; and there is a group for each element of a `mapWrg`, an item for each of a
        `mapGlb`, and so for rows, as far as they are admissible. Each launch gives the same value.
        """
        local = self.local_size if local_size is None else local_size
        if local is None:
            local = self.usual_local(sizes, most, global_size)
        total = self.usual_global(sizes, local) if global_size is None else global_size
        self.check(total, local, most)
        return told(*pair(total)), told(*pair(local))

    def usual_local(self, sizes: Mapping[str, int], most: int, total: Size | None) -> Size:
        """The local size where none is given; it divides the global size that is."""
        room, usual, local = min(MOST_LOCAL, most), USUAL_LOCAL, []
        for of_launch, _, of_group in FORMS:
            elements = max(self.spread(of_launch, sizes), 1)
            local.append(min(self.spread(of_group, sizes) or min(usual, elements), room))
            room, usual = room // local[-1], max(usual // local[-1], 1)
        if total is not None:
            each = zip(local, pair(total))
            local = [greatest_divisor(all, most) if all > 0 else most for most, all in each]
        return told(*local)

    def usual_global(self, sizes: Mapping[str, int], local: Size) -> Size:
        """The global size where none is given, at a local size."""
        across, down = (max(it, 1) for it in pair(local))
        room, total = MOST_ITEMS // (across * down), []
        for (of_launch, of_groups, _), items in zip(FORMS, (across, down)):
            elements, groups = self.spread(of_launch, sizes), self.spread(of_groups, sizes)
            wanted = min(max(groups, -(-elements // items), 1), room)
            total.append(items * wanted)
            room //= max(wanted, 1)
        return told(*total)

    def check(self, total: Size, local: Size, most: int) -> None:
        """ValueError where a launch isn't admissible."""
        at = f"{self.name}: global size {total}, local size {local}: "
        all, group = pair(total), pair(local)
        if self.one_item and (all, group) != ((1, 1), (1, 1)):
            raise ValueError(at + "this kernel is for one work-item")
        if self.one_row and (all[1], group[1]) != (1, 1):
            raise ValueError(at + "this kernel is for one row of work-items")
        few = 1 <= min(all) and all[0] * all[1] <= MOST_ITEMS
        small = 1 <= min(group) and group[0] * group[1] <= MOST_LOCAL
        if not (few and small and all[0] % group[0] == all[1] % group[1] == 0):
            raise ValueError(at + "local is 1 to 256, global 1 to 65536, and local divides global")
        if self.local_size not in (None, told(*group)):
            raise ValueError(at + f"this kernel is for groups of {self.local_size}")
        if group[0] * group[1] > most:
            raise ValueError(at + f"on this device its groups have at most {most} items")


def greatest_divisor(number: int, most: int) -> int:
    """The greatest divisor of a number that is at most this."""
    return max(it for it in range(1, most + 1) if number % it == 0)


def kernels(text: str, term: Term, declared: Declarations) -> list[Kernel]:
    """The kernels of a text, in order; the term is the script's last one, with types."""
    texts = re.split(r"^(?=__kernel )", text, flags=re.M)[1:]
    parts = made_by_kernels(term)
    names = [found(r"void (\w+)\(", it) for it in texts]
    made = [*[f"what {name} makes" for name in names[:-1]], "the output"]
    # what is there before a kernel: the inputs, and what the kernels before it made
    there = buffers("a", declared.inputs)
    kernels = []
    for name, kernel, holds, part in zip(names, texts, made, parts):
        fixed = re.search(r"reqd_work_group_size\((\d+), (\d+), 1\)", kernel)
        outputs = buffers("o", {holds: part.type})
        local_size = told(*map(int, fixed.groups())) if fixed else None
        kernels.append(Kernel(name, kernel, list(there), outputs, local_size, part))
        there += buffers("a", {holds: part.type}, len(there))
    return kernels


def buffers(letter: str, values: Mapping[str, Type], first: int = 0) -> list[Parameter]:
    """The buffers of values, one for each component, with names from a number on."""
    holds = [
        (f"{name}, {part}" if part else name, type)
        for name, type in values.items()
        for part in components(type)
    ]
    return [Parameter(f"{letter}{k}", *it) for k, it in enumerate(holds, first)]


def found(pattern: str, text: str) -> str:
    """What a pattern's group is in a text, empty where it isn't there."""
    at = re.search(pattern, text)
    return at[1] if at else ""
