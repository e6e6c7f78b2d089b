"""A program's sizes, from the shapes of its inputs."""
from __future__ import annotations

from bisect import bisect_left
from dataclasses import dataclass
from typing import Any, Iterator, Mapping, Sequence

from .array_types import Type, lengths
from .lengths import Length
from .program import Size

Sizes = Mapping[str, int]


@dataclass(frozen=True)
class Axis:
    """An axis of an input: its length in the type, and how many elements the array has there."""

    input: str
    length: Length
    elements: int

    def solution(self, size: Size, found: Sizes) -> int:
        """The value of a size, the only one that isn't found, at which the length is right.

        A length grows with each size that is in it: it has no negative coefficient in what the
        sizes are above their least values, or `lift` wouldn't show it at least 1.
        """
        length = self.length.given(found)
        values = range(size.least, size.most + 1, size.multiple)
        at = bisect_left(values, self.elements, key=lambda it: int(length.at({size.name: it})))
        if at == len(values) or length.at({size.name: values[at]}) != self.elements:
            raise ValueError(f"{self}: no {size} gives that{self.where(found)}")
        return values[at]

    def check(self, found: Sizes) -> None:
        """ValueError where the array has another length, at sizes that are all found."""
        if self.length.at(found) != self.elements:
            raise ValueError(f"{self}, which is {self.length.at(found)}{self.where(found)}")

    def where(self, found: Sizes) -> str:
        """What is found of the length's sizes, in words."""
        told = [f"{name} = {found[name]}" for name in sorted(self.length.names()) if name in found]
        return f" where {', '.join(told)}" if told else ""

    def __str__(self) -> str:
        return f"{self.input} has {self.elements} elements along {self.length}"


def sizes_of(
    declared: Mapping[str, Size],
    inputs: Mapping[str, Type],
    shapes: Mapping[str, tuple[int, ...]],
    given: Sizes,
) -> dict[str, int]:
    """Each declared size, from the shapes of the inputs' components and those that are given.

    An axis tells a size where all others of its length are found.
    """
    found = {name: admitted(declared[name], value) for name, value in given.items()}
    axes = [
        Axis(name, *axis)
        for name, type in inputs.items()
        for axis in zip(lengths(type), shapes[name])
    ]
    while told := next(told_by(axes, found), None):
        axis, name = told
        found[name] = axis.solution(declared[name], found)
    missing = [name for name in declared if name not in found]
    if missing:
        raise TypeError(f"no input's shape tells {', '.join(missing)}: give it, as {missing[0]}=8")
    for axis in axes:
        axis.check(found)
    return {name: found[name] for name in declared}


def told_by(axes: Sequence[Axis], found: Sizes) -> Iterator[tuple[Axis, str]]:
    """The axes that tell a size beside those that are found, and that size."""
    for axis in axes:
        unknown = axis.length.given(found).names()
        if len(unknown) == 1:
            yield axis, unknown.pop()


def admitted(size: Size, value: Any) -> int:
    """A size that is given, if the program admits it."""
    if isinstance(value, bool) or not hasattr(value, "__index__"):
        raise TypeError(f"{size.name} is a whole number")
    number = int(value)
    if not size.admits(number):
        raise ValueError(f"{size.name} is {number}, and the program has size {size}")
    return number
