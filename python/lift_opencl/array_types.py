"""Types of the pattern language, and the buffers that a value of a type lies in."""
from __future__ import annotations

from dataclasses import dataclass
from typing import Mapping, Union

from .lengths import Length


@dataclass(frozen=True)
class Word:
    """`u32`, a number of 32 bits."""

    def __str__(self) -> str:
        return "u32"


@dataclass(frozen=True)
class Vector:
    """`u32x4`, four numbers of 32 bits, which lie one behind another."""

    def __str__(self) -> str:
        return "u32x4"


@dataclass(frozen=True)
class Pair:
    """`(A, B)`."""

    first: Type
    second: Type

    def __str__(self) -> str:
        return f"({self.first}, {self.second})"


@dataclass(frozen=True)
class Array:
    """`[A; n]`."""

    element: Type
    length: Length

    def __str__(self) -> str:
        return f"[{self.element}; {self.length}]"


Type = Union[Word, Vector, Pair, Array]
FOUR = Length.number(4)


def array(type: Type) -> Array:
    """The type, which is an array's."""
    assert isinstance(type, Array), type
    return type


def given(type: Type, sizes: Mapping[str, int]) -> Type:
    """The type with numbers for the sizes that are told."""
    if isinstance(type, Array):
        return Array(given(type.element, sizes), type.length.given(sizes))
    if isinstance(type, Pair):
        return Pair(given(type.first, sizes), given(type.second, sizes))
    return type


def lengths(type: Type) -> list[Length]:
    """The lengths of the arrays around a number, the outermost first; a vector has four."""
    if isinstance(type, Array):
        return [type.length, *lengths(type.element)]
    return [FOUR] if isinstance(type, Vector) else []


def element(type: Type) -> Type:
    """What stands in the arrays: `u32`, pairs of it, or vectors."""
    return element(type.element) if isinstance(type, Array) else type


def components(type: Type) -> list[str]:
    """The `u32` of the element from left to right, as `first` and `second` lead there.

    There is a buffer for each. A type without a pair has one, with an empty name.
    """
    of = element(type)
    if not isinstance(of, Pair):
        return [""]
    parts = {"first": of.first, "second": of.second}
    return [f"{name}.{it}".rstrip(".") for name, part in parts.items() for it in components(part)]


def shape(type: Type, sizes: Mapping[str, int]) -> tuple[int, ...]:
    """The shape of the numpy array that holds a component, at sizes that the program admits."""
    return tuple(int(it.at(sizes)) for it in lengths(type))
