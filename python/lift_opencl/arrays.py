"""numpy arrays and the buffers of a kernel: one buffer of words for each component of a type."""
from __future__ import annotations

from typing import Any, Iterator, Union

import numpy

from .array_types import Pair, Type, components, element, lengths

MOST = 2**32 - 1
Words = numpy.ndarray
# a component's array, or the two parts of a pair
Value = Union[numpy.ndarray, "tuple[Value, Value]"]


def words(name: str, value: Any) -> Words:
    """The value as an array of words; an error where a number would become another one."""
    try:
        array = numpy.asarray(value)
    except ValueError as why:
        raise ValueError(f"{name}: {why}") from None
    if array.dtype == numpy.uint32:
        return array
    if array.dtype.kind not in "uib" and array.size:
        raise TypeError(
            f"{name} has numbers of type {array.dtype}, "
            "and those of a program are words of 32 bits: numpy.uint32"
        )
    beyond = numpy.argwhere((array < 0) | (array > MOST))
    if len(beyond):
        where = tuple(beyond[0].tolist())
        at = f" at {list(where)}" if where else ""
        raise ValueError(
            f"{name} has {array[where]}{at}, and a word of 32 bits is from 0 to {MOST}"
        )
    return array.astype(numpy.uint32)


def parts(name: str, value: Any, of: Type, rank: int) -> list[Words]:
    """The arrays of an element's components, in a value of so many axes.

    A tuple has the two parts of a pair; an array has a pair's numbers along its last axis.
    """
    if not isinstance(of, Pair):
        return [words(name, value)]
    if isinstance(value, tuple) and len(value) == 2:
        first, second = value
        return parts(name, first, of.first, rank) + parts(name, second, of.second, rank)
    count = len(components(of))
    if isinstance(value, numpy.ndarray) and value.ndim == rank + 1 and value.shape[-1] == count:
        whole = words(name, value)
        return [whole[..., k] for k in range(count)]
    raise TypeError(
        f"{name} has elements {of}: give a tuple of two for each pair, "
        f"or one array whose last axis has {count} numbers"
    )


def components_of(name: str, value: Any, type: Type) -> list[Words]:
    """The arrays of an input's components, all of one shape, with an axis for each length."""
    rank = len(lengths(type))
    arrays = parts(name, value, element(type), rank)
    shapes = sorted({it.shape for it in arrays})
    if any(len(it) != rank for it in shapes):
        raise ValueError(
            f"{name} is {type}, an array of {rank} {'axis' if rank == 1 else 'axes'}, "
            f"and its shape is {shapes[0]}"
        )
    if len(shapes) > 1:
        raise ValueError(
            f"{name}: its parts are of different shapes, {' and '.join(map(str, shapes))}"
        )
    return arrays


def nested(arrays: Iterator[Words], of: Type) -> Value:
    """The value whose components the arrays are: a tuple for each pair."""
    if isinstance(of, Pair):
        return nested(arrays, of.first), nested(arrays, of.second)
    return next(arrays)
