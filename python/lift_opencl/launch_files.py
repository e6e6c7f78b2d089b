"""Values as launch files and result lines have them: nested lists, a pair is a list of two."""
from __future__ import annotations

from typing import Any, Iterator, Mapping

from .array_types import Type, components, element, lengths
from .arrays import Value, nested, words


def inputs_of(launch: Mapping[str, Any], types: Mapping[str, Type]) -> dict[str, Value]:
    """The inputs of a launch file as arrays; `types` are a function's `inputs`."""
    return {name: from_lists(launch["inputs"][name], type) for name, type in types.items()}


def from_lists(value: Any, type: Type) -> Value:
    """A value of a type as arrays."""
    shape, inner = [], value
    for _ in lengths(type):
        shape.append(len(inner))
        inner = inner[0]
    count = len(components(type))
    flat = words("the value", list(numbers(value))).reshape(*shape, count)
    return nested(iter([flat[..., k] for k in range(count)]), element(type))


def to_lists(value: Value) -> Any:
    """Arrays as nested lists."""
    if not isinstance(value, tuple):
        return value.tolist()
    first, second = map(to_lists, value)
    return paired(first, second, rank_of(value))


def rank_of(value: Value) -> int:
    return rank_of(value[0]) if isinstance(value, tuple) else value.ndim


def paired(first: Any, second: Any, rank: int) -> Any:
    """The elements of two nested lists in pairs."""
    if rank == 0:
        return [first, second]
    return [paired(a, b, rank - 1) for a, b in zip(first, second)]


def numbers(value: Any) -> Iterator[int]:
    """The numbers of nested lists, from left to right."""
    if isinstance(value, list):
        for it in value:
            yield from numbers(it)
    else:
        yield value
