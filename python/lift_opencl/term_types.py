"""The type of each node of a term that `lift` has accepted (docs/LANGUAGE.md, 'Types').

Nothing is judged here: `lift` did that for all admissible sizes. A rule only says what comes out.
"""
from __future__ import annotations

from typing import Callable, Mapping

from .array_types import FOUR, Array, Pair, Type, Vector, Word, array
from .lengths import Length
from .program import FOLDS, MAPS, Term

ONE = Length.number(1)
# whose value is a word, or a vector where an operand is, and whose type is their operand's
WORDS = "add sub mul div rem min max and or xor shl shr lt eq select".split()
SAME = ("reverse", "stride", "toLocal", "toPrivate", "then")
Names = Mapping[str, Type]


def with_types(term: Term, names: Names) -> Type:
    """Writes its type at each node; `names` has the types of the inputs and binders around it."""
    term.type = type_of(term, names)
    return term.type


def type_of(term: Term, names: Names) -> Type:
    if not term.children:
        return names.get(term.form, Word())
    if term.form in MAPS + FOLDS or term.form == "let":
        return of_binder(term, names)
    children = [with_types(child, names) for child in term.children]
    if term.form in WORDS:
        return next((it for it in children if isinstance(it, Vector)), Word())
    if term.form in SAME:
        return children[0]
    if term.form not in RULES:
        raise ValueError(f"the form {term.form} is new to lift_opencl")
    return RULES[term.form](*children, *term.numbers)


def of_binder(term: Term, names: Names) -> Type:
    """A map, a fold or a `let`: its last child has names of its own."""
    first, *start = [with_types(child, names) for child in term.children[:-1]]
    bound = [*start, first if term.form == "let" else array(first).element]
    body = with_types(term.children[-1], {**names, **dict(zip(term.binders, bound))})
    if term.form == "let":
        return body
    return Array(body, array(first).length if term.form in MAPS else ONE)


def split(xs: Array, length: Length) -> Type:
    return Array(Array(xs.element, length), xs.length / length)


def join(xs: Array) -> Type:
    row = array(xs.element)
    return Array(row.element, xs.length * row.length)


def transpose(xs: Array) -> Type:
    row = array(xs.element)
    return Array(Array(row.element, xs.length), row.length)


def slide(xs: Array, length: Length, step: Length) -> Type:
    return Array(Array(xs.element, length), (xs.length - length) / step + ONE)


def pad(xs: Array, left: Length, right: Length) -> Type:
    return Array(xs.element, left + xs.length + right)


def zipped(xs: Array, ys: Array) -> Type:
    return Array(Pair(xs.element, ys.element), xs.length)


RULES: dict[str, Callable[..., Type]] = {
    "reduce": lambda xs, start: Array(start, ONE),
    "zip": zipped,
    "pair": Pair,
    "first": lambda pair: pair.first,
    "second": lambda pair: pair.second,
    "split": split,
    "join": join,
    "transpose": transpose,
    "slide": slide,
    "pad": pad,
    "asVector": lambda xs, four: Array(Vector(), xs.length / four),
    "asScalar": lambda xs: Array(Word(), xs.length * FOUR),
}
