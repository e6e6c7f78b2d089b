"""Lengths of arrays: polynomials in a program's sizes."""
from __future__ import annotations

from collections import Counter
from fractions import Fraction
from math import prod
from typing import Mapping

Monomial = tuple[str, ...]


class Length:
    """A polynomial in sizes. `split` divides lengths, so its coefficients may be fractions: N/4."""

    def __init__(self, terms: Mapping[Monomial, int | Fraction]) -> None:
        self.terms = {names: Fraction(factor) for names, factor in terms.items() if factor}

    @classmethod
    def number(cls, number: int) -> Length:
        return cls({(): number})

    @classmethod
    def size(cls, name: str) -> Length:
        return cls({(name,): 1})

    def __add__(self, other: Length) -> Length:
        terms = dict(self.terms)
        for names, factor in other.terms.items():
            terms[names] = terms.get(names, Fraction(0)) + factor
        return Length(terms)

    def __sub__(self, other: Length) -> Length:
        return self + other * Length.number(-1)

    def __mul__(self, other: Length) -> Length:
        made = Length({})
        for names, factor in self.terms.items():
            for more, by in other.terms.items():
                made += Length({tuple(sorted(names + more)): factor * by})
        return made

    def __truediv__(self, monomial: Length) -> Length:
        """The quotient by a length of one monomial, as a `split` has it, which divides this one."""
        ((gone, by),) = monomial.terms.items()
        left = {}
        for names, factor in self.terms.items():
            counts = Counter(names)
            counts.subtract(gone)
            if min(counts.values(), default=0) < 0:
                raise ValueError(f"{monomial} doesn't divide {self}")
            left[tuple(sorted(counts.elements()))] = factor / by
        return Length(left)

    def given(self, sizes: Mapping[str, int]) -> Length:
        """The same with numbers for the sizes that are told."""
        made = Length({})
        for names, factor in self.terms.items():
            factor *= prod(sizes[name] for name in names if name in sizes)
            made += Length({tuple(name for name in names if name not in sizes): factor})
        return made

    def at(self, sizes: Mapping[str, int]) -> Fraction:
        """Its value, where all its sizes are told."""
        values = (by * prod(sizes[name] for name in names) for names, by in self.terms.items())
        return sum(values, Fraction(0))

    def names(self) -> set[str]:
        """The sizes in it."""
        return {name for names in self.terms for name in names}

    def __eq__(self, other: object) -> bool:
        return isinstance(other, Length) and self.terms == other.terms

    def __hash__(self) -> int:
        return hash(frozenset(self.terms.items()))

    def __str__(self) -> str:
        text = ""
        for names, factor in sorted(self.terms.items(), key=lambda it: (-len(it[0]), it[0])):
            sign = "-" if factor < 0 else "+"
            top, under = abs(factor).as_integer_ratio()
            product = "*".join([str(top)] * (top != 1 or not names) + list(names))
            text += f" {sign} " if text else sign.strip("+")
            text += product if under == 1 else f"{product}/{under}"
        return text or "0"

    def __repr__(self) -> str:
        return f"Length({self})"
