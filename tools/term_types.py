"""The types of the nodes of a well-typed term, with lengths as polynomials in the program's sizes.

Whether a term is well-typed is told by `lift` alone: of one that isn't, a node's type is None here
or one that it hasn't.
"""
import re
from fractions import Fraction
from typing import NamedTuple

from grammar import OPERATORS, Program
from places import FOLDS, MAPS, Node


class Length:
    """A polynomial: the coefficient of each product of names of sizes, the names in order."""

    def __init__(self, terms: dict[tuple[str, ...], Fraction]):
        self.terms = {names: it for names, it in terms.items() if it}

    @staticmethod
    def of(text: str) -> "Length":
        """The length that a text writes."""
        made = Length({})
        for sign, product in re.findall(r"([+-]?)([^+-]+)", text.replace(" ", "")):
            made = made.plus(monomial(product), -1 if sign == "-" else 1)
        return made

    def plus(self, other: "Length", times=1) -> "Length":
        terms = dict(self.terms)
        for names, it in other.terms.items():
            terms[names] = terms.get(names, Fraction(0)) + times * it
        return Length(terms)

    def times(self, other: "Length") -> "Length":
        made = Length({})
        for names, it in self.terms.items():
            products = {tuple(sorted(names + more)): it * its for more, its in other.terms.items()}
            made = made.plus(Length(products))
        return made

    def over(self, other: "Length") -> "Length | None":
        """The quotient by a product, None where there is none without names below the line."""
        ((below, by),) = other.terms.items()
        made = {}
        for names, it in self.terms.items():
            left = list(names)
            for name in below:
                if name not in left:
                    return None
                left.remove(name)
            made[tuple(left)] = it / by
        return Length(made)

    def at(self, sizes: dict[str, int]) -> int:
        """The length at given sizes."""
        total = Fraction(0)
        for names, it in self.terms.items():
            for name in names:
                it = it * sizes[name]
            total += it
        return int(total)

    def __str__(self) -> str:
        rows = sorted(self.terms.items(), key=lambda it: (-len(it[0]), it[0]))
        text = "".join(f" {'-' if it < 0 else '+'} {product(names, abs(it))}" for names, it in rows)
        return text.removeprefix(" + ").strip() or "0"

    def __eq__(self, other) -> bool:
        return isinstance(other, Length) and self.terms == other.terms


def product(names: tuple[str, ...], coefficient: Fraction) -> str:
    """The text of a product."""
    above = [str(coefficient.numerator)] if coefficient.numerator > 1 or not names else []
    below = f"/{coefficient.denominator}" if coefficient.denominator > 1 else ""
    return "*".join(above + list(names)) + below


def monomial(text: str) -> Length:
    """The product that a text writes."""
    made = Length({(): Fraction(1)})
    for factor in text.replace(" ", "").split("*"):
        number = factor.isdecimal()
        made = made.times(
            Length({() if number else (factor,): Fraction(int(factor) if number else 1)})
        )
    return made


class Pair(NamedTuple):
    first: "Type"
    second: "Type"

    def __str__(self) -> str:
        return f"({self.first}, {self.second})"


class Array(NamedTuple):
    element: "Type"
    length: Length

    def __str__(self) -> str:
        return f"[{self.element}; {self.length}]"


# the types of a number and of a vector are these words
NUMBER, VECTOR = "u32", "u32x4"
Type = str | Pair | Array | None
ONE, FOUR = monomial("1"), monomial("4")


def declared(text: str) -> Type:
    """The type that a declaration's text has."""
    text = text.strip()
    if text == NUMBER:
        return NUMBER
    middle = last_mark(text)
    behind = text[middle + 1 : -1]
    if text[0] == "[":
        return Array(declared(text[1:middle]), Length.of(behind))
    return Pair(declared(text[1:middle]), declared(behind))


def last_mark(text: str) -> int:
    """Where an array's semicolon or a pair's comma stands: within its own brackets alone."""
    depth = 0
    for at, mark in enumerate(text):
        depth += (mark in "[(") - (mark in "])")
        if depth == 1 and mark == (";" if text[0] == "[" else ","):
            return at
    raise ValueError(f"no type: {text}")


def types_of(program: Program, term: Node | None = None) -> dict[int, Type]:
    """The type of each node of a program's term, or of one that its script makes, by `id`."""
    made: dict[int, Type] = {}
    names = {name: declared(text) for name, text in program.inputs.items()}
    fill(term or program.term, names, made)
    return made


def fill(node: Node, names: dict[str, Type], made: dict[int, Type]) -> Type:
    """The type of a node, which is noted with those of all nodes below it."""
    inner, before = dict(names), list[Type]()
    for number, child in enumerate(node.children):
        if number == len(node.children) - 1:
            inner |= dict(zip(binders(node), bound_types(node, before)))
        before.append(fill(child, inner, made))
    try:
        made[id(node)] = type_of(node, before, names)
    except (AttributeError, IndexError, TypeError, ValueError, ZeroDivisionError):
        made[id(node)] = None
    return made[id(node)]


def binders(node: Node) -> list[str]:
    """The names that are bound in a node's last child."""
    if node.form == "let" or node.form in MAPS + FOLDS:
        return [it.lstrip("\\") for it in node.words]
    return []


def bound_types(node: Node, before: list[Type]) -> list[Type]:
    """The types of the names that a node binds, from those of the children before its body."""
    element = before[0].element if before and isinstance(before[0], Array) else None
    if node.form == "let":
        return before[:1]
    return [*before[1:2], element] if node.form in FOLDS else [element]


def type_of(node: Node, of: list, names: dict[str, Type]) -> Type:
    """The type of a node whose children have these types."""
    form = node.form
    if not of:
        return names.get(form, NUMBER if form.isdecimal() else None)
    if form in LAYOUTS:
        return LAYOUTS[form](of[0], [Length.of(it) for it in node.words])
    if form in MAPS:
        return Array(of[1], of[0].length)
    if form in FOLDS:
        return Array(of[1], ONE)
    if form in OPERATORS or form in ("div", "rem", "select"):
        return VECTOR if VECTOR in of else NUMBER
    return OTHERS[form](of)


def slid(array: Array, numbers: list[Length]) -> Array:
    size, step = numbers
    return Array(Array(array.element, size), array.length.plus(size, -1).over(step).plus(ONE))


# the type of a form with an array and numbers
LAYOUTS = {
    "split": lambda xs, by: Array(Array(xs.element, by[0]), xs.length.over(by[0])),
    "stride": lambda xs, by: xs,
    "reverse": lambda xs, by: xs,
    "join": lambda xs, by: Array(xs.element.element, xs.length.times(xs.element.length)),
    "transpose": lambda xs, by: Array(Array(xs.element.element, xs.length), xs.element.length),
    "slide": slid,
    "pad": lambda xs, by: Array(xs.element, xs.length.plus(by[0]).plus(by[1])),
    "asVector": lambda xs, by: Array(VECTOR, xs.length.over(by[0])),
    "asScalar": lambda xs, by: Array(NUMBER, xs.length.times(FOUR)),
}
OTHERS = {
    "let": lambda of: of[1],
    "reduce": lambda of: Array(NUMBER, ONE),
    "zip": lambda of: Array(Pair(of[0].element, of[1].element), of[0].length),
    "pair": lambda of: Pair(of[0], of[1]),
    "first": lambda of: of[0].first,
    "second": lambda of: of[0].second,
    "toLocal": lambda of: of[0],
    "toPrivate": lambda of: of[0],
    "then": lambda of: of[0],
}


def components(it: Type) -> int:
    """How many numbers an element's pairs have, which is how many buffers an array takes."""
    if isinstance(it, Pair):
        return components(it.first) + components(it.second)
    return components(it.element) if isinstance(it, Array) else 1


def lengths(it: Type, sizes: dict[str, int]) -> list[int]:
    """The lengths of an array's dimensions at given sizes, the outermost first; those of a pair's
    first part. A vector has four."""
    if isinstance(it, Array):
        return [it.length.at(sizes), *lengths(it.element, sizes)]
    if it == VECTOR:
        return [4]
    return lengths(it.first, sizes) if isinstance(it, Pair) else []
