"""Reads what `lift` has accepted: declarations, and the terms that `lift steps` writes."""
from __future__ import annotations

import re
from dataclasses import dataclass, field
from typing import Callable, Iterator, TypeVar

from .array_types import Array, Pair, Type, Word
from .lengths import Length

TOKEN = re.compile(r"\s*(\w+|.)")
MAPS = ("map", "mapGlb", "mapWrg", "mapLcl", "mapGlb1", "mapWrg1", "mapLcl1", "mapSeq")
FOLDS = ("fold", "foldSeq")
# how many numbers stand before the term
NUMBERS = {"split": 1, "stride": 1, "slide": 2, "pad": 2, "asVector": 1}
Taken = TypeVar("Taken")


@dataclass(frozen=True)
class Size:
    """A declared size and its range."""

    name: str
    multiple: int
    least: int
    most: int

    def admits(self, value: int) -> bool:
        return self.least <= value <= self.most and value % self.multiple == 0

    def __str__(self) -> str:
        by = f"multiple {self.multiple} " if self.multiple > 1 else ""
        return f"{self.name} {by}from {self.least} to {self.most}"


@dataclass(frozen=True)
class Declarations:
    """A program's sizes and inputs, in their order."""

    sizes: dict[str, Size]
    inputs: dict[str, Type]


@dataclass(eq=False)
class Term:
    """A node of a term: its form, its children in the order of places, its binders and numbers.

    Its type stands there once `with_types` has written it.
    """

    form: str
    children: list[Term] = field(default_factory=list)
    binders: list[str] = field(default_factory=list)
    numbers: list[Length] = field(default_factory=list)
    type: Type = Word()

    def is_then(self) -> bool:
        """Whether a kernel of its own makes it; an input may have that name."""
        return self.form == "then" and bool(self.children)


class Parser:
    """The tokens of a text that `lift` has accepted, the next one last."""

    def __init__(self, text: str) -> None:
        self.tokens = TOKEN.findall(re.sub("#.*", "", text).strip())[::-1]

    def next(self) -> str:
        return self.tokens[-1] if self.tokens else ""

    def take(self, *wanted: str) -> str:
        """Takes the next token, one of those that are wanted where any are named."""
        token = self.tokens.pop() if self.tokens else "the end"
        if wanted and token not in wanted:
            raise ValueError(f"{' or '.join(wanted)} is wanted, and {token} stands there")
        return token

    def taken(self, word: str) -> bool:
        """Takes the next token if it is this one."""
        found = self.next() == word
        if found:
            self.take()
        return found

    def number(self) -> int:
        return int(self.take())

    # Declarations

    def declarations(self) -> Declarations:
        made = Declarations({}, {})
        while self.taken("size"):
            size = self.size()
            made.sizes[size.name] = size
        while self.taken("input"):
            name, _ = self.take(), self.take(":")
            made.inputs[name] = self.type()
            self.take(";")
        self.take("output")
        return made

    def size(self) -> Size:
        name = self.take()
        multiple = self.number() if self.taken("multiple") else 1
        _, least, _, most = self.take("from"), self.number(), self.take("to"), self.number()
        self.take(";")
        return Size(name, multiple, least, most)

    def type(self) -> Type:
        mark = self.take("u32", "[", "(")
        if mark == "u32":
            return Word()
        first, _ = self.type(), self.take(";", ",")
        if mark == "[":
            return Array(first, self.behind(self.length, "]"))
        return Pair(first, self.behind(self.type, ")"))

    def length(self) -> Length:
        made = self.monomial()
        while self.next() in ("+", "-"):
            made = made + self.monomial() if self.take() == "+" else made - self.monomial()
        return made

    def monomial(self) -> Length:
        made = self.factor()
        while self.taken("*"):
            made *= self.factor()
        return made

    def factor(self) -> Length:
        token = self.take()
        return Length.number(int(token)) if token.isdigit() else Length.size(token)

    # Terms

    def term(self) -> Term:
        form = self.take()
        if form == "let":
            return self.let()
        if not self.taken("("):
            return Term(form)
        if form in MAPS + FOLDS:
            return self.loop(form)
        if form in NUMBERS:
            numbers = [self.behind(self.monomial, ",") for _ in range(NUMBERS[form])]
            return Term(form, [self.behind(self.term, ")")], numbers=numbers)
        if form == "reduce":
            self.behind(self.take, ",")
            return Term(form, self.terms()[::-1])
        return Term(form, self.terms())

    def behind(self, take: Callable[[], Taken], mark: str) -> Taken:
        """What `take` takes, and the mark behind it."""
        taken = take()
        self.take(mark)
        return taken

    def terms(self) -> list[Term]:
        """Terms parted by commas, and the parenthesis behind them."""
        made = [self.term()]
        while self.take(",", ")") == ",":
            made.append(self.term())
        return made

    def let(self) -> Term:
        name = self.behind(self.take, "=")
        value = self.behind(self.term, "in")
        return Term("let", [value, self.term()], binders=[name])

    def loop(self, form: str) -> Term:
        """A map or a fold: its text has the body, a fold's start, and the array."""
        self.take("\\")
        binders = [self.take()] if form in MAPS else [self.take(), self.take()]
        self.take(".")
        body, *start, array = self.terms()
        return Term(form, [array, *start, body], binders)


def declarations(program: str) -> Declarations:
    """The sizes and inputs that a program declares."""
    return Parser(program).declarations()


def last_term(steps: str) -> Term:
    """The last of the terms that `lift steps` wrote, one to a line."""
    return Parser(steps.splitlines()[-1]).term()


def made_by_kernels(term: Term) -> list[Term]:
    """What each kernel makes: the operands of the `then` nodes in postorder, and the whole."""

    def operands(it: Term) -> Iterator[Term]:
        for child in it.children:
            yield from operands(child)
        if it.is_then():
            yield it.children[0]

    return [*operands(term), term]


def of_one_kernel(term: Term) -> Iterator[Term]:
    """The nodes of a kernel's term: those under a `then` are of a kernel before."""
    yield term
    if not term.is_then():
        for child in term.children:
            yield from of_one_kernel(child)
