"""Reads a program's text by the grammar of docs/LANGUAGE.md: its declarations, and its term with
the byte at which each node begins. A text that isn't a program stops at its first token at which it
doesn't go on, and here it is said what is wanted in its place.
"""
import re
import sys
from typing import Callable, NamedTuple, NoReturn

from places import Node

WORDS_MOST, NUMBER_MOST, SIZE_MOST = 32, 2**32 - 1, 2**20
TERMS_DEEP, TYPES_DEEP = 256, 64
TOKEN = re.compile(r"(?:[ \t\r\n]|#[^\n]*)*([A-Za-z][A-Za-z0-9_]*|[0-9]+|[^ \t\r\n#]|\Z)")

REDUCERS = "add mul min max and or xor".split()
OPERATORS = [*REDUCERS, *"sub shl shr lt eq".split()]
# how each form is written
FORMS = {
    **{it: f"{it}(a, b)" for it in OPERATORS},
    "div": "div(a, NUMBER)",
    "rem": "rem(a, NUMBER)",
    "select": "select(condition, a, b)",
    "pair": "pair(a, b)",
    "first": "first(p)",
    "second": "second(p)",
    "let": "let x = value in body",
    "map": "map(\\x. body, array)",
    "reduce": "reduce(OPERATOR, start, array)",
    "fold": "fold(\\a x. body, start, array)",
    "zip": "zip(xs, ys)",
    "join": "join(array)",
    "transpose": "transpose(array)",
    "reverse": "reverse(array)",
    "split": "split(LENGTH, array)",
    "stride": "stride(LENGTH, array)",
    "slide": "slide(SIZE, STEP, array)",
    "pad": "pad(LEFT, RIGHT, array)",
}
LOWERED = {
    "mapGlb": "to-glb",
    "mapWrg": "to-wrg",
    "mapLcl": "to-lcl",
    "mapSeq": "to-seq",
    "foldSeq": "fold-seq",
    "toLocal": "local",
    "toPrivate": "private",
}
DECLARING = "size multiple from to input output u32 in".split()
RESERVED = {*FORMS, *LOWERED, *DECLARING}


class Token(NamedTuple):
    """A token, empty at the text's end, with its number from 1 and the byte where it begins."""

    text: str
    number: int
    offset: int

    @property
    def is_name(self) -> bool:
        letter = self.text[:1].isascii() and self.text[:1].isalpha()
        return letter and len(self.text) <= WORDS_MOST and self.text not in RESERVED

    @property
    def value(self) -> int | None:
        """The number that it writes, None where it is no number."""
        if not re.fullmatch("0|[1-9][0-9]{0,9}", self.text) or int(self.text) > NUMBER_MOST:
            return None
        return int(self.text)


class Stopped(Exception):
    """The token at which a text is no program's, what is wanted there, and the form around it."""

    def __init__(self, token: Token, wanted: str, around: str, reader: "Reader"):
        super().__init__(wanted)
        self.token, self.wanted, self.around, self.reader = token, wanted, around, reader


class Size(NamedTuple):
    multiple: int
    least: int
    most: int


class Program(NamedTuple):
    """What a text declares, by name, and its term. A type is its text."""

    sizes: dict[str, Size]
    inputs: dict[str, str]
    term: Node


def tokens(text: str) -> list[Token]:
    """A text's tokens, and its end."""
    found = [(it[1], it.start(1)) for it in TOKEN.finditer(text)]
    end = next(k for k, (it, _) in enumerate(found) if not it)
    return [Token(it, number, at) for number, (it, at) in enumerate(found[: end + 1], 1)]


def listed(words) -> str:
    """Words in a list that ends with `or`."""
    *most, last = words
    return f"{', '.join(most)} or {last}" if most else last


class Reader:
    """The tokens of a text, the next one first, and what is declared and bound so far."""

    def __init__(self, text: str):
        self.text, self.tokens, self.next = text, tokens(text), 0
        self.sizes: dict[str, Size] = {}
        self.inputs: dict[str, str] = {}
        self.scope: list[str] = []
        # the forms around what is read, the innermost last
        self.around = ["a program: sizes, then inputs, then output and one term"]

    @property
    def token(self) -> Token:
        return self.tokens[self.next]

    def stop(self, wanted: str) -> NoReturn:
        raise Stopped(self.token, wanted, self.around[-1], self)

    def go_on(self) -> Token:
        self.next += 1
        return self.tokens[self.next - 1]

    def goes_on_with(self, *words: str) -> bool:
        return self.token.text in words

    def take(self, *words: str) -> str:
        """Takes one of these tokens."""
        if not self.goes_on_with(*words):
            self.stop(listed([f"`{it}`" for it in words]))
        return self.go_on().text

    def inside(self, form: str, read: Callable):
        """What is read in a form."""
        self.around.append(form)
        made = read()
        self.around.pop()
        return made

    # declarations

    def new_name(self, what: str) -> str:
        if not self.token.is_name:
            self.stop(f"{what}, no reserved word")
        if self.token.text in {*self.sizes, *self.inputs}:
            self.stop(f"a new name: `{self.token.text}` is declared already")
        return self.go_on().text

    def number(self, least: int, most: int = NUMBER_MOST, multiple: int = 1) -> int:
        """A number within bounds."""
        value = self.token.value
        if value is None or not least <= value <= most or value % multiple:
            bounds = [f"at least {least}"] if least else []
            bounds += [f"at most {most}"] if most < NUMBER_MOST or value is None else []
            bounds += [f"a multiple of {multiple}"] if multiple > 1 else []
            self.stop(", ".join(["a number", *bounds]))
        self.go_on()
        return value

    def program(self) -> Program:
        sys.setrecursionlimit(10_000)
        while self.goes_on_with("size"):
            self.inside("size NAME multiple NUMBER from LEAST to MOST;", self.size)
        while self.goes_on_with("input"):
            self.inside("input NAME: [TYPE; LENGTH];", self.input)
        if not self.goes_on_with("output"):
            self.stop(listed([*([] if self.inputs else ["`size`"]), "`input`", "`output`"]))
        self.go_on()
        term = self.term(1)
        if self.token.text:
            self.stop("the text's end: one term is the whole output")
        return Program(self.sizes, self.inputs, term)

    def size(self):
        self.go_on()
        name, multiple = self.new_name("the size's name"), 1
        if self.take("multiple", "from") == "multiple":
            multiple = self.number(1, SIZE_MOST)
            self.take("from")
        least = self.number(1, NUMBER_MOST, multiple)
        self.take("to")
        most = self.number(least, SIZE_MOST, multiple)
        self.take(";")
        self.sizes[name] = Size(multiple, least, most)

    def input(self):
        self.go_on()
        name = self.new_name("the input's name")
        self.take(":")
        begin = self.token.offset
        self.type(1, ["["])
        told = self.text[begin : self.token.offset]
        self.take(";")
        self.inputs[name] = re.sub(r"#[^\n]*|\s+", " ", told).strip()

    def type(self, depth: int, begins: list[str]):
        """A type that begins with one of these tokens."""
        if depth > TYPES_DEEP:
            begins = [it for it in begins if it == "u32"]
        told = {"u32": "`u32`", "[": "`[` (an array)", "(": "`(` (a pair)"}
        if not self.goes_on_with(*begins):
            self.stop(listed([told[it] for it in begins]) if begins else "a type less deep")
        begin = self.go_on().text
        if begin == "[":
            self.inside("[TYPE; LENGTH]", lambda: self.array(depth))
        elif begin == "(":
            self.inside("(TYPE, TYPE)", lambda: self.pair(depth))

    def array(self, depth: int):
        self.type(depth + 1, ["u32", "[", "("])
        self.take(";")
        self.factor(0)
        while self.take("*", "+", "-", "]") != "]":
            self.factor(0)

    def pair(self, depth: int):
        self.type(depth + 1, ["u32", "("])
        self.take(",")
        self.type(depth + 1, ["u32", "("])
        self.take(")")

    def factor(self, least: int):
        """A factor of a length: a number or a declared size."""
        if self.token.text in self.sizes:
            self.go_on()
        elif self.token.value is None:
            self.stop(
                listed(["a number", *self.sizes]) if self.sizes else "a number: no size is declared"
            )
        else:
            self.number(least)

    def product(self) -> str:
        """The length of a split or stride, and the comma behind it."""
        begin = self.next
        self.factor(1)
        while self.take("*", ",") == "*":
            self.factor(1)
        return "".join(it.text for it in self.tokens[begin : self.next - 1])

    # terms

    def binder(self, what: str) -> str:
        if not self.token.is_name:
            self.stop(f"{what}, no reserved word")
        return self.go_on().text

    def term(self, depth: int) -> Node:
        """A term, whose nodes have the byte at which they begin as `at`."""
        token = self.token
        if depth < TERMS_DEEP and token.text in FORMS:
            self.go_on()
            node = self.inside(FORMS[token.text], lambda: self.form(token.text, depth + 1))
        else:
            node = self.leaf(depth)
        node.at = token.offset
        return node

    def leaf(self, depth: int) -> Node:
        token = self.token
        known = token.is_name and token.text in {*self.scope, *self.inputs}
        if not known and token.value is None:
            self.stop(self.wanted_for_term(depth))
        self.go_on()
        return Node(token.text)

    def wanted_for_term(self, depth: int) -> str:
        names = list(dict.fromkeys([*reversed(self.scope), *self.inputs]))
        if depth == TERMS_DEEP:
            return f"a name or a number: a term is at most {TERMS_DEEP} deep"
        if not self.token.is_name:
            return "a term: a name, a number, or a form such as map(\\x. body, array)"
        return f"a name in scope: {', '.join(names)}" if names else "a declared name: there is none"

    def form(self, form: str, depth: int) -> Node:
        """A form behind its word."""
        if form == "let":
            return self.let(depth)
        self.take("(")
        if form in ("map", "fold"):
            return self.loop(form, depth)
        if form == "reduce":
            return self.reduce(depth)
        if form in ("split", "stride"):
            return self.behind([self.product()], form, depth)
        if form in ("slide", "pad"):
            return self.behind(self.two_numbers(int(form == "slide")), form, depth)
        return self.by_terms(form, depth)

    def let(self, depth: int) -> Node:
        name = self.binder("the name that is bound")
        self.take("=")
        value = self.term(depth)
        self.take("in")
        return Node("let", value, self.bound([name], depth), words=[name])

    def bound(self, names: list[str], depth: int) -> Node:
        """A term in which these names are bound."""
        self.scope += names
        body = self.term(depth)
        del self.scope[len(self.scope) - len(names) :]
        return body

    def loop(self, form: str, depth: int) -> Node:
        self.take("\\")
        names = [self.binder("the binder's name")]
        if form == "fold":
            names.append(self.binder("the name of the element"))
        self.take(".")
        body = self.bound(names, depth)
        terms = self.terms_behind(1 if form == "map" else 2, depth)
        words = ["\\" + names[0], *names[1:]]
        return Node(form, terms[-1], *terms[:-1], body, words=words)

    def terms_behind(self, count: int, depth: int) -> list[Node]:
        """So many terms behind commas, and the closing parenthesis."""
        terms = []
        for _ in range(count):
            self.take(",")
            terms.append(self.term(depth))
        self.take(")")
        return terms

    def reduce(self, depth: int) -> Node:
        if not self.goes_on_with(*REDUCERS):
            self.stop("an operator: " + listed([f"`{it}`" for it in REDUCERS]))
        operator = self.go_on().text
        start, array = self.terms_behind(2, depth)
        return Node("reduce", array, start, words=[operator])

    def two_numbers(self, least: int) -> list[str]:
        numbers = []
        for _ in range(2):
            numbers.append(str(self.number(least)))
            self.take(",")
        return numbers

    def behind(self, words: list[str], form: str, depth: int) -> Node:
        """The term behind a form's numbers."""
        array = self.term(depth)
        self.take(")")
        return Node(form, array, words=words)

    def by_terms(self, form: str, depth: int) -> Node:
        """A form of terms alone, or of a term and a number."""
        first = self.term(depth)
        if form in ("div", "rem"):
            self.take(",")
            number = str(self.number(1))
            self.take(")")
            return Node(form, first, words=[number])
        return Node(form, first, *self.terms_behind(FORMS[form].count(","), depth))


def read(text: str) -> Program:
    """The program of a text; where there is none, Stopped is raised."""
    return Reader(text).program()
