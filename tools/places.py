#!/usr/bin/env python3
"""Prints a term as a tree, each node with its place, as scripts and refusals name it.

    ./lift steps PROGRAM SCRIPT | tools/places.py            the last term
    ./lift steps PROGRAM SCRIPT | tools/places.py --all      each term
    tools/places.py < PROGRAM                                the program's own, ill-typed or not

A line is a place, and a node with its numbers and binders, further in than the node that it is a
child of. Children stand in the order in which places count them: of a map the array comes before
the body, though the text has it behind.
"""
import argparse
import re
import signal
import sys

TOKEN = re.compile(r"\s*(\w+|.)")
MAPS = ("map", "mapGlb", "mapWrg", "mapLcl", "mapGlb1", "mapWrg1", "mapLcl1", "mapSeq")
FOLDS = ("fold", "foldSeq")
NUMBERS = {"slide": 2, "pad": 2, "asVector": 1}
NUMBER_BEHIND = ("div", "rem")


class Node:
    """A form with what its text has beside its children, and the children as places count them."""

    def __init__(self, form, *children, words=()):
        self.form, self.words, self.children = form, list(words), list(children)

    def label(self):
        return " ".join([self.form, *self.words])

    def text(self):
        """The term's text, as `lift steps` writes it."""
        texts = [child.text() for child in self.children]
        if self.form == "let":
            return f"let {self.words[0]} = {texts[0]} in {texts[1]}"
        if self.form in MAPS + FOLDS:
            array, *start, body = texts
            return f"{self.form}({' '.join(self.words)}. {', '.join([body, *start, array])})"
        if self.form == "reduce":
            texts.reverse()
        if self.form in NUMBER_BEHIND:
            return f"{self.form}({', '.join(texts + self.words)})"
        return f"{self.form}({', '.join(self.words + texts)})" if texts else self.form


class Parser:
    """The tokens of a term, the next one first."""

    def __init__(self, text):
        self.tokens = TOKEN.findall(text.strip())[::-1]

    def next(self):
        return self.tokens[-1] if self.tokens else ""

    def take(self, *wanted):
        """Takes the next token, which is one of those that are wanted where any are named."""
        token = self.tokens.pop() if self.tokens else "the end"
        if wanted and token not in wanted:
            raise ValueError(f"{' or '.join(wanted)} is wanted, and {token} stands there")
        return token

    def behind_commas(self, take):
        """What `take` takes behind each comma, up to the closing parenthesis."""
        taken = []
        while self.take(",", ")") == ",":
            taken.append(take())
        return taken

    def term(self):
        form = self.take()
        if form == "let":
            return self.let()
        if self.next() != "(":
            return Node(form)
        self.take("(")
        if form in MAPS + FOLDS:
            return self.loop(form)
        if form in ("reduce", "split", "stride", *NUMBERS):
            return self.behind_words(form)
        first = self.term()
        if form in NUMBER_BEHIND:
            return Node(form, first, words=self.behind_commas(self.take))
        return Node(form, first, *self.behind_commas(self.term))

    def let(self):
        name = self.take()
        self.take("=")
        value = self.term()
        self.take("in")
        return Node("let", value, self.term(), words=[name])

    def loop(self, form):
        """A map or a fold: its text has the body, a fold's start and the array."""
        words = [self.take("\\") + self.take()]
        if form in FOLDS:
            words.append(self.take())
        self.take(".")
        body = self.term()
        *start, array = self.behind_commas(self.term)
        return Node(form, array, *start, body, words=words)

    def behind_words(self, form):
        """A form with a word or numbers before its terms, of which a reduce's array is the last."""
        words = [self.take()]
        while self.next() == "*":
            words[0] += self.take() + self.take()
        for _ in range(NUMBERS.get(form, 1) - 1):
            self.take(",")
            words.append(self.take())
        return Node(form, *self.behind_commas(self.term)[::-1], words=words)


def parsed(text):
    """The term of a line of `lift steps`."""
    parser = Parser(text)
    term = parser.term()
    if parser.tokens:
        raise ValueError(f"{parser.next()} stands behind the term")
    return term


def nodes(term, place=()):
    """Each node with its place, the numbers of the children on the way to it, in preorder."""
    yield place, term
    for number, child in enumerate(term.children):
        yield from nodes(child, place + (number,))


def named(place):
    """A place as scripts name it."""
    return ".".join(map(str, place)) or "."


def tree(term):
    """The lines of a term's tree."""
    rows = [(named(place), "  " * len(place) + node.label()) for place, node in nodes(term)]
    width = max(len(place) for place, _ in rows) + 2
    return [f"{place:<{width}}{label}" for place, label in rows]


def terms_in(text):
    """The terms of what `lift steps` wrote, or the one of a program's text."""
    _, *term = re.split(r"\boutput\b", re.sub("#.*", "", text), maxsplit=1)
    return [parsed(it) for it in term or text.splitlines()]


def main():
    usage = argparse.ArgumentParser(
        description=__doc__, formatter_class=argparse.RawDescriptionHelpFormatter
    )
    usage.add_argument("--all", action="store_true", help="each term, not only the last")
    each = usage.parse_args().all
    signal.signal(signal.SIGPIPE, signal.SIG_DFL)
    try:
        terms = terms_in(sys.stdin.read())
    except ValueError as why:
        sys.exit(f"tools/places.py: no term: {why}")
    if each:
        for step, term in enumerate(terms):
            heading = f"after step {step}:" if step else "the program's:"
            print("\n".join([heading, *tree(term), ""]))
    elif terms:
        print("\n".join(tree(terms[-1])))


if __name__ == "__main__":
    main()
