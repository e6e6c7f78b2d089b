#!/usr/bin/env python3
"""Strategies made of combinators, which write a plain script.

    tools/strategy.py PROGRAM STRATEGY > script.txt

STRATEGY is a file in Python that gives `strategy`. It needs no import: these are there.

    at(PLACE, RULE)         the step at that place
    top(RULE, of=NODE)      the step at the outermost place where it can be made: the first on the
                            way down; of a NODE alone where one is told: a form, or a label as in
                            the tree
    bottom(RULE, of=NODE)   the same at the innermost place: the first on the way up
    seq(S, ..), S >> S      one strategy after another
    either(S, ..), S | S    the first that can be made
    attempt(S)              S, or nothing
    repeat(S)               S as often as it can be made
    everywhere(RULE, ..)    each of the rules as often as one can be made at any place
    each(RULE, of=NODE)     the step once at every such node where it can be made
    inside(NODE, S)         S below the first such node: its places are counted from there
    folds()                 each reduce to a fold, with the maps of its array in it, and to a loop
    lower(RULE, ..)         the plain maps from the outermost in, the last rule for all deeper ones
    launch_local(K)         work-groups of K items

In place of a strategy a rule alone may stand, for `top` of it. What can be made is tried by `lift
steps`, and nothing else decides it. A strategy that can't be made is told with the term before it.
The environment's LIFT names the program; if it isn't set, it is the one that ./lift built.
"""
import argparse
import sys
from pathlib import Path
from typing import Callable, Iterator, NamedTuple

import calls
import places
from rules import fits, rules

STEPS_MOST = 256
RULES = rules()
Place = tuple[int, ...]


class Failed(Exception):
    """A strategy that can't be made, as it is written, and the term before it."""

    def __init__(self, told: str, term: places.Node):
        super().__init__(told)
        self.told, self.term = told, term


class State(NamedTuple):
    """The steps so far, the term behind them, and the place below which a strategy works."""

    program: str
    head: str
    steps: tuple[str, ...]
    term: places.Node
    within: Place = ()

    @property
    def script(self) -> str:
        return self.head + "".join(f"{step}\n" for step in self.steps)

    def nodes(self) -> list[tuple[Place, places.Node]]:
        """Each node to work at with its place in the whole term, in preorder."""
        root = dict(places.nodes(self.term))[self.within]
        return [(self.within + place, node) for place, node in places.nodes(root)]

    def places_of(self, of: str | None) -> list[Place]:
        """The places of the nodes of a form or a label, of all where none is told."""
        return [at for at, node in self.nodes() if of in (None, node.form, node.label())]

    def step(self, place: Place, rule: str) -> "State | None":
        """The state behind one more step, None where it can't be made."""
        node = dict(places.nodes(self.term)).get(place)
        if node is None or not fits(RULES[rule.split()[0]].shape, node):
            return None
        if len(self.steps) == STEPS_MOST:
            sys.exit(f"tools/strategy.py: a script has at most {STEPS_MOST} steps")
        made = self._replace(steps=(*self.steps, f"at {places.named(place)} {rule}"))
        try:
            return made._replace(term=calls.last_term(self.program, made.script))
        except calls.Refused:
            return None


class Strategy:
    """A way from a state to another, which raises Failed where it can't be made; and how it is
    written."""

    def __init__(self, told: str, run: Callable[[State], State]):
        self.told, self.run = told, run

    def __rshift__(self, other: "Strategy | str") -> "Strategy":
        return seq(self, other)

    def __or__(self, other: "Strategy | str") -> "Strategy":
        return either(self, other)


def start(program: str) -> State:
    """The state before any step."""
    return State(str(program), "", (), calls.last_term(program, ""))


def strategy_of(it: Strategy | str) -> Strategy:
    """A strategy, or the one that a rule stands for."""
    return it if isinstance(it, Strategy) else top(it)


def made(part: Strategy | str, state: State) -> State:
    return strategy_of(part).run(state)


def made_or_none(part: Strategy | str, state: State) -> State | None:
    try:
        return made(part, state)
    except Failed:
        return None


def written(name: str, *parts: Strategy | str) -> str:
    return f"{name}({', '.join(strategy_of(it).told for it in parts)})"


def known(rule: str) -> str:
    """The rule, which there has to be."""
    if rule.split()[:1] == [] or rule.split()[0] not in RULES:
        sys.exit(f"tools/strategy.py: there is no rule {rule!r}; docs/RULES.md has them")
    return rule


def steps_at(told: str, rule: str, find: Callable[[State], list[Place]]) -> Strategy:
    """The step at the first of the places that are found where it can be made."""
    known(rule)

    def run(state: State) -> State:
        tried = (state.step(place, rule) for place in find(state))
        return next((it for it in tried if it), None) or fail(told, state)

    return Strategy(told, run)


def fail(told: str, state: State):
    raise Failed(told, state.term)


def at(place: str, rule: str) -> Strategy:
    numbers = () if place == "." else tuple(map(int, place.split(".")))
    return steps_at(f'at("{place}", "{rule}")', rule, lambda state: [state.within + numbers])


def told_of(name: str, rule: str, of: str | None) -> str:
    return f'{name}("{rule}"' + (f', of="{of}")' if of else ")")


def top(rule: str, of: str | None = None) -> Strategy:
    return steps_at(told_of("top", rule, of), rule, lambda state: state.places_of(of))


def bottom(rule: str, of: str | None = None) -> Strategy:
    def find(state: State) -> list[Place]:
        # in postorder a place comes behind those below it
        return sorted(state.places_of(of), key=lambda place: (*place, float("inf")))

    return steps_at(told_of("bottom", rule, of), rule, find)


def seq(*parts: Strategy | str) -> Strategy:
    def run(state: State) -> State:
        for part in parts:
            state = made(part, state)
        return state

    return Strategy(written("seq", *parts), run)


def either(*parts: Strategy | str) -> Strategy:
    told = written("either", *parts)

    def run(state: State) -> State:
        tried = (made_or_none(part, state) for part in parts)
        return next((it for it in tried if it), None) or fail(told, state)

    return Strategy(told, run)


def attempt(part: Strategy | str) -> Strategy:
    return Strategy(written("attempt", part), lambda state: made_or_none(part, state) or state)


def repeat(part: Strategy | str) -> Strategy:
    def run(state: State) -> State:
        while (more := made_or_none(part, state)) and more.steps != state.steps:
            state = more
        return state

    return Strategy(written("repeat", part), run)


def everywhere(*names: str) -> Strategy:
    told = ", ".join(f'"{it}"' for it in names)
    return Strategy(f"everywhere({told})", repeat(either(*map(top, names))).run)


def each(rule: str, of: str | None = None) -> Strategy:
    known(rule)

    def run(state: State) -> State:
        # a step shifts the places below its own alone, and these come first
        for place in reversed(state.places_of(of)):
            state = state.step(place, rule) or state
        return state

    return Strategy(told_of("each", rule, of), run)


def inside(node: str, part: Strategy | str) -> Strategy:
    told = f'inside("{node}", {strategy_of(part).told})'

    def run(state: State) -> State:
        found = state.places_of(node) or fail(told, state)
        return made(part, state._replace(within=found[0]))._replace(within=state.within)

    return Strategy(told, run)


def folds() -> Strategy:
    each = map(everywhere, ("reduce-fold", "fuse-fold", "fold-seq"))
    return Strategy("folds()", seq(*each).run)


def plain_maps(node: places.Node, place: Place = (), depth: int = 0) -> Iterator[tuple[Place, int]]:
    """The plain maps in preorder, each with how many plain maps' bodies are around it."""
    if node.form == "map":
        yield place, depth
    for number, child in enumerate(node.children):
        is_body = node.form == "map" and number == 1
        yield from plain_maps(child, (*place, number), depth + is_body)


def lower(*names: str) -> Strategy:
    told = "lower(" + ", ".join(f'"{known(it)}"' for it in names) + ")"

    def run(state: State) -> State:
        root = dict(places.nodes(state.term))[state.within]
        for place, depth in plain_maps(root):
            rule = names[min(depth, len(names) - 1)]
            state = state.step(state.within + place, rule) or fail(told, state)
        return state

    return Strategy(told, run)


def launch_local(count: int) -> Strategy:
    head = f"launch local {count}\n"
    return Strategy(f"launch_local({count})", lambda state: state._replace(head=head))


COMBINATORS = (
    at, top, bottom, seq, either, attempt, repeat, everywhere, each, inside, folds, lower,
    launch_local,
)  # fmt: skip


def strategy_in(file: Path) -> Strategy:
    """The strategy that a file gives."""
    names: dict = {it.__name__: it for it in COMBINATORS}
    try:
        exec(compile(calls.text_of(file), str(file), "exec"), names)
    except (NameError, SyntaxError, TypeError) as why:
        sys.exit(f"tools/strategy.py: {file}: {why}")
    if "strategy" not in names:
        sys.exit(f"tools/strategy.py: {file} gives no `strategy`")
    return strategy_of(names["strategy"])


def main():
    usage = argparse.ArgumentParser(
        description=__doc__, formatter_class=argparse.RawDescriptionHelpFormatter
    )
    usage.add_argument("program", metavar="PROGRAM")
    usage.add_argument("strategy", metavar="STRATEGY", type=Path)
    words = usage.parse_args()
    try:
        print(made(strategy_in(words.strategy), start(words.program)).script, end="")
    except calls.Refused as refused:
        sys.exit(refused.line)
    except Failed as failed:
        tree = "\n".join(places.tree(failed.term))
        sys.exit(f"tools/strategy.py: {failed.told} can't be made; the term there:\n{tree}")


if __name__ == "__main__":
    main()
