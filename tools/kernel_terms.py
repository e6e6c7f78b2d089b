"""The terms of the kernels into which a term is cut, as docs/LANGUAGE.md has them."""
from typing import NamedTuple

from grammar import Program
from places import Node
from term_types import Type, declared, types_of


class KernelTerm(NamedTuple):
    """A kernel's own term with the types of its nodes by `id`, and the types of the arrays that it
    may read by name."""

    term: Node
    types: dict[int, Type]
    reads: dict[str, Type]


def kernel_terms(term: Node) -> list[Node]:
    """The operands of the cuts in postorder, and the whole; in each an outermost cut is a leaf that
    names the array of the kernel before."""
    made: list[Node] = []
    made.append(without_cuts(term, made))
    return made


def without_cuts(term: Node, made: list[Node]) -> Node:
    """A term with leaves for its cuts, whose own terms are put behind those that are made."""
    if term.form == "then":
        made.append(without_cuts(term.children[0], made))
        return Node(f"lift{len(made) - 1}.o0")
    if not term.children:
        return term
    return Node(term.form, *[without_cuts(it, made) for it in term.children], words=term.words)


def typed_kernels(program: Program, term: Node) -> list[KernelTerm]:
    """The terms of the kernels of a term, with types: each may read what those before it made."""
    made, arrays = [], dict(program.inputs)
    for number, own in enumerate(kernel_terms(term)):
        types = types_of(program._replace(inputs=arrays), own)
        reads = {name: declared(text) for name, text in arrays.items()}
        made.append(KernelTerm(own, types, reads))
        arrays[f"lift{number}.o0"] = str(types[id(own)])
    return made
