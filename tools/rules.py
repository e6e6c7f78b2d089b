"""The rules, as the table of docs/RULES.md has them."""
import re
from typing import NamedTuple

import places
from calls import TOP

PAGE = TOP / "docs" / "RULES.md"
# what a shape that is one name stands for, where it isn't any term
FORMS = ("map", "fold")


class Rule(NamedTuple):
    """A rule: its name, whether a number stands behind it, the text and the tree of its shape, and
    its side conditions in words."""

    name: str
    numbered: bool
    told: str
    shape: places.Node
    side: str

    def with_numbers(self, numbers) -> list[str]:
        """The rule as steps have it: with each number, or without one."""
        return [f"{self.name} {it}" for it in numbers] if self.numbered else [self.name]

    @property
    def is_for_any_array(self) -> bool:
        return not self.shape.children and self.shape.form not in FORMS


def rows(page: str) -> list[list[str]]:
    """The cells of each row of the table of rules."""
    table = page.split("| Rule | From |")[1].split("\n\n")[0]
    return [row.strip("| ").split(" | ") for row in table.splitlines() if row.startswith("| `")]


def rules() -> dict[str, Rule]:
    """The rules by name."""
    made = {}
    for names, told, _, *side in rows(PAGE.read_text()):
        shape = told.strip("`")
        for name, *number in map(str.split, re.findall("`([^`]*)`", names)):
            made[name] = Rule(
                name, bool(number), shape, places.parsed(shape), "".join(side).strip()
            )
    return made


def fits(shape: places.Node, node: places.Node) -> bool:
    """Whether a node is of a shape, but for names, numbers and what its side conditions say."""
    if not shape.children:
        return shape.form not in FORMS or shape.form == node.form
    alike = shape.form == node.form and len(shape.children) == len(node.children)
    return alike and all(map(fits, shape.children, node.children))
