"""The text of kernels taken apart: its kernels, their statements, and what an expression may name.

docs/KERNEL.md has the language. Nothing here knows a program or a script.
"""
import re

LOOP = re.compile(r"for \(uint (i\d+) = (.*); i\d+ < (.*); i\d+ \+= (.*)\) \{")
TEST = re.compile(r"if \((.*) < (.*)\) \{")
DECLARATION = re.compile(r"(__local )?uint4? \w+(\[\d+\])?;")


def kernels_of(text):
    """The kernels of a text, in order."""
    return re.split(r"^(?=__kernel )", text, flags=re.M)[1:]


def launches_of(launch):
    """The launch of each kernel: those at `launches`, or the file's own alone."""
    return [{**launch, **it} for it in launch.get("launches", [launch])]


def statements(kernel):
    """A kernel's body: its statements, a loop or an `if` as its head's parts and its body."""
    lines = [line.strip() for line in kernel.splitlines()[2:]]
    return block(iter([line for line in lines if not DECLARATION.fullmatch(line)]))


def block(lines):
    made = []
    for line in lines:
        head = LOOP.fullmatch(line) or TEST.fullmatch(line)
        if line == "}":
            break
        made.append((*head.groups(), block(lines)) if head else line)
    return made


def pair(size):
    """A size as a launch file has it, along both dimensions: a number is one row."""
    return tuple(size) if isinstance(size, list) else (size, 1)


def told_size(size):
    """A size as a line tells it: a number where there is one row."""
    across, down = pair(size)
    return str(across) if down == 1 else f"{across} by {down}"


class Items:
    """The work-items of a launch, numbered row by row, and its groups."""

    def __init__(self, launch):
        self.all, self.group = pair(launch["global"]), pair(launch["local"])
        self.groups = self.all[0] // self.group[0], self.all[1] // self.group[1]
        self.count, self.of_group = self.all[0] * self.all[1], self.group[0] * self.group[1]
        self.group_count = self.groups[0] * self.groups[1]

    def place(self, item):
        """An item's column and row."""
        return item % self.all[0], item // self.all[0]

    def group_of(self, item):
        (column, row), (across, down) = self.place(item), self.group
        return column // across + row // down * self.groups[0]

    def number_in_group(self, item):
        (column, row), (across, down) = self.place(item), self.group
        return column % across + row % down * across

    def members(self, group):
        """The items of a group, the least first."""
        across, down = self.group
        first = group % self.groups[0] * across + group // self.groups[0] * down * self.all[0]
        return [first + row * self.all[0] + k for row in range(down) for k in range(across)]


def names_of(item, launch):
    """What an item's expressions may name, but for loop variables and private ones: the ids and
    counts behind the number of their dimension."""
    items, names = Items(launch), {}
    for d, own in enumerate(items.place(item)):
        total, group = items.all[d], items.group[d]
        names |= {f"global_size_{d}": total, f"local_size_{d}": group}
        names |= {f"num_groups_{d}": total // group, f"global_id_{d}": own}
        names |= {f"local_id_{d}": own % group, f"group_id_{d}": own // group}
    return names | {f"s{k}": size for k, size in enumerate(launch["sizes"].values())}
