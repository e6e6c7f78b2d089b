"""The arrays at a run's end in a picture: who wrote each cell, and who read it since, in rows of
the array's type.
"""
import math
from collections import defaultdict
from typing import NamedTuple

from device import Event
from kernels import Items
from svg import FAINT, GIVEN, INK, LEFT, ROOM, Colours, Part, rectangle, stacked, text

# cells of one array that are drawn with numbers, and without; rows of a matrix with numbers, and
# below one another without; local arrays, and readers of one cell, or groups of them
CELLS, SMALL_CELLS = 128, 1024
ROWS, SMALL_ROWS = 8, 40
LOCALS, READERS, SMALL_READERS = 8, 8, 3


class Cell(NamedTuple):
    """Who wrote a cell last, and who read it since."""

    writer: int | None
    readers: dict[int, None]


class Form(NamedTuple):
    """How cells are drawn: the width of a box, with the gap behind it, the height of a row, and
    whether there is room for numbers."""

    box: float
    step: float
    height: float
    numbers: bool


LARGE, SMALL = Form(18, 21, 36, True), Form(9, 10, 14, False)


def cells_of(events: list[Event], launch: dict) -> dict[tuple[str, int], dict[int, Cell]]:
    """The cells of each array at the end: by its name and group, 0 of what isn't local."""
    arrays, items = defaultdict(dict), Items(launch)
    for event in events:
        if not event.array:
            continue
        group = items.group_of(event.who) if event.array.startswith("l") else 0
        cells = arrays[event.array, group]
        for cell in range(event.cell, event.cell + event.width):
            if event.kind.endswith("write"):
                cells[cell] = Cell(event.who, {})
            else:
                cells.setdefault(cell, Cell(None, {})).readers[event.who] = None
    return arrays


# where cells stand


def form_of(lengths: list[int], count: int) -> Form:
    """The form in which an array of so many cells is drawn, whose type has these lengths."""
    rows = math.prod([it for it in lengths if it > 1][:-1])
    return LARGE if count <= CELLS and rows <= ROWS else SMALL


def rows_in(lengths: list[int], form: Form) -> tuple[int, int, int]:
    """How many cells a row has, how many rows stand beside one another where they are many, and
    after how many rows a matrix ends, or 0. An array's type has these lengths, the outermost first.
    """
    lengths = [it for it in lengths if it > 1]
    across = int((ROOM + form.step - form.box) // form.step)
    if len(lengths) < 2 or lengths[-1] > across:
        return min(across, 32 if form.numbers else 64), 1, 0
    many = math.prod(lengths[:-1]) > SMALL_ROWS
    beside = max(1, across // (lengths[-1] + 1)) if many else 1
    return lengths[-1], beside, lengths[-2] if len(lengths) > 2 else 0


def place_of(number: int, lengths: list[int], count: int, form: Form) -> tuple[float, float]:
    """Where a cell stands: rows are below one another, in as many blocks as have room."""
    row, beside, matrix = rows_in(lengths, form)
    line, cell = divmod(number, row)
    lines = -(-count // row)
    deep = -(-lines // beside)
    block, line = divmod(line, deep)
    x = block * (row + 1) * form.step + cell * form.step
    return x, line * form.height + (line // matrix * 6 if matrix else 0)


# how cells look


def strip(readers: dict[int, None], colours: Colours) -> list[str]:
    """The colours of a cell's readers, or a dark strip of many."""
    if len(readers) > READERS:
        return [rectangle(0, 26, 18, 5, INK, f"read by {len(readers)} items")]
    width = 18 / max(1, len(readers))
    return [
        rectangle(k * width, 26, width, 5, colours.of_item(item), f"read by item {item}")
        for k, item in enumerate(readers)
    ]


def large(number: int, cell: Cell, colours: Colours) -> list[str]:
    """A cell: its number, its writer's colour and number, and below it its readers' colours."""
    fill = GIVEN if cell.writer is None else colours.of_item(cell.writer)
    drawn = [text(9, 7, number, "middle", 7, FAINT), rectangle(0, 9, 18, 16, fill)]
    if cell.writer is not None:
        size = (10, 10, 8, 6, 5)[len(str(cell.writer)) - 1]
        drawn.append(text(9, 17 + size / 2.6, cell.writer, "middle", size))
    return drawn + strip(cell.readers, colours)


def small(number: int, cell: Cell, colours: Colours) -> list[str]:
    """The same without numbers, in a box and a strip. Of several readers the strip has the colours
    of their groups."""
    told, fill = f"{number}", GIVEN
    if cell.writer is not None:
        told, fill = f"{told}: written by item {cell.writer}", colours.of_item(cell.writer)
    drawn = [rectangle(0, 0, 9, 8, fill, told)]
    if len(cell.readers) == 1:
        return drawn + [rectangle(0, 9, 9, 3, colours.of_item(item)) for item in cell.readers]
    groups = set(map(colours.items.group_of, cell.readers))
    shown = (
        [colours.of_group(it) for it in sorted(groups)] if len(groups) <= SMALL_READERS else [INK]
    )
    width = 9 / max(1, len(shown))
    return drawn + [rectangle(k * width, 9, width, 3, it) for k, it in enumerate(shown)]


def array(name: str, cells: dict[int, Cell], lengths: list[int], colours: Colours) -> Part:
    """An array's cells in the rows of its type."""
    count = max(max(cells) + 1, math.prod(lengths))
    form = form_of(lengths, count)
    draw, most = (large, CELLS) if form.numbers else (small, SMALL_CELLS)
    drawn = [text(LEFT - 10, 21 if form.numbers else 10, name, "end")]
    drawn_count = min(count, most)
    if count > most:
        note = f"{most} of {count} cells"
        drawn.append(text(LEFT - 10, 32 if form.numbers else 21, note, "end", 9, FAINT))
    deepest = 0.0
    for number in range(drawn_count):
        x, y = place_of(number, lengths, drawn_count, form)
        shapes = draw(number, cells.get(number, Cell(None, {})), colours)
        drawn += [f'<g transform="translate({LEFT + x:g} {y:g})">', *shapes, "</g>"]
        deepest = max(deepest, y)
    return Part(drawn, max(deepest + form.height, 28) + 4)


def shown_arrays(arrays: dict, launch: dict) -> tuple[list[tuple[str, int]], int]:
    """The arrays that are drawn, and how many local ones aren't: those of the first groups are."""
    local = sorted(key for key in arrays if key[0].startswith("l"))
    names = {name for name, _ in local}
    groups = sorted({group for _, group in local})[: LOCALS // len(names)] if local else []
    left_out = [key for key in local if key[1] not in groups]
    return [key for key in sorted(arrays) if key not in left_out], len(left_out)


def memory(events: list[Event], launch: dict, lengths: dict[str, list[int]]) -> Part:
    """The arrays of a run, with the lengths that their types have."""
    arrays, colours = cells_of(events, launch), Colours(Items(launch))
    keys, left_out = shown_arrays(arrays, launch)
    parts = []
    for name, group in keys:
        head = f"{name} of group {group}" if name.startswith("l") else name
        parts.append(array(head, arrays[name, group], lengths.get(name, []), colours))
    if left_out:
        parts.append(Part([text(4, 12, f"Local arrays that aren't drawn: {left_out}.")], 18))
    return stacked(parts)
