"""A run in a picture: each event in its column where they can be told apart, else what each group
does between its barriers.
"""
from collections import Counter
from typing import NamedTuple

from device import Event
from kernels import Items
from svg import EVENTS, FAINT, INK, LEFT, ROOM, Colours, Part
from svg import line, rectangle, stacked, text

BOX = 18
# how much of a run is drawn event by event: events in a line, lines, and rows in all lines
COLUMNS, LINES, ROWS, ALL_ROWS = 240, 4, 32, 64
BARS, ITEMS = 32, 16


class Shown(NamedTuple):
    """What is drawn of a run event by event: the items that have a row, their events, and how many
    stand in a line."""

    items: list[int]
    events: list[Event]
    columns: int


def shown(events: list[Event], launch: dict, first: int) -> Shown:
    """The events from a number on, of the items that come first: as many as have room."""
    near = events[first - 1 : first - 1 + COLUMNS * LINES]
    steps = {event.who for event in near if event.kind != "release"}
    of = Items(launch)
    first_items = steps or {of.members(event.who)[0] for event in near}
    items = sorted(first_items, key=lambda item: (of.group_of(item), item))[:ROWS]
    rows, groups = set(items), set(map(of.group_of, items))
    drawn = [
        it for it in events[first - 1 :] if it.who in (groups if it.kind == "release" else rows)
    ]
    some = drawn[: min(LINES, ALL_ROWS // len(items)) * COLUMNS]
    return Shown(items, some, min(COLUMNS, len(some)))


def legend() -> Part:
    """The colours of events."""
    drawn, x = [], float(LEFT)
    for kind, fill in EVENTS.items():
        height = 5 if kind.startswith("local") else 10
        drawn += [rectangle(x, 10 - height, 10, height, fill), text(x + 14, 9, kind)]
        x += 24 + 7 * len(kind)
    return Part(drawn, 18)


def fits_whole(events: list[Event], launch: dict) -> bool:
    """Whether a run has room event by event."""
    items = Items(launch).count
    return items <= ROWS and len(events) <= COLUMNS * min(LINES, ALL_ROWS // items)


# event by event


def row_heads(items: list[int], launch: dict, colours: Colours) -> list[str]:
    """Each row's item with its colour, each group's name, and the lines between groups."""
    drawn, last, of = [], None, Items(launch)
    for row, item in enumerate(items):
        y, group = row * BOX, of.group_of(item)
        if group != last:
            drawn.append(text(4, y + 13, f"group {group}", fill=FAINT))
            drawn += [line(y)] if row else []
        drawn.append(text(LEFT - 20, y + 13, f"item {item}", "end"))
        drawn.append(rectangle(LEFT - 16, y + 3, 12, 12, colours.of_item(item)))
        last = group
    return drawn


def column(event: Event, rows: dict[int, int], launch: dict, x: float, width: float) -> str:
    """An event in its column, over the rows of a release's group or in that of its item."""
    fill = EVENTS[event.kind]
    if event.kind == "release":
        over = [row for item, row in rows.items() if Items(launch).group_of(item) == event.who]
        told = f"{event.number}: release {event.who}"
        height = (max(over) - min(over) + 1) * BOX
        return rectangle(x, min(over) * BOX, max(1.5, width / 2), height, fill, told)
    told = f"{event.number}: item {event.who}, {event.kind} {event.array}"
    told += f"[{event.cell}]" if event.array else ""
    height = (BOX - 2) * (0.55 if event.kind.startswith("local") else 1)
    y = (rows[event.who] + 1) * BOX - 1 - height
    return rectangle(x, y, max(1, width * 0.9), height, fill, told)


def axis(events: list[Event], y: float, width: float) -> list[str]:
    """Numbers of events below a line of the run, at least 40 apart."""
    step = next(it for it in (1, 2, 5, 10, 20, 50, 100, 200) if it * width >= 40 or it == 200)
    marked = [k for k in range(len(events)) if k % step == 0]
    return [
        text(LEFT + (k + 0.5) * width, y + 9, events[k].number, "middle", 8, FAINT) for k in marked
    ]


def timeline(part: Shown, launch: dict, colours: Colours) -> Part:
    """The run, in lines of so many columns."""
    rows = {item: row for row, item in enumerate(part.items)}
    width = min(BOX, ROOM / part.columns)
    height, lines = len(rows) * BOX, []
    for k in range(0, len(part.events), part.columns):
        events = part.events[k : k + part.columns]
        columns = [
            column(event, rows, launch, LEFT + n * width, width) for n, event in enumerate(events)
        ]
        heads = row_heads(part.items, launch, colours)
        lines.append(Part(heads + columns + axis(events, height, width), height + 20))
    return stacked(lines)


# by groups


def phases(events: list[Event], launch: dict, by_item: bool) -> dict[int, list[Counter]]:
    """What each group, or each item, does: the counts of its events of each kind, from one release
    to the next. Items are asked for where there is no release."""
    found: dict[int, list[Counter]] = {}
    items = Items(launch)
    for event in events:
        release = event.kind == "release"
        who = event.who if by_item or release else items.group_of(event.who)
        own = found.setdefault(who, [Counter()])
        if release:
            own.append(Counter())
        else:
            own[-1][event.kind] += 1
    return found


def bar(head: str, found: list[Counter], colour: str, scale: float) -> list[str]:
    """A row: its head, a stretch for each kind of event in each phase, and lines for releases."""
    drawn = [text(LEFT - 20, 13, head, "end"), rectangle(LEFT - 16, 3, 12, 12, colour)]
    x = float(LEFT)
    for number, counts in enumerate(found):
        if number:
            drawn.append(rectangle(x, 0, 2, BOX, EVENTS["release"], f"release {number}"))
            x += 3
        for kind in EVENTS:
            if counts[kind]:
                drawn += stretch(x, counts[kind] * scale, kind, counts[kind])
                x += counts[kind] * scale
    return drawn


def stretch(x: float, width: float, kind: str, count: int) -> list[str]:
    """The events of a kind in a phase, with their number where it has room."""
    height, size = (BOX - 4, 9) if not kind.startswith("local") else (BOX - 8, 8)
    told = f"{count} {kind}{'s' if count > 1 else ''}"
    drawn = [rectangle(x, BOX - 2 - height, max(0.5, width - 0.5), height, EVENTS[kind], told)]
    if width > 7 * len(str(count)) + 2:
        dark = kind in ("global read", "global write")
        fill = "#ffffff" if dark else INK
        drawn.append(text(x + width / 2, BOX + 1 - height / 2, count, "middle", size, fill))
    return drawn


def by_phases(events: list[Event], launch: dict, colours: Colours) -> Part:
    """A row for each group, or for each item where all are few and no barrier parts their work."""
    releases = any(event.kind == "release" for event in events)
    items = Items(launch)
    by_item = not releases and items.count <= ITEMS
    count = items.count if by_item else items.group_count
    found = sorted(phases(events, launch, by_item).items())[:BARS]
    most = max(sum(map(Counter.total, counts)) for _, counts in found)
    gaps = 3 * max(len(counts) for _, counts in found)
    rows = []
    for who, counts in found:
        colour = colours.of_item(who) if by_item else colours.of_group(who)
        head = f"item {who}" if by_item else f"group {who}"
        rows.append(Part(bar(head, counts, colour, (ROOM - gaps) / most), BOX))
    told = "A row has the events of " + ("an item" if by_item else "a group's items together")
    told += ", by their kinds; a red line is a release." if releases else ", by their kinds."
    told += f" The first {BARS} of {count} are drawn." if count > BARS else ""
    return stacked([Part([text(4, 12, told, fill=FAINT)], 18), *rows])
