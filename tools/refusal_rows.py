"""The rows of docs/REFUSALS.md, and which of them speak of a line."""
import re
import textwrap
from typing import Callable, Iterator, NamedTuple

from calls import TOP

PAGE = TOP / "docs" / "REFUSALS.md"


class Row(NamedTuple):
    """A row: the lines that it has, the input that gives them, why, and what to do."""

    lines: list[str]
    input: str
    why: str
    do: str


def rows() -> list[Row]:
    """The page's rows. Of a step's conditions but the first the page has the last words alone."""
    made = []
    for text in PAGE.read_text().splitlines():
        status, *cells = re.split(r" \| ", text.strip("| "), maxsplit=4)
        if status.isdecimal() and len(cells) == 4:
            lines = re.findall("`([^`]*)`", cells[0])
            whole = [f"lift: step 1: {it}" if it.startswith("side ") else it for it in lines]
            made.append(Row(whole, *cells[1:]))
    return made


def kind(line: str) -> str:
    """What a line tells, without numbers, places, names and files."""
    words = line.removeprefix("lift: ")
    words = re.sub(r"^(read|launch: (?:size|shape)) .*", r"\1", words)
    words = re.sub(r"^(launch: missing) (?!launches).*", r"\1", words)
    words = re.sub(r" at .*$", "", words)
    # the number of a rule of the nest is its name
    return re.sub(r"(?<![N\d])\d+", "#", words)


def rows_for(line: str, likeness: Callable[[Row], int]) -> list[Row]:
    """The rows that speak of such a line; where there are several, those that are most alike."""
    found = [row for row in rows() if kind(line) in map(kind, row.lines)]
    most = max(map(likeness, found), default=0)
    same = [row for row in found if likeness(row) == most]
    return [row for row in same if line in row.lines] or same


def letters() -> dict[str, str]:
    """The programs for which the page has a letter."""
    page = PAGE.read_text()
    program = re.search(r"\bP stands for\n\n```\n(.*?)\n```", page, re.S)[1]
    size = re.search(r"\bQ stands for P with `([^`]*)`", page)[1]
    others = dict(re.findall(r"\b([RS])(?: stands)? for `([^`]*)`", page))
    return {"P": program, "Q": re.sub("^size[^;]*", lambda _: size, program), **others}


def told(row: Row) -> Iterator[str]:
    """Why, and what to do, in lines; with the programs that are named there by a letter."""
    yield from folded("why:", row.why)
    yield from folded("do:", row.do)
    for letter, text in letters().items():
        if re.search(rf"\b{letter} with `", row.do):
            yield f"        {letter} is {text}"


def folded(head: str, text: str) -> list[str]:
    """A paragraph in lines of at most 100 columns, with its links as names of files."""
    plain = re.sub(r"\[[^\]]*\]\(([^)]*)\)", r"docs/\1", text)
    # a step isn't broken: its spaces are others while the lines are made
    whole = re.sub("`[^`]{1,40}`", lambda code: code[0].replace(" ", "\xa0"), plain)
    lines = textwrap.wrap(
        whole, 100, initial_indent=f"{head:<8}", subsequent_indent=" " * 8, break_on_hyphens=False
    )
    return [line.replace("\xa0", " ") for line in lines]
