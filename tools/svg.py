"""Shapes of a picture in SVG, and its colours."""
import colorsys
from typing import NamedTuple

from kernels import Items

WIDTH, LEFT, RIGHT = 820, 112, 6
ROOM = WIDTH - LEFT - RIGHT
INK, FAINT, GIVEN, GROUND = "#333333", "#8a8f98", "#e4e6ea", "#ffffff"
EVENTS = {
    "global read": "#2f6fb7",
    "local read": "#86b8ec",
    "global write": "#d3551a",
    "local write": "#f2ad78",
    "other step": "#d3d6db",
    "release": "#b0203a",
}


class Part(NamedTuple):
    """A part of a picture: its shapes from its own top on, and its height."""

    shapes: list[str]
    height: float


def rectangle(x: float, y: float, width: float, height: float, fill: str, title: str = "") -> str:
    told = f"<title>{title}</title>" if title else ""
    size = f'x="{x:.5g}" y="{y:.5g}" width="{width:.4g}" height="{height:.4g}"'
    return f'<rect {size} fill="{fill}">{told}</rect>'


def text(x: float, y: float, words, anchor="start", size=11.0, fill=INK) -> str:
    place = f'x="{x:.5g}" y="{y:.5g}" text-anchor="{anchor}"'
    return f'<text {place} font-size="{size:g}" fill="{fill}">{words}</text>'


def line(y: float) -> str:
    return f'<line x1="4" x2="{WIDTH - RIGHT}" y1="{y:g}" y2="{y:g}" stroke="{FAINT}"/>'


def below(shapes: list[str], y: float) -> list[str]:
    """The shapes, so far further down."""
    return [f'<g transform="translate(0 {y:g})">', *shapes, "</g>"]


def stacked(parts: list[Part], gap: float = 0) -> Part:
    """Parts below one another."""
    drawn: list[str] = []
    y = 0.0
    for part in parts:
        drawn += below(part.shapes, y)
        y += part.height + gap
    return Part(drawn, y)


def paragraph(lines: list[str]) -> Part:
    return Part([text(4, 14 + 15 * k, words) for k, words in enumerate(lines)], 15 * len(lines))


def document(part: Part) -> str:
    size = f'viewBox="0 0 {WIDTH} {part.height:g}" width="{WIDTH}"'
    head = f'<svg xmlns="http://www.w3.org/2000/svg" {size} font-family="sans-serif">'
    ground = f'<rect width="{WIDTH}" height="{part.height:g}" fill="{GROUND}"/>'
    return "\n".join([head, ground, *part.shapes, "</svg>", ""])


class Colours(NamedTuple):
    """The colours of a launch's items: a hue for each group, and in it lighter from item to item.
    Of one group, and where a group is one item, each item has a hue of its own."""

    items: Items

    @property
    def by_group(self) -> bool:
        return 1 < self.items.of_group < self.items.count

    def of_item(self, item: int) -> str:
        if not self.by_group:
            return shade(item, (0.62, 0.73, 0.54)[item // 8 % 3])
        shades, own = min(self.items.of_group, 8), self.items.number_in_group(item)
        return shade(self.items.group_of(item), 0.48 + 0.36 * (own % shades + 0.5) / shades)

    def of_group(self, group: int) -> str:
        return shade(group, 0.62) if self.by_group or self.items.of_group == 1 else FAINT


def shade(number: int, lightness: float) -> str:
    """Hues a golden angle apart, so that neighbours differ."""
    red, green, blue = colorsys.hls_to_rgb((0.38 + number * 0.381966) % 1, lightness, 0.52)
    return f"#{round(255 * red):02x}{round(255 * green):02x}{round(255 * blue):02x}"
