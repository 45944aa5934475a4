"""A picture of boxes in columns and rows, with arrows between them that never run behind a box.

An arrow leaves a box on its right side and reaches one of a later column on its left side. It runs only through the
gaps between columns and the streets between rows. Each has as many tracks as it needs, so that no two arrows lie on
each other.

If there are more columns than fit beside each other, they are cut into bands, one below the other. An arrow from
another band is drawn as a short one, which names the box that it comes from.
"""
from collections.abc import Iterator, Sequence
from dataclasses import replace

from registry_tools.pages.band import BAND, MARGIN, Arrow, Band, Box, Names, shifted
from registry_tools.pages.html import Markup, markup, style_of

__all__ = ["Arrow", "Band", "Box", "Names", "bands_of", "drawn", "picture", "picture_file"]


def bands_of(boxes: dict[int, Box], arrows: Sequence[Arrow], most_columns: int, names: Names) -> Iterator[Band]:
    """The bands of a picture: so many columns stand in each."""
    last = max(box.column for box in boxes.values())
    for first in range(0, last + 1, most_columns):
        columns = range(first, min(first + most_columns, last + 1))
        inside = {key: box for key, box in boxes.items() if box.column in columns}
        if inside:
            outside = {key: f"from {boxes[key].name}" for key in boxes if key not in inside}
            crossing = [replace(arrow, label=outside.get(arrow.tail, arrow.label)) for arrow in arrows]
            yield Band(inside, crossing, columns, names)


def drawn(boxes: dict[int, Box], arrows: Sequence[Arrow], most_columns: int, names: Names) -> tuple[str, float, float]:
    """The bands of a picture, with its width and its height."""
    parts: list[str] = []
    y, width = float(MARGIN), 0.0
    for band in bands_of(boxes, arrows, most_columns, names) if boxes else ():
        parts.append(f'<g transform="translate({MARGIN},{shifted(y)})">{"".join(band.parts())}</g>')
        y += band.height + BAND
        width = max(width, band.width)
    return "".join(parts), width + 2 * MARGIN, max(y - BAND, 0) + MARGIN


def picture(
    title: str, boxes: dict[int, Box], arrows: Sequence[Arrow], most_columns: int, kind: str, names: Names = Names()
) -> Markup:
    """The picture of boxes, by their keys, and arrows, as an element that `kind` is the class of."""
    parts, width, height = drawn(boxes, arrows, most_columns, names)
    size = f'viewBox="0 0 {shifted(width)} {shifted(height)}" width="{shifted(width)}"'
    return Markup(f'<svg role="img" class="{kind}" {size}><title>{markup(title)}</title>{parts}</svg>')


def picture_file(
    title: str, boxes: dict[int, Box], arrows: Sequence[Arrow], most_columns: int, names: Names = Names()
) -> str:
    """The picture as a file of its own, with its style."""
    parts, width, height = drawn(boxes, arrows, most_columns, names)
    size = f'viewBox="0 0 {shifted(width)} {shifted(height)}" width="{shifted(width)}" height="{shifted(height)}"'
    head = f'<svg xmlns="http://www.w3.org/2000/svg" role="img" {size}>\n<title>{markup(title)}</title>'
    style = f"<style>{style_of('colours', 'picture')} svg {{ background: var(--paper); }}</style>"
    return "\n".join([head, style, parts.replace("<g", "\n<g").lstrip(), "</svg>"])
