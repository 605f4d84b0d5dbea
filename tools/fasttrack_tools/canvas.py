"""An SVG picture as a list of its elements."""

from __future__ import annotations

from typing import List, Tuple
from xml.sax.saxutils import escape, quoteattr

Box = Tuple[float, float, float, float]


def _number(value: float) -> str:
    """A coordinate with at most one decimal."""
    return f"{value:.1f}".rstrip("0").rstrip(".")


class Canvas:
    """Elements in the order in which they are painted. A place is (x, y), a box (x, y, width, height), in pixels."""

    def __init__(self) -> None:
        self._elements: List[str] = []

    def box(self, box: Box, style: str, title: str = "") -> None:
        """A rectangle, with a text that is shown under the pointer."""
        x, y, width, height = (_number(value) for value in box)
        shown = f"<title>{escape(title)}</title>" if title else ""
        self._elements.append(
            f'<rect x="{x}" y="{y}" width="{width}" height="{height}" class={quoteattr(style)}>{shown}</rect>'
            if shown
            else f'<rect x="{x}" y="{y}" width="{width}" height="{height}" class={quoteattr(style)}/>'
        )

    def boxes(self, boxes: List[Box], style: str) -> None:
        """Many rectangles as one path."""
        if boxes:
            parts = (
                f"M{_number(x)} {_number(y)}h{_number(width)}v{_number(height)}h{_number(-width)}z"
                for x, y, width, height in boxes
            )
            self.path("".join(parts), style)

    def path(self, steps: str, style: str) -> None:
        """A path."""
        self._elements.append(f'<path d="{steps}" class={quoteattr(style)}/>')

    def line(self, x: float, y: float, x2: float, y2: float, style: str) -> None:
        """A straight line."""
        self.path(f"M{_number(x)} {_number(y)}L{_number(x2)} {_number(y2)}", style)

    def text(self, x: float, y: float, words: str, style: str = "") -> None:
        """A text whose base line begins there; the style may put its middle or its end there."""
        named = f" class={quoteattr(style)}" if style else ""
        self._elements.append(f'<text x="{_number(x)}" y="{_number(y)}"{named}>{escape(words)}</text>')

    def svg(self, width: float, height: float, head: str) -> str:
        """The whole file."""
        size = f'width="{_number(width)}" height="{_number(height)}" viewBox="0 0 {_number(width)} {_number(height)}"'
        lines = [f'<svg xmlns="http://www.w3.org/2000/svg" {size}>', head, *self._elements, "</svg>"]
        return "\n".join(lines) + "\n"
