"""Sizes, colours and signs of the SVG picture."""

from __future__ import annotations

from .canvas import Canvas
from .history import Fate, Part
from .journal import Cross, Discard, Finish, Fork, Halt, Keep, Release

# In pixels: the lanes lie from LEFT on, and are WIDTH wide where there are many entries.
LEFT = 120.0
WIDTH = 1200.0
RIGHT = 24.0

# About the width of a letter of a label.
LETTER_WIDTH = 6.3

HEAD = """\
<style>
text { font-family: "DejaVu Sans", Verdana, sans-serif; font-size: 11px; fill: #222 }
.title { font-size: 15px; font-weight: bold }
.small { font-size: 10px; fill: #555 }
.name { font-size: 10px; text-anchor: middle }
.name, .tick { paint-order: stroke; stroke: #fff; stroke-width: 2.5; stroke-opacity: 0.75 }
.axis { font-size: 9px; fill: #777; text-anchor: middle }
.tick { font-size: 9px; fill: #777; text-anchor: middle }
.right { text-anchor: end }
.rail { fill: #f4f4f4 }
.opened { fill: #c9c9d6 }
.original { fill: #9ec5e8; stroke: #3d75a8; stroke-width: 0.7 }
.fast { fill: #f9c27e; stroke: #b8731a; stroke-width: 0.7 }
.lead { fill: #b3dfb3; stroke: #4b8f4b; stroke-width: 0.7 }
.gone { fill: #fff; stroke: #777; stroke-dasharray: 3 2 }
.thrown { fill: url(#hatch); stroke: none }
.open { fill: #fff; fill-opacity: 0.6; stroke: none }
.fork { fill: #5b4ea8 }
.cross { fill: #b8731a }
.keep { fill: #2e8b3d }
.discard { fill: #c8242b }
.release { fill: #2b7f93 }
.finish { fill: #222 }
.halt { fill: #c8242b }
.cut { stroke: #c8242b; stroke-width: 1.2; stroke-dasharray: 4 3; fill: none }
</style>
<defs><pattern id="hatch" width="5" height="5" patternUnits="userSpaceOnUse" patternTransform="rotate(45)">\
<rect width="1.4" height="5" fill="#c8242b" fill-opacity="0.75"/></pattern></defs>
<rect width="100%" height="100%" fill="#fff"/>"""

STYLE = {Part.ORIGINAL: "original", Part.FAST: "fast", Part.LEAD: "lead"}
OVERLAY = {Fate.THROWN: "thrown", Fate.OPEN: "open"}
EVENT_STYLE = {
    Fork: "fork",
    Cross: "cross",
    Keep: "keep",
    Discard: "discard",
    Release: "release",
    Finish: "finish",
    Halt: "halt",
}


def mark(canvas: Canvas, kind: type, x: float, y: float) -> None:
    """The sign of an event, with its middle there."""
    shapes = {
        Fork: "m0 -5l5 9h-10z",
        Cross: "m0 -5l5 5l-5 5l-5 -5z",
        Keep: "m-5 0a5 5 0 1 0 10 0a5 5 0 1 0 -10 0z",
        Discard: "m-5 -3l2 -2l3 3l3 -3l2 2l-3 3l3 3l-2 2l-3 -3l-3 3l-2 -2l3 -3z",
        Release: "m0 5l5 -9h-10z",
        Finish: "m-5 -5h10v10h-10z",
        Halt: "m-5 -5h10v10h-10z",
    }
    canvas.path(f"M{x:.1f} {y:.1f}{shapes[kind]}", EVENT_STYLE[kind])
