"""Pictures as SVG, whole without a script: plots over time, the web around a person, the tree of branches."""
import math
from dataclasses import dataclass
from typing import Any

from .markup import Element, e, number, path

WIDTH, HEIGHT = 640, 220
_TOP, _BOTTOM, _SIDE = 12, 30, 6
_NODE, _RING, _GAP = 9, 95, 54
_TURN, _BEND, _FREE = 0.37, 0.14, 12
MOST_DRAWN = 120
"""People in a drawing of a web; of more the nearest are drawn."""


@dataclass(frozen=True)
class Line:
    """A line of a plot: its name, its class for the colour, its values."""

    name: str
    style: str
    values: list[int]


def plot(name: str, times: list[int], lines: list[Line], *, identifier: str, blocks: tuple[int, int]) -> Element:
    """A plot of values that stay until the next time, between two blocks. The names of the lines and their last values stand below it."""
    top = max([1, *(value for line in lines for value in line.values)])
    first, last = (times[0], times[-1]) if times else (0, 0)
    places = [_SIDE + (WIDTH - 2 * _SIDE) * (time - first) / max(1, last - first) for time in times]
    parts = [_grid(top), *_ends(blocks), *[_steps(line, places, top) for line in lines]]
    marker = e("line", class_="marker", x1=0, x2=0, y1=_TOP, y2=HEIGHT - _BOTTOM, visibility="hidden")
    said = "; ".join(f"{line.name} from {number(line.values[0])} to {number(line.values[-1])}" for line in lines if line.values)
    drawing = e("svg", *parts, marker, viewBox=f"0 0 {WIDTH} {HEIGHT}", role="img", aria_label=f"{name}: {said}", class_="plot")
    legend = e("ul", *[_legend(line) for line in lines], class_="legend")
    return e("figure", e("figcaption", name), drawing, legend, id=identifier, data_places=" ".join(f"{place:.1f}" for place in places))


def _ends(blocks: tuple[int, int]) -> list[Element]:
    height = HEIGHT - 6
    last = e("text", f"block {number(blocks[1])}", x=WIDTH - 2, y=height, class_="end")
    return [e("text", f"block {number(blocks[0])}", x=2, y=height), *([last] if blocks[1] != blocks[0] else [])]


def _legend(line: Line) -> Element:
    last = number(line.values[-1]) if line.values else "none"
    return e("li", e("span", class_=f"swatch {line.style}"), f"{line.name}: ", e("span", last, data_line=line.name))


def _height(value: int, top: int) -> float:
    return _TOP + (HEIGHT - _TOP - _BOTTOM) * (1 - value / top)


def _grid(top: int) -> Element:
    rows = []
    for value in sorted({0, top // 2, top}):
        height = _height(value, top)
        rows.append(e("line", x1=0, x2=WIDTH, y1=f"{height:.1f}", y2=f"{height:.1f}", class_="grid"))
        rows.append(e("text", number(value), x=2, y=f"{height - 3 if value != top else height + 16:.1f}", class_="scale"))
    return e("g", *rows)


def _steps(line: Line, places: list[float], top: int) -> Element:
    parts: list[str] = []
    for place, value in zip(places, line.values):
        height = f"{_height(value, top):.1f}"
        parts.append(f"H{place:.1f}V{height}" if parts else f"M{place:.1f} {height}")
    return e("path", d="".join(parts), class_=f"line {line.style}")


@dataclass(frozen=True)
class Node:
    """Somebody in the drawing of a web, where, and on how many certifications from the middle."""

    key: str
    uid: str
    x: float
    y: float
    ring: int


def web(middle: dict[str, Any], near: list[list[tuple[str, str]]], edges: set[tuple[str, str]], lit: set[tuple[str, str]]) -> Element:
    """The web around a person: rings of keys and names, certifications as arrows, and those of the walks of sentries lit up."""
    nodes = _placed(middle, near)
    shown = sorted(edges | lit, key=lambda pair: pair in lit)
    arrows = [_arrow(nodes[a], nodes[b], (a, b) in lit) for a, b in shown if a in nodes and b in nodes]
    sentries = {each["sentry"] for each in middle["sentries"]}
    people = [_person(node, node.key in sentries or (node.ring == 0 and middle["is_sentry"])) for node in nodes.values()]
    left, top = min(node.x for node in nodes.values()) - 60, min(node.y for node in nodes.values()) - 30
    width, height = max(node.x for node in nodes.values()) + 60 - left, max(node.y for node in nodes.values()) + 40 - top
    box, size = f"{left:.0f} {top:.0f} {width:.0f} {height:.0f}", {"width": f"{width:.0f}", "height": f"{height:.0f}"}
    label = f"The web around {middle['uid']}: {len(nodes)} people, {len(arrows)} certifications"
    heads = e("defs", _head("arrow"), _head("arrow-lit"))
    return e("svg", heads, *arrows, *people, viewBox=box, **size, role="group", aria_label=label, class_="web")


def _head(name: str) -> Element:
    size = {"markerWidth": 9, "markerHeight": 8, "refX": 8, "refY": 4, "markerUnits": "userSpaceOnUse"}
    return e("marker", e("path", d="M0 0L8 4L0 8z", class_=name), id=name, orient="auto", **size)


def _placed(middle: dict[str, Any], near: list[list[tuple[str, str]]]) -> dict[str, Node]:
    nodes = {middle["key"]: Node(middle["key"], middle["uid"], 0, 0, 0)}
    radius = 0.0
    for ring, people in enumerate(near, 1):
        radius = max(radius + _RING + 50 * (ring == 1), len(people) * _GAP / (2 * math.pi))
        for place, (key, uid) in enumerate(people):
            # turned a little from ring to ring, so that no walk leads through the middle
            angle = 2 * math.pi * (place + _TURN * ring) / max(1, len(people)) - math.pi / 2
            nodes[key] = Node(key, uid, radius * math.cos(angle), radius * math.sin(angle), ring)
    return nodes


def _arrow(start: Node, end: Node, is_lit: bool) -> Element:
    """A certification: straight to or from the middle, else bent, so that it does not lead through the middle and both ways are seen."""
    length = math.hypot(end.x - start.x, end.y - start.y) or 1.0
    dx, dy = (end.x - start.x) / length, (end.y - start.y) / length
    bend = 0.0 if 0 in (start.ring, end.ring) else _BEND * length
    x, y = (start.x + end.x) / 2 - dy * bend, (start.y + end.y) / 2 + dx * bend
    ends = [start.x + dx * _FREE, start.y + dy * _FREE, x, y, end.x - dx * _FREE, end.y - dy * _FREE]
    way = "M{:.1f} {:.1f}Q{:.1f} {:.1f} {:.1f} {:.1f}".format(*ends)
    return e("path", d=way, class_="walk" if is_lit else "edge", marker_end=f"url(#{'arrow-lit' if is_lit else 'arrow'})")


def _person(node: Node, is_sentry: bool) -> Element:
    what = f"{node.uid}, sentry" if is_sentry else node.uid
    circle = e("circle", cx=f"{node.x:.1f}", cy=f"{node.y:.1f}", r=_NODE + (3 if node.ring == 0 else 0), class_="sentry" if is_sentry else "somebody")
    shown = node.uid if len(node.uid) <= 14 else node.uid[:13] + "…"
    text = e("text", shown, x=f"{node.x:.1f}", y=f"{node.y + _NODE + 13:.1f}", class_="name")
    return e("a", circle, text, href=path("page", "person", node.key), aria_label=what)


_STEP_X, _STEP_Y, _BOX = 96, 46, 84


def tree(chain: list[str], stored: list[dict[str, Any]]) -> Element:
    """The stored blocks as branches of the last blocks of the chain: a row for the chain and one for each branch."""
    rows = {stamp: 0 for stamp in chain}
    followers: dict[str | None, list[str]] = {}
    for each in stored:
        followers.setdefault(each["previous"], []).append(each["stamp"])
    heights, row = dict(rows), 0
    previous = {each["stamp"]: each["previous"] for each in stored}
    roots = [each["stamp"] for each in stored if each["previous"] not in previous]
    for root in sorted(roots, key=_number_of):
        row = _rows_of(root, followers, heights, row + 1)
    first = min([_number_of(stamp) for stamp in heights] or [0])
    links = [(before, stamp) for before, stamp in [*zip(chain, chain[1:]), *((previous[each], each) for each in previous)]]
    lines = [_link(heights, first, before, stamp) for before, stamp in links if before in heights]
    boxes = [_box(stamp, height, first, stamp in rows) for stamp, height in heights.items()]
    width = (max([_number_of(stamp) for stamp in heights] or [0]) - first + 1) * _STEP_X
    box = f"0 0 {width} {(row + 1) * _STEP_Y}"
    label = f"{len(chain)} blocks of the chain and {len(stored)} stored blocks"
    return e("svg", *lines, *boxes, viewBox=box, width=width, height=(row + 1) * _STEP_Y, role="group", aria_label=label, class_="tree")


def _number_of(stamp: str) -> int:
    return int(stamp.split("-")[0])


def _rows_of(root: str, followers: dict[str | None, list[str]], heights: dict[str, int], row: int) -> int:
    """Gives rows to a block and all behind it: the first of each keeps the row. Gives the last row that was given."""
    waiting, last = [(root, row)], row
    while waiting:
        stamp, at = waiting.pop()
        heights[stamp] = at
        for place, each in enumerate(followers.get(stamp, [])):
            last += place > 0
            waiting.append((each, at if place == 0 else last))
    return last


def _at(stamp: str, row: int, first: int) -> tuple[float, float]:
    return (_number_of(stamp) - first) * _STEP_X + 6, row * _STEP_Y + 8


def _link(heights: dict[str, int], first: int, before: str, stamp: str) -> Element:
    (x1, y1), (x2, y2) = _at(before, heights[before], first), _at(stamp, heights[stamp], first)
    return e("line", x1=x1 + _BOX, y1=y1 + 15, x2=x2, y2=y2 + 15, class_="edge")


def _box(stamp: str, row: int, first: int, is_of_chain: bool) -> Element:
    x, y = _at(stamp, row, first)
    shape = e("rect", x=x, y=y, width=_BOX, height=30, rx=4, class_="chain" if is_of_chain else "stored")
    text = e("text", f"{_number_of(stamp)}-{stamp.split('-')[1][:4]}", x=x + _BOX / 2, y=y + 19, class_="name")
    if is_of_chain:
        return e("a", shape, text, href=path("page", "block", _number_of(stamp)), aria_label=f"block {stamp}, of the chain")
    return e("a", shape, text, href=f"#stored-{stamp}", aria_label=f"block {stamp}, stored")
