"""HTML as a tree. Every text and every value of an attribute is escaped where the tree is written, and there is no other way into a page."""
import html
import re
from collections.abc import Iterable, Iterator
from datetime import datetime, timezone
from typing import Any, Union
from urllib.parse import quote

Child = Union["Element", str, int, None]
_VOID = ("meta", "link", "input", "br", "hr")
_NAME = re.compile(r"[a-zA-Z][a-zA-Z0-9]*")
_ATTRIBUTE = re.compile(r"[a-zA-Z][a-zA-Z0-9-]*")
_CONTROL = {code: "\N{REPLACEMENT CHARACTER}" for code in [*range(9), 11, 12, *range(14, 32), *range(127, 160)]}
_LAST_SECOND = 253_402_300_799


class Element:
    """A tag with attributes and children. An attribute whose value is None is left out; `True` stands for a name alone."""

    __slots__ = ("name", "attributes", "children")

    def __init__(self, name: str, children: Iterable[Child], attributes: dict[str, object]) -> None:
        assert _NAME.fullmatch(name)
        self.name, self.children, self.attributes = name, [each for each in children if each is not None], attributes

    def pieces(self) -> Iterator[str]:
        """The text, in pieces."""
        yield f"<{self.name}"
        for name, value in self.attributes.items():
            if value is not None and value is not False:
                yield f" {name}" if value is True else f" {name}=\"{_escaped(str(value))}\""
        yield ">"
        for child in self.children:
            if isinstance(child, Element):
                yield from child.pieces()
            else:
                yield _escaped(str(child))
        if self.name not in _VOID:
            yield f"</{self.name}>"


def _escaped(text: str) -> str:
    return html.escape(text.translate(_CONTROL), quote=True)


def e(tag: str, /, *children: Child, **attributes: object) -> Element:
    """An element. `class_` is written `class`, `data_x` `data-x`. A link leads into this service alone."""
    written = {key.rstrip("_").replace("_", "-"): value for key, value in attributes.items()}
    assert all(map(_ATTRIBUTE.fullmatch, written))
    for key in ("href", "src", "action"):
        value = str(written.get(key) or "/")
        assert value[0] in "/#?" and not value.startswith("//"), "a link leads out of this service"
    return Element(tag, children, written)


def written(root: Element) -> bytes:
    """The document with this element."""
    return ("<!doctype html>\n" + "".join(root.pieces())).encode("utf-8")


def path(*words: object, **query: object) -> str:
    """A path of words, each quoted whole."""
    text = "/" + "/".join(quote(str(word), safe="") for word in words)
    return text + ("?" + "&".join(f"{name}={quote(str(value), safe='')}" for name, value in query.items()) if query else "")


def a(text: Child, *words: object, **attributes: object) -> Element:
    """A link to a path of words."""
    return e("a", text, href=path(*words), **attributes)


def number(value: int) -> str:
    """A number with commas between each three digits."""
    return f"{value:,}"


def moment(second: int | None) -> Element:
    """A time with the protocol's second beside it. Without a script it is that of Greenwich."""
    if second is None:
        return e("span", "unknown")
    if not 0 <= second <= _LAST_SECOND:
        return e("span", f"second {second}")
    when = datetime.fromtimestamp(second, timezone.utc)
    shown = e("time", when.strftime("%Y-%m-%d %H:%M:%S UTC"), datetime=when.strftime("%Y-%m-%dT%H:%M:%SZ"), class_="moment")
    return e("span", shown, " ", e("span", f"second {second}", class_="second"), class_="when")


def span_of(seconds: int) -> str:
    """How long some seconds are, in the greatest unit that fits, and in seconds."""
    for unit, size in (("day", 86_400), ("hour", 3600), ("minute", 60)):
        if seconds >= size:
            count = seconds / size
            return f"{count:.1f} {unit}s ({seconds:,} seconds)".replace(".0 ", " ") if count != 1 else f"1 {unit} ({seconds:,} seconds)"
    return f"{seconds:,} seconds"


def table(caption: str, heads: list[str], rows: Iterable[Iterable[Any]], **attributes: object) -> Element:
    """A table with a caption, in a box that scrolls by itself where the screen is narrow."""
    head = e("tr", *[e("th", each, scope="col") for each in heads])
    body = [e("tr", *[e("td", cell, data_name=name) for name, cell in zip(heads, row)]) for row in rows]
    inner = e("table", e("caption", caption), e("thead", head), e("tbody", *body), **attributes)
    return e("div", inner, class_="wide", tabindex="0", role="region", aria_label=caption)


def facts(*rows: tuple[str, Child]) -> Element:
    """Names with their values."""
    return e("dl", *[e("div", e("dt", name), e("dd", value)) for name, value in rows], class_="facts")


def short(text: str) -> Element:
    """A long key or hash, of which a narrow screen shows the beginning."""
    return e("code", text, class_="long")


def group(*children: Child) -> Element:
    """Children side by side."""
    return e("span", *children)
