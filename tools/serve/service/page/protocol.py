"""The chapters of the protocol, as they stand in the repository, as HTML. Of Markdown it has what these chapters use."""
import re
from pathlib import Path

from ..ledger import Turn
from ..refusals import BLOCK_NOT_FOUND, Refusal
from .frame import View
from .markup import Child, Element, a, e
from .views import Query

FOLDER = Path(__file__).resolve().parents[4] / "docs" / "protocol"
_NAME = re.compile(r"[a-z-]{2,40}")
_INLINE = re.compile(r"`([^`]+)`|\*([^*]+)\*|\[([^\]]+)\]\(([^)]+)\)")
_LINK = re.compile(r"(?:([a-z-]+)\.md)?(#[a-z0-9-]+)?")
_CODE = re.compile(r"[A-Z]\d{2,3}")


async def protocol(_: Turn, query: Query) -> View:
    """The list of the chapters, or one."""
    name = query.get("chapter", "")
    if not name:
        files = sorted(path.stem for path in FOLDER.glob("*.md") if path.stem != "README")
        return View("Protocol", [e("ul", *[e("li", a(each.replace("-", " "), "page", "protocol", each)) for each in files])], is_live=False)
    path = FOLDER / f"{name}.md"
    if not _NAME.fullmatch(name) or not path.is_file():
        raise Refusal(BLOCK_NOT_FOUND, "There is no such chapter")
    title, *parts = chapter(path.read_text(encoding="utf-8"))
    return View(str(title), list(parts), is_live=False)


def chapter(text: str) -> list[Child]:
    """The title, and the parts of a chapter."""
    lines = text.split("\n")
    parts: list[Child] = [lines[0].removeprefix("# ")]
    place = 1
    while place < len(lines):
        line = lines[place]
        end = place + 1
        if line.startswith("#"):
            heading = line.lstrip("#").strip()
            parts.append(e("h2" if line.startswith("## ") else "h3", *inline(heading), id=heading.lower().replace(" ", "-")))
        elif line.startswith("|"):
            end = _end(lines, place, "|")
            parts.append(_table(lines[place:end]))
        elif line.startswith("    "):
            end = _end(lines, place, "    ")
            parts.append(e("pre", "\n".join(each[4:] for each in lines[place:end])))
        elif re.match(r"(- |\d+\. )", line):
            end = _end_of_list(lines, place)
            parts.append(_list(lines[place:end]))
        elif line:
            end = next((at for at in range(place, len(lines)) if not lines[at]), len(lines))
            parts.append(e("p", *inline(" ".join(lines[place:end]))))
        place = end
    return parts


def _end(lines: list[str], place: int, start: str) -> int:
    return next((at for at in range(place, len(lines)) if not lines[at].startswith(start)), len(lines))


def _end_of_list(lines: list[str], place: int) -> int:
    return next((at for at in range(place, len(lines)) if not re.match(r"(- |\d+\. |  )", lines[at])), len(lines))


def _list(lines: list[str]) -> Element:
    items: list[str] = []
    for line in lines:
        if re.match(r"(- |\d+\. )", line):
            items.append(line.split(" ", 1)[1])
        else:
            items[-1] += " " + line.strip()
    return e("ol" if lines[0][0].isdigit() else "ul", *[e("li", *inline(item)) for item in items])


def _table(lines: list[str]) -> Element:
    rows = [[cell.strip().replace("\\|", "|") for cell in re.split(r"(?<!\\)\|", line)[1:-1]] for line in lines]
    head = e("tr", *[e("th", *inline(cell), scope="col") for cell in rows[0]])
    body = [e("tr", *[e("td", *inline(cell)) for cell in row], id=row[0] if _CODE.fullmatch(row[0]) else None) for row in rows[2:]]
    return e("div", e("table", e("thead", head), e("tbody", *body)), class_="wide", tabindex="0", role="region", aria_label="Table")


def inline(text: str) -> list[Child]:
    """The parts of a line of text."""
    parts: list[Child] = []
    place = 0
    for found in _INLINE.finditer(text):
        parts.append(text[place : found.start()])
        code, emphasis, name, to = found.groups()
        parts.append(e("code", code) if code else e("em", emphasis) if emphasis else _link(name, to))
        place = found.end()
    return [*parts, text[place:]]


def _link(name: str, to: str) -> Element:
    found = _LINK.fullmatch(to)
    if found is None:
        return e("span", name)
    chapter_name, anchor = found.groups()
    return e("a", name, href=(f"/page/protocol/{chapter_name}" if chapter_name else "") + (anchor or ""))
