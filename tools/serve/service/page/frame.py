"""What stands around each view."""
from dataclasses import dataclass, field

from .markup import Child, Element, a, e, path

VIEWS = (
    ("Head", ()), ("People", ("page", "people")), ("Blocks", ("page", "blocks")), ("Branches", ("page", "branches")),
    ("Waiting", ("page", "pool")), ("Why refused?", ("page", "why")), ("Protocol", ("page", "protocol")), ("Interface", ("node",)),
)


@dataclass(frozen=True)
class View:
    """What a page shows: its title, its content, and whether a new block changes it."""

    title: str
    content: list[Child]
    is_live: bool = True
    follows: tuple[str, ...] = ()
    status: int = 200
    links: dict[str, str] = field(default_factory=dict)


def framed(view: View, *, currency: str, head: str, lacks: list[str], versions: dict[str, str]) -> Element:
    """The whole document. `head` is the stamp of the last block, `lacks` sentences on what cannot be reached."""
    style, script, icon = [path("page", "static", name) + f"?v={versions[name]}" for name in ("page.css", "page.js", "icon.svg")]
    relations = [e("link", rel=relation, href=to) for relation, to in view.links.items()]
    top = e(
        "head", e("meta", charset="utf-8"), e("meta", name="viewport", content="width=device-width, initial-scale=1"),
        e("title", f"{view.title} - {currency}"), e("link", rel="stylesheet", href=style),
        e("link", rel="icon", href=icon), *relations, e("script", src=script, defer=True),
    )
    main = e(
        "main", e("h1", view.title), *view.content, id="main", tabindex="-1", data_head=head, data_live="yes" if view.is_live else "no",
    )
    news = e("p", id="news", role="status", aria_live="polite")
    body = e("body", e("a", "To the content", href="#main", class_="skip"), _header(view, currency), news, main, _footer(lacks))
    return e("html", top, body, lang="en")


def _header(view: View, currency: str) -> Element:
    current = [name for name, _ in VIEWS if name == view.title]
    entries = [e("li", a(name, *words, aria_current="page" if name in current else None)) for name, words in VIEWS]
    search = e(
        "form", e("label", "Key, name, condition or block ", e("input", name="word", type="search", autocomplete="off", maxlength=1000)),
        e("button", "Find"), action=path("page", "find"), method="get", role="search",
    )
    return e("header", e("p", currency, class_="currency"), e("nav", e("ul", *entries), aria_label="Views"), search)


def _footer(lacks: list[str]) -> Element:
    said = [e("p", "What cannot be reached here:"), e("ul", *[e("li", sentence) for sentence in lacks])] if lacks else []
    about = e(
        "p", "Where the program behind this page is the proved dubp_node, its answers are proved; what the service around it shows is tested, and ",
        "not proved. Times are local where scripts run, else those of Greenwich.",
    )
    return e("footer", *said, about, e("p", id="reach", role="status", aria_live="polite"))
