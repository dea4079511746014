"""Texts that strangers might write to be taken for HTML, and how the elements of a page are counted."""
import random
from collections import Counter
from collections.abc import Iterator
from html.parser import HTMLParser

PIECES = (
    "<img src=x onerror=window.taken=1>", "<script>window.taken=1</script>", "\"><svg onload=window.taken=1>", "' onmouseover='window.taken=1",
    "</title><img src=x onerror=window.taken=1>", "</textarea><b id=taken>", "</code></li></ol><iframe src=/>", "<!--", "-->", "]]>", "<![CDATA[",
    "&lt;img src=x&gt;", "&#60;i&#62;", "&amp;quot;", "\" autofocus onfocus=window.taken=1 x=\"", "javascript:window.taken=1",
    "<a href=javascript:taken>",
    "</a><a href='//evil.example'>", "<base href=//evil.example>", "<meta http-equiv=refresh content=0>", "<style>*{display:none}</style>",
    "<math><mtext></form><form><mglyph><style></math><img src onerror=taken=1>", "<table><td>", "</table></main></body></html>",
    "<plaintext>",
    "<noscript><p title=\"</noscript><img src=x onerror=taken=1>\">", "<template>", "<select><option>", "\x00<b>\x00", "\x0b<i\x0c>", "<\u0130mg>",
    "\u202e<b>", "\u2028<script>", "\\u003cb\\u003e", "${taken}", "{{taken}}", "%3Cimg%3E", "<ns:b xmlns:ns='x'>", "<b a='\"' b=\"'\">", "`<b>`",
    "<input name=word value=taken>", "<button formaction=/page/why>", "<link rel=stylesheet href=//evil.example>", "<object data=x>", "<embed src=x>",
)


def strings(count: int) -> list[str]:
    """So many hostile texts, each another, the same at each run."""
    chosen = random.Random(51)
    found = list(PIECES)
    while len(found) < count:
        text = "".join(chosen.choices(PIECES, k=chosen.randint(1, 4)))
        cut = chosen.randrange(len(text))
        found.append(f"{text[cut:]}{chosen.choice(('', ' ', chr(34), chr(39), '>', '<'))}{text[:cut]}{len(found)}")
    return found[:count]


class Elements(HTMLParser):
    """The tags of a page, each with the names of its attributes, as a browser would make them."""

    def __init__(self, text: str) -> None:
        super().__init__()
        self.found: Counter[tuple[str, tuple[str, ...]]] = Counter()
        self.feed(text)
        self.close()

    def handle_starttag(self, tag: str, attrs: list[tuple[str, str | None]]) -> None:
        """Counts a tag."""
        self.found[tag, tuple(name for name, _ in attrs)] += 1

    def handle_comment(self, data: str) -> None:
        """Counts a comment: a page makes none."""
        self.found["comment", (data,)] += 1


def links(text: str) -> Iterator[str]:
    """Where the links and forms of a page lead."""
    for piece in text.split("<")[1:]:
        for name in (" href=\"", " src=\"", " action=\"", " formaction=\""):
            yield from (part.split('"')[0] for part in piece.split(">")[0].split(name)[1:])
