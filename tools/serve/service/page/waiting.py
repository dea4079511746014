"""The views of what is not in the chain: branches, documents that wait, and why something is refused."""
from collections import Counter
from typing import Any

from .. import node_pages
from ..ledger import Lacking, Turn
from ..refusals import Refusal
from ..series import series
from ..writes import MOST_TAKEN_OFF
from .frame import View
from .markup import Child, Element, a, e, facts, group, number, short, table
from .pictures import tree
from .views import MOST_LINES, Query, who

BEFORE_FORK = 3
MOST_OF_CHAIN = 20
MOST_SHOWN = 100
LONGER_BY = 2
"""The number of a block that the automatic choice takes is at least the length of the chain and this."""


async def branches(turn: Turn, _: Query) -> View:
    """The stored blocks as a tree on the chain, what a switch would do, and failures of the automatic choice."""
    shown = await node_pages.branches(turn)
    parts: list[Child] = [_tree(turn, shown)] if shown["stored"] else [e("p", "No block of another branch is stored.")]
    parts += [_tip(turn, each) for each in shown["tips"]]
    if shown["stored"]:
        parts.append(e("section", e("h2", "Stored blocks"), e("ul", *[_stored(turn, each) for each in shown["stored"][:MOST_SHOWN]])))
    return View("Branches", [*parts, await _failures(turn)])


def _tree(turn: Turn, shown: dict[str, Any]) -> Element:
    points = series(turn.index)
    lowest = min(int(each["stamp"].split("-")[0]) for each in shown["stored"])
    start = max(0, min(lowest - BEFORE_FORK, len(points) - 1), len(points) - MOST_OF_CHAIN)
    chain = [f"{each.number}-{each.hash}" for each in points[start:]]
    stored = [each for each in shown["stored"] if int(each["stamp"].split("-")[0]) >= start][:MOST_SHOWN]
    drawing = e("div", tree(chain, stored), class_="wide", tabindex="0", role="region", aria_label="The tree of blocks")
    left = len(shown["stored"]) - len(stored)
    more = e("p", f"{left} stored blocks are not drawn.") if left else None
    return e("section", e("h2", "The tree"), e("p", f"The chain from block {start} on, and the stored blocks in rows below it."), drawing, more)


def _stamp(stamp: str) -> Element:
    return e("code", stamp, class_="long")


def _tip(turn: Turn, tip: dict[str, Any]) -> Element:
    heading = e("h2", f"The branch that ends with block {tip['tip'].split('-')[0]}")
    if tip["missing"] is not None:
        said = e("p", "A switch to it is not possible: it stands on a block that is neither stored nor in the chain, ", _stamp(tip["missing"]), ".")
        return e("section", heading, _stamp(tip["tip"]), said, class_="tip")
    off = [a(stamp.split("-")[0], "page", "block", stamp.split("-")[0]) for stamp in tip["takes_off"]]
    too_many = f" This is more than the {MOST_TAKEN_OFF} that can be (W01)." if len(off) > MOST_TAKEN_OFF else ""
    on = [e("a", each.split("-")[0], href=f"#stored-{each}") for each in tip["puts_on"]]
    rows: list[tuple[str, Child]] = [
        ("Last block", _stamp(tip["tip"])), ("Stands on", _stamp(tip["stands_on"] or "the empty chain")),
        ("SWITCH would take off", group(f"{len(off)} blocks: ", *_listed(off), too_many) if off else "no block"),
        ("and put on", group(f"{len(on)} blocks: ", *_listed(on))),
    ]
    number_of_tip, wanted = int(tip["tip"].split("-")[0]), turn.index.length() + LONGER_BY
    rule = "it is long enough for the automatic choice" if number_of_tip >= wanted else f"the automatic choice wants a block {wanted} or higher"
    rows.append(("Its end", f"{number_of_tip - turn.index.length() + 1:+d} blocks from that of the chain; {rule}"))
    return e("section", heading, facts(*rows), class_="tip")


def _listed(elements: list[Element]) -> list[Child]:
    found: list[Child] = []
    for each in elements:
        found += [", ", each] if found else [each]
    return found


def _stored(turn: Turn, each: dict[str, Any]) -> Element:
    return e("li", _stamp(each["stamp"]), " by ", who(turn, each["issuer"]), id=f"stored-{each['stamp']}")


async def _failures(turn: Turn) -> Element:
    try:
        found = (await node_pages.failures(turn))["failures"]
    except Lacking:
        return e("section", e("h2", "Failures of the automatic choice"), e("p", "The program that runs here has no FAILED yet: they are not told."))
    rows = [[_stamp(each["tip"]), _stamp(each["at"]), rule_link(each["rule"]), each["sentence"]] for each in found]
    shown = table("Branches that were tried", ["last block", "failed at", "rule", "sentence"], rows) if rows else e("p", "None.")
    return e("section", e("h2", "Failures of the automatic choice"), shown)


def rule_link(rule: str) -> Element:
    """A rule's code, with a link to its row in the table of rules."""
    return e("a", rule, href=f"/page/protocol/rules#{rule}")


# documents that wait

async def pool(turn: Turn, _: Query) -> View:
    """The documents that wait, and what a block that is forged now would take in or leave out, with the rule."""
    if turn.lacks("PEND"):
        return View("Waiting", [e("p", "The program that runs here has no PEND yet: no document can wait.")])
    shown = await node_pages.pool(turn)
    waiting = shown["documents"]
    knows = not turn.lacks("FORGE")
    counts = Counter("left out" if each["left"] else "taken in" for each in waiting)
    said = f"{len(waiting)} documents wait, of at most {number(shown['size'])}. "
    if knows and waiting:
        said += f"A block that is forged now would take in {counts['taken in']} and leave out {counts['left out']}."
    elif waiting:
        said += "What a forged block would take in is not told, since the program that runs here has no FORGE yet."
    rows = [_document(turn, each, knows) for each in waiting[:MOST_SHOWN]]
    rest = e("p", f"{len(waiting) - MOST_SHOWN} more are in ", a("the JSON of the pool", "node", "pool"), ".") if len(waiting) > MOST_SHOWN else None
    return View("Waiting", [e("p", said, id="pool-said"), e("ul", *rows, class_="documents"), rest])


def _document(turn: Turn, each: dict[str, Any], knows: bool) -> Element:
    about: list[Child] = [e("strong", each["kind"]), " by ", who(turn, each["issuer"])]
    if each["subject"] != each["issuer"]:
        about += [" of ", who(turn, each["subject"])] if each["kind"] == "certification" else [" called ", each["subject"]]
    if each["left"]:
        about += [": left out by ", rule_link(each["left"]), f": {each['sentence']}"]
    elif knows:
        about.append(": taken in")
    text = e("details", e("summary", "Its text"), e("pre", each["text"]), id=f"text-{each['hash']}")
    return e("li", e("p", *about), e("p", short(each["hash"])), text, class_="left" if each["left"] else "taken")


# why something is refused

FORM_NAME, LONGEST_TEXT = "text", 1_048_576


def why_form(text: str = "") -> Element:
    """Where a block or document is put in."""
    label = e("label", "A raw block, or a signed document, from its line Version to its last line", for_=FORM_NAME)
    area = e("textarea", "\n" + text, name=FORM_NAME, id=FORM_NAME, rows=14, spellcheck="false", required=True)
    return e("form", label, area, e("button", "Ask the chain"), action="/page/why", method="post", class_="why")


async def why(turn: Turn, _: Query) -> View:
    """Asks what the chain would answer to a block or document."""
    said = "What would the chain answer to this block or document, by which rule, and by which values? Nothing changes by the question."
    return View("Why refused?", [e("p", said), why_form()], is_live=False)


def answered(turn_head: str, shown: dict[str, Any], text: str) -> View:
    """What the chain would answer."""
    kind = shown["kind"]
    if shown["accepted"]:
        said = "The chain would accept this block." if kind == "block" else f"A block that is forged now would take in this {kind}."
        parts: list[Child] = [e("p", said, class_="good", id="verdict")]
    elif shown["rule"] is None:
        parts = [e("p", f"A block that is forged now would not have this {kind}.", class_="bad", id="verdict")]
    else:
        parts = _refused(shown)
    shown_lines = enumerate(text.removesuffix("\n").split("\n")[:MOST_LINES], 1)
    lines = e("ol", *[e("li", e("code", line), id=f"line-{place}") for place, line in shown_lines], class_="lines")
    asked = e("details", e("summary", "The text that was asked about"), lines, id="asked", open=bool(shown["values"]))
    on = e("p", "On the chain that ends with ", e("code", turn_head, class_="long"), ".")
    return View("Why refused?", [*parts, on, asked, e("h2", "Ask again"), why_form(text)], is_live=False)


def _refused(shown: dict[str, Any]) -> list[Child]:
    rule = shown["rule"]
    head = e("p", "Refused by ", e("strong", rule_link(rule)), ": ", shown["sentence"], class_="bad", id="verdict")
    chapter = e("p", "What it speaks of is in the chapter ", a(shown["chapter"].replace("-", " "), "page", "protocol", shown["chapter"]), ".")
    rows = [[each["what"], e("code", each["value"], class_="long"), _line(each["line"])] for each in shown["values"]]
    values = table("The values of this case", ["what", "value", "line"], rows) if rows else e(
        "p", "The node cannot be asked for the values of this case."
    )
    false = shown["false_signatures_in_lines"]
    lines = e("p", "Signatures that are not true, or whose text is not known, stand in the lines ", *_listed([_line(each) for each in false]), ".")
    return [head, chapter, values, lines if false else None]


def _line(line: int | None) -> Element:
    return e("span", "") if line is None else e("a", f"line {line}", href=f"#line-{line}")


def refused_question(error: Refusal, text: str) -> View:
    """What is shown where the question itself cannot be answered."""
    return View("Why refused?", [e("p", error.message, class_="bad", id="verdict"), why_form(text)], is_live=False, status=error.status)
