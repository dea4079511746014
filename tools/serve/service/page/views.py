"""The views of the chain: its head, its blocks, one block, and people."""
from typing import Any

from .. import bma_chain, node_pages
from ..blocks import BlockText
from ..ledger import Turn
from ..people import parameters
from ..refusals import Refusal
from ..routes import openapi
from ..series import Point, series, thinned
from .frame import View
from .markup import Child, Element, a, e, facts, group, moment, number, short, span_of, table
from .pictures import Line, plot

MOST_ROWS = 100
MOST_LINES = 2_000
Query = dict[str, str]


async def head(turn: Turn, _: Query) -> View:
    """The head, the money and its change, plots, and the last blocks."""
    points = series(turn.index)
    if not points:
        return View("Head", [e("p", "There is no block yet. The first one comes by a POST to /blockchain/block.")])
    values, money = await node_pages.head(turn), await node_pages.money(turn)
    now = e("div", _last_block(turn, values), _money(values, money, points), class_="columns")
    return View("Head", [now, *_plots(points), _last_blocks(points[-10:])])


def _last_block(turn: Turn, values: dict[str, Any]) -> Element:
    issuer = series(turn.index)[-1].issuer
    rows: list[tuple[str, Child]] = [
        ("Currency", group(bma_chain.currency_of(turn), ": ", a("its parameters", "page", "parameters"))),
        ("Last block", a(number(values["number"]), "page", "block", values["number"])), ("Hash", short(values["hash"])),
        ("Median time", moment(values["median_time"])), ("Issuer", who(turn, issuer)), ("Members", number(values["members"])),
        ("Least difficulty", number(values["pow_min"])),
        ("Issuers", f"{number(values['issuers'])} in a frame of {number(values['frame'])} blocks (variation {values['variation']})"),
    ]
    return e("section", e("h2", "The last block"), facts(*rows), id="last-block")


def _money(values: dict[str, Any], money: dict[str, Any], points: list[Point]) -> Element:
    base = values["unit_base"]
    rows: list[tuple[str, Child]] = [
        ("Dividend", f"{number(values['dividend'])}{f' × 10^{base}' * (base > 0)} units for each member"),
        ("Issued (the mass)", f"{number(money['issued'])} units"), ("Unspent", f"{number(money['unspent'])} units"),
        ("Cleared", f"{number(money['cleared'])} units"),
        ("Issued = unspent + cleared", "yes" if money["conserved"] else "NO: this must not be"),
    ]
    changes = [["since block", "mass", "unspent", "members"]]
    for count in (1, 10, 100, 1000):
        if count < len(points):
            then, now = points[-1 - count], points[-1]
            change = [f"{getattr(now, name) - getattr(then, name):+,}" for name in ("mass", "unspent", "members")]
            changes.append([f"{then.number} ({count} before)", *change])
    shown = table("Change", changes[0], changes[1:]) if len(changes) > 1 else None
    return e("section", e("h2", "Money"), facts(*rows), shown, id="money")


def _plots(points: list[Point]) -> list[Child]:
    rows = [points[place] for place in thinned(len(points))]
    times, ends = [each.median_time for each in rows], (rows[0].number, rows[-1].number)
    pictures = [
        plot("Members", times, [Line("members", "first", [each.members for each in rows])], identifier="plot-members", blocks=ends),
        plot(
            "Dividend that was last paid", times, [Line("dividend", "second", [each.dividend for each in rows])], identifier="plot-dividend",
            blocks=ends,
        ),
        plot(
            "Mass and unspent money", times,
            [Line("mass", "first", [each.mass for each in rows]), Line("unspent", "third", [each.unspent for each in rows])],
            identifier="plot-mass", blocks=ends,
        ),
    ]
    heads = ["block", "time", "members", "dividend", "mass", "unspent"]
    cells = [[a(each.number, "page", "block", each.number), moment(each.median_time), *map(number, _values(each))] for each in rows]
    which = "every block" if len(rows) == len(points) else f"{len(rows)} of {len(points):,} blocks, evenly"
    inner = table("Numbers of the plots", heads, cells, class_="numbers")
    numbers = e("details", e("summary", f"The numbers of the plots ({which})"), inner, id="numbers")
    said = e("p", "From ", moment(times[0]), " to ", moment(times[-1]), f": {which}.")
    return [e("section", e("h2", "Over time"), said, e("div", *pictures, class_="plots", data_reads="numbers"), numbers, id="over-time")]


def _values(point: Point) -> tuple[int, int, int, int]:
    return point.members, point.dividend, point.mass, point.unspent


def _last_blocks(points: list[Point]) -> Element:
    rows = [[a(number(each.number), "page", "block", each.number), moment(each.median_time), number(each.members)] for each in reversed(points)]
    return e("section", e("h2", "Last blocks"), table("Last blocks", ["block", "time", "members"], rows), id="last-blocks")


def who(turn: Turn, key: str) -> Element:
    """A person by name, with a link; a key that is nobody's leads to its account."""
    identity = turn.index.identity(key)
    return a(key, "page", "account", key, class_="long") if identity is None else a(identity.uid, "page", "person", key)


def _place(query: Query, name: str, least: int, most: int, usual: int) -> int:
    text = query.get(name, "")
    return min(max(int(text), least), most) if text.isdecimal() and len(text) < 16 else usual


async def blocks(turn: Turn, query: Query) -> View:
    """The blocks of the chain, newest first, a hundred at a time."""
    points = series(turn.index)
    last = _place(query, "to", 0, max(0, len(points) - 1), len(points) - 1)
    shown = points[max(0, last - MOST_ROWS + 1) : last + 1][::-1]
    rows = [
        [
            a(number(each.number), "page", "block", each.number), moment(each.median_time), who(turn, each.issuer), number(each.pow_min),
            number(each.members),
        ]
        for each in shown
    ]
    older = e("a", "Older blocks", href=f"/page/blocks?to={last - MOST_ROWS}") if last >= MOST_ROWS else None
    heads = ["block", "time", "issuer", "least difficulty", "members"]
    return View("Blocks", [table(f"{len(rows)} of {len(points):,} blocks", heads, rows), older])


# one block

async def block(turn: Turn, query: Query) -> View:
    """A block: its text beside its records, each with the line that caused it."""
    shown = await node_pages.block(turn, query["number"])
    text = BlockText.of(shown["text"])
    place, length = shown["number"], turn.index.length()
    links = {}
    if place > 0:
        links["prev"] = f"/page/block/{place - 1}"
    if place + 1 < length:
        links["next"] = f"/page/block/{place + 1}"
    names = {"prev": "The block before", "next": "The next block"}
    ways = e("nav", *[e("a", names[rel], href=to, rel=rel, class_="way") for rel, to in links.items()], aria_label="Blocks beside this one")
    beside = e("div", _text(text, shown), _records(shown), class_="beside")
    rest = len(text.lines) - MOST_LINES
    more = e("p", f"{rest:,} lines more are in ", a("the JSON of the block", "node", "blocks", place), ".") if rest > 0 else None
    return View(f"Block {place}", [ways, _facts_of(turn, text, shown), beside, more], is_live=False, links=links)


def _facts_of(turn: Turn, text: BlockText, shown: dict[str, Any]) -> Element:
    fields = text.fields
    rows: list[tuple[str, Child]] = [
        ("Hash", short(text.hash)), ("Issuer", who(turn, fields["Issuer"])), ("Time", moment(int(fields["Time"]))),
        ("Median time", moment(text.median_time)), ("Least difficulty", number(int(fields["PoWMin"]))),
        ("Its hash meets", f"difficulties up to {shown['meets']}"), ("Members", number(int(fields["MembersCount"]))),
        ("Mass behind it", f"{number(shown['mass'])} units"),
    ]
    if text.dividend() is not None:
        rows.append(("Dividend", f"{number(text.dividend() or 0)} × 10^{fields['UnitBase']} units for each member"))
    return facts(*rows)


def _text(text: BlockText, shown: dict[str, Any]) -> Element:
    caused: dict[int, int] = {}
    for record, line in enumerate(shown["causes"], 1):
        caused.setdefault(line, record)
    rows = [
        e("li", e("code", line), _to_records(place, caused.get(place)), id=f"line-{place}")
        for place, line in enumerate(text.lines[:MOST_LINES], 1)
    ]
    return e("section", e("h2", "Text"), e("ol", *rows, class_="lines"), aria_label="Text of the block")


def _to_records(place: int, record: int | None) -> Child:
    if record is None:
        return None
    return e("a", "wrote", href=f"#record-{record}", aria_label=f"what line {place} wrote: record {record}", class_="to")


def _records(shown: dict[str, Any]) -> Element:
    records = shown["records"][:MOST_LINES]
    rows = [
        e("li", e("code", record), e("a", f"line {line}", href=f"#line-{line}", aria_label=f"record {place} is caused by line {line}", class_="to"),
          id=f"record-{place}")
        for place, (record, line) in enumerate(zip(records, shown["causes"]), 1)
    ]
    none = None if rows else e("p", "This block wrote no record.")
    rest = len(shown["records"]) - len(records)
    more = e("p", f"{rest:,} records more are in the JSON of the block.") if rest > 0 else None
    return e("section", e("h2", "Records"), none, e("ol", *rows, class_="lines"), more, aria_label="Records of the block")


# people

async def people(turn: Turn, query: Query) -> View:
    """Everybody with an identity, by name, a hundred at a time; those whose name has a part."""
    shown = await node_pages.everybody(turn)
    part = query.get("part", "")[:100]
    found = [each for each in shown["people"] if part.lower() in each["uid"].lower()]
    start = _place(query, "from", 0, max(0, len(found) - 1), 0)
    rows = [
        [a(each["uid"], "page", "person", each["key"]), state(each), moment(each["expires"]), number(each["received"]), number(each["issued"])]
        for each in found[start : start + MOST_ROWS]
    ]
    form = e(
        "form", e("label", "Part of a name ", e("input", name="part", value=part, maxlength=100)), e("button", "Show"),
        action="/page/people", method="get",
    )
    everybody = len(shown["people"])
    counts = e("p", f"{number(shown['members'])} members, {number(shown['sentries'])} sentries, {number(everybody)} people with an identity.")
    heads = ["name", "state", "membership ends", "received", "issued"]
    ways = [e("a", name, href=f"/page/people?part={part}&from={at}") for name, at in _pages(start, len(found)) if _is_plain(part)]
    return View("People", [counts, form, table(f"{len(rows)} of {len(found):,} people", heads, rows), e("nav", *ways, aria_label="More people")])


def _is_plain(part: str) -> bool:
    return all(character.isalnum() or character in "-_" for character in part) and part.isascii()


def _pages(start: int, count: int) -> list[tuple[str, int]]:
    before = [("Those before", max(0, start - MOST_ROWS))] if start > 0 else []
    return before + ([("The next", start + MOST_ROWS)] if start + MOST_ROWS < count else [])


def state(each: dict[str, Any]) -> str:
    """The state of a person in words."""
    said = {"MEMBER": "member", "LEAVING": "member, leaving", "REVOKED": "revoked", "OUT": "no member"}.get(each["state"], each["state"])
    return said + (", sentry" if each["is_sentry"] else "")


async def interface(_: Turn, __: Query) -> View:
    """Every path of the service, for programs."""
    rows = [[method.upper(), e("code", at), what["summary"]] for at, methods in openapi()["paths"].items() for method, what in methods.items()]
    said = e("p", "The paths of this node for programs, as ", a("OpenAPI", "node", "openapi.json"), " too.")
    return View("Interface", [said, table("Paths", ["method", "path", "what it gives"], rows)], is_live=False)


async def parameters_view(turn: Turn, _: Query) -> View:
    """The parameters of the currency."""
    values = parameters(turn.index)
    windows = ("dt", "sigPeriod", "sigWindow", "sigValidity", "idtyWindow", "msWindow", "msValidity", "avgGenTime", "dtReeval")
    rows = [(name, group(f"{value}", f" ({span_of(int(value))})" if name in windows else "")) for name, value in values.items()]
    return View("Parameters", [e("p", "Those of the currency ", bma_chain.currency_of(turn), "."), facts(*rows)], is_live=False)


def refusal(error: Refusal) -> View:
    """What stands where a view cannot be shown."""
    known = e("p", "Rule ", e("strong", error.rule), ".") if error.rule else None
    title = {404: "Not there", 501: "Not possible with this program", 503: "Not now"}.get(error.status, "Not possible")
    return View(title, [e("p", error.message), known], is_live=False, status=error.status)
