"""The views of a person and of an account."""
from typing import Any

from .. import commands, node_pages, people, spelling
from ..blocks import condition_keys
from ..bma_people import lookup
from ..ledger import Turn
from ..refusals import Refusal
from ..series import Point, series, thinned
from ..trust import Web, web_of
from .frame import View
from .markup import Child, Element, a, e, facts, group, moment, number, path, short, table
from .pictures import MOST_DRAWN, Line, plot, web
from .views import Query, state, who
from .words import NoCondition, in_words, read

MOST_MOVES = 240
MOST_SOURCES = 100


async def person(turn: Turn, query: Query) -> View:
    """A person: state, certifications, the web around, the walks of sentries."""
    try:
        shown = await node_pages.person(turn, query["word"])
    except Refusal as error:
        waiting = [each for each in turn.index.pending_identities() if query["word"] in (each.key, each.uid)]
        if not waiting:
            raise
        return await _newcomer(turn, waiting[0].key, waiting[0].uid, error)
    found = await web_of(turn)
    parts: list[Child] = [_facts(turn, shown), _distance(shown), _drawing(found, shown), _walks(found, shown)]
    parts += [_certifications(turn, shown, "received"), _certifications(turn, shown, "issued"), _memberships(shown)]
    return View(shown["uid"], parts)


async def _newcomer(turn: Turn, key: str, uid: str, error: Refusal) -> View:
    """Somebody whose identity waits."""
    given = (await lookup(turn, key))["results"][0]["uids"][0]["others"]
    by = [who(turn, each["pubkey"]) for each in given]
    needed = people.parameters(turn.index)["sigQty"]
    about = facts(("Key", short(key)), ("State", "the identity waits"), ("Certifications that are there", number(len(by))), ("needed", f"{needed}"))
    return View(uid, [e("p", f"{error.message}; one waits."), about, e("ul", *[e("li", each) for each in by])])


def _facts(turn: Turn, shown: dict[str, Any]) -> Element:
    rows: list[tuple[str, Child]] = [
        ("Key", short(shown["key"])), ("State", state(shown)), ("Membership ends", moment(shown["expires"])),
        ("Identity in block", a(number(shown["written"]), "page", "block", shown["written"])),
        ("Live certifications", f"{shown['received']} received, {shown['issued']} issued"),
        ("Account", a("balance and moves", "page", "account", shown["key"])),
    ]
    if shown["difficulty"] is not None:
        rows.append(("Difficulty of the next block", number(shown["difficulty"])))
    if shown["revoked_in"] is not None:
        rows.append(("Revoked in block", a(number(shown["revoked_in"]), "page", "block", shown["revoked_in"])))
    return facts(*rows)


def _distance(shown: dict[str, Any]) -> Element:
    told = shown["distance"]
    verdict = "near enough" if told["passes"] else "not near enough"
    said = f"{told['reached']} of {told['sentries']} sentries reach {shown['uid']} in at most {shown['steps']} steps: {verdict}."
    return e("section", e("h2", "Distance"), e("p", said, id="distance-said"), id="distance")


def _drawing(found: Web, shown: dict[str, Any]) -> Element:
    key = shown["key"]
    rings = _rings(found, shown)
    keys = {key, *(each for ring in rings for each, _ in ring)}
    walks = [each["walk"] for each in shown["sentries"] if each["walk"]]
    lit = {pair for walk in walks for pair in zip(walk, walk[1:])}
    edges = {(each.issuer, each.receiver) for to in keys for each in found.received[to] if each.issuer in keys}
    drawing = web(shown, rings, {pair for pair in edges if _is_near(pair, key, rings)}, lit)
    others = len(found.states) - len(keys)
    more = f" {others} other {'person is' if others == 1 else 'people are'} not drawn." if others else ""
    said = "In the middle the person; around it who certified the person or was certified, and behind these the walks of sentries. "
    how = "Walks of sentries are lit; sentries are filled."
    return e(
        "section", e("h2", "The web"), e("p", said + how + more), e("a", "Past the drawing", href="#walks", class_="skip"), drawing, id="web",
    )


def _rings(found: Web, shown: dict[str, Any]) -> list[list[tuple[str, str]]]:
    """The people around a person by how far they are: by certifications in both ways first, then along the walks to the person."""
    key = shown["key"]
    beside = [each["issuer"] for each in shown["certifications"]["received"]] + [each["receiver"] for each in shown["certifications"]["issued"]]
    rings, seen = [list(dict.fromkeys(each for each in beside if each != key))[:MOST_DRAWN]], {key, *beside}
    walks = found.walks(key)
    for far in range(3, found.steps + 2):
        ring = [each for each, walk in walks.items() if len(walk) == far and each not in seen]
        left = MOST_DRAWN - sum(map(len, rings))
        rings.append(ring[: max(0, left)])
        seen |= set(ring)
    return [[(each, found.states[each].uid) for each in ring] for ring in rings if ring]


def _is_near(pair: tuple[str, str], key: str, rings: list[list[tuple[str, str]]]) -> bool:
    """Whether a certification is drawn: of the person itself always, others where the drawing is small."""
    return key in pair or sum(map(len, rings)) <= MOST_DRAWN // 4


def _walks(found: Web, shown: dict[str, Any]) -> Element:
    rows = []
    for each in shown["sentries"]:
        steps: list[Child] = []
        for key in each["walk"] or []:
            steps += [" → " if steps else None, a(found.states[key].uid, "page", "person", key)]
        count = str(len(each["walk"]) - 1) if each["walk"] else "none"
        rows.append([a(each["uid"], "page", "person", each["sentry"]), group(*steps) if steps else "no walk", count])
    shown_rows = table("The walk by which each sentry reaches the person", ["sentry", "walk", "steps"], rows)
    return e("section", e("h2", "Walks of sentries"), shown_rows, id="walks")


def _certifications(turn: Turn, shown: dict[str, Any], way: str) -> Element:
    found = sorted(shown["certifications"][way], key=lambda each: int(each["expires"]))
    other = "issuer" if way == "received" else "receiver"
    rows = [
        [who(turn, each[other]), moment(each["expires"]), moment(each["made"]), a(number(each["written"]), "page", "block", each["written"])]
        for each in found
    ]
    heads = ["by" if way == "received" else "of", "ends", "made", "block"]
    return e("section", e("h2", f"Certifications {way}"), table(f"{len(rows)} live certifications {way}", heads, rows), id=way)


def _memberships(shown: dict[str, Any]) -> Element:
    said = {"Joiners": "joined", "Actives": "renewed", "Leavers": "left"}
    rows = [[said[each["section"]], a(number(each["block"]), "page", "block", each["block"])] for each in shown["memberships"]]
    return e("section", e("h2", "Memberships"), table("Written memberships", ["what", "block"], rows))


# an account

async def account(turn: Turn, query: Query) -> View:
    """An account by key, name or condition: what it means, balance, sources and moves."""
    word = query["word"]
    identity = None if spelling.is_key(word) else turn.index.identity_with_uid(word) if spelling.is_uid(word) else None
    shown = await node_pages.account(turn, word if identity is None else identity.key)
    try:
        condition = read(shown["condition"])
    except NoCondition as error:
        raise Refusal(1002, "This is neither a key, nor a name, nor a condition") from error
    meaning = in_words(condition, lambda key: node_pages.name_of(turn, key), lambda second: f"second {second}")
    about = facts(
        ("Condition", short(shown["condition"])), ("Who may spend", e("span", meaning, id="meaning")),
        ("Balance", e("strong", f"{number(shown['balance'])} units", id="balance")),
    )
    named = [e("li", who(turn, key)) for key in condition_keys(shown["condition"])]
    whose = e("section", e("h2", "Whose keys"), e("ul", *named)) if named else None
    return View("Account", [about, whose, _pending(turn, shown["condition"]), _moves(turn, shown, query), _sources(shown)])


def _pending(turn: Turn, condition: str) -> Child:
    key = condition.removeprefix("SIG(").removesuffix(")")
    if not spelling.is_key(key):
        return None
    waiting = len({each.hash for role in ("sent", "received") for each in turn.index.pending_payments(key, role)})
    return e("p", f"{waiting} payments of this key wait: ", a("what waits", "page", "pool"), ".") if waiting else None


def _moves(turn: Turn, shown: dict[str, Any], query: Query) -> Element:
    moves = shown["moves"]
    before = query.get("before", "")
    end = min(int(before), len(moves)) if before.isdecimal() and len(before) < 16 else len(moves)
    start = max(0, end - MOST_MOVES)
    rows = [
        [
            a(number(each["block"]), "page", "block", each["block"]), moment(each["time"]), each["kind"].lower(),
            f"{'+' if each['kind'] == 'MADE' else '−'}{number(each['units'])}", number(each["balance"]), e("code", each["source"], class_="long"),
        ]
        for each in moves[start:end]
    ]
    heads = ["block", "time", "what", "units", "balance", "source"]
    which = "all moves" if start == 0 and end == len(moves) else f"moves {start + 1:,} to {end:,} of {len(moves):,}"
    older = e("a", "Moves before these", href=f"?before={start}") if start > 0 else None
    parts: list[Child] = [e("h2", "Moves"), _plot(moves, series(turn.index)[-1]) if moves else e("p", "Nothing has moved on this account.")]
    if moves:
        parts += [table(f"Moves: {which}", heads, rows), older]
    return e("section", *parts, id="moves")


def _plot(moves: list[dict[str, Any]], last: Point) -> Element:
    """The balance behind each move, and as it is behind the last block."""
    rows = [moves[place] for place in thinned(len(moves))]
    if rows[-1]["block"] != last.number:
        rows.append({"block": last.number, "time": last.median_time, "balance": rows[-1]["balance"]})
    line = Line("balance", "first", [each["balance"] for each in rows])
    times = [each["time"] for each in rows]
    cells = [[number(each["block"]), moment(each["time"]), number(each["balance"])] for each in rows]
    inner = table("Numbers of the plot", ["block", "time", "balance"], cells, class_="numbers")
    numbers = e("details", e("summary", "The numbers of the plot"), inner, id="balances")
    picture = plot("Balance over time", times, [line], identifier="plot-balance", blocks=(rows[0]["block"], rows[-1]["block"]))
    return e("div", e("div", picture, class_="plots", data_reads="balances"), numbers)


def _sources(shown: dict[str, Any]) -> Element:
    sources = shown["sources"]
    rows = [[number(each["units"]), e("code", each["source"], class_="long")] for each in sources[:MOST_SOURCES]]
    which = f"{len(rows)} of {len(sources):,} unspent sources" if len(rows) < len(sources) else f"{len(rows)} unspent sources"
    rest = e("p", "All are in ", a("the JSON of the account", "node", "accounts", shown["condition"]), ".") if len(rows) < len(sources) else None
    return e("section", e("h2", "Sources"), table(which, ["units", "source"], rows), rest)


async def find(turn: Turn, word: str) -> str:
    """The path of what a word finds: a block by its number, a person by key or name, an account by condition or by a key that is nobody's."""
    word = word.strip()
    if spelling.is_number(word):
        return path("page", "block", word)
    if spelling.is_stamp(word):
        return path("page", "block", word.split("-")[0])
    if spelling.is_key(word):
        has_identity = await turn.ask(commands.of_key("IDENTITY", word)) != ["NONE"]
        return path("page", "person" if has_identity else "account", word)
    if spelling.is_uid(word):
        is_one = turn.index.identity_with_uid(word) is not None or any(each.uid == word for each in turn.index.pending_identities())
        return path("page", "person", word) if is_one else path("page", "people", part=word)
    if spelling.is_condition_like(word):
        return path("page", "account", word)
    raise Refusal(1002, "This is no key, no name, no condition and no number of a block")
