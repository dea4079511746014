"""The values of a case that broke a rule, as far as the program or the service's index can be asked for them."""
import contextlib
import math
from collections import Counter
from collections.abc import Callable

from . import commands, people, why_money
from .blocks import BlockText, digest, joined
from .commands import BadWord
from .ledger import Lacking, Turn, Unavailable
from .people import State, head_of
from .refusals import Refusal
from .spelling import EMPTY_STAMP
from .why_case import OF_BLOCK, Case, Teller, Values, as_block, in_document

_NONE_TO_TELL = (Refusal, Lacking, Unavailable, BadWord, ValueError, IndexError, KeyError)
"""What is raised where a block that is refused has values that are none, or where nobody can be asked for them."""

_OF_SIGNATURES = ("L05", "L07", "L11", "L24", "G72", "G84")
_UNTRUE = "a signature that is not true, or whose text is not known"


async def values_of(turn: Turn, raw: bytes, rule: str | None, false: list[int], line: int | None) -> Values:
    """The values that broke a rule; none where nobody can be asked for them."""
    text = raw.decode("latin-1")
    if rule is None:
        return []
    if rule == "P01" and line is not None:
        lines = text.split("\n")
        return [{"what": "the line", "value": lines[line - 1] if line <= len(lines) else "it is missing", "line": line}]
    if rule == "X01":
        return [{"what": "bytes", "value": str(len(raw)), "line": None}]
    is_block = text.startswith(OF_BLOCK, text.find("\n") + 1)
    if not is_block and rule in _OF_SIGNATURES:
        return [{"what": _UNTRUE, "value": text.split("\n")[place - 1], "line": place} for place in false]
    try:
        case = Case(turn, as_block(turn, text), false, "the block" if is_block else "the last block")
    except _NONE_TO_TELL:
        return []
    with contextlib.suppress(*_NONE_TO_TELL):
        await TELLERS.get(rule, _tell_nothing)(case)
    return case.found if is_block else [in_document(each, case.block, text) for each in case.found]


# how each rule is told

async def _tell_nothing(_: Case) -> None:
    return


async def _place(case: Case) -> None:
    last = case.index.block(case.index.length() - 1)
    case.tell("Number of the block", case.fields["Number"])
    case.tell("blocks of the chain", case.index.length())
    if last is None:
        return
    case.tell("PreviousHash of the block", case.fields.get("PreviousHash", "none"))
    case.tell("hash of the last block", last[0].hash)
    case.tell("PreviousIssuer of the block", case.fields.get("PreviousIssuer", "none"))
    case.tell("issuer of the last block", last[0].fields["Issuer"])


async def _currency(case: Case) -> None:
    last = case.index.block(case.index.length() - 1)
    for name in ("Currency", "Version"):
        case.tell(f"{name} of the block", case.fields[name])
        case.tell(f"{name} of the chain", last[0].fields[name] if last else "none")


_HEADER = {
    "G54": "DifferentIssuersCount", "G55": "IssuersFrame", "G56": "IssuersFrameVar", "G57": "MedianTime", "G58": "UniversalDividend",
    "G59": "UnitBase", "G60": "MembersCount", "G61": "PoWMin",
}


def _header(name: str) -> Teller:
    async def tell(case: Case) -> None:
        case.tell(f"{name} of the block", case.fields.get(name, "none"))
        command = commands.forge(case.fields["Issuer"], int(case.fields["Time"]))
        try:
            lines = await case.turn.ask(command)
        except Lacking:
            head = await head_of(case.turn)
            before = {
                "DifferentIssuersCount": head.issuers, "IssuersFrame": head.frame, "IssuersFrameVar": head.variation,
                "MedianTime": head.median_time, "UnitBase": head.unit_base, "MembersCount": head.members, "PoWMin": head.pow_min,
            }
            case.tell(f"{name} of the last block's head", before.get(name, "none"))
            return
        if not lines[0].startswith("REFUSED"):
            drafted = BlockText([line for line in lines if not line.startswith("LEFT ")])
            case.tell(f"{name} of a block that this issuer would forge at that time", drafted.fields.get(name, "none"))

    return tell


def met(block_hash: str) -> int:
    """The greatest difficulty that a hash meets."""
    zeros = len(block_hash) - len(block_hash.lstrip("0"))
    return zeros * 16 + (15 - int(block_hash[zeros], 16) if zeros < len(block_hash) else 0)


async def _difficulty(case: Case) -> None:
    issuer = case.fields["Issuer"]
    asked = await people.difficulty_of(case.turn, issuer)
    case.tell("difficulty of the issuer for the next block", "the issuer is no member" if asked is None else asked)
    case.tell("hash of the block", case.block.hash)
    case.tell("greatest difficulty that it meets", met(case.block.hash))


async def _size(case: Case) -> None:
    count = int(case.fields["DifferentIssuersCount"])
    last = case.index.blocks(max(0, case.index.length() - count), count)
    sizes = [_size_of(block) for block, _ in last]
    case.tell("lines in the sections of the block", _size_of(case.block))
    if sizes:
        case.tell(f"mean of the last {len(sizes)} blocks", f"{sum(sizes) / len(sizes):.2f}")
        case.tell("it has to be below", max(500, math.ceil(math.ceil(sum(sizes) / len(sizes)) * 1.1)))


def _size_of(block: BlockText) -> int:
    return sum(len(lines) for name, lines in block.sections.items() if name != "Excluded")


async def _inner(case: Case) -> None:
    case.tell("InnerHash of the block", case.block.lines[-3].removeprefix("InnerHash: "), len(case.block.lines) - 2)
    case.tell("SHA-256 of the text above it", digest(joined(case.block.lines[:-3])))


async def _times(case: Case) -> None:
    case.tell("Time of the block", case.fields["Time"])
    case.tell("MedianTime of the block", case.fields["MedianTime"])
    if case.index.length():
        case.tell("maxAcceleration", -(-case.parameter("avgGenTime") * 1189 // 1000) * case.parameter("medianTimeBlocks"))


async def _signatures(case: Case) -> None:
    for line in case.false:
        text = case.block.lines[line - 1] if line <= len(case.block.lines) else ""
        case.tell(_UNTRUE, text, line)


def _twice(what: str, sections: tuple[str, ...], word: Callable[[list[str]], str]) -> Teller:
    async def tell(case: Case) -> None:
        found = [(place, word(words)) for place, words in case.lines(*sections)]
        counts = Counter(value for _, value in found)
        for place, value in found:
            if counts[value] > 1:
                case.tell(what, value, place)

    return tell


async def _own(case: Case) -> None:
    for place, words in case.lines("Certifications"):
        if words[0] == words[1]:
            case.tell("certifies the own key", words[0], place)


async def _said(case: Case, key: str, place: int | None, what: str = "what the chain says") -> None:
    state = await case.state(key)
    if state is None:
        case.tell(f"{what} of {key}", "no identity", place)
    else:
        ends = f"membership ends at {state.expires}, certifications received {state.received}, issued {state.issued}"
        case.tell(f"{what} of {state.uid}", f"{state.state}, {ends}", place)


async def _issuer(case: Case) -> None:
    await _said(case, case.fields["Issuer"], None)


def _people(*sections: str, word: int = 0, wanted: Callable[[State | None], bool] = lambda state: True) -> Teller:
    async def tell(case: Case) -> None:
        for place, words in case.lines(*sections):
            if wanted(await case.state(words[word])):
                await _said(case, words[word], place)

    return tell


def _is_no_member(state: State | None) -> bool:
    return state is None or state.state not in ("MEMBER", "LEAVING")


async def _name_taken(case: Case) -> None:
    for place, words in case.lines("Identities"):
        answer = (await case.turn.ask(commands.uid(words[3])))[0].split(" ")
        if answer != ["NONE"]:
            case.tell(f"the name {words[3]} is that of", answer[1], place)


async def _enough(case: Case) -> None:
    given = Counter(words[1] for _, words in case.lines("Certifications"))
    for place, words in case.lines("Joiners"):
        state = await case.state(words[0])
        case.tell(f"live certifications of {words[4]} in the chain", 0 if state is None else state.received, place)
        case.tell(f"certifications of {words[4]} in the block", given[words[0]], place)
    case.tell("sigQty", case.parameter("sigQty"))


async def _distance(case: Case) -> None:
    for place, words in case.lines("Joiners", "Actives"):
        answer = (await case.turn.ask(commands.of_key("DISTANCE", words[0])))[0].split(" ")
        told = "no identity yet" if answer == ["NONE"] else f"reached from {answer[1]} of {answer[2]} sentries: {answer[3]}"
        case.tell(f"DISTANCE of {words[4]} in the chain", told, place)
    case.tell("xpercent", people.parameters(case.index)["xpercent"])


async def _stock(case: Case) -> None:
    for place, words in case.lines("Certifications"):
        state = await case.state(words[0])
        if state is not None and state.issued + 1 > case.parameter("sigStock"):
            case.tell(f"live certifications that {state.uid} issued", state.issued, place)
    case.tell("sigStock", case.parameter("sigStock"))


async def _pace(case: Case) -> None:
    for place, words in case.lines("Certifications"):
        last = case.index.last_certification_block(words[0])
        if last is not None and case.now < (case.index.median_time(last) or 0) + case.parameter("sigPeriod"):
            case.tell(f"last certification of {words[0]}: block {last}, at", case.index.median_time(last), place)
    case.tell("sigPeriod", case.parameter("sigPeriod"))
    case.tell(f"MedianTime of {case.whose}", case.now)


async def _renewal(case: Case) -> None:
    for place, words in case.lines("Certifications"):
        live, _ = await people.certifications_of(case.turn, words[1])
        for each in live:
            if each.issuer == words[0] and each.expires > case.now:
                case.tell(f"certification of {words[1]} by {words[0]} lives until", each.expires, place)
    case.tell(f"MedianTime of {case.whose}", case.now)


def _stamps(window: str, sections: tuple[str, ...], word: int) -> Teller:
    async def tell(case: Case) -> None:
        for place, words in case.lines(*sections):
            _stamp(case, words[word], place, case.parameter(window))
        case.tell(window, case.parameter(window))
        case.tell(f"MedianTime of {case.whose}", case.now)

    return tell


def _stamp(case: Case, stamp: str, place: int, window: int) -> None:
    number = stamp.split("-")[0]
    made = case.index.median_time(int(number)) if stamp == number else case.time_of(stamp)
    if stamp == EMPTY_STAMP and not case.index.length():
        made = case.now
    if made is None:
        case.tell("no block of the chain has the stamp", stamp, place)
    elif case.now > made + window:
        case.tell(f"time of block {number}, which is {case.now - made} seconds ago", made, place)


async def _payment_stamps(case: Case) -> None:
    for place, each in case.transactions():
        _stamp(case, each.stamp, place + 1, 604_800)
    case.tell("a stamp is at most so many seconds old", 604_800)
    case.tell(f"MedianTime of {case.whose}", case.now)


async def _memberships(case: Case) -> None:
    for place, words in case.lines("Joiners", "Actives", "Leavers"):
        for block, section, stamp in case.index.memberships(words[0])[-1:]:
            case.tell(f"last membership of {words[4]}: {section} of block {block}, on the stamp", stamp, place)
            case.tell(f"membership of {words[4]} here, on the stamp", words[2], place)


async def _identities(case: Case) -> None:
    new = {words[0] for _, words in case.lines("Identities")}
    for place, words in case.lines("Joiners", "Actives", "Leavers"):
        written = case.index.identity(words[0])
        if written is None and words[0] not in new:
            case.tell(f"identity of {words[0]}", "neither chain nor block has one", place)
        elif written is not None and (written.uid, written.stamp) != (words[4], words[3]):
            case.tell("identity of the chain", f"{written.uid}, {written.stamp}", place)


async def _without_joiner(case: Case) -> None:
    joiners = {(words[0], words[4], words[3]) for _, words in case.lines("Joiners")}
    for place, (key, _, stamp, uid) in case.lines("Identities"):
        if (key, uid, stamp) not in joiners:
            case.tell(f"no line of Joiners has the key, name and stamp of {uid}", stamp, place)


async def _certified_who_ends(case: Case) -> None:
    ends = {words[0]: place for place, words in case.lines("Leavers", "Revoked", "Excluded")}
    for place, words in case.lines("Certifications"):
        if words[1] in ends:
            case.tell(f"the certified key stands in line {ends[words[1]]} too", words[1], place)


async def _excluded(case: Case) -> None:
    said = {words[0]: place for place, words in case.lines("Excluded")}
    for key, place in said.items():
        await _said(case, key, place, "the block excludes; what the chain says")
    lines = await case.turn.ask(commands.forge(case.fields["Issuer"], int(case.fields["Time"])))
    drafted = BlockText([line for line in lines if not line.startswith("LEFT ")]) if not lines[0].startswith("REFUSED") else None
    for key in drafted.sections["Excluded"] if drafted else []:
        if key not in said:
            await _said(case, key, None, "has to be excluded; what the chain says")


def _key(words: list[str]) -> str:
    return words[0]


_MEMBERSHIPS = ("Joiners", "Actives", "Leavers")
TELLERS: dict[str, Teller] = {
    **dict.fromkeys(("G51", "G52", "G53"), _place), "G49": _currency, "G101": _issuer, "G50": _size, "G62": _difficulty, "L01": _inner,
    **{rule: _header(name) for rule, name in _HEADER.items()}, **dict.fromkeys(("L02", "L06"), _times),
    **dict.fromkeys(_OF_SIGNATURES, _signatures),
    "L08": _twice("name", ("Identities",), lambda words: words[3]), "L09": _twice("key", ("Identities",), _key),
    "L12": _twice("key", (*_MEMBERSHIPS, "Excluded"), _key), "L13": _twice("key", (*_MEMBERSHIPS, "Revoked"), _key),
    "L14": _twice("pair", ("Certifications",), lambda words: " to ".join(words[:2])), "L15": _own,
    "L16": _twice("issuer", ("Certifications",), _key), "L10": _without_joiner, "L17": _certified_who_ends,
    "G63": _stamps("idtyWindow", ("Identities",), 2), "G64": _stamps("msWindow", _MEMBERSHIPS, 2),
    "G65": _stamps("sigWindow", ("Certifications",), 2),
    "G73": _name_taken, "G74": _people("Identities", wanted=lambda state: state is not None), "G75": _memberships, "G108": _memberships,
    "G82": _identities, "G78": _people("Joiners", wanted=lambda state: not _is_no_member(state)),
    "G81": _people("Actives", wanted=_is_no_member), "G80": _people("Leavers", wanted=lambda state: state is None or state.state != "MEMBER"),
    "G77": _people(*_MEMBERSHIPS, wanted=lambda state: state is not None and state.state == "REVOKED"), "G83": _people("Revoked"),
    "G66": _stock, "G67": _pace, "G68": _people("Certifications", wanted=_is_no_member),
    "G69": _people("Certifications", word=1, wanted=_is_no_member),
    "G70": _people("Certifications", word=1, wanted=lambda state: state is not None and state.state == "LEAVING"), "G71": _renewal,
    "G79": _enough, "G76": _distance, "G85": _excluded, "G86": _excluded, "G103": _payment_stamps, **why_money.TELLERS,
}
