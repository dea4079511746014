"""What BMA lacks, as JSON under `/node`."""
from typing import Any

from . import commands, people, spelling
from .blocks import BlockText
from .causes import causes
from .commands import BadWord
from .index import Move, units
from .ledger import Turn
from .page.words import NoCondition, in_words, read
from .people import checked_key, checked_number, checked_word, head_of, written_identity
from .refusals import BLOCK_NOT_FOUND, NO_MEMBER_MATCHING, UNHANDLED, Refusal, sentence
from .series import series, thinned
from .trust import shown, web_of
from .why_values import met
from .writes import left_out


async def head(turn: Turn) -> dict[str, Any]:
    """The values of the last block."""
    found = await head_of(turn)
    return {**vars(found), "stamp": f"{found.number}-{found.hash}"}


async def money(turn: Turn) -> dict[str, Any]:
    """The units issued, unspent and cleared, and whether the first is the sum of the others."""
    issued, unspent, cleared = map(int, (await turn.ask(commands.money()))[0].split(" ")[1:])
    return {"issued": issued, "unspent": unspent, "cleared": cleared, "conserved": issued == unspent + cleared}


async def account(turn: Turn, word: str) -> dict[str, Any]:
    """Balance, sources and moves of a condition; a key stands for its own `SIG(..)`."""
    condition = f"SIG({word})" if spelling.is_key(word) else word
    try:
        answer = await turn.ask(commands.of_condition("BALANCE", condition))
    except BadWord as error:
        raise Refusal(UNHANDLED, "This is neither a key nor a condition") from error
    if answer == ["BAD"]:
        raise Refusal(UNHANDLED, "This is neither a key nor a condition")
    sources = [line.removeprefix("SOURCE ") for line in await turn.ask(commands.of_condition("SOURCES", condition))]
    moves, points = await _moves(turn, condition), series(turn.index)
    return {
        "condition": condition, "balance": int(answer[0].split(" ")[1]),
        "sources": [{"source": each, "units": units(each)} for each in sources],
        "moves": [{**vars(each), "units": units(each.source), "time": points[each.block].median_time} for each in moves],
    }


async def _moves(turn: Turn, condition: str) -> list[Move]:
    """The moves by the program where it tells them, else by the index."""
    if turn.lacks("STATEMENT"):
        return turn.index.moves(condition)
    lines = [line.split(" ") for line in await turn.ask(commands.of_condition("STATEMENT", condition))]
    return [Move(int(words[1]), words[2], words[3], int(words[4])) for words in lines]


async def block(turn: Turn, word: str) -> dict[str, Any]:
    """Text and records of a block, the line that caused each record, and the sources that it made."""
    number = checked_number(word)
    found = turn.index.block(number)
    if found is None:
        raise Refusal(BLOCK_NOT_FOUND, "There is no block of this number")
    records = await turn.ask(commands.records(number))
    made = [record.split(" ")[2] for record in records if record.startswith(("SIDX MAKE ", "SIDX DIVIDEND "))]
    return {
        "number": number, "stamp": found[0].stamp, "text": found[0].text, "records": records, "sources": made,
        "causes": causes(found[0], records, turn.index.condition_of), "meets": met(found[0].hash), "mass": found[1],
    }


async def points(turn: Turn) -> dict[str, Any]:
    """Values over time: at most 240 blocks, evenly, with members, dividend, mass and unspent money."""
    all_points = series(turn.index)
    rows = [all_points[place] for place in thinned(len(all_points))]
    names = ("number", "time", "median_time", "members", "pow_min", "dividend", "mass", "unspent")
    return {"blocks": len(all_points), "points": [{name: getattr(each, name) for name in names} for each in rows]}


async def everybody(turn: Turn) -> dict[str, Any]:
    """Everybody who has an identity, by name: state, end of the membership, live certifications received and issued, and whether a sentry."""
    web = await web_of(turn)
    lines = [{**vars(each), "is_member": key in web.members, "is_sentry": key in web.sentries} for key, each in web.states.items()]
    return {"members": len(web.members), "sentries": len(web.sentries), "people": sorted(lines, key=lambda each: str(each["uid"]))}


async def person(turn: Turn, word: str) -> dict[str, Any]:
    """A person by key or name: state, certifications received and issued, written memberships, distance and the walks of sentries."""
    identity = written_identity(turn.index, checked_word(word))
    if identity is None:
        raise Refusal(NO_MEMBER_MATCHING, "No block has an identity of this key or name")
    web, key = await web_of(turn), identity.key
    level = await people.difficulty_of(turn, key)
    lines = {"received": web.received[key], "issued": web.issued(key)}
    certifications = {
        name: [{**vars(each), "uid": web.states[each.issuer if name == "received" else each.receiver].uid} for each in found]
        for name, found in lines.items()
    }
    revocation = turn.index.revocation(key)
    return {
        **vars(web.states[key]), "stamp": identity.stamp, "is_member": key in web.members, "is_sentry": key in web.sentries,
        "difficulty": level, "certifications": certifications, "revoked_in": None if revocation is None else revocation[0],
        "memberships": [{"block": block, "section": kind, "stamp": stamp} for block, kind, stamp in turn.index.memberships(key)],
        "distance": await distance(turn, key), **shown(web, key),
    }


async def meaning(turn: Turn, condition: str) -> dict[str, Any]:
    """What a condition means in words."""
    try:
        found = read(condition)
    except NoCondition as error:
        raise Refusal(UNHANDLED, f"This is no condition: {error}") from error
    return {"condition": condition, "meaning": in_words(found, lambda key: name_of(turn, key), lambda second: f"second {second}")}


def name_of(turn: Turn, key: str) -> str:
    """The name of a person, or the key of somebody who has none."""
    identity = turn.index.identity(key)
    return key if identity is None else identity.uid


async def distance(turn: Turn, word: str) -> dict[str, Any]:
    """From how many sentries a walk leads to a key, how many there are, and whether that is near enough."""
    words = (await turn.ask(commands.of_key("DISTANCE", checked_key(word))))[0].split(" ")
    if words == ["NONE"]:
        raise Refusal(NO_MEMBER_MATCHING, "No block has an identity of this key")
    return {"key": word, "reached": int(words[1]), "sentries": int(words[2]), "passes": words[3] == "PASS"}


async def branches(turn: Turn) -> dict[str, Any]:
    """The stored blocks of branches, each with the one before it, and of each branch what SWITCH would take off and put on."""
    stored = {each.stamp: each for each in turn.index.all_stored()}
    lines = [{"stamp": stamp, "previous": _before(each), "issuer": each.fields["Issuer"]} for stamp, each in stored.items()]
    inner = {_before(each) for each in stored.values()}
    tips = [_switch(turn, stored, stamp) for stamp in stored if stamp not in inner]
    return {"head": turn.index.head_stamp(), "stored": lines, "tips": tips}


def _before(block: BlockText) -> str | None:
    return None if block.previous is None else f"{block.number - 1}-{block.previous}"


def _switch(turn: Turn, stored: dict[str, BlockText], tip: str) -> dict[str, Any]:
    """What a switch to a stored block would do: the blocks that it takes off and puts on, oldest first; `missing` is a stamp that is nowhere."""
    put_on, at = [tip], _before(stored[tip])
    while at is not None and at in stored:
        put_on.append(at)
        at = _before(stored[at])
    number = -1 if at is None else int(at.split("-")[0])
    missing = at if at is not None and turn.index.hash_of(number) != at.split("-")[1] else None
    behind = range(number + 1, turn.index.length()) if missing is None else range(0)
    taken_off = [f"{each}-{turn.index.hash_of(each)}" for each in behind]
    return {"tip": tip, "stands_on": at, "missing": missing, "takes_off": taken_off, "puts_on": put_on[::-1]}


async def failures(turn: Turn) -> dict[str, Any]:
    """The failures of the automatic choice: the branch that was tried, the block that broke a rule, and the rule."""
    lines = [line.split(" ")[1:] for line in await turn.ask(commands.failures())]
    return {"failures": [{"tip": tip, "at": at, "rule": rule, "sentence": sentence(rule)} for tip, at, rule in lines]}


async def pool(turn: Turn) -> dict[str, Any]:
    """The documents that wait. Those that would not come into a block now have the rule."""
    waiting = turn.index.pending()
    left = await left_out(turn) if waiting and not turn.lacks("FORGE") else {}
    lines = [
        {
            "hash": each.hash, "kind": each.kind, "issuer": each.issuer, "subject": each.subject, "text": each.text, "left": left.get(each.hash),
            "sentence": sentence(left[each.hash]) if each.hash in left else None,
        }
        for each in waiting
    ]
    return {"size": 1024, "documents": lines}


async def newest(turn: Turn) -> tuple[dict[str, Any] | None, int, int]:
    """What an event tells of the last block, how many documents wait, and how many blocks are stored."""
    found = turn.index.block(turn.index.length() - 1)
    waiting, stored = turn.index.count("pending"), turn.index.count("stored")
    if found is None:
        return None, waiting, stored
    last = found[0]
    return {"number": last.number, "stamp": last.stamp, "issuer": last.fields["Issuer"], "median_time": last.median_time}, waiting, stored
