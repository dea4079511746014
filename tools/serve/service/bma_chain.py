"""BMA's pages on the chain: `blockchain/*` and `node/*`."""
import asyncio
from typing import Any

from . import commands, people
from .blocks import BlockText
from .index import Identity
from .ledger import Turn
from .people import checked_key, checked_number, checked_word, head_of
from .refusals import BLOCK_NOT_FOUND, NO_CURRENT_BLOCK, NO_MEMBER_MATCHING, UNHANDLED, Refusal

MOST_BLOCKS = 5000
POOL_SIZE = 1024
_PIECE = 100
_WITH = {
    "newcomers": "Identities", "certs": "Certifications", "joiners": "Joiners", "actives": "Actives", "leavers": "Leavers",
    "excluded": "Excluded", "revoked": "Revoked", "ud": "ud", "tx": "Transactions",
}


async def current(turn: Turn) -> dict[str, Any]:
    """The last block."""
    found = turn.index.block(turn.index.length() - 1)
    if found is None:
        raise Refusal(NO_CURRENT_BLOCK, "There is no block yet")
    return _shown(*found)


async def block(turn: Turn, word: str) -> dict[str, Any]:
    """A block by its number."""
    found = turn.index.block(checked_number(word))
    if found is None:
        raise Refusal(BLOCK_NOT_FOUND, "There is no block of this number")
    return _shown(*found)


async def blocks(turn: Turn, count: str, start: str) -> list[dict[str, Any]]:
    """At most 5,000 blocks from a number on. Numbers below 0 have no block."""
    first = -checked_number(start[1:]) if start.startswith("-") else checked_number(start)
    wanted = checked_number(count)
    if wanted > MOST_BLOCKS:
        raise Refusal(UNHANDLED, f"At most {MOST_BLOCKS} blocks are given at once")
    start_at, left, shown = max(0, first), max(0, wanted + min(0, first)), list[dict[str, Any]]()
    while piece := turn.index.blocks(start_at, min(left, _PIECE)):
        shown += [_shown(*found) for found in piece]
        start_at, left = start_at + len(piece), left - len(piece)
        # pages that are at hand are given meanwhile
        await asyncio.sleep(0)
    return shown


def _shown(found: BlockText, mass: int) -> dict[str, Any]:
    return found.json(mass)


async def parameters(turn: Turn) -> dict[str, Any]:
    """The parameters, with two of Duniter's that this protocol has not: no certification is renewed while it lives in version 10."""
    values = people.parameters(turn.index)
    last = await current(turn)
    replay = values["sigValidity"] if last["version"] == 10 else values["msWindow"]
    return {"currency": last["currency"], **values, "sigReplay": replay, "msPeriod": values["msWindow"]}


async def with_lines(turn: Turn, word: str) -> dict[str, Any]:
    """The numbers of the blocks that have something of a kind."""
    if word not in _WITH:
        raise Refusal(UNHANDLED, f"Blocks are listed by one of {', '.join(_WITH)}")
    return {"result": {"blocks": turn.index.with_section(_WITH[word])}}


async def difficulties(turn: Turn) -> dict[str, Any]:
    """The difficulties of the members among the issuers of the frame; of all members where there is none."""
    head = await head_of(turn)
    levels = []
    for keys in (turn.index.issuers(head.frame), [each.key for each in turn.index.identities()]):
        for key in keys:
            level, identity = await people.difficulty_of(turn, key), turn.index.identity(key)
            if level is not None and identity is not None:
                levels.append({"uid": identity.uid, "level": level})
        if levels:
            break
    return {"block": head.number + 1, "levels": sorted(levels, key=lambda each: (each["level"], each["uid"]))}


async def hardship(turn: Turn, word: str) -> dict[str, Any]:
    """The difficulty of a member for the next block."""
    identity = _written(turn, word)
    level = await people.difficulty_of(turn, identity.key)
    if level is None:
        raise Refusal(NO_MEMBER_MATCHING, "No member has this key or name")
    return {"block": turn.index.length(), "level": level}


def _written(turn: Turn, word: str) -> Identity:
    identity = people.written_identity(turn.index, checked_word(word))
    if identity is None:
        raise Refusal(NO_MEMBER_MATCHING, "No member has this key or name")
    return identity


async def memberships(turn: Turn, word: str) -> dict[str, Any]:
    """The written memberships of a person."""
    identity = _written(turn, word)
    currency = (await current(turn))["currency"]
    lines = []
    for written, kind, stamp in turn.index.memberships(identity.key):
        number, block_hash = stamp.split("-")
        way = "OUT" if kind == "Leavers" else "IN"
        block_of = {"blockNumber": int(number), "blockHash": block_hash, "written": written}
        lines.append({"version": 10, "currency": currency, "membership": way, **block_of})
    return {"pubkey": identity.key, "uid": identity.uid, "sigDate": identity.stamp, "memberships": lines}


async def branches(turn: Turn) -> dict[str, Any]:
    """The last blocks of the stored branches, and that of the chain."""
    stored = turn.index.all_stored()
    previous = {each.previous for each in stored}
    tips = [_shown(each, 0) for each in stored if each.hash not in previous]
    return {"blocks": [await current(turn), *tips]}


async def summary(_: Turn) -> dict[str, Any]:
    """What kind of node this is. At most a hundred blocks can be taken off."""
    return {"duniter": {"software": "dubp_node", "version": "0.1.0", "forkWindowSize": 100}}


async def sandboxes(turn: Turn) -> dict[str, Any]:
    """The places of the pool, which all kinds of documents share."""
    free = {"size": POOL_SIZE, "free": POOL_SIZE - len(turn.index.pending())}
    return {"identities": free, "memberships": free, "transactions": free}


async def sources(turn: Turn, key: str) -> dict[str, Any]:
    """The unspent sources that the key's signature alone opens."""
    condition = f"SIG({checked_key(key)})"
    found = []
    for line in await turn.ask(commands.of_condition("SOURCES", condition)):
        amount, base, kind, identifier, offset = line.removeprefix("SOURCE ").split(":")
        found.append({
            "type": kind, "noffset": int(offset), "identifier": identifier, "amount": int(amount), "base": int(base), "conditions": condition,
        })
    return {"currency": currency_of(turn), "pubkey": key, "sources": found}


def currency_of(turn: Turn) -> str:
    """The name of the currency. Raises a refusal where there is no block."""
    first = turn.index.block(0)
    if first is None:
        raise Refusal(NO_CURRENT_BLOCK, "There is no block yet")
    return first[0].fields["Currency"]
