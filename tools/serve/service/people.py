"""What is asked of people by several pages: who a word means, who is a member, which certifications live."""
from collections.abc import Iterable
from dataclasses import dataclass
from typing import Any
from weakref import WeakKeyDictionary

from . import commands, spelling
from .index import Identity, Index
from .ledger import Turn
from .refusals import NO_CURRENT_BLOCK, UNHANDLED, Refusal


@dataclass(frozen=True)
class Head:
    """The last block's values, as HEAD tells them."""

    number: int
    hash: str
    median_time: int
    members: int
    pow_min: int
    dividend: int
    unit_base: int
    mass: int
    frame: int
    variation: int
    issuers: int


@dataclass(frozen=True)
class State:
    """What IDENTITY tells of a person; `expires` is when the membership ends."""

    key: str
    uid: str
    written: int
    state: str
    expires: int
    received: int
    issued: int


@dataclass(frozen=True)
class LiveCertification:
    """A line of CERTS."""

    issuer: str
    receiver: str
    made: int
    expires: int
    written: int


async def head_of(turn: Turn) -> Head:
    """The head. Raises a refusal where the chain is empty."""
    words = (await turn.ask(commands.head()))[0].split(" ")
    if words == ["NONE"]:
        raise Refusal(NO_CURRENT_BLOCK, "There is no block yet")
    number, block_hash = words[1].split("-")
    return Head(int(number), block_hash, *map(int, words[2:]))


async def state_of(turn: Turn, key: str) -> State | None:
    """The state of a person, None without an identity."""
    words = (await turn.ask(commands.of_key("IDENTITY", key)))[0].split(" ")
    return None if words == ["NONE"] else State(words[1], words[2], int(words[3]), words[4], *map(int, words[5:]))


async def is_member(turn: Turn, key: str) -> bool:
    """Whether the key is a member's: members alone have a difficulty."""
    return await turn.ask(commands.of_key("DIFF", key)) != ["NONE"]


async def members_among(turn: Turn, keys: Iterable[str]) -> set[str]:
    """Those of some keys that are members', asked for all at once."""
    asked = list(dict.fromkeys(keys))
    answers = await turn.ask_all([commands.of_key("DIFF", key) for key in asked])
    return {key for key, answer in zip(asked, answers) if answer != ["NONE"]}


async def difficulty_of(turn: Turn, key: str) -> int | None:
    """The difficulty of a member for the next block."""
    words = (await turn.ask(commands.of_key("DIFF", key)))[0].split(" ")
    return None if words == ["NONE"] else int(words[1])


async def certifications_of(turn: Turn, key: str) -> tuple[list[LiveCertification], list[LiveCertification]]:
    """The live certifications that a key received, and those that it issued."""
    lines = await turn.ask(commands.of_key("CERTS", key))
    if lines == ["NONE"]:
        return [], []
    found = [LiveCertification(words[1], words[2], *map(int, words[3:])) for words in (line.split(" ") for line in lines)]
    return [each for each in found if each.receiver == key], [each for each in found if each.issuer == key]


def parameters(index: Index) -> dict[str, Any]:
    """The parameters of the currency. Raises a refusal where the chain is empty."""
    first_hash, kept = index.hash_of(0), _KEPT.get(index)
    if kept is not None and kept[0] == first_hash:
        return kept[1]
    first = index.block(0)
    if first is None or first_hash is None:
        raise Refusal(NO_CURRENT_BLOCK, "There is no block yet")
    found = first[0].parameters()
    _KEPT[index] = (first_hash, found)
    return found


_KEPT: "WeakKeyDictionary[Index, tuple[str, dict[str, Any]]]" = WeakKeyDictionary()


def least_sentry_degree(members: int, steps: int) -> int:
    """The least number whose power by the steps is at least the number of members."""
    degree = 0
    while degree**steps < members:
        degree += 1
    return degree


def checked_word(word: str) -> str:
    """The word, where it can be a key or a name. Raises a refusal."""
    if not spelling.is_key(word) and not spelling.is_uid(word):
        raise Refusal(UNHANDLED, "This is neither a key nor a name")
    return word


def checked_key(word: str) -> str:
    """The word, where it can be a key. Raises a refusal."""
    if not spelling.is_key(word):
        raise Refusal(UNHANDLED, "This is no key")
    return word


def checked_number(word: str) -> int:
    """The number that the word spells. Raises a refusal."""
    if not spelling.is_number(word):
        raise Refusal(UNHANDLED, "This is no number")
    return int(word)


def written_identity(index: Index, word: str) -> Identity | None:
    """The written identity that a word means. A word that is spelled as a key means that key alone, whoever took it as a name."""
    return index.identity(word) if spelling.is_key(word) else index.identity_with_uid(word)


def found_identities(index: Index, word: str) -> list[Identity]:
    """Written and pending identities that a word finds: a key alone, or names with this part, whole matches first."""
    if spelling.is_key(word):
        written = index.identity(word)
        return ([] if written is None else [written]) + index.pending_identities(word)
    pending = index.pending_identities()
    found = index.identities(word) + [each for each in pending if word.lower() in each.uid.lower()]
    return sorted(found, key=lambda each: (each.uid != word, each.uid.lower() != word.lower()))
