"""The web of certifications as the program tells it: who is a member, who a sentry, and by which walks sentries reach a person."""
from collections import deque
from dataclasses import dataclass, field
from typing import Any
from weakref import WeakKeyDictionary

from . import commands, people
from .index import Index
from .ledger import Turn, Unavailable
from .people import LiveCertification, State

MOST_PEOPLE = 20_000
"""A web of more people is not put together for a page."""


@dataclass
class Web:
    """The people of a chain with their live certifications, by key."""

    states: dict[str, State]
    members: set[str]
    received: dict[str, list[LiveCertification]]
    steps: int
    sentries: set[str] = field(default_factory=set)

    def issued(self, key: str) -> list[LiveCertification]:
        """The live certifications that a key issued."""
        return [each for received in self.received.values() for each in received if each.issuer == key]

    def walks(self, key: str) -> dict[str, list[str]]:
        """For each key from which a walk of at most `steps` certifications leads to this one: a shortest such walk, first its beginning."""
        if key not in self.members:
            return {}
        found, left = {key: [key]}, deque([key])
        while left:
            end = left.popleft()
            if len(found[end]) > self.steps:
                continue
            for each in self.received[end]:
                if each.issuer in self.members and each.issuer not in found:
                    found[each.issuer] = [each.issuer, *found[end]]
                    left.append(each.issuer)
        return found


_KEPT: "WeakKeyDictionary[Index, tuple[str, Web]]" = WeakKeyDictionary()


async def web_of(turn: Turn) -> Web:
    """The web behind the last block. Raises Unavailable where it is too large for a page."""
    head = turn.index.head_stamp()
    kept = _KEPT.get(turn.index)
    if kept is not None and kept[0] == head:
        return kept[1]
    keys = [each.key for each in turn.index.identities()]
    if len(keys) > MOST_PEOPLE:
        raise Unavailable(f"the web of more than {MOST_PEOPLE} people is not put together for a page")
    web = await _asked(turn, keys)
    _KEPT[turn.index] = (head, web)
    return web


async def _asked(turn: Turn, keys: list[str]) -> Web:
    answers = await turn.ask_all([commands.of_key(word, key) for word in ("IDENTITY", "DIFF", "CERTS") for key in keys])
    states = {key: _state(answers[place][0].split(" ")) for place, key in enumerate(keys)}
    members = {key for place, key in enumerate(keys, len(keys)) if answers[place] != ["NONE"]}
    received = {key: _received(answers[place], key) for place, key in enumerate(keys, 2 * len(keys))}
    steps = int(people.parameters(turn.index)["stepMax"]) if keys else 0
    web = Web(states, members, received, steps)
    degree = people.least_sentry_degree(len(members), steps) if members else 0
    web.sentries = {key for key in members if states[key].received >= degree and states[key].issued >= degree}
    return web


def _state(words: list[str]) -> State:
    return State(words[1], words[2], int(words[3]), words[4], *map(int, words[5:]))


def _received(lines: list[str], key: str) -> list[LiveCertification]:
    words = [line.split(" ") for line in lines if line != "NONE"]
    return [LiveCertification(each[1], each[2], *map(int, each[3:])) for each in words if each[2] == key]


def shown(web: Web, key: str) -> dict[str, Any]:
    """The walks to a key as JSON: each sentry but the key itself, with a shortest walk or none."""
    walks = web.walks(key)
    lines = [{"sentry": each, "uid": web.states[each].uid, "walk": walks.get(each)} for each in web.sentries if each != key]
    return {"steps": web.steps, "sentries": sorted(lines, key=lambda each: str(each["uid"]))}
