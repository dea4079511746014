"""What a condition means, in words."""
import re
from collections.abc import Callable
from dataclasses import dataclass

from .. import spelling

_ITEM = re.compile(rf"(SIG)\(({spelling.KEY_PATTERN})\)|(XHX)\(({spelling.HASH_PATTERN})\)|(CSV|CLTV)\(({spelling.NUMBER_PATTERN})\)")
_MOST_GROUPS = 64
_SHOWN_OF_HASH = 8


class NoCondition(ValueError):
    """The text is no condition."""


@dataclass(frozen=True)
class Item:
    """SIG, XHX, CSV or CLTV with what stands in its parentheses."""

    kind: str
    value: str


@dataclass(frozen=True)
class Some:
    """A condition: true where some of its lists is true, each where all of its items are. A group is a condition again."""

    alls: list[list["Item | Some"]]


def read(text: str) -> Some:
    """The condition with this text. Raises NoCondition."""
    if len(text) > spelling.LONGEST_CONDITION:
        raise NoCondition("it is longer than a condition")
    found, place = _some(text, 0, 0)
    if place != len(text):
        raise NoCondition(f"it is no condition from character {place + 1} on")
    return found


def _some(text: str, place: int, depth: int) -> tuple[Some, int]:
    alls: list[list[Item | Some]] = [[]]
    while True:
        item, place = _one(text, place, depth)
        alls[-1].append(item)
        if text.startswith(" || ", place):
            alls.append([])
        elif not text.startswith(" && ", place):
            return Some(alls), place
        place += 4


def _one(text: str, place: int, depth: int) -> tuple[Item | Some, int]:
    if text.startswith("(", place) and depth < _MOST_GROUPS:
        found, end = _some(text, place + 1, depth + 1)
        if text.startswith(")", end):
            return found, end + 1
        raise NoCondition("a parenthesis is not closed")
    match = _ITEM.match(text, place)
    if match is None:
        raise NoCondition(f"it is no condition from character {place + 1} on")
    kind, value = [part for part in match.groups() if part is not None]
    return Item(kind, value), match.end()


def in_words(condition: Some, name: Callable[[str], str], time: Callable[[int], str]) -> str:
    """A sentence without its full stop: `name` says who has a key, `time` when a second is."""
    return ", or ".join(_all(items, name, time) for items in condition.alls)


def _all(items: list[Item | Some], name: Callable[[str], str], time: Callable[[int], str]) -> str:
    if len(items) == 1 and isinstance(items[0], Some):
        return in_words(items[0], name, time)
    single = [each for each in items if isinstance(each, Item)]
    signers = [name(each.value) for each in single if each.kind == "SIG"]
    passwords = [f"with the password of the hash {each.value[:_SHOWN_OF_HASH]}.." for each in single if each.kind == "XHX"]
    waits = [f"{int(each.value):,} seconds after it was made" for each in single if each.kind == "CSV"]
    starts = [f"from {time(int(each.value))} on" for each in single if each.kind == "CLTV"]
    groups = [f"({in_words(each, name, time)})" for each in items if isinstance(each, Some)]
    who = " and ".join(signers) + (" together" if len(signers) > 1 else "")
    said = " ".join([who or "whoever comes", *passwords, *waits, *starts])
    plain = bool(single) or not groups
    return " and also ".join([said] * plain + groups)
