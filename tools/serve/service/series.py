"""Values over time: of each block those that a picture of the currency shows. They are kept in memory, and follow the chain."""
from dataclasses import dataclass
from typing import Any
from weakref import WeakKeyDictionary

from .index import Index, units
from .people import parameters

MOST_POINTS = 240


@dataclass(frozen=True, slots=True)
class Point:
    """A block's values; `dividend` is the last one that was paid, in units for each member, `unspent` the money that is left behind the block."""

    number: int
    hash: str
    issuer: str
    time: int
    median_time: int
    members: int
    pow_min: int
    dividend: int
    mass: int
    cleared: int

    @property
    def unspent(self) -> int:
        """The units that can be spent."""
        return self.mass - self.cleared


class Series:
    """The points of a chain."""

    def __init__(self) -> None:
        self.points: list[Point] = []

    def follow(self, index: Index) -> list[Point]:
        """The points of the chain as it is now."""
        points = self.points
        while points and index.hash_of(points[-1].number) != points[-1].hash:
            points.pop()
        start = len(points)
        cleared: dict[int, int] = {}
        if start < index.length():
            for block, source in index.cleared(start):
                cleared[block] = cleared.get(block, 0) + units(source)
        for row in index.values(start):
            points.append(_point(row, points[-1] if points else None, cleared.get(row[0], 0), index))
        return points


def _point(row: tuple[Any, ...], before: Point | None, cleared: int, index: Index) -> Point:
    dividend, mass = row[-2:]
    if dividend is None:
        dividend = before.dividend if before else parameters(index)["ud0"]
    number, block_hash, issuer, *values = row[:-2]
    time, median_time, members, pow_min = map(int, values)
    behind = cleared + (before.cleared if before else 0)
    return Point(number, block_hash, issuer, time, median_time, members, pow_min, int(dividend), int(mass), behind)


_KEPT: "WeakKeyDictionary[Index, Series]" = WeakKeyDictionary()


def series(index: Index) -> list[Point]:
    """The points of an index's chain. The list is that of the cache, not to be changed."""
    return _KEPT.setdefault(index, Series()).follow(index)


def thinned(count: int, most: int = MOST_POINTS) -> list[int]:
    """At most so many places of a list of this length, evenly, the first and the last among them."""
    if count <= most:
        return list(range(count))
    return [place * (count - 1) // (most - 1) for place in range(most)]
