"""How much strangers may ask for: by address, and all together."""
import time
from collections import OrderedDict
from dataclasses import dataclass, field, fields, replace
from ipaddress import IPv6Address, ip_address

from .index import Index

OWN_ADDRESSES = ("127.0.0.1", "::1")
"""Requests of the machine itself are not counted by address."""

_MOST_ADDRESSES = 20_000
_SECONDS_OF_A_MINUTE = 60.0
_BITS_OF_A_NETWORK = 64


class NoLimit(ValueError):
    """A word of the command line sets no limit."""


@dataclass(frozen=True)
class Limits:
    """The limits, each with its value where none is set."""

    reads: int = 3000
    """Requests of an address in a minute that only read; half a minute's may come at once."""
    documents: int = 60
    """Documents and blocks that an address may send in a minute; half a minute's may come at once."""
    waiting: int = 32
    """Documents of an address that may wait at once."""
    connections: int = 64
    """Connections of an address that may be open at once."""
    all_connections: int = 1000
    """Connections that may be open at once."""
    seconds_for_head: int = 15
    """How long the head of the first request of a connection may take."""
    seconds_for_body: int = 30
    """How long a body may take."""
    seconds_for_answer: int = 60
    """How long somebody may take none of an answer."""

    def with_words(self, words: list[str]) -> "Limits":
        """The limits with those set that words `NAME=NUMBER` name. Raises NoLimit."""
        names, found = {each.name for each in fields(self)}, dict[str, int]()
        for word in words:
            name, _, value = word.partition("=")
            if name not in names or not value.isdecimal() or int(value) < 1:
                raise NoLimit(f"{word} sets no limit: NAME=NUMBER is wanted, with one of {', '.join(sorted(names))}")
            found[name] = int(value)
        return replace(self, **found)


class Budget:
    """What each address may still ask for: it fills up again with time, to half a minute's worth."""

    def __init__(self, each_minute: int) -> None:
        self._pace, self._most = each_minute / _SECONDS_OF_A_MINUTE, max(1.0, each_minute / 2)
        self._left: OrderedDict[str, tuple[float, float]] = OrderedDict()

    def takes(self, address: str) -> bool:
        """Whether the address may ask once more now; then it has asked."""
        now = time.monotonic()
        left, since = self._left.pop(address, (self._most, now))
        left = min(self._most, left + (now - since) * self._pace)
        self._left[address] = (left - 1 if left >= 1 else left, now)
        if len(self._left) > _MOST_ADDRESSES:
            self._left.popitem(last=False)
        return left >= 1


@dataclass
class Origin:
    """Whoever sends documents from an address, and which of them wait, oldest first."""

    most: int
    hashes: list[str] = field(default_factory=list)

    def waiting(self, index: Index) -> list[str]:
        """Those that wait still."""
        self.hashes = [each for each in self.hashes if index.is_pending(each)]
        return self.hashes


class Origins:
    """The origins of documents that wait, by address. They are forgotten when the service ends."""

    def __init__(self, most: int) -> None:
        self._most = most
        self._origins: OrderedDict[str, Origin] = OrderedDict()

    def of(self, address: str) -> Origin:
        """The origin at an address. Those of the machine itself have no limit."""
        if address in OWN_ADDRESSES:
            return Origin(1 << 30)
        found = self._origins.pop(address, None) or Origin(self._most)
        self._origins[address] = found
        if len(self._origins) > _MOST_ADDRESSES:
            self._origins.popitem(last=False)
        return found


def network_of(address: str) -> str:
    """What counts as one address: one of version 4, the first 64 bits of one of version 6."""
    try:
        found = ip_address(address.split("%")[0])
    except ValueError:
        return address
    if isinstance(found, IPv6Address) and found.ipv4_mapped is not None:
        return str(found.ipv4_mapped)
    if isinstance(found, IPv6Address) and not found.is_loopback:
        return str(IPv6Address(int(found) >> _BITS_OF_A_NETWORK << _BITS_OF_A_NETWORK))
    return str(found)
