"""Which line of a block caused each record."""
from collections import defaultdict, deque
from collections.abc import Callable

from .blocks import SECTIONS, BlockText

_BY_SECTION = {
    "IIDX CREATE": "Identities", "IIDX IN": "Joiners", "MIDX JOIN": "Joiners", "MIDX ACTIVE": "Actives", "MIDX LEAVE": "Leavers",
    "MIDX REVOKE": "Revoked", "IIDX OUT": "Excluded", "CIDX CERT": "Certifications", "SIDX SPEND": "inputs", "SIDX MAKE": "outputs",
}
_BY_HEADER = {
    "SIDX DIVIDEND": "UniversalDividend", "MIDX EXPIRE": "MedianTime", "MIDX EXPIREREV": "MedianTime", "CIDX EXPIRE": "MedianTime",
    "SIDX CLEAR": "UnitBase",
}


def causes(block: BlockText, records: list[str], condition_of: Callable[[str], str | None]) -> list[int]:
    """The line, from 1, that caused each record. What ends by time is caused by MedianTime; what is cleared by the last line of the block that
    moved its condition, else by UnitBase."""
    queues = {name: deque(places) for name, places in _places(block).items()}
    kinds = defaultdict(deque, {kind: deque(queues.get(name, ())) for kind, name in _BY_SECTION.items()})
    header = {line.split(": ", 1)[0]: place for place, line in enumerate(block.lines[: block.lines.index("Identities:")], 1)}
    moved: dict[str | None, int] = {}
    found = []
    for record in records:
        words = record.split(" ", 3)
        kind = " ".join(words[:2])
        place = kinds[kind].popleft() if kinds[kind] else header.get(_BY_HEADER.get(kind, ""), 1)
        if kind in ("SIDX SPEND", "SIDX MAKE"):
            moved[words[3] if kind == "SIDX MAKE" else condition_of(words[2])] = place
        elif kind == "SIDX CLEAR":
            place = moved.get(condition_of(words[2]), place)
        found.append(place)
    return found


def _places(block: BlockText) -> dict[str, list[int]]:
    """The lines, from 1, of each section, and of all inputs and outputs of the block's transactions."""
    found: dict[str, list[int]] = {"inputs": [], "outputs": []}
    place = block.lines.index("Identities:")
    for name in SECTIONS:
        count = len(block.sections[name])
        found[name] = list(range(place + 2, place + 2 + count))
        place += 1 + count
    line = found["Transactions"][0] if found["Transactions"] else 0
    for each in block.transactions:
        inputs = line + 2 + len(each.issuers)
        outputs = inputs + len(each.inputs) + len(each.unlocks)
        found["inputs"] += range(inputs, inputs + len(each.inputs))
        found["outputs"] += range(outputs, outputs + len(each.outputs))
        line += each.compact_size
    return found
