"""The values that broke a rule on transactions."""
from collections import Counter

from . import commands
from .index import units
from .why_case import Case, Teller

_LAST_MOVES = {"SPENT": "spent", "CLEARED": "cleared", "MADE": "unspent"}


async def _sources(case: Case) -> None:
    made = {f"T:{each.hash}:{place}" for _, each in case.transactions() for place in range(len(each.outputs))}
    for place, each in case.transactions():
        for line, source in enumerate(each.inputs, place + 2 + len(each.issuers)):
            name = source.split(":", 2)[2]
            known = case.index.source(name)
            if known is None and name not in made:
                case.tell("this source was never made", source, line)
            elif known is not None and known[2] != "MADE":
                case.tell(f"this source was {_LAST_MOVES[known[2]]} in block {known[3]}", source, line)
            elif known is not None and source not in await _unspent(case, known[0]):
                case.tell("unspent, but with another amount or base", source, line)


async def _unspent(case: Case, condition: str) -> list[str]:
    return [line.removeprefix("SOURCE ") for line in await case.turn.ask(commands.of_condition("SOURCES", condition))]


async def _conditions(case: Case) -> None:
    for place, each in case.transactions():
        first = place + 2 + len(each.issuers)
        unlocks = {line.split(":", 1)[0]: line for line in each.unlocks}
        for offset, source in enumerate(each.inputs):
            known = case.index.source(source.split(":", 2)[2])
            if known is not None and known[2] == "MADE":
                case.tell("condition of the source", known[0], first + offset)
                case.tell("unlocked by", unlocks.get(str(offset), "nothing"), first + len(each.inputs) + offset)
                case.tell("written at", case.index.median_time(known[1]), first + offset)
    case.tell(f"MedianTime of {case.whose}", case.now)


async def _locktimes(case: Case) -> None:
    for place, each in case.transactions():
        for line, source in enumerate(each.inputs, place + 2 + len(each.issuers)):
            known = case.index.source(source.split(":", 2)[2])
            made = None if known is None else case.index.median_time(known[1])
            if made is not None and case.now < made + each.locktime:
                case.tell(f"made at {made}; locktime", each.locktime, line)
    case.tell(f"MedianTime of {case.whose}", case.now)


async def _sums(case: Case) -> None:
    for place, each in case.transactions():
        given, taken = sum(map(units, each.outputs)), sum(map(units, each.inputs))
        if given != taken:
            case.tell("units of the inputs", taken, place)
            case.tell("units of the outputs", given, place)


async def _amounts(case: Case) -> None:
    for place, each in case.transactions():
        lines = [*enumerate(each.inputs, place + 2 + len(each.issuers))]
        lines += enumerate(each.outputs, place + 2 + len(each.issuers) + len(each.inputs) + len(each.unlocks))
        for line, text in lines:
            if text.split(":")[0] == "0":
                case.tell("an amount of 0", text, line)


async def _bases(case: Case) -> None:
    for place, each in case.transactions():
        for line, text in enumerate(each.outputs, place + 2 + len(each.issuers) + len(each.inputs) + len(each.unlocks)):
            if int(text.split(":")[1]) > int(case.fields["UnitBase"]):
                case.tell("a base above that of the block", text, line)
    case.tell(f"UnitBase of {case.whose}", case.fields["UnitBase"])


async def _repeated(case: Case) -> None:
    for place, each in case.transactions():
        block = case.index.transaction_block(each.hash)
        if block is not None:
            case.tell(f"block {block} has the transaction", each.hash, place)


async def _spent_twice(case: Case) -> None:
    found = [
        (line, source.split(":", 2)[2])
        for place, each in case.transactions() for line, source in enumerate(each.inputs, place + 2 + len(each.issuers))
    ]
    counts = Counter(name for _, name in found)
    for line, name in found:
        if counts[name] > 1:
            case.tell("an input that stands more than once", name, line)


async def _long(case: Case) -> None:
    for place, each in case.transactions():
        if each.compact_size > 100:
            case.tell("lines of the transaction", each.compact_size, place)


async def _unlocks(case: Case) -> None:
    for place, each in case.transactions():
        first = place + 2 + len(each.issuers)
        numbers = [line.split(":", 1)[0] for line in each.unlocks]
        for offset, source in enumerate(each.inputs):
            if numbers.count(str(offset)) != 1:
                case.tell(f"unlock lines of this input: {numbers.count(str(offset))}", source, first + offset)
        for offset, line in enumerate(each.unlocks):
            issuers = [part.split(")")[0] for part in line.split("SIG(")[1:]]
            if any(int(number) >= len(each.issuers) for number in issuers if number.isdigit()) or int(numbers[offset]) >= len(each.inputs):
                what = f"of {len(each.inputs)} inputs and {len(each.issuers)} issuers this names one more"
                case.tell(what, line, first + len(each.inputs) + offset)


async def _issuer_twice(case: Case) -> None:
    for place, each in case.transactions():
        for line, issuer in enumerate(each.issuers, place + 2):
            if each.issuers.count(issuer) > 1:
                case.tell("an issuer who stands more than once", issuer, line)


TELLERS: dict[str, Teller] = {
    "L18": _long, "L19": _issuer_twice, "L20": _unlocks, "L21": _spent_twice, "L22": _amounts, "L23": _sums, "X05": _repeated,
    "G87": _sources, "G88": _conditions, "G89": _locktimes, "G90": _bases,
}
