"""BMA's pages on the payments and dividends of a key: `tx/history/*` and `ud/history`."""
from collections.abc import Callable
from typing import Any

from .blocks import Transaction
from .bma_chain import currency_of
from .index import MADE
from .ledger import Turn
from .people import checked_key, checked_number


async def history(turn: Turn, key: str) -> dict[str, Any]:
    """What the key sent and received, pending payments too. A payment with change to oneself stands in both."""
    return _history(turn, checked_key(key), lambda _number, _time: True)


async def pending(turn: Turn, key: str) -> dict[str, Any]:
    """The payments of the key that wait."""
    return _history(turn, checked_key(key), None)


async def history_of_blocks(turn: Turn, key: str, first: str, last: str) -> dict[str, Any]:
    """What the key sent and received in a range of blocks."""
    start, end = checked_number(first), checked_number(last)
    return _history(turn, checked_key(key), lambda number, _time: start <= number <= end)


async def history_of_times(turn: Turn, key: str, first: str, last: str) -> dict[str, Any]:
    """What the key sent and received in blocks of a range of median times, in seconds."""
    start, end = checked_number(first), checked_number(last)
    return _history(turn, checked_key(key), lambda _number, time: start <= time <= end)


def _history(turn: Turn, key: str, is_wanted: Callable[[int, int], bool] | None) -> dict[str, Any]:
    """The payments of a key that wait, and the written ones that are wanted by block and time; None stands for no written one."""
    parts: dict[str, list[dict[str, Any]]] = {"receiving": []}
    for role in ("sent", "received"):
        parts[role] = []
        for number, transaction in turn.index.payments(key, role) if is_wanted is not None else []:
            time = turn.index.median_time(number) or 0
            if is_wanted is not None and is_wanted(number, time):
                parts[role].append({**transaction.json(), "block_number": number, "time": time})
    sending = turn.index.pending_payments(key, "sent")
    hashes = {each.hash for each in sending}
    receiving = [each for each in turn.index.pending_payments(key, "received") if each.hash not in hashes]
    parts["sending"] = [_waiting(each) for each in sending]
    parts["pending"] = [_waiting(each) for each in receiving]
    return {"currency": currency_of(turn), "pubkey": key, "history": parts}


def _waiting(transaction: Transaction) -> dict[str, Any]:
    return {**transaction.json(), "block_number": None, "time": None}


async def dividends(turn: Turn, key: str) -> dict[str, Any]:
    """The dividends that the key got, and whether each is spent."""
    made, used = [], set()
    for move in turn.index.moves(f"SIG({checked_key(key)})"):
        if move.kind != MADE:
            used.add(move.source)
        elif ":D:" in move.source:
            made.append(move)
    lines = []
    for move in made:
        amount, base, _ = move.source.split(":", 2)
        time = turn.index.median_time(move.block)
        lines.append({
            "block_number": move.block, "consumed": move.source in used, "time": time, "amount": int(amount), "base": int(base),
        })
    return {"currency": currency_of(turn), "pubkey": key, "history": {"history": lines}}
