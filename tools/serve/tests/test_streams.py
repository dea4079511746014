"""Events of new blocks, and what forging gives way to."""
import asyncio
import json
import threading
from collections.abc import Callable
from dataclasses import replace
from pathlib import Path
from typing import Any

import aiohttp
import jsonschema
import pytest
from duniterpy.api.bma.ws import WS_BLOCK_SCHEMA
from support import PROGRAM, Server, until

from service import forging
from service.forging import Draft, Forger, draft, submit_own
from service.ledger import Ledger, Turn
from service.miner import search, threshold
from service.wallet import Wallet


async def _events(server: Server, count: int, act: Callable[[], Any]) -> list[tuple[str, dict[str, Any]]]:
    found: list[tuple[str, dict[str, Any]]] = []
    async with aiohttp.ClientSession() as session, session.get(f"http://127.0.0.1:{server.port}/node/events") as response:
        assert response.headers["Content-Type"] == "text/event-stream"
        name = ""
        async for raw in response.content:
            line = raw.decode().strip()
            if line.startswith("event: "):
                name = line.removeprefix("event: ")
            elif line.startswith("data: "):
                found.append((name, json.loads(line.removeprefix("data: "))))
                if len(found) == 2:
                    threading.Thread(target=act).start()
                if len(found) == count:
                    break
    return found


def test_events_tell_of_a_block(forging: Server) -> None:
    head = forging.get("/node/head").json["stamp"]
    found = asyncio.run(asyncio.wait_for(_events(forging, 4, forging.forge), 60))
    assert found[0][0] == "block" and found[0][1]["stamp"] == head
    assert found[1] == ("pool", {"waiting": 0})
    assert found[2] == ("branches", {"stored": 2})
    assert found[3][0] == "block" and found[3][1]["number"] == found[0][1]["number"] + 1


async def _sockets(server: Server) -> list[int]:
    numbers = []
    loop = asyncio.get_running_loop()
    async with aiohttp.ClientSession() as session, session.ws_connect(f"http://127.0.0.1:{server.port}/ws/block") as connection:
        block = await connection.receive_json()
        jsonschema.validate(block, WS_BLOCK_SCHEMA)
        numbers.append(block["number"])
        await loop.run_in_executor(None, server.forge)
        numbers.append((await connection.receive_json())["number"])
    return numbers


def test_a_websocket_brings_each_block(forging: Server) -> None:
    first, second = asyncio.run(asyncio.wait_for(_sockets(forging), 60))
    assert second == first + 1


def test_a_nonce_meets_its_difficulty() -> None:
    assert threshold(0) == "F" * 64 and threshold(16) == "0" + "F" * 63 and threshold(35) == "00C" + "F" * 61
    nonce, signature = search(f"InnerHash: {'0' * 64}", 20, bytes(32))
    again, same = search(f"InnerHash: {'0' * 64}", 20, bytes(32))
    assert (nonce, signature) == (again, same)


def test_a_service_forges_by_itself_and_answers_meanwhile(serve: Callable[..., Server], currency: Path) -> None:
    with serve("--key", str(currency / "bob.key"), "--pace", "0.2") as server:
        start = server.get("/node/head").json["number"]
        until(lambda: server.get("/node/head").json["number"] >= start + 3, 60)
        assert server.post("/node/forge").status == 404


def test_who_is_no_member_forges_nothing(serve: Callable[..., Server], currency: Path) -> None:
    with serve("--key", str(currency / "carol.key"), "--forge-on-request") as server:
        answer = server.post("/node/forge")
        assert (answer.status, answer.ucode, answer.json["rule"]) == (400, 2009, "G101")


def test_forging_begins_anew_when_the_head_changes(currency: Path, people: dict[str, Wallet], monkeypatch: pytest.MonkeyPatch) -> None:
    async def story() -> None:
        ledger = await Ledger.open(PROGRAM, currency / "log.sqlite")
        forger, length = Forger(ledger, people["alice"].issuer, None, True), ledger.index.length()
        drafts: list[Draft] = []

        async def hard_at_first(turn: Turn, key: str, clock: int | None = None) -> Draft:
            drafts.append(await draft(turn, key, clock))
            # no nonce ever meets the first
            return replace(drafts[0], difficulty=900) if len(drafts) == 1 else drafts[-1]

        monkeypatch.setattr(forging, "draft", hard_at_first)
        mining = asyncio.ensure_future(forger.forge())
        while not drafts:
            await asyncio.sleep(0.05)
        # meanwhile another member's block comes, and the program answers
        bob = people["bob"].issuer
        wanted = await ledger.turn(lambda turn: draft(turn, bob.key))
        raw = wanted.signed(*search(wanted.inner, wanted.difficulty, bob.seed))
        await ledger.turn(lambda turn: submit_own(turn, raw, bob.key))
        assert ledger.index.length() == length + 1
        stamp = await asyncio.wait_for(mining, 60)
        assert stamp.startswith(f"{length + 1}-") and ledger.index.head_stamp() == stamp and len(drafts) == 2
        await forger.stop()
        await ledger.close()

    asyncio.run(story())
