"""What is not served, or not now: slow bodies, too many streams, a program without memory, a disk that fails."""
import asyncio
import sqlite3
from pathlib import Path

import aiohttp
import pytest
from support import PROGRAM, Server

from service import commands, web
from service.ledger import Ledger, Turn, Unavailable
from service.limits import Limits
from service.web import Service, start


def test_slow_bodies_and_many_streams(tmp_path: Path, monkeypatch: pytest.MonkeyPatch) -> None:
    monkeypatch.setattr(web, "MOST_STREAMS", 2)

    async def story() -> None:
        ledger = await Ledger.open(PROGRAM, tmp_path / "log.sqlite")
        runner, port = await start(Service(ledger, PROGRAM, limits=Limits(seconds_for_body=1)), "127.0.0.1", 0)
        reader, writer = await asyncio.open_connection("127.0.0.1", port)
        writer.write(b"POST /tx/process HTTP/1.1\r\nHost: x\r\nContent-Length: 1000\r\n\r\ntransaction=")
        assert (await asyncio.wait_for(reader.readline(), 30)).startswith(b"HTTP/1.1 408 ")
        writer.close()
        address = f"http://127.0.0.1:{port}"
        async with aiohttp.ClientSession() as session:
            open_streams = [await session.get(f"{address}/node/events") for _ in range(2)]
            assert [each.status for each in open_streams] == [200, 200]
            async with session.get(f"{address}/node/events") as refused:
                assert refused.status == 503 and refused.headers["Retry-After"]
            async with session.get(f"{address}/node/money") as served:
                assert served.status == 200
            for each in open_streams:
                each.close()
        await runner.cleanup()
        await ledger.close()

    asyncio.run(story())


def test_a_program_without_memory_is_503(example_log: Path, tmp_path: Path) -> None:
    hungry = tmp_path / "hungry"
    hungry.write_text(f"#!/bin/bash\n{PROGRAM} run | sed -u -E 's/^DISTANCE .*/NOMEM/'\n")
    hungry.chmod(0o755)
    with Server(example_log, program=hungry) as server:
        key = server.get("/wot/members").json["results"][0]["pubkey"]
        answer = server.get(f"/node/distance/{key}")
        assert (answer.status, answer.ucode, answer.headers["Retry-After"]) == (503, 1006, "2")
        assert server.get(f"/wot/identity-of/{key}").status == 200


def test_a_disk_that_fails_loses_nothing(example_log: Path, monkeypatch: pytest.MonkeyPatch) -> None:
    async def story() -> None:
        ledger = await Ledger.open(PROGRAM, example_log)
        before, commit = ledger.index.dump(), ledger._storage.commit

        async def fails() -> None:
            monkeypatch.setattr(ledger._storage, "commit", commit)
            raise sqlite3.OperationalError("database or disk is full")

        monkeypatch.setattr(ledger._storage, "commit", fails)
        with pytest.raises(Unavailable):
            await ledger.turn(lambda turn: turn.change(commands.revert(1)))
        # neither the index nor the program has it
        assert ledger.index.dump() == before

        async def head(turn: Turn) -> str:
            return (await turn.ask(commands.head()))[0].split(" ")[1]

        assert await ledger.turn(head) == ledger.index.head_stamp()
        assert await ledger.turn(lambda turn: turn.change(commands.revert(1))) == ["REVERTED 1"]
        assert ledger.index.length() == 4
        await ledger.close()

    asyncio.run(story())
