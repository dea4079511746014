"""Several nodes over one PostgreSQL server: followers agree with the one that writes, whatever ends and comes back."""
import asyncio
import os
import signal
import time
from collections.abc import Callable
from pathlib import Path

import pytest
from postgres import Postgres
from support import PROGRAM, Server, fails_to_start, index_of, until

from service.copying import copy
from service.log import _sum
from service.wallet import Wallet

pytest.importorskip("prometheus_client", reason="python3-prometheus-client is not installed")
SECONDS_BEHIND = float(os.environ.get("DUBP_SECONDS_BEHIND", "5"))
"""How long a follower is held up; a minute is tried by hand."""

Start = Callable[..., Server]
PAGES = ("/node/head", "/node/money", "/blockchain/current", "/wot/members", "/node/pool", "/node/branches", "/wot/lookup/alice", "/node/points")


class Payer:
    """Somebody who pays herself again and again, each time what the payment before made."""

    def __init__(self, wallet: Wallet, server: Server) -> None:
        source = server.get(f"/node/accounts/{wallet.key}").json["sources"][0]
        self._wallet, self._source, self._units = wallet, source["source"], source["units"]
        self._stamp = server.get("/node/head").json["stamp"]
        self.hashes: list[str] = []

    def pay(self, server: Server) -> None:
        """Pays once."""
        outputs = [f"{self._units}:0:SIG({self._wallet.key})"]
        answer = server.post("/tx/process", transaction=self._wallet.payment([self._source], outputs, self._stamp, f"{len(self.hashes)}"))
        assert answer.status == 200, answer.body
        self.hashes.append(answer.json["hash"])
        self._source = f"{self._units}:0:T:{self.hashes[-1]}:0"


def _pages(server: Server) -> list[bytes]:
    return [server.get(path).body for path in PAGES]


def _says(server: Server, line: str) -> bool:
    """Whether the page of metrics has a line. Other pages may be at hand from before."""
    return line in server.get("/metrics").body.decode()


def _agree(writer: Server, followers: list[Server]) -> None:
    wanted = _pages(writer)
    for follower in followers:
        until(lambda: _pages(follower) == wanted)  # noqa: B023


def _writer(nodes: Start, database: str, currency: Path, *words: str) -> Server:
    return nodes(database, "--key", str(currency / "alice.key"), "--forge-on-request", *words)


def test_three_followers_whatever_ends(nodes: Start, postgres: Postgres, database: str, currency: Path, people: dict[str, Wallet]) -> None:
    writer = _writer(nodes, database, currency)
    followers = [nodes(database, "--as", "follower") for _ in range(3)]
    payer = Payer(people["alice"], writer)
    payer.pay(writer)
    _agree(writer, followers)
    writer.forge()
    _agree(writer, followers)
    refused = followers[0].post("/wot/add", identity=people["bob"].identity(writer.get("/node/head").json["stamp"]))
    assert (refused.status, refused.ucode) == (503, 1006) and "only reads" in refused.json["message"]
    # one is killed, and another started in its place
    followers[0].kill()
    payer.pay(writer)
    writer.forge()
    followers[0] = nodes(database, "--as", "follower")
    _agree(writer, followers)
    # one is held up, and behind
    followers[1].process.send_signal(signal.SIGSTOP)
    begun = time.monotonic()
    while time.monotonic() < begun + SECONDS_BEHIND:
        payer.pay(writer)
        writer.forge()
        _agree(writer, [followers[0], followers[2]])
    followers[1].process.send_signal(signal.SIGCONT)
    _agree(writer, followers)
    _database_stops(postgres, writer, followers, payer)
    stamps = writer.get("/blockchain/blocks/5000/0").json
    written = [each["hash"] for block in stamps for each in block["transactions"]]
    assert [written.count(each) for each in payer.hashes] == [1] * len(payer.hashes)


def _database_stops(postgres: Postgres, writer: Server, followers: list[Server], payer: Payer) -> None:
    """Reads go on without the database, and what is sent is refused; behind it all goes on."""
    before = _pages(writer)
    postgres.stop()
    try:
        assert [_pages(follower) for follower in followers] == [before] * len(followers)
        assert writer.ask("POST", "/node/forge", b"").status == 503
    finally:
        postgres.start()
    until(lambda: _says(writer, "dubp_database 1.0") and _says(writer, "dubp_answers 1.0"))
    assert _pages(writer) == before
    payer.pay(writer)
    writer.forge()
    _agree(writer, followers)


def test_the_place_of_the_one_that_writes(nodes: Start, database: str, currency: Path, people: dict[str, Wallet]) -> None:
    writer = _writer(nodes, database, currency)
    assert "is in use by another node that writes" in fails_to_start(database)
    standby = _writer(nodes, database, currency, "--as", "standby")
    follower = nodes(database, "--as", "follower", "--key", str(currency / "bob.key"), "--forge-on-request")
    payer = Payer(people["alice"], writer)
    payer.pay(writer)
    writer.kill()
    until(lambda: _says(standby, "dubp_writes 1.0"))
    payer.pay(standby)
    standby.forge()
    _agree(standby, [follower])
    written = [each["hash"] for each in standby.get("/blockchain/current").json["transactions"]]
    assert written == payer.hashes
    # a follower is promoted by hand, and the one that wrote ends
    follower.process.send_signal(signal.SIGUSR1)
    standby.stop()
    until(lambda: _says(follower, "dubp_writes 1.0"))
    payer.pay(follower)
    assert follower.forge().startswith("28-")


def test_who_comes_to_another_head_stops(nodes: Start, postgres: Postgres, database: str, currency: Path, tmp_path: Path) -> None:
    writer = _writer(nodes, database, currency)
    other = tmp_path / "other"
    other.write_text(f"#!/bin/bash\nexec {PROGRAM} run | stdbuf -oL sed 's/^ACCEPTED 27-/REFUSED G57 27-/'\n")
    other.chmod(0o755)
    differs, agrees = nodes(database, "--as", "follower", program=other), nodes(database, "--as", "follower")
    writer.forge()
    said = differs.failed()
    assert "another version of the program" in said and "ACCEPTED 27-" in said and "REFUSED G57" in said
    _agree(writer, [agrees])
    writer.stop()
    # an entry whose head is not that of its commands
    number, before = postgres.ask(currency.parent.name, "SELECT number, sum FROM log ORDER BY number DESC LIMIT 1")[0]
    head = f"26-{'0' * 64}"
    values = f"{int(number) + 1}, 'AUTO OFF', NULL, 'AUTO OFF', '{head}', '{_sum(before, 'AUTO OFF', None, 'AUTO OFF', head)}'"
    postgres.ask(currency.parent.name, f"INSERT INTO log VALUES ({values}); NOTIFY dubp_log")
    said = agrees.failed()
    assert f"with {head} where it was written" in said and "do not agree" in said


def test_a_copy_there_and_back(postgres: Postgres, database: str, currency: Path, tmp_path: Path) -> None:
    count = asyncio.run(copy(database, tmp_path / "back.sqlite"))
    assert count == int(postgres.ask(currency.parent.name, "SELECT max(number) FROM log")[0][0])
    assert index_of(tmp_path / "back.sqlite").dump() == index_of(currency / "log.sqlite").dump()
    with Server(tmp_path / "back.sqlite") as again:
        assert again.get("/node/head").json["number"] == 26


def test_what_cannot_be_used_is_said(postgres: Postgres, tmp_path: Path) -> None:
    assert "cannot be used" in fails_to_start(postgres.address("nowhere"))
    assert "has no log yet" in fails_to_start(postgres.make("empty"), "--as", "follower")
    assert "only a log on a PostgreSQL server is followed" in fails_to_start(tmp_path / "log.sqlite", "--as", "follower")
    assert "is no address" in fails_to_start("postgresql+nothing://x")
