"""Strangers at the door: what they make waits outside of the program, in its share; how often and how long they may ask."""
import asyncio
import socket
import time
from collections.abc import Callable
from pathlib import Path
from urllib.parse import urlencode

import pytest
from support import FORM, PROGRAM, Server

from service import limits
from service.demo import new_wallet
from service.ledger import Ledger
from service.limits import Budget, Limits, NoLimit, Origin, Origins, network_of
from service.refusals import Refusal
from service.shares import SHARES
from service.wallet import Wallet
from service.writes import CERTIFICATION, IDENTITY, MEMBERSHIP, TRANSACTION, submit_document


async def _submit(ledger: Ledger, kind: str, text: str, origin: Origin | None = None) -> Refusal | None:
    try:
        await ledger.turn(lambda turn: submit_document(turn, kind, text.encode(), origin or Origin(1 << 30)))
    except Refusal as refusal:
        return refusal
    return None


async def _lines(ledger: Ledger) -> list[str]:
    return [entry.line.split(" ")[0] async for entry in ledger.log.entries()]


def test_an_address_fills_its_own_share_alone(currency: Path, people: dict[str, Wallet]) -> None:
    async def story() -> None:
        ledger = await Ledger.open(PROGRAM, currency / "log.sqlite")
        stamp, before = ledger.index.head_stamp(), await _lines(ledger)
        honest = new_wallet("honest", "demo")
        assert await _submit(ledger, IDENTITY, honest.identity(stamp)) is None
        flood = Origin(32)
        for place in range(100):
            stranger = new_wallet(f"stranger{place}", "demo")
            assert await _submit(ledger, IDENTITY, stranger.identity(stamp), flood) is None
            assert await _submit(ledger, MEMBERSHIP, stranger.membership(stamp, stamp), flood) is None
        waiting = ledger.index.pending()
        assert len(flood.waiting(ledger.index)) <= 32 and len(waiting) <= 33
        # the program was told nothing of them
        new = (await _lines(ledger))[len(before) :]
        assert set(new) == {"WAIT", "LEAVE"} and {each.stage for each in waiting} == {"listed"}
        # a newcomer whom members certify comes in
        assert await _submit(ledger, MEMBERSHIP, honest.membership(stamp, stamp)) is None
        for friend in ("alice", "bob"):
            assert await _submit(ledger, CERTIFICATION, people[friend].certification(honest, stamp, stamp)) is None
        pooled = [each for each in ledger.index.pending() if each.stage == "pooled"]
        assert sorted(each.kind for each in pooled) == [CERTIFICATION, CERTIFICATION, IDENTITY, MEMBERSHIP]
        assert {each.issuer for each in pooled} == {honest.key, people["alice"].key, people["bob"].key}
        await ledger.close()
        again = await Ledger.open(PROGRAM, currency / "log.sqlite", rebuild=True)
        assert {each.hash for each in again.index.pending()} >= {each.hash for each in pooled}
        await again.close()

    asyncio.run(story())


def test_the_oldest_whom_nobody_certified_gives_way(currency: Path, people: dict[str, Wallet]) -> None:
    async def story() -> None:
        ledger = await Ledger.open(PROGRAM, currency / "log.sqlite")
        stamp = ledger.index.head_stamp()
        strangers = [new_wallet(f"stranger{place}", "demo") for place in range(SHARES[IDENTITY] + 2)]
        assert await _submit(ledger, IDENTITY, strangers[0].identity(stamp)) is None
        assert await _submit(ledger, CERTIFICATION, people["alice"].certification(strangers[0], stamp, stamp)) is None
        for stranger in strangers[1:]:
            assert await _submit(ledger, IDENTITY, stranger.identity(stamp)) is None
        waiting = [each.issuer for each in ledger.index.pending(IDENTITY)]
        assert len(waiting) == SHARES[IDENTITY] and waiting[0] == strangers[0].key and waiting[1] == strangers[3].key
        await ledger.close()

    asyncio.run(story())


def test_no_verdict_is_given_on_what_nobody_could_spend(currency: Path, people: dict[str, Wallet]) -> None:
    async def story() -> None:
        ledger = await Ledger.open(PROGRAM, currency / "log.sqlite")
        stranger, stamp, before = new_wallet("stranger", "demo"), ledger.index.head_stamp(), await _lines(ledger)
        source = next(move for move in reversed(ledger.index.moves(f"SIG({people['alice'].key})")) if move.kind == "MADE").source
        units, rest = source.split(":", 1)
        to = [f"{units}:0:SIG({stranger.key})"]
        cases = {
            (f"1000:0:T:{'0' * 64}:0", "G87"): [f"1000:0:SIG({stranger.key})"], (source, "G88"): to, (f"{int(units) + 1}:{rest}", "L23"): to,
            (f"1000:0:D:{stranger.key}:3", "G87"): [f"1000:0:SIG({stranger.key})"],
        }
        for (taken, rule), outputs in cases.items():
            refused = await _submit(ledger, TRANSACTION, stranger.payment([taken], outputs, stamp))
            assert refused is not None and refused.rule == rule, (taken, rule, refused)
        assert await _lines(ledger) == before
        await ledger.close()

    asyncio.run(story())


def test_what_waits_in_the_list_is_looked_at_behind_each_block(forging: Server, people: dict[str, Wallet]) -> None:
    first, second = (new_wallet("twin", "demo") for _ in range(2))
    stamp = forging.get("/node/head").json["stamp"]
    for person in (first, second):
        assert forging.post("/wot/add", identity=person.identity(stamp)).status == 200
    assert forging.post("/blockchain/membership", membership=first.membership(stamp, stamp)).status == 200
    for friend in ("alice", "bob"):
        assert forging.post("/wot/certify", cert=people[friend].certification(first, stamp, stamp)).status == 200
    forging.forge()
    # the name is taken by now, so that the other can come into no block
    assert forging.get("/node/pool").json["documents"] == []
    assert forging.get("/wot/identity-of/twin").json["pubkey"] == first.key


def _get(server: Server, path: str, address: str, **headers: str) -> int:
    return server.ask("GET", path, None, headers, address).status


def test_an_address_that_asks_too_often_waits(serve: Callable[..., Server]) -> None:
    pytest.importorskip("prometheus_client")
    with serve("--limit", "reads=40", "--limit", "documents=4", "--proxy", "127.0.0.7") as server:
        statuses = [_get(server, "/node/head", "127.0.0.5") for _ in range(30)]
        assert set(statuses[:20]) == {200} and 503 in statuses[20:]
        while _get(server, "/node/head", "127.0.0.5") == 200:
            pass
        assert _get(server, "/node/head", "127.0.0.6") == 200
        body = urlencode({"transaction": "x"}).encode()
        sent = [server.ask("POST", "/tx/process", body, FORM, "127.0.0.5") for _ in range(4)]
        assert [each.status for each in sent] == [400, 400, 503, 503] and sent[-1].headers["Retry-After"]
        # behind a proxy that was named it is the address that the proxy tells; nobody else is believed
        through = [_get(server, "/node/head", "127.0.0.7", **{"X-Forwarded-For": f"1.1.1.1, 10.0.0.{place}"}) for place in range(25)]
        assert set(through) == {200}
        assert _get(server, "/node/head", "127.0.0.5", **{"X-Forwarded-For": "10.0.0.99"}) == 503
        assert _get(server, "/node/head", "127.0.0.7", **{"X-Forwarded-For": "10.0.0.99, 127.0.0.5"}) == 503
        page = server.get("/metrics").body.decode()
        assert 'dubp_refused_total{limit="documents"} 2.0' in page and 'dubp_refused_total{limit="reads"}' in page


def _connect(server: Server, address: str) -> socket.socket:
    return socket.create_connection(("127.0.0.1", server.port), 60, (address, 0))


def test_connections_that_never_end(serve: Callable[..., Server]) -> None:
    with serve("--limit", "connections=5", "--limit", "seconds_for_head=2", "--proxy", "127.0.0.7") as server:
        slow = [_connect(server, "127.0.0.5") for _ in range(5)]
        for each in slow:
            each.sendall(b"GET /node/head HTTP/1.1\r\nHost: ")
        with _connect(server, "127.0.0.5") as one_more:
            assert one_more.recv(100).startswith(b"HTTP/1.1 503 1006 Too many connections")
        assert _get(server, "/node/head", "127.0.0.6") == 200
        through = [_connect(server, "127.0.0.7") for _ in range(8)]
        assert _get(server, "/node/head", "127.0.0.7") == 200
        for each in through:
            each.close()
        begun = time.monotonic()
        for each in slow:
            assert each.recv(1000).startswith(b"HTTP/1.1 408 ") and each.recv(1000) == b""
            each.close()
        assert time.monotonic() - begun < 30
        assert _get(server, "/node/head", "127.0.0.5") == 200


def test_who_takes_no_answer_is_left(serve: Callable[..., Server]) -> None:
    pytest.importorskip("prometheus_client")
    with serve("--limit", "seconds_for_answer=1") as server, _connect(server, "127.0.0.5") as client:
        client.setsockopt(socket.SOL_SOCKET, socket.SO_RCVBUF, 4096)
        client.sendall(b"GET /blockchain/blocks/5000/0 HTTP/1.1\r\nHost: x\r\n\r\n" * 400)
        end = time.monotonic() + 30
        while b'seconds_for_answer' not in server.get("/metrics").body:
            assert time.monotonic() < end
            time.sleep(0.2)


def test_the_page_of_metrics(forging: Server, people: dict[str, Wallet]) -> None:
    parser = pytest.importorskip("prometheus_client.parser")
    forging.get("/node/head")
    answer = forging.get("/metrics")
    assert answer.headers["Content-Type"].startswith("text/plain")
    found = {each.name: each for family in parser.text_string_to_metric_families(answer.body.decode()) for each in family.samples}
    assert found["dubp_head_number"].value == 26 and found["dubp_writes"].value == 1 and found["dubp_answers"].value == 1
    assert found["dubp_requests_total"].labels["status"] == "200" and "process_resident_memory_bytes" in found


@pytest.mark.parametrize("word", ["reads", "reads=0", "reads=x", "=5", "speed=7", "reads=-1"])
def test_a_limit_that_is_none(word: str) -> None:
    with pytest.raises(NoLimit):
        Limits().with_words([word])


def test_limits_are_set_by_name() -> None:
    assert Limits().with_words(["reads=7", "waiting=2"]) == Limits(reads=7, waiting=2)


def test_a_budget_fills_up_again(monkeypatch: pytest.MonkeyPatch) -> None:
    now = [100.0]
    monkeypatch.setattr(limits.time, "monotonic", lambda: now[0])
    budget = Budget(60)
    assert [budget.takes("a") for _ in range(31)] == [True] * 30 + [False] and budget.takes("b")
    now[0] += 2
    assert [budget.takes("a") for _ in range(3)] == [True, True, False]


def test_what_counts_as_one_address() -> None:
    assert network_of("10.1.2.3") == "10.1.2.3" and network_of("::ffff:10.1.2.3") == "10.1.2.3" and network_of("::1") == "::1"
    assert network_of("2001:db8:1:2:3:4:5:6") == network_of("2001:db8:1:2::1") == "2001:db8:1:2::"
    assert network_of("no address") == "no address"
    origins = Origins(3)
    assert origins.of("10.0.0.1") is origins.of("10.0.0.1") and origins.of("10.0.0.1").most == 3 and origins.of("127.0.0.1").most > 1024
