#!/usr/bin/python3
"""Sends hostile requests to a service while ordinary clients read, and measures how long these wait.

    hostile_test.py FOLDER REQUESTS SECONDS

FOLDER is a currency of tools/demo, DUBP_NODE the program. 20 clients, each with an address of its own, ask for ten pages a second each; from other
addresses come requests that are long, cut, slow, of the wrong type, with crafted signatures, newcomers without end, and 64 connections that never
end."""
import asyncio
import base64
import random
import statistics
import subprocess
import sys
import time
from collections import Counter
from collections.abc import Callable
from pathlib import Path
from urllib.parse import urlencode

from support import Server

from service.demo import new_wallet
from service.forging import Issuer
from service.wallet import Wallet

CLIENTS, READS_A_SECOND, ENDLESS = 20, 200, 64
_SECONDS_FOR_ANSWER = 60.0
_LONG = 3_000_001


async def _ask(port: int, address: str, data: bytes, *, pause: float = 0.0, cut: bool = False) -> str:
    """The status of the answer to these bytes; what became of the connection where there is none."""
    try:
        reader, writer = await asyncio.wait_for(asyncio.open_connection("127.0.0.1", port, local_addr=(address, 0)), _SECONDS_FOR_ANSWER)
        try:
            half = len(data) // 2
            writer.write(data[:half])
            if pause:
                await asyncio.sleep(pause)
            if cut:
                return "cut"
            writer.write(data[half:])
            line = await asyncio.wait_for(reader.readline(), _SECONDS_FOR_ANSWER)
            return line.split(b" ")[1].decode() if line else "closed"
        finally:
            writer.close()
    except (ConnectionError, OSError) as error:
        return type(error).__name__
    except asyncio.TimeoutError:
        return "no answer"


def _get(path: str) -> bytes:
    return f"GET {path} HTTP/1.1\r\nHost: x\r\nConnection: close\r\n\r\n".encode()


def _post(path: str, body: bytes, kind: str = "application/x-www-form-urlencoded") -> bytes:
    head = f"POST {path} HTTP/1.1\r\nHost: x\r\nContent-Type: {kind}\r\nContent-Length: {len(body)}\r\nConnection: close\r\n\r\n"
    return head.encode() + body


def _crafted(text: str, chance: random.Random) -> str:
    """The document with a signature that was turned, or has other padding."""
    above, signature, _ = text.rsplit("\n", 2)
    raw = bytearray(base64.b64decode(signature))
    raw[chance.randrange(64)] ^= 1 << chance.randrange(8)
    return f"{above}\n{base64.b64encode(raw).decode()}\n"


class Hostile:
    """Whoever sends what nobody should."""

    def __init__(self, port: int, alice: Wallet, stamp: str, source: str) -> None:
        self._port, self._alice, self._stamp, self._source = port, alice, stamp, source
        self._chance, self.statuses = random.Random(50), Counter[str]()
        self._kinds: dict[str, Callable[[], bytes]] = {
            "long": lambda: _post("/tx/process", b"transaction=" + b"x" * _LONG), "many lines": self._many_lines, "newcomer": self._newcomer,
            "junk": lambda: _post("/wot/add", bytes(self._chance.randrange(256) for _ in range(500))),
            "wrong type": lambda: _post("/wot/certify", b'{"cert": "x"}', "application/json"), "crafted": self._signature,
            "path": lambda: _get("/" + "%0A/" * 50), "long path": lambda: _get("/" + "a" * 60_000), "spent": self._spent, "block": self._block,
            "why": lambda: _post("/node/why", b"Version: 10\nType: Transaction\n" + b"1:0:x\n" * 100_000), "broken": lambda: b"\x00\x01\r\n\r\n",
        }

    def _many_lines(self) -> bytes:
        outputs = [f"1:0:SIG({self._alice.key})"] * 8000
        return _post("/tx/process", urlencode({"transaction": self._alice.payment([self._source], outputs, self._stamp)}).encode())

    def _newcomer(self) -> bytes:
        newcomer = new_wallet(f"x{self._chance.randrange(10**9)}", "demo")
        return _post("/wot/add", urlencode({"identity": newcomer.identity(self._stamp)}).encode())

    def _signature(self) -> bytes:
        outputs = [f"{self._source.split(':')[0]}:0:SIG({self._alice.key})"]
        payment = self._alice.payment([self._source], outputs, self._stamp, f"{self._chance.random()}")
        return _post("/tx/process", urlencode({"transaction": _crafted(payment, self._chance)}).encode())

    def _spent(self) -> bytes:
        stranger = new_wallet("stranger", "demo")
        payment = stranger.payment([f"1000:0:T:{self._chance.randrange(16**64):064X}:0"], [f"1000:0:SIG({stranger.key})"], self._stamp)
        return _post("/tx/process", urlencode({"transaction": payment}).encode())

    def _block(self) -> bytes:
        end = f"InnerHash: {'0' * 64}\nNonce: 1\n{'A' * 86}==\n"
        text = f"Version: 10\nType: Block\nIssuer: {self._alice.key}\nIdentities:\n" + "x:y\n" * 150_000 + end
        return _post("/blockchain/block", urlencode({"block": text}).encode())

    def prepare(self, count: int) -> list[tuple[str, bytes]]:
        """So many requests of all kinds in turns, each kind of long ones written once: whoever sends them has a machine of his own."""
        names, same = list(self._kinds), {name: self._kinds[name]() for name in ("long", "many lines", "block", "why")}
        return [(name, same.get(name) or self._kinds[name]()) for name in (names[place % len(names)] for place in range(count))]

    async def send(self, requests: list[tuple[str, bytes]], seconds: float) -> None:
        """Sends requests, evenly over a time, some of them cut or slow."""
        begun, sent = time.monotonic(), []
        for place, (name, data) in enumerate(requests):
            await asyncio.sleep(max(0.0, begun + seconds * place / len(requests) - time.monotonic()))
            how = {"pause": 5.0} if place % 17 == 0 else {"cut": True} if place % 13 == 0 else {}
            sent.append(asyncio.ensure_future(self._one(name, data, f"127.0.2.{1 + place % 8}", how)))
        await asyncio.gather(*sent)

    async def _one(self, name: str, data: bytes, address: str, how: dict[str, float]) -> None:
        self.statuses[f"{name}: {await _ask(self._port, address, data, **how)}"] += 1  # type: ignore[arg-type]

    async def hold(self) -> None:
        """Holds connections that never end, and opens each anew that is closed, until it is cancelled."""
        async def one(place: int) -> None:
            while True:
                try:
                    reader, writer = await asyncio.open_connection("127.0.0.1", self._port, local_addr=(f"127.0.2.{1 + place % 8}", 0))
                    writer.write(b"GET /node/head HTTP/1.1\r\nHost: ")
                    await reader.read()
                except OSError:
                    pass
                await asyncio.sleep(1)

        await asyncio.gather(*[one(place) for place in range(ENDLESS)])


async def read(port: int, seconds: float) -> None:
    """Reads as ordinary clients do, and prints how long that took."""
    pages = ["/node/head", "/blockchain/current", "/wot/members", "/node/money", "/blockchain/parameters", "/wot/lookup/alice", "/node/pool"]
    times: list[float] = []
    failed: Counter[str] = Counter()

    async def client(place: int) -> None:
        begun, count = time.monotonic() + place / READS_A_SECOND, 0
        while time.monotonic() < begun + seconds:
            due = begun + count * CLIENTS / READS_A_SECOND
            await asyncio.sleep(max(0.0, due - time.monotonic()))
            started = time.monotonic()
            status = await _ask(port, f"127.0.1.{1 + place}", _get(pages[(place + count) % len(pages)]))
            times.append(time.monotonic() - started)
            failed[status] += status != "200"
            count += 1

    begun = time.monotonic()
    await asyncio.gather(*[client(place) for place in range(CLIENTS)])
    took = time.monotonic() - begun
    times.sort()
    print(
        f"{len(times)} reads by {CLIENTS} clients, {len(times) / took:.0f} a second, each over a new connection; median "
        f"{1000 * statistics.median(times):.1f} ms, 99 of 100 below {1000 * times[int(0.99 * len(times))]:.1f} ms, longest "
        f"{1000 * times[-1]:.0f} ms, {sum(failed.values())} not answered with 200 {dict(+failed)}"
    )


def run(folder: Path, requests: int, seconds: float) -> str:
    """Sends and reads. Gives what came of it."""
    with Server(folder / "log.sqlite", "--key", str(folder / "bob.key"), "--pace", "2") as server:
        alice = Wallet(Issuer.from_file(folder / "alice.key"), "alice", "demo")
        source = server.get(f"/node/accounts/{alice.key}").json["sources"][0]["source"]
        hostile = Hostile(server.port, alice, server.get("/node/head").json["stamp"], source)
        sent = hostile.prepare(requests)
        command = [sys.executable, "-B", __file__, "--read", str(server.port), str(seconds)]
        with subprocess.Popen(command, stdout=subprocess.PIPE, text=True) as reading:
            async def work() -> None:
                holding = asyncio.ensure_future(hostile.hold())
                await hostile.send(sent, seconds * 0.9)
                holding.cancel()

            asyncio.run(work())
            said = reading.communicate()[0]
        waiting, metrics = server.get("/node/pool").json["documents"], server.get("/metrics").body.decode()
        memory = next((line.split()[1] for line in metrics.splitlines() if line.startswith("process_resident_memory_bytes")), "?")
        refused = [line for line in metrics.splitlines() if line.startswith("dubp_refused_total")]
    lines = [said.strip(), f"hostile: {sum(hostile.statuses.values())} requests: {dict(sorted(hostile.statuses.items()))}"]
    return "\n".join([*lines, f"{len(waiting)} documents wait behind it; {float(memory) / 1e6:.0f} MB of memory", *refused])


if __name__ == "__main__":
    if sys.argv[1] == "--read":
        asyncio.run(read(int(sys.argv[2]), float(sys.argv[3])))
    else:
        print(run(Path(sys.argv[1]), int(sys.argv[2]), float(sys.argv[3])))
