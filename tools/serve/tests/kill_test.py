#!/usr/bin/python3
"""Kills the service at random moments while documents and blocks are submitted, and looks whether anything that was acknowledged is lost.

    kill_test.py FOLDER KILLS SUBMISSIONS [SEED]

FOLDER is a currency of tools/demo, DUBP_NODE the program. The one who pays always spends what the payment before made, so that a payment that
was lost would be missed by the next."""
import http.client
import random
import sys
import threading
import time
from pathlib import Path

from support import Server

from service.blocks import digest
from service.forging import Issuer
from service.wallet import Wallet

MOST_PENDING = 20


class Submitter:
    """Somebody who pays herself again and again, and has a block forged now and then."""

    def __init__(self, folder: Path) -> None:
        self._folder = folder
        self._wallet = Wallet(Issuer.from_file(folder / "alice.key"), "alice", "demo")
        self.payments: list[str] = []
        self.blocks: list[str] = []
        self.repeated = 0
        self._source, self._units, self._stamp, self._waiting = "", 0, "", 0

    def begin(self, server: Server) -> None:
        """Looks for the money to begin with."""
        source = server.get(f"/node/accounts/{self._wallet.key}").json["sources"][0]
        self._source, self._units, self._stamp = source["source"], source["units"], server.get("/node/head").json["stamp"]

    def submit(self, server: Server, document: str | None) -> str | None:
        """Submits the next payment, or one again that was not answered. Gives it where no answer came."""
        text = document or self._wallet.payment(
            [self._source], [f"{self._units}:0:SIG({self._wallet.key})"], self._stamp, f"payment {len(self.payments)}"
        )
        try:
            answer = server.post("/tx/process", transaction=text)
        except (OSError, http.client.HTTPException):
            return text
        if document is not None and answer.status == 400 and answer.ucode == 1004:
            self.repeated += 1
        elif answer.status == 503:
            return text
        else:
            assert answer.status == 200, (answer.status, answer.body, text)
        text_hash = digest(text)
        self.payments.append(text_hash)
        self._source, self._waiting = f"{self._units}:0:T:{text_hash}:0", self._waiting + 1
        return None

    def forge(self, server: Server) -> bool:
        """Has a block forged where enough waits. Gives whether an answer came."""
        if self._waiting < MOST_PENDING:
            return True
        try:
            self.blocks.append(server.forge())
        except (OSError, http.client.HTTPException, AssertionError):
            return False
        self._waiting = 0
        return True


def check(server: Server, submitter: Submitter) -> None:
    """All that was acknowledged is there, once."""
    chain = server.get("/blockchain/blocks/5000/0").json
    stamps = [f"{block['number']}-{block['hash']}" for block in chain]
    written = [each["hash"] for block in chain for each in block["transactions"]]
    waiting = [each["hash"] for each in server.get("/node/pool").json["documents"]]
    lost_blocks = [stamp for stamp in submitter.blocks if stamp not in stamps]
    lost = [each for each in submitter.payments if (written + waiting).count(each) != 1]
    assert not lost and not lost_blocks, (lost, lost_blocks)


def run(folder: Path, kills: int, submissions: int, seed: int) -> str:
    """Kills and submits. Gives a sentence with what came of it."""
    chance, submitter = random.Random(seed), Submitter(folder)
    words = ["--key", str(folder / "bob.key"), "--forge-on-request"]
    unanswered, killed = None, 0
    server = Server(folder / "log.sqlite", *words)
    submitter.begin(server)
    while killed < kills or len(submitter.payments) < submissions:
        # so many submissions to the next kill, which comes at any moment of the one behind them
        until = submissions * (killed + 1) // (kills + 1)
        while len(submitter.payments) < until and unanswered is None and submitter.forge(server):
            unanswered = submitter.submit(server, unanswered)
        if killed < kills:
            timer = threading.Timer(chance.uniform(0, 0.03), server.process.kill)
            timer.start()
            while server.process.poll() is None and unanswered is None and submitter.forge(server):
                unanswered = submitter.submit(server, unanswered)
            timer.join()
            server.process.wait()
            killed += 1
            server = Server(folder / "log.sqlite", *words)
            check(server, submitter)
        if unanswered is not None:
            unanswered = submitter.submit(server, unanswered)
    check(server, submitter)
    server.stop()
    return (
        f"{len(submitter.payments)} payments and {len(submitter.blocks)} blocks acknowledged, killed {killed} times, "
        f"{submitter.repeated} payments were kept though no answer came; none is lost, none is there twice"
    )


if __name__ == "__main__":
    begun = time.monotonic()
    print(run(Path(sys.argv[1]), int(sys.argv[2]), int(sys.argv[3]), int(sys.argv[4]) if len(sys.argv) > 4 else 1))
    print(f"{time.monotonic() - begun:.0f} s")
