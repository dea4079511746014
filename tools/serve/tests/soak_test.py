#!/usr/bin/python3
"""Kills a node that writes and three that follow at random moments, and stops their database, while documents and blocks are submitted; looks
whether each that was acknowledged is there once, and whether all come to the same head.

    soak_test.py FOLDER KILLS SUBMISSIONS [SEED]

FOLDER is a currency of tools/demo, DUBP_NODE the program. Each of the four nodes is killed so often; the database is stopped twice. It starts a
PostgreSQL server of its own, in a temporary folder."""
import asyncio
import random
import sys
import tempfile
import threading
import time
from pathlib import Path

from kill_test import Submitter, check
from postgres import Postgres
from support import Server, until

from service.copying import copy

FOLLOWERS = 3
STOPS = 2
_SECONDS_TO_AGREE = 120.0
_MOST_SECONDS_BEFORE_KILL = 0.3
_SECONDS_STOPPED = 2.0


class Nodes:
    """A node that writes and some that follow, over one database."""

    def __init__(self, postgres: Postgres, folder: Path) -> None:
        self._postgres, self._address = postgres, postgres.make("soak")
        asyncio.run(copy(folder / "log.sqlite", self._address))
        self._words = ["--key", str(folder / "bob.key"), "--forge-on-request"]
        self.killed = [0] * (FOLLOWERS + 1)
        self.nodes = [self._start(place) for place in range(FOLLOWERS + 1)]

    @property
    def writer(self) -> Server:
        """The node that writes."""
        return self.nodes[0]

    def _start(self, place: int) -> Server:
        """Starts a node, as often as its manager would, until the database is there and its lock is free."""
        end = time.monotonic() + _SECONDS_TO_AGREE
        while True:
            try:
                return Server(self._address, *(self._words if place == 0 else ["--as", "follower"]))
            except AssertionError:
                if time.monotonic() > end:
                    raise
                time.sleep(0.2)

    def kill(self, place: int) -> None:
        """Kills a node, and starts another in its place."""
        self.nodes[place].kill()
        self.killed[place] += 1
        self.nodes[place] = self._start(place)

    def stop_database(self) -> None:
        """Stops the database for a while."""
        self._postgres.stop()
        time.sleep(_SECONDS_STOPPED)
        self._postgres.start()

    def end(self) -> None:
        """Ends all nodes."""
        for node in self.nodes:
            if node.process.poll() is None:
                node.kill()


def _events(kills: int, submissions: int, chance: random.Random) -> dict[int, list[int]]:
    """Behind how many submissions which node is killed; -1 is the database, which is stopped."""
    found: dict[int, list[int]] = {}
    for place in [each for each in range(FOLLOWERS + 1) for _ in range(kills)] + [-1] * STOPS:
        found.setdefault(chance.randrange(submissions), []).append(place)
    return found


def _submit(nodes: Nodes, submitter: Submitter, wanted: int) -> None:
    """Submits until so many were acknowledged, and has blocks forged meanwhile."""
    unanswered: str | None = None
    while len(submitter.payments) + len(submitter.blocks) < wanted:
        if unanswered is None and not submitter.forge(nodes.writer):
            time.sleep(0.05)
            continue
        unanswered = submitter.submit(nodes.writer, unanswered)
        if unanswered is not None:
            time.sleep(0.05)


def _submit_meanwhile(nodes: Nodes, submitter: Submitter, thread: threading.Thread, most: int) -> None:
    """Submits while something is disturbed, at most so often, so that submissions are left for the next time."""
    end = len(submitter.payments) + len(submitter.blocks) + most
    while thread.is_alive() and (now := len(submitter.payments) + len(submitter.blocks)) < end:
        _submit(nodes, submitter, now + 1)


def _disturb(nodes: Nodes, place: int, chance: random.Random) -> threading.Thread:
    """Kills a node at a random moment of what follows, or stops the database."""
    def work() -> None:
        time.sleep(seconds)
        if place < 0:
            nodes.stop_database()
        else:
            nodes.kill(place)

    seconds = chance.uniform(0, _MOST_SECONDS_BEFORE_KILL)
    thread = threading.Thread(target=work)
    thread.start()
    return thread


def _agree(nodes: Nodes) -> str:
    """Waits until all nodes have one head. Gives it."""
    def heads() -> set[str]:
        return {str(node.get("/node/head").json.get("stamp", f"none at {node.port}")) for node in nodes.nodes}

    until(lambda: len(heads()) == 1, _SECONDS_TO_AGREE)
    return heads().pop()


def run(folder: Path, kills: int, submissions: int, seed: int) -> str:
    """Kills and submits. Gives a sentence with what came of it."""
    chance, submitter = random.Random(seed), Submitter(folder)
    events = _events(kills, submissions, chance)
    with tempfile.TemporaryDirectory(prefix="dubp-soak-", ignore_cleanup_errors=True) as place:
        postgres = Postgres(Path(place))
        nodes = Nodes(postgres, folder)
        try:
            submitter.begin(nodes.writer)
            for count in sorted(events):
                _submit(nodes, submitter, count)
                for each in events[count]:
                    thread = _disturb(nodes, each, chance)
                    _submit_meanwhile(nodes, submitter, thread, submissions // (2 * len(events)))
                    thread.join()
            _submit(nodes, submitter, submissions)
            head = _agree(nodes)
            for node in nodes.nodes:
                until(lambda: node.get("/node/pool").body == nodes.writer.get("/node/pool").body)  # noqa: B023
                check(node, submitter)
        finally:
            nodes.end()
            postgres.stop()
    return (
        f"{len(submitter.payments)} payments and {len(submitter.blocks)} blocks acknowledged, nodes killed {nodes.killed} times, the database "
        f"stopped {STOPS} times, {submitter.repeated} payments were kept though no answer came; none is lost, none is there twice, "
        f"all heads are {head}"
    )


if __name__ == "__main__":
    begun = time.monotonic()
    print(run(Path(sys.argv[1]), int(sys.argv[2]), int(sys.argv[3]), int(sys.argv[4]) if len(sys.argv) > 4 else 1))
    print(f"{time.monotonic() - begun:.0f} s")
