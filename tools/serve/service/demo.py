"""A currency from nothing, with real keys: its story is written to a log that the service takes."""
import argparse
import asyncio
import secrets
import shutil
import sys
import time
from pathlib import Path

from . import commands
from .blocks import BlockText
from .forging import Issuer, draft, submit_own
from .genesis import first_block
from .ledger import Ledger, Turn
from .log import LogRefused
from .miner import search
from .people import head_of
from .places import FAILED, PROGRAM
from .program import ProgramEnded
from .wallet import Wallet
from .writes import CERTIFICATION, IDENTITY, MEMBERSHIP, REVOCATION, TRANSACTION, submit_block, submit_document

FOLDER = Path("out/demo")
NAMES = ("alice", "bob", "carol", "dora")
KEY_LENGTHS = (43, 44)
SECONDS_BETWEEN_BLOCKS = 550
"""As far as a block of this currency may go ahead of the median time of the five before it, three blocks back."""

BLOCKS = 27
HOUR, WEEK, YEAR = 3600, 604_800, 31_557_600
DIFFICULTY = 16
"""The hash of each block begins with a 0 at least."""


def parameters(start: int) -> str:
    """The parameters of a currency that begins at a time: a dividend of 1,000 units an hour, two certifications for a member."""
    fields: dict[str, object] = {
        "c": "0.1", "dt": HOUR, "ud0": 1000, "sigPeriod": 0, "sigStock": 100, "sigWindow": WEEK, "sigValidity": 2 * YEAR, "sigQty": 2,
        "idtyWindow": WEEK, "msWindow": WEEK, "xpercent": "0.8", "msValidity": YEAR, "stepMax": 5, "medianTimeBlocks": 5, "avgGenTime": 300,
        "dtDiffEval": 1000, "percentRot": "0.67", "udTime0": start + HOUR, "udReevalTime0": start + 10 * YEAR, "dtReeval": YEAR,
    }
    return ":".join(map(str, fields.values()))


def new_wallet(uid: str, currency: str) -> Wallet:
    """Somebody with a new key. One key in a thousand is too short to be one here, and is passed over."""
    while True:
        issuer = Issuer(secrets.token_bytes(32))
        if len(issuer.key) in KEY_LENGTHS:
            return Wallet(issuer, uid, currency)


class Story:
    """What happens in the demonstration, block by block."""

    def __init__(self, ledger: Ledger, people: list[Wallet], start: int) -> None:
        self._ledger, self._people, self._clock, self._turn = ledger, people, start, 0

    async def tell(self) -> None:
        """All of it."""
        alice, bob, carol, dora = self._people
        await self._ledger.turn(lambda turn: submit_block(turn, first_block([alice, bob, carol], parameters(self._clock), self._clock, DIFFICULTY)))
        _say("block 0: alice, bob and carol certify one another")
        while not self._ledger.index.with_section("ud"):
            await self._forge([alice, bob, carol])
        _say(f"block {self._length() - 1}: the first dividend, 1,000 units for each of them")
        await self._pay(alice, bob, 300)
        await self._forge([bob])
        _say(f"block {self._length() - 1}: alice pays bob 300 units")
        await self._join(dora, [alice, bob])
        await self._forge([carol])
        _say(f"block {self._length() - 1}: dora joins, certified by alice and bob")
        await self._submit(REVOCATION, carol.revocation(self._identity_stamp(carol)))
        await self._forge([alice])
        await self._forge([bob])
        _say(f"block {self._length() - 2}: carol revokes her identity; she is out with block {self._length() - 1}")
        await self._fork([alice], [bob, dora])
        while self._length() < BLOCKS:
            await self._forge([alice, bob, dora])

    def _length(self) -> int:
        return self._ledger.index.length()

    def _identity_stamp(self, person: Wallet) -> str:
        identity = self._ledger.index.identity(person.key)
        assert identity is not None
        return identity.stamp

    async def _submit(self, kind: str, text: str) -> None:
        await self._ledger.turn(lambda turn: submit_document(turn, kind, text.encode("ascii")))

    async def _forge(self, issuers: list[Wallet]) -> bytes:
        """The next block, by these people in turns."""
        self._clock += SECONDS_BETWEEN_BLOCKS
        self._turn += 1
        issuer = issuers[self._turn % len(issuers)].issuer
        wanted = await self._ledger.turn(lambda turn: draft(turn, issuer.key, self._clock))
        raw = wanted.signed(*search(wanted.inner, wanted.difficulty, issuer.seed))
        await self._ledger.turn(lambda turn: submit_own(turn, raw, issuer.key))
        return raw

    async def _pay(self, payer: Wallet, payee: Wallet, amount: int) -> None:
        condition = f"SIG({payer.key})"

        async def source_of(turn: Turn) -> str:
            return (await turn.ask(commands.of_condition("SOURCES", condition)))[0].removeprefix("SOURCE ")

        source = await self._ledger.turn(source_of)
        rest = int(source.split(":")[0]) - amount
        outputs = [f"{amount}:0:SIG({payee.key})", f"{rest}:0:{condition}"]
        await self._submit(TRANSACTION, payer.payment([source], outputs, self._ledger.index.head_stamp(), "for the bread"))

    async def _join(self, newcomer: Wallet, friends: list[Wallet]) -> None:
        stamp = self._ledger.index.head_stamp()
        await self._submit(IDENTITY, newcomer.identity(stamp))
        await self._submit(MEMBERSHIP, newcomer.membership(stamp, stamp))
        for friend in friends:
            await self._submit(CERTIFICATION, friend.certification(newcomer, stamp, stamp))

    async def _fork(self, losers: list[Wallet], winners: list[Wallet]) -> None:
        """Two blocks are made and taken off; three others take their place, and the two are stored as a branch."""
        at, clock = self._length(), self._clock
        lost = [await self._forge(losers) for _ in range(2)]
        await self._ledger.turn(lambda turn: turn.change(commands.revert(len(lost))))
        self._clock = clock
        for _ in range(len(lost) + 1):
            await self._forge(winners)
        for raw in lost:
            block = raw
            await self._ledger.turn(lambda turn: submit_block(turn, block))
        _say(f"blocks {at} and {at + 1}: two by alice lose to three by bob and dora, and stay stored as a branch")
        assert [each.hash for each in self._ledger.index.all_stored()] == [BlockText.of(raw.decode()).hash for raw in lost]


def _say(sentence: str) -> None:
    print(sentence, flush=True)


def _write_keys(folder: Path, people: list[Wallet]) -> None:
    """A file for each person with the seed, as wallets take it, and one with a line `UID SEED` for each who is a member in the end."""
    for person in people:
        path = folder / f"{person.uid}.key"
        path.touch(mode=0o600)
        path.write_text(person.issuer.seed.hex(), encoding="ascii")
    members = [person for person in people if person.uid != "carol"]
    path = folder / "keys.txt"
    path.touch(mode=0o600)
    path.write_text("".join(f"{person.uid} {person.issuer.seed.hex()}\n" for person in members), encoding="ascii")


async def run(given: argparse.Namespace) -> int:
    """Makes the currency. Gives the exit status."""
    folder: Path = given.folder
    if given.force and folder.is_dir():
        shutil.rmtree(folder)
    if (folder / "log.sqlite").exists():
        print(f"demo: {folder}/log.sqlite is there already; --force makes the currency anew", file=sys.stderr)
        return FAILED
    folder.mkdir(parents=True, exist_ok=True)
    people = [new_wallet(uid, given.currency) for uid in NAMES]
    try:
        ledger = await Ledger.open(given.program, folder / "log.sqlite")
    except (LogRefused, ProgramEnded) as error:
        print(f"demo: {error}", file=sys.stderr)
        return FAILED
    try:
        missing = [word for word in ("PEND", "FORGE", "OFFER") if ledger.lacks(word)]
        if missing:
            print(f"demo: this program has no {', '.join(missing)} yet, so that it can forge no block", file=sys.stderr)
            shutil.rmtree(folder)
            return FAILED
        _write_keys(folder, people)
        await Story(ledger, people, int(time.time()) - (BLOCKS - 1) * SECONDS_BETWEEN_BLOCKS).tell()
        head = await ledger.turn(head_of)
    finally:
        await ledger.close()
    _say(f"head: block {head.number} with {head.members} members and {head.mass} units; log and keys stand in {folder}")
    _say(f"serve it:  tools/serve/serve --log {folder}/log.sqlite --key {folder}/alice.key --pace 10")
    _say("look at it: http://127.0.0.1:10901/")
    _say(f"ask it:    silkaj -ep 127.0.0.1:10901 money balance {people[0].key}")
    return 0


def words(given: list[str] | None = None) -> argparse.Namespace:
    """The words of the command line."""
    parser = argparse.ArgumentParser(prog="demo", description=__doc__)
    parser.add_argument("folder", nargs="?", type=Path, default=FOLDER, help=f"where log and keys go (default: {FOLDER})")
    parser.add_argument("--program", type=Path, default=PROGRAM, help="the built dubp_node (default: that of this repository)")
    parser.add_argument("--currency", default="demo", help="the name of the currency (default: demo)")
    parser.add_argument("--force", action="store_true", help="remove what the folder has")
    return parser.parse_args(given)


def main() -> int:
    """Makes the currency. Gives the exit status."""
    return asyncio.run(run(words()))
