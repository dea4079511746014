"""The chain that `dubp_node gen` makes, block by block: the program forges each from documents with the generator's stand-in for signatures.

It needs a program with PEND and FORGE. Its head is compared with what `gen` writes."""
import hashlib
import re
import subprocess
from pathlib import Path

from service import commands
from service.blocks import SECTIONS, Transaction, digest, joined
from service.commands import Command
from service.ledger import Ledger, Turn
from service.people import difficulty_of
from service.spelling import EMPTY_STAMP
from service.why_values import met

BASE58 = "123456789ABCDEFGHJKLMNPQRSTUVWXYZabcdefghijkmnopqrstuvwxyz"
CURRENCY = "test_currency"
PARAMETERS = "0.1:600:1000:300:50:10000:400000:1:10000:10000:0.5:100000:3:5:60:10:0.67:1000600:1006000:6000"
START = 1_000_000


def key(number: int) -> str:
    """The key of a person."""
    return "1" * 40 + BASE58[number // 3364] + BASE58[number // 58 % 58] + BASE58[number % 58]


def sign(signer: str, text: str) -> str:
    """The stand-in for a signature."""
    found = hashlib.sha256((signer + text).encode()).hexdigest().upper()
    return found + found[:22] + "=="


def _document(kind: str, *fields: str) -> str:
    return joined(["Version: 10", f"Type: {kind}", f"Currency: {CURRENCY}", *fields])


def identity(number: int, stamp: str) -> str:
    """The signed text of a person's identity."""
    return _document("Identity", f"Issuer: {key(number)}", f"UniqueID: user{number}", f"Timestamp: {stamp}")


def membership(number: int, stamp: str, of: str) -> str:
    """The signed text of a membership."""
    return _document("Membership", f"Issuer: {key(number)}", f"Block: {stamp}", "Membership: IN", f"UserID: user{number}", f"CertTS: {of}")


def certification(by: int, of: int, identity_stamp: str, stamp: str) -> str:
    """The signed text of a certification."""
    about = [f"IdtyIssuer: {key(of)}", f"IdtyUniqueID: user{of}", f"IdtyTimestamp: {identity_stamp}"]
    signature = sign(key(of), identity(of, identity_stamp))
    return _document("Certification", f"Issuer: {key(by)}", *about, f"IdtySignature: {signature}", f"CertTimestamp: {stamp}")


class Generator:
    """Makes the blocks in one ledger."""

    def __init__(self, start: int) -> None:
        self._number, self._run = 0, start
        self._joined = dict.fromkeys(range(8), EMPTY_STAMP)

    async def first(self, turn: Turn) -> None:
        """The first block."""
        lines: dict[str, list[str]] = {name: [] for name in SECTIONS}
        for each in range(8):
            signature = await self._signed(turn, each, identity(each, EMPTY_STAMP))
            lines["Identities"].append(f"{key(each)}:{signature}:{EMPTY_STAMP}:user{each}")
            signature = await self._signed(turn, each, membership(each, EMPTY_STAMP, EMPTY_STAMP))
            lines["Joiners"].append(f"{key(each)}:{signature}:{EMPTY_STAMP}:{EMPTY_STAMP}:user{each}")
            for other in range(8):
                if other != each:
                    signature = await self._signed(turn, each, certification(each, other, EMPTY_STAMP, EMPTY_STAMP))
                    lines["Certifications"].append(f"{key(each)}:{key(other)}:0:{signature}")
        above = [
            "Version: 10", "Type: Block", f"Currency: {CURRENCY}", "Number: 0", "PoWMin: 0", f"Time: {START}", f"MedianTime: {START}",
            "UnitBase: 0", f"Issuer: {key(0)}", "IssuersFrame: 1", "IssuersFrameVar: 0", "DifferentIssuersCount: 0",
            f"Parameters: {PARAMETERS}", "MembersCount: 8", *[each for name in SECTIONS for each in (f"{name}:", *lines[name])],
        ]
        await self._seal(turn, [*above, f"InnerHash: {digest(joined(above))}"], key(0), 0)

    async def next(self, turn: Turn) -> None:
        """The next block."""
        self._number += 1
        self._run = (self._run * 6364136223846793005 + 1442695040888963407) % 2**64
        stamp, number = turn.index.head_stamp(), self._number
        waiting = [await self._pend(turn, signer, text) for signer, text in self._people(number, stamp)]
        waiting += await self._payment(turn, stamp)
        issuer = key(number % 8)
        lines = await turn.ask(commands.forge(issuer, START + 60 * number))
        difficulty = await difficulty_of(turn, issuer)
        assert difficulty is not None
        await self._seal(turn, lines[:-2], issuer, difficulty)
        for text_hash in waiting:
            await turn.ask(commands.unpend(text_hash))

    def _people(self, number: int, stamp: str) -> list[tuple[int, str]]:
        if number % 20 == 0:
            new, friend = 7 + number // 20, number // 20 % 8
            self._joined[new] = stamp
            return [(new, identity(new, stamp)), (new, membership(new, stamp, stamp)), (friend, certification(friend, new, stamp, stamp))]
        return [(number // 20 % 8, membership(number // 20 % 8, stamp, EMPTY_STAMP))] if number % 20 == 10 else []

    async def _payment(self, turn: Turn, stamp: str) -> list[str]:
        payer, payee = (key(self._run // 2**shift % 8) for shift in (33, 40))
        sources = await turn.ask(commands.of_condition("SOURCES", f"SIG({payer})"))
        if not sources:
            return []
        source = sources[0].removeprefix("SOURCE ")
        amount, base = map(int, source.split(":")[:2])
        paid = 1 + self._run // 2**48 % amount
        outputs = [f"{units}:{base}:SIG({to})" for units, to in ((paid, payee), (amount - paid, payer)) if units]
        text = Transaction(CURRENCY, stamp, 0, [payer], [source], ["0:SIG(0)"], outputs, "", []).document()
        return [await self._pend(turn, payer, text)]

    async def _signed(self, turn: Turn, by: int | str, text: str) -> str:
        signer = key(by) if isinstance(by, int) else by
        signature = sign(signer, text)
        await turn.change(commands.verdict(signer, digest(text), signature))
        return signature

    async def _pend(self, turn: Turn, by: int | str, text: str) -> str:
        whole = f"{text}{await self._signed(turn, by, text)}\n"
        # what waits is no part of the log: it is taken out again before the turn ends
        answer = await turn.ask(commands.pend(whole.encode()))
        assert answer[0].startswith("PENDING "), (answer, whole)
        return digest(whole)

    async def _seal(self, turn: Turn, lines: list[str], issuer: str, difficulty: int) -> None:
        nonce = -1
        while True:
            nonce += 1
            end = [lines[-1], f"Nonce: {nonce}"]
            signature = sign(issuer, joined(end))
            if met(digest(joined([*end, signature]))) >= difficulty:
                break
        await self._signed(turn, issuer, joined(end))
        raw = joined([*lines, end[1], signature]).encode()
        answer = await turn.change(commands.block(raw))
        assert answer[0].startswith("ACCEPTED "), (answer, raw.decode())


async def make(program: Path, log: Path, count: int, start: int) -> None:
    """A log with a generated chain, whose head and money are those of `gen`."""
    ledger = await Ledger.open(program, log)
    try:
        generator = Generator(start)
        await ledger.turn(generator.first)
        for _ in range(count - 1):
            await ledger.turn(generator.next)
        stamp = ledger.index.head_stamp()
    finally:
        await ledger.close()
    told = subprocess.run([str(program), "gen", str(count), str(start)], stdout=subprocess.PIPE, text=True, check=True).stdout
    found = re.search(r"^HEAD (\S+)", told, re.MULTILINE)
    assert found is not None and found[1] == stamp, (stamp, told)


async def feed(program: Path, log: Path, given: list[Command]) -> None:
    """A log of these commands, for a program that cannot forge."""
    ledger = await Ledger.open(program, log)

    async def work(turn: Turn) -> None:
        for command in given:
            await turn.change(command)

    await ledger.turn(work)
    await ledger.close()
