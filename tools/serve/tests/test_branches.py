"""Reversal and switches: the index goes with the program, and what is told is what a service that never knew the other branch tells."""
import asyncio
import shutil
from pathlib import Path

from support import PROGRAM, index_of

from service import commands
from service.blocks import digest
from service.forging import Issuer, draft, submit_own
from service.ledger import Ledger, Turn
from service.miner import search
from service.wallet import Wallet
from service.writes import submit_block, submit_document

CHAIN_TABLES = ("block", "section", "identity", "membership", "revocation", "certification", "payment", "party", "source", "move")


def _chain(ledger: Ledger) -> dict[str, list[tuple[object, ...]]]:
    rows = ledger.index.dump()
    return {table: rows[table] for table in CHAIN_TABLES}


async def _change(ledger: Ledger, command: commands.Command) -> list[str]:
    return await ledger.turn(lambda turn: turn.change(command))


def test_a_switch_there_and_back(currency: Path) -> None:
    async def story() -> None:
        ledger = await Ledger.open(PROGRAM, currency / "log.sqlite")
        whole, length = _chain(ledger), ledger.index.length()
        lost = ledger.index.all_stored()
        at = lost[0].number
        assert [each.number for each in lost] == [at, at + 1]
        texts = {block.number: block.text.encode() for block, _ in ledger.index.blocks(0, length)}
        # the branch that lost is put in place of the others
        assert await _change(ledger, commands.switch(lost[1].stamp)) == [f"SWITCHED {lost[1].stamp}"]
        assert ledger.index.head_stamp() == lost[1].stamp and ledger.index.length() == at + 2
        assert {each.number for each in ledger.index.all_stored()} == set(range(at, length))
        # a service that was only ever given this branch has the same index
        other = await Ledger.open(PROGRAM, currency / "other.sqlite")
        await _give(other, [texts[number] for number in range(at)] + [each.text.encode() for each in lost], ledger)
        assert _chain(other) == _chain(ledger)
        await other.close()
        # and back
        tip = whole["block"][-1]
        stamp = max((each for each in ledger.index.all_stored()), key=lambda each: each.number).stamp
        assert await _change(ledger, commands.switch(stamp)) == [f"SWITCHED {stamp}"]
        assert _chain(ledger) == whole and tip in whole["block"]
        assert {each.stamp for each in ledger.index.all_stored()} == {each.stamp for each in lost}
        # taken off without being stored
        assert await _change(ledger, commands.revert(3)) == ["REVERTED 3"]
        assert ledger.index.length() == length - 3 and len(ledger.index.all_stored()) == 2
        assert await _change(ledger, commands.revert(1000)) != ["REVERTED 1000"]
        for number in range(length - 3, length):
            assert (await _change(ledger, commands.block(texts[number])))[0].startswith(f"ACCEPTED {number}-")
        assert _chain(ledger) == whole
        assert await _change(ledger, commands.forget(lost[0].stamp)) == ["FORGOTTEN"]
        assert [each.stamp for each in ledger.index.all_stored()] == [lost[1].stamp]
        await ledger.close()
        again = await Ledger.open(PROGRAM, currency / "log.sqlite")
        assert _chain(again) == whole
        await again.close()

    asyncio.run(story())


async def _give(ledger: Ledger, blocks: list[bytes], source: Ledger) -> None:
    """Gives another ledger the verdicts of a first one, and then blocks."""
    lines = [entry async for entry in source.log.entries() if entry.line.startswith("VERDICT ")]

    async def work(turn: Turn) -> None:
        for entry in lines:
            await turn.change(commands.read_changing(entry.line, None))
        for raw in blocks:
            assert (await turn.change(commands.block(raw)))[0].startswith("ACCEPTED ")

    await ledger.turn(work)


def test_the_automatic_choice_moves_the_index(currency: Path) -> None:
    async def story() -> None:
        ledger = await Ledger.open(PROGRAM, currency / "log.sqlite")
        whole, length = _chain(ledger), ledger.index.length()
        last = [block.text.encode() for block, _ in ledger.index.blocks(length - 3, 3)]
        assert await _change(ledger, commands.auto("ON")) == ["AUTO ON"]
        await _change(ledger, commands.revert(3))
        for raw in last[:2]:
            answer = await _change(ledger, commands.offer(raw))
            assert len(answer) == 1 and answer[0].startswith("STORED ") and ledger.index.length() == length - 3
        # the branch is chosen with its third block, whose number is three above that of the head
        answer = await _change(ledger, commands.offer(last[2]))
        assert answer[1].startswith("SWITCHED ") and _chain(ledger) == whole
        stamp = ledger.index.head_stamp()
        await ledger.close()
        again = await Ledger.open(PROGRAM, currency / "log.sqlite")
        assert again.index.head_stamp() == stamp
        await again.close()

    asyncio.run(story())


def test_work_that_fails_half_way_keeps_log_and_index_in_step(currency: Path) -> None:
    async def story() -> None:
        ledger = await Ledger.open(PROGRAM, currency / "log.sqlite")
        length = ledger.index.length()

        async def work(turn: Turn) -> None:
            await turn.change(commands.revert(1))
            raise RuntimeError("the rest of the work fails")

        try:
            await ledger.turn(work)
        except RuntimeError:
            pass
        assert ledger.index.length() == length - 1
        await ledger.close()
        assert index_of(currency / "log.sqlite").length() == length - 1
        again = await Ledger.open(PROGRAM, currency / "log.sqlite")
        assert again.index.length() == length - 1
        await again.close()

    asyncio.run(story())


async def _forge(ledger: Ledger, issuer: Issuer) -> bytes:
    wanted = await ledger.turn(lambda turn: draft(turn, issuer.key))
    raw = wanted.signed(*search(wanted.inner, wanted.difficulty, issuer.seed))
    await ledger.turn(lambda turn: submit_own(turn, raw, issuer.key))
    return raw


def test_what_a_lost_block_had_waits_again(currency: Path, people: dict[str, Wallet]) -> None:
    async def story() -> None:
        shutil.copy(currency / "log.sqlite", currency / "other.sqlite")
        ledger, other = [await Ledger.open(PROGRAM, currency / name) for name in ("log.sqlite", "other.sqlite")]
        alice, bob, dora = people["alice"], people["bob"], people["dora"]
        source = next(move for move in reversed(ledger.index.moves(f"SIG({alice.key})")) if move.kind == "MADE").source
        stamp = ledger.index.head_stamp()
        payment = alice.payment([source], [f"{source.split(':')[0]}:0:SIG({bob.key})"], stamp)
        identity = ledger.index.identity(dora.key)
        renewal, certification = dora.membership(stamp, identity.stamp), dora.certification(alice, ledger.index.identity(alice.key).stamp, stamp)
        for kind, text in (("transaction", payment), ("membership", renewal), ("certification", certification)):
            waiting = await ledger.turn(lambda turn, kind=kind, text=text: submit_document(turn, kind, text.encode()))
            assert waiting.hash == digest(text)
        await _forge(ledger, alice.issuer)
        assert ledger.index.pending() == [] and len(ledger.index.payments(alice.key, "sent")) == 2
        # four blocks without them win
        await _change(ledger, commands.auto("ON"))
        rivals = [await _forge(other, bob.issuer if place % 2 else dora.issuer) for place in range(4)]
        answers = [await ledger.turn(lambda turn, raw=raw: submit_block(turn, raw)) for raw in rivals]
        assert answers[-1].split("\n")[1].startswith("SWITCHED ") and ledger.index.head_stamp() == other.index.head_stamp()
        assert {each.hash for each in ledger.index.pending()} == {digest(text) for text in (payment, renewal, certification)}
        await _forge(ledger, alice.issuer)
        assert ledger.index.pending() == [] and len(ledger.index.payments(alice.key, "sent")) == 2
        await ledger.close()
        await other.close()

    asyncio.run(story())
