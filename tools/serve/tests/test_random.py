"""Random moves on the chain, and documents that are changed at random: index and program stay in step, and each request gets an answer."""
import asyncio
import random
from pathlib import Path

import pytest
from support import PROGRAM

from service import commands
from service.ledger import Ledger, Turn
from service.refusals import Refusal
from service.wallet import Wallet
from service.writes import submit_block, submit_document

MOVES = 100
CHANGED_DOCUMENTS = 400
JUNK = ["", " ", "x", "\n", "\r", "\0", ": ", "END", "Comment: ", "Issuers:", "0:SIG(0)", "Version: 10", "é", "-1", "9" * 40, "A" * 2000]


async def _head(turn: Turn) -> str:
    words = (await turn.ask(commands.head()))[0].split(" ")
    return words[1] if words[0] == "HEAD" else "NONE"


async def _move(ledger: Ledger, chance: random.Random, texts: list[bytes]) -> None:
    stored = ledger.index.all_stored()
    kind = chance.choice(["revert", "block", "block", "offer", "offer", "offer", "switch", "switch", "forget"])
    if kind == "revert":
        await ledger.turn(lambda turn: turn.change(commands.revert(chance.randrange(6))))
    elif kind == "block":
        raw = texts[min(ledger.index.length(), len(texts) - 1)]
        await ledger.turn(lambda turn: turn.change(commands.block(raw)))
    elif kind == "offer":
        await ledger.turn(lambda turn: turn.change(commands.offer(chance.choice(texts[-10:]))))
    elif stored:
        stamp = chance.choice(stored).stamp
        make = commands.switch if kind == "switch" else commands.forget
        await ledger.turn(lambda turn: turn.change(make(stamp)))


@pytest.mark.parametrize("seed", range(4))
def test_random_moves_leave_the_index_that_the_log_gives(currency: Path, seed: int) -> None:
    async def story() -> None:
        chance = random.Random(seed)
        ledger = await Ledger.open(PROGRAM, currency / "log.sqlite")
        texts = [block.text.encode() for block, _ in ledger.index.blocks(0, 100)] + [block.text.encode() for block in ledger.index.all_stored()]
        if seed % 2:
            await ledger.turn(lambda turn: turn.change(commands.auto("ON")))
        for _ in range(MOVES):
            await _move(ledger, chance, texts)
            assert await ledger.turn(_head) == ledger.index.head_stamp()
        index = ledger.index.dump()
        await ledger.close()
        again = await Ledger.open(PROGRAM, currency / "log.sqlite", rebuild=True)
        assert again.index.dump() == index
        await again.close()

    asyncio.run(story())


def _changed(chance: random.Random, text: str) -> bytes:
    lines = text.split("\n")
    for _ in range(chance.choice([1, 1, 2, 5])):
        place = chance.randrange(len(lines))
        how = chance.randrange(5)
        if how == 0:
            del lines[place]
        elif how == 1:
            lines.insert(place, chance.choice(lines + JUNK))
        elif how == 2:
            lines[place] = chance.choice(lines + JUNK)
        elif how == 3:
            lines[place] += chance.choice(JUNK)
        elif lines[place]:
            at = chance.randrange(len(lines[place]))
            lines[place] = lines[place][:at] + chance.choice("A0:-() \x7f\n") + lines[place][at + 1 :]
        if not lines:
            break
    return "\n".join(lines).encode("utf-8")


def test_changed_documents_and_blocks_are_refused_by_name(currency: Path, people: dict[str, Wallet]) -> None:
    async def story() -> None:
        chance = random.Random(5)
        ledger = await Ledger.open(PROGRAM, currency / "log.sqlite")
        alice, bob, stamp = people["alice"], people["bob"], ledger.index.head_stamp()
        of_alice = ledger.index.identity(alice.key)
        assert of_alice is not None
        source = next(move for move in reversed(ledger.index.moves(f"SIG({alice.key})")) if move.kind == "MADE").source
        documents = {
            "identity": alice.identity(stamp), "membership": alice.membership(stamp, of_alice.stamp), "revocation": alice.revocation(of_alice.stamp),
            "certification": bob.certification(alice, of_alice.stamp, stamp),
            "transaction": alice.payment([source], [f"{source.split(':')[0]}:0:SIG({bob.key})"], stamp, "a comment"),
        }
        last = ledger.index.blocks(ledger.index.length() - 1, 1)[0][0].text
        number, pool = ledger.index.length(), ledger.index.pending()
        for _ in range(CHANGED_DOCUMENTS):
            kind = chance.choice([*documents, "block"])
            raw = _changed(chance, documents.get(kind, last))
            if raw.decode() in (*documents.values(), last):
                continue
            with pytest.raises(Refusal) as refused:
                if kind == "block":
                    await ledger.turn(lambda turn: submit_block(turn, raw))
                else:
                    await ledger.turn(lambda turn: submit_document(turn, kind, raw))
            assert refused.value.message and refused.value.status in (400, 404), (kind, raw)
        assert ledger.index.length() == number and ledger.index.pending() == pool and await ledger.turn(_head) == ledger.index.head_stamp()
        await ledger.close()

    asyncio.run(story())
