"""Why a block or a document is refused: the rule, its sentence, and the values that broke it."""
import asyncio
import contextlib
from pathlib import Path
from typing import Any
from urllib.parse import urlencode

import pytest
from mining import changed, mined
from reading import said_by
from support import FORM, PROGRAM, TOOL, Server

from service import commands, why, why_values
from service.blocks import BlockText, digest, joined
from service.forging import draft
from service.ledger import Lacking, Ledger, Turn, Unavailable
from service.refusals import sentences
from service.wallet import Wallet

EXAMPLE = TOOL.parent / "verdicts" / "example"


def _why(server: Server, text: str) -> dict[str, Any]:
    answer = server.ask("POST", "/node/why", text.encode())
    assert answer.status == 200, answer.body
    page = server.ask("POST", "/page/why", urlencode({"text": text.replace("\n", "\r\n")}).encode(), FORM)
    said = said_by(page.body)
    shown: dict[str, Any] = answer.json
    if shown["rule"]:
        assert shown["rule"] in said and shown["sentence"] in said and all(str(each["value"]) in said for each in shown["values"]), said
    return shown


def _changed(block: BlockText, old: str, new: str) -> str:
    """The block with a line changed, whose InnerHash is right again."""
    lines = block.text.replace(old, new).split("\n")[:-1]
    lines[-3] = f"InnerHash: {digest(joined(lines[:-3]))}"
    return joined(lines)


def test_refused_blocks_with_their_values(example_log: Path) -> None:
    texts = [(EXAMPLE / f"block-{place}").read_text() for place in range(5)]
    with Server(example_log) as server:
        again = _why(server, texts[4])
        assert again["rule"] == "G51" and {"what": "blocks of the chain", "value": "5", "line": None} in again["values"]
        assert not again["accepted"] and again["chapter"] == "chains"
        cut = _why(server, texts[4].replace("Currency:", "Curency:"))
        assert (cut["rule"], cut["line"]) == ("P01", 3) and cut["values"][0]["value"].startswith("Curency:")
        inner = _why(server, texts[4].replace("Number: 4", "Number: 5"))
        assert inner["rule"] == "L01" and len(inner["values"]) == 2 and inner["values"][0]["value"] != inner["values"][1]["value"]
        signature = _why(server, _changed(BlockText.of(texts[4]), "Number: 4", "Number: 5"))
        assert signature["rule"] == "L05" and signature["false_signatures_in_lines"] and signature["values"][0]["line"]
        assert server.get("/node/head").json["number"] == 4
        assert server.ask("POST", "/node/why", b"").status == 400
        assert server.ask("POST", "/page/why", b"text=", FORM).status == 400


def test_refused_documents_with_their_values(forging: Server, people: dict[str, Wallet]) -> None:
    alice, bob = people["alice"], people["bob"]
    stamp = forging.get("/node/head").json["stamp"]
    source = forging.get(f"/node/accounts/{alice.key}").json["sources"][0]
    good = alice.payment([source["source"]], [f"{source['units']}:0:SIG({bob.key})"], stamp, "<b>bread</b>")
    assert _why(forging, good) | {"values": []} == {
        "kind": "transaction", "accepted": True, "rule": None, "sentence": None, "chapter": None, "line": None,
        "false_signatures_in_lines": [], "values": [],
    }
    foreign_signature = bob.issuer.sign("x")
    sums = _why(forging, alice.payment([source["source"]], [f"{source['units'] + 1}:0:SIG({bob.key})"], stamp))
    assert sums["rule"] == "L23" and [each["value"] for each in sums["values"]] == [str(source["units"]), str(source["units"] + 1)]
    foreign = _why(forging, bob.payment([source["source"]], [f"{source['units']}:0:SIG({bob.key})"], stamp))
    first = foreign["values"][0]
    assert foreign["rule"] == "G88" and (first["what"], first["value"]) == ("condition of the source", f"SIG({alice.key})")
    unknown = _why(forging, alice.payment([f"1000:0:D:{alice.key}:0"], [f"1000:0:SIG({bob.key})"], stamp))
    assert unknown["rule"] == "G87" and unknown["values"][0]["what"] == "this source was never made" and unknown["values"][0]["line"] == 9
    assert _why(forging, "Version: 10\nType: Identity\nx\n")["rule"] == "D01"
    forged = good.replace(good.split("\n")[-2], foreign_signature)
    untrue = _why(forging, forged)
    assert untrue["rule"] == "L24" and [(each["value"], each["line"]) for each in untrue["values"]] == [(foreign_signature, 15)]
    own = _why(forging, alice.certification(bob, forging.get("/wot/identity-of/bob").json["sigDate"], stamp))
    assert own["rule"] == "G71" and "lives until" in own["values"][0]["what"]
    # nothing waits and nothing was written by the questions
    assert forging.get("/node/pool").json["documents"] == [] and forging.get("/node/head").json["stamp"] == stamp
    forging.forge()
    assert _why(forging, sums and good)["accepted"]


def _drafted(log: Path, wallet: Wallet) -> list[str]:
    """What stands above InnerHash in the block that somebody would forge now."""

    async def story() -> list[str]:
        ledger = await Ledger.open(PROGRAM, log)
        found = await ledger.turn(lambda turn: draft(turn, wallet.key))
        await ledger.close()
        return found.lines[:-3]

    return asyncio.run(story())


def test_each_wrong_header_has_its_rule_and_values(currency: Path, people: dict[str, Wallet]) -> None:
    alice, carol = people["alice"], people["carol"]
    lines = _drafted(currency / "log.sqlite", alice)
    fields = dict(line.split(": ", 1) for line in lines if ": " in line)
    # a second more where Time is above it, so that Time stays within its bounds however long ago the currency was made
    median = int(fields["MedianTime"])
    other_median = median + 1 if int(fields["Time"]) > median else median - 1
    wrong = {
        "G49": ("Currency", "other"), "G51": ("Number", "99"), "G52": ("PreviousHash", "0" * 64), "G53": ("PreviousIssuer", carol.key),
        "G54": ("DifferentIssuersCount", "77"), "G55": ("IssuersFrame", "78"), "G56": ("IssuersFrameVar", "-79"), "G59": ("UnitBase", "3"),
        "G57": ("MedianTime", str(other_median)), "G60": ("MembersCount", "7"), "G61": ("PoWMin", "5"),
    }
    with Server(currency / "log.sqlite") as server:
        good = _why(server, mined(lines, alice).decode())
        assert good["accepted"] and good["rule"] is None and good["values"] == []
        for rule, (name, value) in wrong.items():
            shown = _why(server, mined(changed(lines, name, value), alice).decode())
            assert shown["rule"] == rule and not shown["false_signatures_in_lines"], (rule, shown)
            told = [each["value"] for each in shown["values"]]
            assert value in told and (name not in fields or rule == "G49" or fields[name] in told), (rule, told)
        dividend = [*lines[:7], "UniversalDividend: 12", *lines[7:]] if "UniversalDividend" not in fields else lines
        shown = _why(server, mined(changed(dividend, "UniversalDividend", "12"), alice).decode())
        assert shown["rule"] == "G58" and "12" in [each["value"] for each in shown["values"]]
        shown = _why(server, mined(changed(lines, "Issuer", carol.key), carol).decode())
        assert shown["rule"] == "G101" and shown["values"][0]["value"].startswith("REVOKED")
        shown = _why(server, mined(lines, alice, 0).decode())
        assert shown["accepted"] or shown["rule"] == "G62" and len(shown["values"]) == 3


def test_refused_people_and_payments_with_their_values(currency: Path, people: dict[str, Wallet]) -> None:
    alice, bob, carol = people["alice"], people["bob"], people["carol"]
    lines = _drafted(currency / "log.sqlite", alice)
    with Server(currency / "log.sqlite") as server:
        head = server.get("/node/head").json
        written = server.get("/wot/identity-of/alice").json["sigDate"]
        spent, unspent = [server.get(f"/node/accounts/{alice.key}").json["moves"][place]["source"] for place in (0, -1)]
        revoked = carol.membership(head["stamp"], server.get("/node/people/carol").json["stamp"]).split("\n")[-2]
        certified = alice.certification(alice, written, head["stamp"]).split("\n")[-2]

        def asked(section: str, *new: str) -> dict[str, Any]:
            at = lines.index(f"{section}:") + 1
            return _why(server, mined([*lines[:at], *new, *lines[at:]], alice).decode())

        def paid(source: str, unlock: str, outputs: list[str], wallet: Wallet = alice) -> dict[str, Any]:
            return _why(server, replace_unlock(wallet.payment([source], outputs, head["stamp"]), unlock, wallet))

        shown = asked("Certifications", f"{alice.key}:{alice.key}:{head['number']}:{certified}")
        assert shown["rule"] == "L15" and shown["values"][0]["value"] == alice.key
        joins = f"{carol.key}:{revoked}:{head['stamp']}:{server.get('/node/people/carol').json['stamp']}:carol"
        shown = asked("Joiners", joins)
        assert shown["rule"] in ("G77", "G60") and shown["values"]
        shown = paid(spent, "0:SIG(0)", [f"{spent.split(':')[0]}:0:SIG({bob.key})"])
        assert shown["rule"] == "G87" and shown["values"][0]["what"].startswith("this source was spent in block")
        shown = paid(unspent, "1:SIG(0)", [f"{unspent.split(':')[0]}:0:SIG({bob.key})"])
        assert shown["rule"] == "L20" and shown["values"][0]["what"] == "unlock lines of this input: 0"
        shown = paid(unspent, "0:SIG(1)", [f"{unspent.split(':')[0]}:0:SIG({bob.key})"])
        assert shown["rule"] == "L20" and "of 1 inputs and 1 issuers" in shown["values"][0]["what"] and shown["values"][0]["value"] == "0:SIG(1)"
        shown = paid(unspent, "0:SIG(0)", [f"{unspent.split(':')[0]}:5:SIG({bob.key})"])
        assert shown["rule"] == "L23"


def replace_unlock(text: str, unlock: str, wallet: Wallet) -> str:
    """The payment with another line that unlocks, signed anew."""
    unsigned = text.replace("0:SIG(0)", unlock).rsplit("\n", 2)[0] + "\n"
    return f"{unsigned}{wallet.issuer.sign(unsigned)}\n"


def test_no_teller_of_values_fails_on_a_whole_block(generated_log: Path, tmp_path: Path) -> None:
    log = tmp_path / "log.sqlite"
    log.write_bytes(generated_log.read_bytes())

    async def story() -> None:
        ledger = await Ledger.open(PROGRAM, log)

        async def work(turn: Turn) -> None:
            for number in (0, 20, 30, 60, 99, ledger.index.length() - 1):
                block = BlockText.of(ledger.index.block(number)[0].text)  # type: ignore[index]
                for rule, teller in why_values.TELLERS.items():
                    case = why_values.Case(turn, block, [1])
                    with contextlib.suppress(Lacking):
                        await teller(case)
                    assert all(each["line"] is None or 1 <= each["line"] <= len(block.lines) for each in case.found), rule

        await ledger.turn(work)
        await ledger.close()

    asyncio.run(story())
    assert set(why_values.TELLERS) <= set(sentences())


def test_trials_follow_the_log(currency: Path, people: dict[str, Wallet]) -> None:
    good = mined(_drafted(currency / "log.sqlite", people["alice"]), people["alice"])

    async def story() -> None:
        ledger = await Ledger.open(PROGRAM, currency / "log.sqlite")
        trial = why.Trial(ledger, PROGRAM)
        last = ledger.index.block(ledger.index.length() - 1)
        assert last is not None
        # three times the same question: a block that was accepted leaves nothing behind
        for _ in range(3):
            assert (await why.why(ledger, trial, good))["accepted"]
        await ledger.turn(lambda turn: turn.change(commands.revert(1)))
        assert (await why.why(ledger, trial, good))["rule"] == "G51"
        await ledger.turn(lambda turn: turn.change(commands.block(last[0].text.encode())))
        assert (await why.why(ledger, trial, good))["accepted"]
        # a log that is another one behind what was read is read anew
        await trial.make_ready()
        trial._at = (trial._at[0], "0" * 64)
        await ledger.turn(lambda turn: turn.change(commands.revert(1)))
        assert (await why.why(ledger, trial, good))["rule"] == "G51"
        await trial.close()
        await ledger.close()

    asyncio.run(story())


def test_many_questions_at_once_are_refused(example_log: Path, monkeypatch: pytest.MonkeyPatch) -> None:
    async def story() -> None:
        ledger = await Ledger.open(PROGRAM, example_log)
        trial = why.Trial(ledger, PROGRAM)
        monkeypatch.setattr(why, "MOST_WAITING", 2)
        asked = [asyncio.ensure_future(trial.block([], b"x\n")) for _ in range(4)]
        answers = await asyncio.gather(*asked, return_exceptions=True)
        assert [isinstance(each, Unavailable) for each in answers] == [False, False, True, True]
        assert answers[0] == ["REFUSED", "P01", "1"] and await trial.block([], b"x\n") == answers[0]
        await trial.close()
        await ledger.close()

    asyncio.run(story())
