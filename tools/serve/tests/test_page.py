"""The page without a browser: its views beside the program's answers, and its headers."""
import asyncio
import html
from collections.abc import Iterator
from pathlib import Path
from urllib.parse import quote, urlencode

import generated
import pytest
from hostile import links
from mining import mined
from reading import page_of, said_by
from support import FORM, PROGRAM, Server

from service import commands
from service.blocks import BlockText
from service.demo import new_wallet
from service.forging import draft
from service.ledger import Ledger
from service.page import pages, protocol
from service.page.markup import e, moment, path, span_of, written
from service.page.words import NoCondition, in_words, read
from service.refusals import chapter, sentences
from service.series import series, thinned
from service.wallet import Wallet

K0, K1 = "1" * 43, "2" * 44
HASH = "BA7816BF8F01CFEA414140DE5DAE2223B00361A396177A9CB410FF61F20015AD"


@pytest.fixture(scope="module")
def server(generated_log: Path, tmp_path_factory: pytest.TempPathFactory) -> Iterator[Server]:
    """A server of a copy of the generated chain."""
    log = tmp_path_factory.mktemp("server") / "log.sqlite"
    log.write_bytes(generated_log.read_bytes())
    with Server(log) as started:
        yield started


def _length(server: Server) -> int:
    return int(server.get("/node/head").json["number"]) + 1


# what is shown

def test_the_head_is_that_of_the_program(server: Server) -> None:
    head, money = server.get("/node/head").json, server.get("/node/money").json
    said = said_by(server.get("/").body)
    length = head["number"] + 1
    assert length in (100, 300) and head["hash"] in said
    for value in (head["members"], money["issued"], money["unspent"], money["cleared"]):
        assert f" {value:,} " in said
    points = server.get("/node/points").json
    assert points["blocks"] == length and len(points["points"]) == min(length, 240)
    last = points["points"][-1]
    assert (last["number"], last["members"], last["mass"], last["unspent"]) == (head["number"], head["members"], head["mass"], money["unspent"])


def test_every_person_is_shown_with_walks(server: Server) -> None:
    everybody = server.get("/node/people").json
    assert everybody["members"] == server.get("/node/head").json["members"] and len(everybody["people"]) == 8 + (_length(server) - 1) // 20
    for each in everybody["people"]:
        shown = server.get(f"/node/people/{each['uid']}").json
        assert shown == server.get(f"/node/people/{each['key']}").json
        told = server.get(f"/node/distance/{each['key']}").json
        found = [walk for walk in shown["sentries"] if walk["walk"]]
        assert shown["distance"] == told and len(found) == told["reached"] and len(shown["sentries"]) == told["sentries"]
        for walk in found:
            assert walk["walk"][0] == walk["sentry"] and walk["walk"][-1] == each["key"] and len(walk["walk"]) <= shown["steps"] + 1
        said = said_by(page_of(server, "page", "person", each["key"]).encode())
        assert f"{told['reached']} of {told['sentries']} sentries reach {each['uid']}" in said
        assert f"{each['received']} received, {each['issued']} issued" in said and f"second {each['expires']}" in said


def test_an_account_by_key_name_and_condition(server: Server) -> None:
    key = generated.key(3)
    shown = server.get(f"/node/accounts/{key}").json
    for word in (key, "user3", f"SIG({key})"):
        said = said_by(page_of(server, "page", "account", word).encode())
        assert f"Balance {shown['balance']:,} units" in said and "Who may spend user3" in said
        assert all(f" {move['balance']:,} " in said for move in shown["moves"][-20:])
    nothing = said_by(page_of(server, "page", "account", f"(SIG({key}) && CSV(3600)) || XHX({HASH})").encode())
    assert "user3 3,600 seconds after it was made, or whoever comes with the password of the hash BA7816BF.." in nothing
    assert "Balance 0 units" in nothing and server.get(path("page", "account", "SIG(x)")).status == 400


def test_each_record_has_the_line_that_caused_it(server: Server) -> None:
    kinds = set()
    for number in range(_length(server)):
        shown = server.get(f"/node/blocks/{number}").json
        lines = shown["text"].split("\n")
        for record, cause in zip(shown["records"], shown["causes"], strict=True):
            words, line = record.split(" "), lines[cause - 1]
            kinds.add(" ".join(words[:2]))
            assert _causes(words, line), (number, record, line)
        page = page_of(server, "page", "block", number) if number % 50 == 0 else None
        assert page is None or page.count("id=\"record-") == len(shown["records"]) and page.count("id=\"line-") == len(lines) - 1
    wanted = {"IIDX CREATE", "IIDX IN", "MIDX JOIN", "MIDX ACTIVE", "CIDX CERT", "SIDX SPEND", "SIDX MAKE", "SIDX DIVIDEND"}
    assert wanted <= kinds <= {*wanted, "SIDX CLEAR"} and (_length(server) < 300 or "SIDX CLEAR" in kinds)


def _causes(words: list[str], line: str) -> bool:
    if words[1] == "DIVIDEND":
        return line.startswith("UniversalDividend: ")
    if words[1] == "CLEAR":
        return line.startswith("UnitBase: ") or "SIG(" in line
    if words[1] == "SPEND":
        return line == words[2]
    if words[1] == "MAKE":
        amount, base = words[2].split(":")[:2]
        return line == f"{amount}:{base}:{words[3]}"
    if words[0] == "CIDX":
        return line.startswith(f"{words[2]}:{words[3]}:")
    return line.startswith(words[2])


def test_values_over_time_follow_the_chain(generated_log: Path, tmp_path: Path) -> None:
    copy = tmp_path / "log.sqlite"
    copy.write_bytes(generated_log.read_bytes())

    async def story() -> None:
        ledger = await Ledger.open(PROGRAM, copy)
        before = list(series(ledger.index))
        await ledger.turn(lambda turn: turn.change(commands.revert(5)))
        after = list(series(ledger.index))
        assert after == before[:-5] and [each.number for each in before] == list(range(len(before))) and len(before) >= 100
        await ledger.close()

    asyncio.run(story())
    assert thinned(3) == [0, 1, 2] and thinned(0) == [] and thinned(1000, 5) == [0, 249, 499, 749, 999]


def test_words_of_conditions() -> None:
    def said(text: str) -> str:
        return in_words(read(text), lambda key: {K0: "K0", K1: "K1"}[key], lambda second: f"second {second}")

    example = f"(SIG({K0}) && CSV(3600)) || (SIG({K1}) && XHX({HASH}))"
    assert said(example) == "K0 3,600 seconds after it was made, or K1 with the password of the hash BA7816BF.."
    assert said(f"SIG({K0}) && SIG({K1})") == "K0 and K1 together"
    assert said(f"SIG({K0}) && (SIG({K1}) || CLTV(7))") == "K0 and also (K1, or whoever comes from second 7 on)"
    assert said(f"(SIG({K0}) || SIG({K1})) && CSV(1)") == "whoever comes 1 seconds after it was made and also (K0, or K1)"
    assert said("(" * 64 + "CSV(0)" + ")" * 64) == "whoever comes 0 seconds after it was made"
    for wrong in ("", "SIG(x)", f"SIG({K0})&&SIG({K1})", f"SIG({K0}) ", f"(SIG({K0})", "()", "(" * 65 + "CSV(0)" + ")" * 65, "CSV(1)" * 200):
        with pytest.raises(NoCondition):
            read(wrong)


def test_the_rules_and_chapters_of_the_protocol(server: Server) -> None:
    page = page_of(server, "page", "protocol", "rules")
    for rule, sentence in sentences().items():
        assert f"id=\"{rule}\"" in page and (protocol.FOLDER / f"{chapter(rule)}.md").is_file()
        assert sentence.replace("`", "") in said_by(page.encode()).replace(" ,", ",").replace("  ", " ") or "`" in sentence
    for file in protocol.FOLDER.glob("*.md"):
        if file.stem != "README":
            assert page_of(server, "page", "protocol", file.stem)
    for wrong in ("README", "..%2Fx", "nothing"):
        assert server.get(f"/page/protocol/{wrong}").status == 404


def test_headers_and_what_is_not_there(server: Server) -> None:
    for at in ("/", "/page/people", "/page/why", "/page/static/page.js", "/page/person/nobody-here", "/page/nothing"):
        answer = server.get(at)
        policy = answer.headers["Content-Security-Policy"]
        assert "default-src 'none'" in policy and "script-src 'self'" in policy and "unsafe" not in policy
        assert answer.headers["X-Content-Type-Options"] == "nosniff" and answer.headers["Access-Control-Allow-Origin"] is None
        assert "html" not in answer.headers["Content-Type"] or b"<script>" not in answer.body and b" style=" not in answer.body
    assert server.get("/page/person/nobody-here").status == 404 and server.get(f"/page/block/{_length(server)}").status == 404
    assert server.get("/page/block/x").status == 400 and server.get("/page/static/..%2Fpages.py").status == 404
    assert all(to.startswith(("/", "#", "?")) for to in links(page_of(server, "page", "person", "user3")))


def test_words_are_found(server: Server) -> None:
    key, nobody = generated.key(3), "5cnvo5bmR8QbtyNVnkDXWq6n5My6oNLd1o6auJApGCsv"
    found = {
        "17": "/page/block/17", key: f"/page/person/{key}", "user3": "/page/person/user3", "user": "/page/people?part=user",
        nobody: f"/page/account/{nobody}", f"SIG({key})": path("page", "account", f"SIG({key})"),
    }
    for word, to in found.items():
        answer = server.get(f"/page/find?word={quote(word)}")
        assert (answer.status, answer.headers["Location"]) == (303, to)
    assert server.get("/page/find?word=%3Cb%3E").status == 400 and server.get("/page/find").status == 400


def test_small_texts() -> None:
    assert span_of(59) == "59 seconds" and span_of(3600) == "1 hour (3,600 seconds)" and span_of(129_600) == "1.5 days (129,600 seconds)"
    assert "1970-01-01 00:00:07 UTC" in written(moment(7)).decode() and "second 1099511627775" in written(moment(2**40 - 1)).decode()
    with pytest.raises(AssertionError):
        e("a", "x", href="javascript:x")
    with pytest.raises(AssertionError):
        e("a", "x", href="//evil.example")


def test_what_waits_and_what_a_switch_would_do(forging: Server, people: dict[str, Wallet]) -> None:
    alice, bob, stamp = people["alice"], people["bob"], forging.get("/node/head").json["stamp"]
    tip = forging.get("/node/branches").json["tips"][0]
    length = forging.get("/node/head").json["number"] + 1
    fork = int(tip["stands_on"].split("-")[0])
    assert [int(each.split("-")[0]) for each in tip["puts_on"]] == [fork + 1, fork + 2] and tip["missing"] is None
    assert [int(each.split("-")[0]) for each in tip["takes_off"]] == list(range(fork + 1, length))
    page = page_of(forging, "page", "branches")
    assert all(f"#stored-{each}" in page for each in tip["puts_on"])
    source = forging.get(f"/node/accounts/{alice.key}").json["sources"][0]
    markup = "<img src=x onerror=window.taken=1> & \"quoted\" 'too'"
    payment = alice.payment([source["source"]], [f"{source['units']}:0:SIG({bob.key})"], stamp, markup)
    assert forging.post("/tx/process", transaction=payment).status == 200
    shown = page_of(forging, "page", "pool")
    assert html.escape(f"Comment: {markup}") in shown and "take in 1 and leave out 0" in shown and "<img" not in shown
    number = forging.forge().split("-")[0]
    assert html.escape(markup) in page_of(forging, "page", "block", number) and "<img" not in page_of(forging, "page", "block", number)


def test_what_the_program_lacks_is_said(example_log: Path, tmp_path: Path) -> None:
    poor = tmp_path / "poor"
    poor.write_text(f"#!/bin/bash\nsed -u -E 's/^(PEND|UNPEND|FORGE|STATEMENT|AUTO) .*/LACKING/; s/^FAILED$/LACKING/' | {PROGRAM} run\n")
    poor.chmod(0o755)
    with Server(example_log, program=poor) as server:
        assert "no document can wait" in page_of(server, "page", "pool") and "has no FAILED yet" in page_of(server, "page", "branches")
        assert "no FORGE yet" in said_by(server.get("/").body) and server.get("/node/failures").status == 501
        document = "Version: 10\nType: Identity\nCurrency: x\nIssuer: x\n"
        answer = server.ask("POST", "/page/why", urlencode({"text": document}).encode(), FORM)
        assert answer.status in (200, 501)


def test_every_view_has_its_path() -> None:
    assert all(pages.is_of_page(at) for at, _ in pages.PATHS) and not pages.is_of_page("/node/head") and not pages.is_of_page("/pagex")


def test_an_empty_chain(tmp_path: Path) -> None:
    with Server(tmp_path / "log.sqlite") as server:
        assert "There is no block yet" in page_of(server)
        for at in ("/page/people", "/page/blocks", "/page/branches", "/page/pool", "/page/why"):
            assert server.get(at).status == 200, at
        for at in ("/page/block/0", "/page/person/x", "/page/parameters"):
            assert server.get(at).status in (400, 404), at


def test_a_newcomer_who_waits(forging: Server, people: dict[str, Wallet]) -> None:
    alice, eve, stamp = people["alice"], new_wallet("eve", "demo"), forging.get("/node/head").json["stamp"]
    for at, field, text in (
        ("/wot/add", "identity", eve.identity(stamp)), ("/blockchain/membership", "membership", eve.membership(stamp, stamp)),
        ("/wot/certify", "cert", alice.certification(eve, stamp, stamp)),
    ):
        assert forging.post(at, **{field: text}).status == 200
    said = said_by(page_of(forging, "page", "pool").encode())
    assert "3 documents wait" in said and "take in 0 and leave out 3" in said and f"G79 : {sentences()['G79']}" in said.replace("  ", " ")
    assert forging.get("/page/find?word=eve").headers["Location"] == "/page/person/eve"
    for word in ("eve", eve.key):
        said = said_by(page_of(forging, "page", "person", word).encode())
        assert "the identity waits" in said and "Certifications that are there 1" in said and "needed 2" in said and " alice " in said
    alone = forging.ask("POST", "/node/why", people["bob"].certification(eve, stamp, stamp).encode()).json
    assert alone["accepted"] and alone["rule"] is None
    wrong = forging.ask("POST", "/node/why", people["bob"].membership(stamp, stamp).encode()).json
    assert wrong["rule"] == "G82" and wrong["values"][0]["what"] == "identity of the chain"


def test_a_failure_of_the_automatic_choice(currency: Path, people: dict[str, Wallet]) -> None:
    alice = people["alice"]

    async def drafted() -> list[str]:
        """What stands in the place of the last block, with a wrong number of members."""
        ledger = await Ledger.open(PROGRAM, currency / "log.sqlite")
        last = ledger.index.block(ledger.index.length() - 1)
        assert last is not None
        await ledger.turn(lambda turn: turn.change(commands.revert(1)))
        found = await ledger.turn(lambda turn: draft(turn, alice.key))
        await ledger.turn(lambda turn: turn.change(commands.block(last[0].text.encode())))
        await ledger.close()
        return ["MembersCount: 7" if line.startswith("MembersCount: ") else line for line in found.lines[:-3]]

    raws = [mined(asyncio.run(drafted()), alice)]
    for _ in range(3):
        block = BlockText.of(raws[-1].decode())
        new = {"Number": block.number + 1, "PreviousHash": block.hash, "PreviousIssuer": alice.key}
        lines = [f"{name}: {new[name]}" if (name := line.split(":")[0]) in new else line for line in block.lines[:-3]]
        raws.append(mined(lines, alice))
    first, *_, last_one = [BlockText.of(raw.decode()).stamp for raw in raws]
    with Server(currency / "log.sqlite", "--auto", "on") as server:
        assert [server.post("/blockchain/block", block=raw.decode()).status for raw in raws] == [200] * 4
        failed = server.get("/node/failures").json["failures"]
        assert failed == [{"tip": last_one, "at": first, "rule": "G60", "sentence": sentences()["G60"]}]
        said = said_by(page_of(server, "page", "branches").encode())
        assert f"{last_one} {first} G60 {sentences()['G60']}" in said
        assert "+3 blocks from that of the chain; it is long enough" in said
