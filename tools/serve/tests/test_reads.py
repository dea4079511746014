"""The reads of BMA: their schemas are those of Debian's duniterpy, their values those of the program and of the blocks."""
import copy
import hashlib
import json
import subprocess
from collections.abc import Callable, Iterator
from pathlib import Path
from typing import Any

import jsonschema
import pytest
from duniterpy.api.bma import blockchain, node, tx, ud, wot
from support import PROGRAM, TOOL, Server, index_of

from service.demo import new_wallet
from service.wallet import Wallet

EXAMPLE = TOOL.parent / "verdicts" / "example"
NOBODY = "5cnvo5bmR8QbtyNVnkDXWq6n5My6oNLd1o6auJApGCsv"
# the library's own schema is refused by its library of schemas: see the README
DIFFICULTIES = copy.deepcopy(blockchain.DIFFICULTIES_SCHEMA)
DIFFICULTIES["properties"]["levels"]["items"] = DIFFICULTIES["properties"]["levels"]["items"][0]


@pytest.fixture(scope="module")
def example(tmp_path_factory: pytest.TempPathFactory) -> Iterator[Server]:
    """A server that was given the five blocks of the example of tools/verdicts."""
    with Server(tmp_path_factory.mktemp("example") / "log.sqlite") as server:
        for place in range(5):
            text = (EXAMPLE / f"block-{place}").read_text()
            answer = server.post("/blockchain/block", block=text)
            assert answer.status == 200 and answer.json["answer"][0].startswith(f"ACCEPTED {place}-"), answer.body
        yield server


def _keys(server: Server) -> list[str]:
    return [each["pubkey"] for each in server.get("/wot/members").json["results"]]


def _schemas(keys: list[str], uid: str) -> list[tuple[str, Any]]:
    found: list[tuple[str, Any]] = [
        ("/blockchain/current", blockchain.BLOCK_SCHEMA), ("/blockchain/parameters", blockchain.PARAMETERS_SCHEMA),
        ("/blockchain/blocks/50/0", blockchain.BLOCKS_SCHEMA), ("/blockchain/blocks/3/-1", blockchain.BLOCKS_SCHEMA),
        ("/blockchain/difficulties", DIFFICULTIES), ("/blockchain/branches", blockchain.BRANCHES_SCHEMA), ("/wot/members", wot.MEMBERS_SCHEMA),
        ("/node/summary", node.SUMMARY_SCHEMA), ("/node/sandboxes", node.SANDBOXES_SCHEMA),
        ("/wot/requirements-of-pending/0", wot.REQUIREMENTS_SCHEMA), (f"/wot/identity-of/{uid}", wot.IDENTITY_OF_SCHEMA),
    ]
    kinds = ("newcomers", "certs", "joiners", "actives", "leavers", "excluded", "revoked", "ud", "tx")
    found += [(f"/blockchain/with/{kind}", blockchain.BLOCK_NUMBERS_SCHEMA) for kind in kinds]
    for word in [*keys, uid]:
        found += [
            (f"/wot/lookup/{word}", wot.LOOKUP_SCHEMA), (f"/wot/requirements/{word}", wot.REQUIREMENTS_SCHEMA),
            (f"/wot/certifiers-of/{word}", wot.CERTIFICATIONS_SCHEMA), (f"/wot/certified-by/{word}", wot.CERTIFICATIONS_SCHEMA),
            (f"/blockchain/memberships/{word}", blockchain.MEMBERSHIPS_SCHEMA),
        ]
    for key in keys:
        found += [
            (f"/blockchain/hardship/{key}", blockchain.HARDSHIP_SCHEMA), (f"/tx/sources/{key}", tx.SOURCES_SCHEMA),
            (f"/tx/history/{key}", tx.HISTORY_SCHEMA), (f"/tx/history/{key}/blocks/0/3", tx.HISTORY_SCHEMA),
            (f"/tx/history/{key}/times/0/9999999999", tx.HISTORY_SCHEMA), (f"/tx/history/{key}/pending", tx.HISTORY_SCHEMA),
            (f"/ud/history/{key}", ud.UD_SCHEMA),
        ]
    return found


def _check_schemas(server: Server) -> None:
    keys = _keys(server)
    uid = server.get("/wot/members").json["results"][0]["uid"]
    for path, schema in _schemas(keys, uid):
        answer = server.get(path)
        assert answer.status == 200, (path, answer.body)
        jsonschema.validate(answer.json, schema)


def test_schemas_of_the_example(example: Server) -> None:
    _check_schemas(example)


def test_schemas_of_the_demonstration(forging: Server, people: dict[str, Wallet]) -> None:
    # with documents of each kind that wait
    alice, bob, eve, stamp = people["alice"], people["bob"], new_wallet("eve", "demo"), forging.get("/node/head").json["stamp"]
    of_alice = forging.get("/wot/identity-of/alice").json["sigDate"]
    source = forging.get(f"/node/accounts/{alice.key}").json["sources"][0]
    payment = alice.payment([source["source"]], [f"{source['units']}:0:SIG({bob.key})"], stamp)
    posted = [
        forging.post("/wot/add", identity=eve.identity(stamp)), forging.post("/blockchain/membership", membership=eve.membership(stamp, stamp)),
        forging.post("/wot/certify", cert=alice.certification(eve, stamp, stamp)), forging.post("/tx/process", transaction=payment),
        forging.post("/wot/revoke", revocation=alice.revocation(of_alice)),
    ]
    assert [each.status for each in posted] == [200] * 5
    _check_schemas(forging)
    for path, schema in (("/wot/lookup/eve", wot.LOOKUP_SCHEMA), ("/wot/requirements-of-pending/1", wot.REQUIREMENTS_SCHEMA)):
        jsonschema.validate(forging.get(path).json, schema)
    required = forging.get("/wot/requirements/eve").json["identities"][0]
    assert [each["from"] for each in required["pendingCerts"]] == [alice.key] and len(required["pendingMemberships"]) == 1
    assert 0 < required["membershipPendingExpiresIn"] <= 604_800 and not required["outdistanced"] and not required["wasMember"]
    assert len(forging.get(f"/tx/history/{bob.key}/pending").json["history"]["pending"]) == 1


def _texts() -> list[str]:
    return [(EXAMPLE / f"block-{place}").read_text() for place in range(5)]


def _made_again(blocks: list[dict[str, Any]]) -> str:
    """The texts of blocks that the field's own library makes of their JSON, as it is without the changes of tools/verdicts."""
    program = "import json, sys\nfrom duniterpy.documents import Block\n"
    program += "for block in json.load(sys.stdin): print(Block.from_parsed_json(block).signed_raw(), end='')"
    return subprocess.run(["/usr/bin/python3", "-c", program], input=json.dumps(blocks), stdout=subprocess.PIPE, text=True, check=True).stdout


def test_blocks_are_shown_as_they_came(example: Server) -> None:
    shown = example.get("/blockchain/blocks/5/0").json
    for block, text in zip(shown, _texts(), strict=True):
        assert block["raw"] + block["signature"] + "\n" == text
        end = "".join(f"{line}\n" for line in text.split("\n")[-4:-1])
        assert block["hash"] == hashlib.sha256(end.encode()).hexdigest().upper()
        assert block["inner_hash"] == hashlib.sha256(text[: -len(end)].encode()).hexdigest().upper()
    assert _made_again(shown) == "".join(_texts())
    assert [block["monetaryMass"] for block in shown] == [0, 0, 3000, 3000, 3000]
    assert shown[0]["previousHash"] is None and shown[0]["previousIssuer"] is None and shown[1]["previousHash"] == shown[0]["hash"]
    assert example.get("/blockchain/current").json == shown[4] == example.get("/blockchain/block/4").json
    assert example.get("/blockchain/blocks/3/-1").json == shown[:2]
    assert example.get("/blockchain/blocks/0/0").json == []


def test_money_of_the_example(example: Server) -> None:
    payer, payee = _texts()[3].split("Transactions:\n")[1].split("\n")[2], _texts()[3].split(":0:SIG(")[1].split(")")[0]
    sources = example.get(f"/tx/sources/{payer}").json["sources"]
    assert [(each["amount"], each["base"], each["type"], each["conditions"]) for each in sources] == [(900, 0, "T", f"SIG({payer})")]
    assert sources[0]["noffset"] == 1
    for key, parts in ((payer, ["sent", "received"]), (payee, ["received"])):
        history = example.get(f"/tx/history/{key}").json["history"]
        assert {name: len(lines) for name, lines in history.items() if lines} == dict.fromkeys(parts, 1)
        assert history["received"][0]["hash"] == sources[0]["identifier"] and history["received"][0]["block_number"] == 3
    assert example.get(f"/ud/history/{payer}").json["history"]["history"] == [
        {"block_number": 2, "consumed": True, "time": 1150, "amount": 1000, "base": 0},
    ]
    moves = example.get(f"/node/accounts/{payer}").json
    assert [(each["kind"], each["balance"]) for each in moves["moves"]] == [("MADE", 1000), ("SPENT", 0), ("MADE", 900)]
    assert moves["balance"] == 900 and sum(each["units"] for each in moves["sources"]) == 900
    assert example.get("/node/money").json == {"issued": 3000, "unspent": 3000, "cleared": 0, "conserved": True}


def test_people_of_the_example(example: Server) -> None:
    # the third is revoked in the last block and is excluded one block later
    found = example.get("/wot/lookup/user").json["results"]
    assert [(each["uids"][0]["uid"], each["uids"][0]["revoked"]) for each in found] == [("user0", False), ("user1", False), ("user2", True)]
    assert found[2]["uids"][0]["revoked_on"] == 1150
    assert [len(each["uids"][0]["others"]) for each in found] == [2, 2, 2]
    required = example.get("/wot/requirements/user0").json["identities"][0]
    # a membership made at 1000 lives 2000 seconds; the head is at 1150
    assert required["membershipExpiresIn"] == 1850 and required["isSentry"] and not required["outdistanced"]
    assert [each["expiresIn"] for each in required["certifications"]] == [4850, 4850]
    assert example.get("/blockchain/with/ud").json == {"result": {"blocks": [2]}}
    assert example.get("/blockchain/with/tx").json == {"result": {"blocks": [3]}}
    assert example.get("/blockchain/with/revoked").json == {"result": {"blocks": [4]}}
    parameters = example.get("/blockchain/parameters").json
    assert (parameters["sigReplay"], parameters["msPeriod"]) == (5000, 1000)


def test_nobody_and_nothing(example: Server) -> None:
    cases = {
        "/blockchain/block/5": (404, 2011), "/blockchain/block/x": (400, 1002), "/blockchain/block/05": (400, 1002),
        "/wot/lookup/nobody": (404, 2001),
        f"/wot/lookup/{NOBODY}": (404, 2001), f"/wot/identity-of/{NOBODY}": (404, 2004), "/wot/requirements/nobody": (404, 2004),
        f"/blockchain/hardship/{NOBODY}": (404, 2004), "/blockchain/with/all": (400, 1002), "/blockchain/blocks/5001/0": (400, 1002),
        "/tx/sources/alice": (400, 1002), "/network/peering": (404, 1001), "/node/accounts/x": (400, 1002), "/node/distance/x": (400, 1002),
    }
    for path, wanted in cases.items():
        answer = example.get(path)
        assert (answer.status, answer.ucode) == wanted, path
        assert answer.reason == f"{answer.ucode} {answer.json['message']}"
    assert example.get(f"/tx/sources/{NOBODY}").json["sources"] == []


def test_an_empty_chain(tmp_path: Path) -> None:
    with Server(tmp_path / "log.sqlite") as server:
        assert server.get("/blockchain/current").ucode == 2010
        assert server.get("/blockchain/parameters").ucode == 2010
        assert server.get("/node/money").json["issued"] == 0
        first = server.ask("POST", "/node/why", _texts()[0].encode()).json
        assert (first["accepted"], first["rule"], first["false_signatures_in_lines"]) == (True, None, [])
        assert server.get("/node/head").ucode == 2010


def test_pages_of_the_node(example: Server) -> None:
    block = example.get("/node/blocks/2").json
    assert block["text"] == _texts()[2]
    assert [record.split(" ")[:2] for record in block["records"]] == [["SIDX", "DIVIDEND"]] * 3
    assert example.get(f"/node/distance/{_keys(example)[0]}").json["passes"] is True
    assert example.get("/node/branches").json == {"head": example.get("/node/head").json["stamp"], "stored": [], "tips": []}
    described = example.get("/node/openapi.json").json["paths"]
    for path in ("/tx/sources/{pubkey}", "/node/accounts/{condition}", "/wot/add", "/blockchain/block", "/node/why", "/node/events", "/ws/block"):
        assert path in described
    assert "/node/openapi.json" in example.get("/node").body.decode()


def test_every_page_is_described_and_answers(example: Server) -> None:
    for path, methods in example.get("/node/openapi.json").json["paths"].items():
        assert all(what["summary"] for what in methods.values()), path


def test_why_a_block_would_be_refused(example: Server) -> None:
    text = _texts()[4]
    before = [example.get(path).body for path in ("/node/head", "/node/money")]
    again = example.ask("POST", "/node/why", text.encode()).json
    assert (again["accepted"], again["rule"]) == (False, "G51") and "Number is the length of the chain" in again["sentence"]
    broken = example.ask("POST", "/node/why", text.replace("Nonce: ", "Nonce: 1").encode()).json
    assert broken["rule"] == "L05" and broken["false_signatures_in_lines"] == [len(text.split("\n")) - 1]
    unread = example.ask("POST", "/node/why", b"Version: 10\nType: Block\nCurrency: x\n").json
    assert (unread["rule"], unread["line"]) == ("P01", 3)
    assert [example.get(path).body for path in ("/node/head", "/node/money")] == before


def test_what_the_program_lacks_is_said(tmp_path: Path) -> None:
    # the same program behind a filter that takes some commands away
    filtered = tmp_path / "filtered"
    words = "|".join(("PEND", "UNPEND", "FORGE", "STATEMENT", "AUTO", "FAILED"))
    filtered.write_text(f"#!/bin/bash\nstdbuf -oL sed -E 's/^({words})( .*)?$/HELLO/' | {PROGRAM} run\n")
    filtered.chmod(0o755)
    with Server(tmp_path / "log.sqlite", program=filtered) as server:
        assert any("no PEND: documents of wallets are not taken" in line for line in server.said)
        assert server.post("/blockchain/block", block=_texts()[0]).status == 200
        identity = "Version: 10\nType: Identity\nCurrency: test_currency\n"
        assert server.get("/node/failures").status == 501
        answer = server.post("/wot/add", identity=identity)
        assert answer.status == 501 and "has no command PEND yet" in answer.json["message"]
        assert server.get("/blockchain/current").json["number"] == 0
        assert server.get(f"/node/accounts/{NOBODY}").json["moves"] == []


def test_moves_of_the_index_are_those_of_the_program(serve: Callable[..., Server], currency: Path) -> None:
    with serve() as server:
        blocks = server.get("/blockchain/blocks/50/0").json
        keys = [each["pubkey"] for each in server.get("/wot/members").json["results"]]
        told = {key: server.get(f"/node/accounts/{key}").json["moves"] for key in keys}
    index = index_of(currency / "log.sqlite")
    for key, moves in told.items():
        assert [vars(move) for move in index.moves(f"SIG({key})")] == [
            {name: move[name] for name in ("block", "kind", "source", "balance")} for move in moves
        ]
    made = [each for each in told[keys[0]] if ":D:" in each["source"] and each["kind"] == "MADE"]
    assert sum(block["dividend"] is not None for block in blocks) == len(made)


def test_the_program_of_the_tests_is_a_node() -> None:
    assert subprocess.run([str(PROGRAM), "run"], input=b"HEAD\n", stdout=subprocess.PIPE, check=True).stdout == b"NONE\n"
