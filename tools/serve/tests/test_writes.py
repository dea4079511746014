"""What is posted: what comes into a block, what each refusal is, and that a refusal changes nothing."""
import base64
import secrets
import socket
from typing import Any
from urllib.parse import quote

from support import FORM, Server

from service.forging import Issuer
from service.refusals import sentences
from service.wallet import Wallet

ORDER = 2**252 + 27742317777372353535851937790883648493
DIGITS = "ABCDEFGHIJKLMNOPQRSTUVWXYZabcdefghijklmnopqrstuvwxyz0123456789+/"
WATCHED = ("/node/head", "/node/money", "/wot/members", "/blockchain/current", "/node/pool", "/node/branches")


def _newcomer(uid: str) -> Wallet:
    while True:
        issuer = Issuer(secrets.token_bytes(32))
        if len(issuer.key) in (43, 44):
            return Wallet(issuer, uid, "demo")


def _state(server: Server, people: dict[str, Wallet]) -> list[bytes]:
    keys = [each.key for each in people.values()]
    return [server.get(path).body for path in WATCHED] + [server.get(f"/node/accounts/{key}").body for key in keys]


def _head(server: Server) -> str:
    return str(server.get("/node/head").json["stamp"])


def _source(server: Server, person: Wallet) -> tuple[str, int]:
    found = server.get(f"/node/accounts/{person.key}").json["sources"][0]
    return found["source"], found["units"]


def _turned(text: str, how: str) -> str:
    """The document with its signature changed in a way."""
    above, signature, _ = text.rsplit("\n", 2)
    raw = base64.b64decode(signature)
    if how == "turned":
        signature = base64.b64encode(raw[:5] + bytes([raw[5] ^ 1]) + raw[6:]).decode()
    elif how == "padded":
        signature = signature[:85] + DIGITS[DIGITS.index(signature[85]) + 1] + "=="
    else:
        added = int.from_bytes(raw[32:], "little") + ORDER
        signature = base64.b64encode(raw[:32] + added.to_bytes(32, "little")).decode()
    return f"{above}\n{signature}\n"


def test_a_newcomer_joins_pays_and_is_revoked(forging: Server, people: dict[str, Wallet]) -> None:
    eve, stamp = _newcomer("eve"), _head(forging)
    assert forging.post("/wot/certify", cert=people["alice"].certification(eve, stamp, stamp)).ucode == 2001
    assert forging.post("/blockchain/membership", membership=eve.membership(stamp, stamp)).ucode == 2001
    assert forging.post("/wot/add", identity=eve.identity(stamp)).status == 200
    assert forging.post("/wot/add", identity=eve.identity(stamp)).ucode == 1004
    assert forging.post("/blockchain/membership", membership=eve.membership(stamp, stamp)).status == 200
    assert forging.post("/wot/certify", cert=people["alice"].certification(eve, stamp, stamp)).status == 200
    forging.forge()
    # one certification is too few: she waits, and the program says why
    waiting = {each["kind"]: each["left"] for each in forging.get("/node/pool").json["documents"]}
    assert waiting == {"identity": "G79", "membership": "G82", "certification": "G69"}
    assert forging.post("/wot/certify", cert=people["bob"].certification(eve, stamp, stamp)).status == 200
    forging.forge()
    assert forging.get("/node/pool").json["documents"] == []
    assert forging.get("/wot/identity-of/eve").json == {"pubkey": eve.key, "uid": "eve", "sigDate": stamp}
    assert len(forging.get("/wot/certifiers-of/eve").json["certifications"]) == 2
    assert forging.post("/wot/revoke", revocation=eve.revocation(stamp)).status == 200
    forging.forge()
    assert forging.post("/wot/revoke", revocation=eve.revocation(stamp)).ucode == 1004
    forging.forge()
    assert forging.get("/wot/identity-of/eve").ucode == 2004
    assert forging.get("/wot/lookup/eve").json["results"][0]["uids"][0]["revoked"] is True


def test_payments_wait_for_one_another(forging: Server, people: dict[str, Wallet]) -> None:
    alice, bob = people["alice"], people["bob"]
    source, units = _source(forging, alice)
    first = alice.payment([source], [f"{units}:0:SIG({bob.key})"], _head(forging), "END")
    answer = forging.post("/tx/process", transaction=first)
    assert answer.status == 200
    paid = f"{units}:0:T:{answer.json['hash']}:0"
    second = bob.payment([paid], [f"{units}:0:SIG({alice.key})"], _head(forging))
    assert forging.post("/tx/process", transaction=second).status == 200
    pending = forging.get(f"/tx/history/{alice.key}/pending").json["history"]
    assert (len(pending["sending"]), len(pending["pending"])) == (1, 1)
    twice = alice.payment([source], [f"{units}:0:SIG({alice.key})"], _head(forging))
    assert forging.post("/tx/process", transaction=twice).ucode == 2015
    stamp = forging.forge()
    block = forging.get("/blockchain/current").json
    # a comment may be the line END: the service stays in step with the program
    assert [each["comment"] for each in block["transactions"]] == ["END", ""] and f"{block['number']}-{block['hash']}" == stamp
    assert forging.post("/tx/process", transaction=first).ucode == 1004
    assert forging.get("/node/pool").json["documents"] == []


def test_an_account_of_a_condition(forging: Server, people: dict[str, Wallet]) -> None:
    alice, bob = people["alice"], people["bob"]
    source, units = _source(forging, alice)
    condition = f"(SIG({alice.key}) && CSV(3600)) || SIG({bob.key})"
    payment = alice.payment([source], [f"{units}:0:{condition}"], _head(forging))
    assert forging.post("/tx/process", transaction=payment).status == 200
    forging.forge()
    account = forging.get(f"/node/accounts/{quote(condition)}").json
    assert (account["condition"], account["balance"]) == (condition, units)
    assert [(each["kind"], each["units"], each["balance"]) for each in account["moves"]] == [("MADE", units, units)]
    # both keys have it in their history; a wallet's balance is of what the key alone opens
    made = account["sources"][0]["source"].split(":")[3]
    for person in (alice, bob):
        assert made in [each["hash"] for each in forging.get(f"/tx/history/{person.key}").json["history"]["received"]]
        assert made not in [each["identifier"] for each in forging.get(f"/tx/sources/{person.key}").json["sources"]]
    # a part of it is another condition
    assert forging.get(f"/node/accounts/{quote(f'(SIG({alice.key}) && CSV(3600))')}").json["balance"] == 0
    assert forging.get(f"/node/accounts/{quote(condition + ' && ')}").ucode == 1002


def test_each_refusal_has_its_code_and_changes_nothing(forging: Server, people: dict[str, Wallet]) -> None:
    alice, bob, carol = people["alice"], people["bob"], people["carol"]
    stamp = _head(forging)
    source, units = _source(forging, alice)
    identities = {uid: forging.get(f"/wot/lookup/{uid}").json["results"][0]["uids"][0]["meta"]["timestamp"] for uid in people}
    before = _state(forging, people)
    old = "0-" + "0" * 64
    to_bob = [f"{units}:0:SIG({bob.key})"]
    cases: list[tuple[str, str, str, int]] = [
        ("/wot/add", "identity", _newcomer("bob").identity(stamp), 2002),
        ("/wot/add", "identity", Wallet(alice.issuer, "alice2", "demo").identity(stamp), 2003),
        ("/wot/add", "identity", _newcomer("fay").identity(old), 1002),
        ("/wot/add", "identity", alice.membership(stamp, identities["alice"]), 1005),
        ("/wot/add", "identity", Wallet(_newcomer("fay").issuer, "fay", "g1").identity(stamp), 1005),
        ("/wot/add", "identity", "x", 1005),
        ("/wot/certify", "cert", carol.certification(alice, identities["alice"], stamp), 2009),
        ("/wot/certify", "cert", alice.certification(bob, identities["bob"], stamp), 1002),
        ("/wot/certify", "cert", alice.certification(bob, identities["bob"], old), 1002),
        ("/wot/certify", "cert", alice.certification(Wallet(bob.issuer, "bobby", "demo"), identities["bob"], stamp), 2001),
        ("/wot/revoke", "revocation", carol.revocation(identities["carol"]), 1004),
        ("/wot/revoke", "revocation", _newcomer("fay").revocation(stamp), 2001),
        ("/blockchain/membership", "membership", carol.membership(stamp, identities["carol"]), 1002),
        ("/tx/process", "transaction", alice.payment([source], [f"{units - 1}:0:SIG({bob.key})"], stamp), 2016),
        ("/tx/process", "transaction", bob.payment([source], to_bob, stamp), 2013),
        ("/tx/process", "transaction", alice.payment([f"1000:0:T:{'0' * 64}:0"], [f"1000:0:SIG({bob.key})"], stamp), 2015),
        ("/tx/process", "transaction", alice.payment([source], [f"{units // 10}:1:SIG({bob.key})"], stamp), 2017),
        ("/tx/process", "transaction", alice.payment([source], to_bob, stamp, "a\nb"), 1005),
        ("/tx/process", "transaction", alice.payment([source], to_bob, old), 1002),
        ("/tx/process", "transaction", _with_password(alice, source, to_bob, stamp), 1005),
    ]
    for how in ("turned", "padded", "added"):
        cases.append(("/wot/add", "identity", _turned(_newcomer("fay").identity(stamp), how), 1003))
        cases.append(("/blockchain/membership", "membership", _turned(alice.membership(stamp, identities["alice"]), how), 2006))
        cases.append(("/tx/process", "transaction", _turned(alice.payment([source], to_bob, stamp), how), 1003))
    for path, field, text, wanted in cases:
        answer = forging.post(path, **{field: text})
        assert (answer.ucode, answer.status) == (wanted, 404 if wanted == 2001 else 400), (path, text, answer.body)
        assert answer.reason.startswith(f"{wanted} ") and answer.json["message"]
    assert _state(forging, people) == before


def _with_password(person: Wallet, source: str, outputs: list[str], stamp: str) -> str:
    text = person.payment([source], outputs, stamp).rsplit("\n", 2)[0].replace("0:SIG(0)", "0:SIG(0) XHX(word)") + "\n"
    return f"{text}{person.issuer.sign(text)}\n"


def test_rules_have_their_sentences() -> None:
    assert len(sentences()) == 78 and sentences()["L22"] == "The amount of each input and output is at least 1."


def test_hostile_requests_change_nothing(forging: Server, people: dict[str, Wallet]) -> None:
    key = people["alice"].key
    before = _state(forging, people)
    words = ["%0A", f"{key}%0AHEAD", f"{key}%0D", "alice%0AREVERT%201", "%00", "%C3%A9", "%FF", "..%2F..%2Fetc", "a" * 200, "%25", "'%20OR%201=1"]
    pages = ["tx/sources", "tx/history", "wot/lookup", "wot/identity-of", "wot/requirements", "blockchain/block", "blockchain/hardship"]
    pages += ["blockchain/with", "node/accounts", "node/blocks", "node/distance", "blockchain/memberships", "wot/requirements-of-pending"]
    for page in pages:
        for word in words:
            answer = forging.get(f"/{page}/{word}")
            assert 400 <= answer.status < 500 and answer.json["message"], (page, word, answer.status)
            assert all(" " <= character <= "~" for character in answer.reason)
    bodies = [b"", b"transaction", b"transaction=", b"transaction=%FF%FE", b"transaction=\xff", b"{}", b'{"transaction": "x"}', b"a=b&" * 50]
    bodies.append(b"transaction=" + b"x" * 1_100_000)
    for body in bodies:
        answer = forging.ask("POST", "/tx/process", body, FORM)
        assert 400 <= answer.status < 500 and answer.json["message"], body[:40]
    assert forging.ask("POST", "/tx/process", b"x" * 3_000_001, FORM).status == 413
    wrong = [("POST", "/wot/members", 405), ("DELETE", "/blockchain/current", 405), ("GET", "/blorg", 404)]
    wrong.append(("POST", "/node/why", 400))
    for method, path, status in wrong:
        answer = forging.ask(method, path, b"" if method == "POST" else None)
        assert answer.status == status and answer.json["message"], path
    assert _state(forging, people) == before


def _raw(server: Server, data: bytes) -> bytes:
    with socket.create_connection(("127.0.0.1", server.port), timeout=60) as connection:
        connection.sendall(data)
        return connection.recv(4096)


def test_broken_http_is_answered(forging: Server, people: dict[str, Wallet]) -> None:
    before = _state(forging, people)
    chunked = b"POST /tx/process HTTP/1.1\r\nHost: x\r\nTransfer-Encoding: chunked\r\n\r\n0\r\n\r\n"
    assert _raw(forging, chunked).startswith(b"HTTP/1.1 411 ")
    long_line, no_length = b"GET /" + b"a" * 70_000 + b" HTTP/1.1\r\n\r\n", b"POST /tx/process HTTP/1.1\r\nContent-Length: x\r\n\r\n"
    for data in (b"\x00\x01\x02\r\n\r\n", b"GET / HTTP/9\r\n\r\n", long_line, no_length):
        assert _raw(forging, data).startswith(b"HTTP/1.") and b" 4" in _raw(forging, data)[:13], data[:30]
    # a body that stops half way, and a client that goes
    with socket.create_connection(("127.0.0.1", forging.port), timeout=60) as connection:
        connection.sendall(b"POST /tx/process HTTP/1.1\r\nHost: x\r\nContent-Length: 1000\r\n\r\ntransaction=")
    assert _state(forging, people) == before


def test_blocks_of_others(forging: Server, people: dict[str, Wallet]) -> None:
    forging.forge()
    block = forging.get("/blockchain/current").json
    whole: dict[str, Any] = {"block": block["raw"], "signature": block["signature"]}
    assert forging.post("/blockchain/block", **whole).ucode == 1004
    assert forging.post("/blockchain/block", block="x").ucode == 1005
    assert forging.post("/blockchain/block").ucode == 1104
    other = block["raw"].replace("Nonce: ", "Nonce: 9")
    refused = forging.post("/blockchain/block", block=other, signature=block["signature"])
    assert (refused.ucode, refused.json["rule"]) == (1003, "L05") and sentences()["L05"] in refused.json["message"]
    late = block["raw"].replace("\nMembersCount: 3\n", "\nMembersCount: 4\n")
    assert forging.post("/blockchain/block", block=late, signature=block["signature"]).json["rule"] == "L01"


def test_a_uid_that_is_the_text_of_a_key(forging: Server) -> None:
    victim = _newcomer("victim")
    thief = Wallet(_newcomer("x").issuer, victim.key, "demo")
    assert forging.post("/wot/add", identity=thief.identity(_head(forging))).status == 200
    assert forging.get(f"/wot/lookup/{victim.key}").ucode == 2001
    assert forging.get(f"/wot/lookup/{thief.key}").json["results"][0]["uids"][0]["uid"] == victim.key
    assert forging.get(f"/wot/lookup/{quote(victim.key[:12])}").json["results"][0]["pubkey"] == thief.key
