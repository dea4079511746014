"""The questions of docs/RUNNING.md, asked of the tables in SQL: what they give is what the node says, and what the page shows."""
import re
from collections import Counter
from collections.abc import Callable
from datetime import datetime, timezone
from pathlib import Path
from typing import Any

from postgres import Postgres
from support import TOOL, Server

from service.blocks import BlockText
from service.limits import Limits

TEXT = (TOOL.parents[1] / "docs" / "RUNNING.md").read_text(encoding="utf-8")
QUESTIONS = {title: query for title, query in re.findall(r"^### \d+\. (.*?)\n\n```sql\n(.*?)\n```", TEXT, re.MULTILINE | re.DOTALL)}
Rows = list[list[str]]


class Node:
    """What a node says of its chain."""

    def __init__(self, server: Server) -> None:
        self.server = server
        self.blocks: list[dict[str, Any]] = server.get("/blockchain/blocks/5000/0").json
        self.uids = {each["key"]: each["uid"] for each in server.get("/node/people").json["people"]}
        self.keys = {uid: key for key, uid in self.uids.items()}

    def account(self, uid: str) -> Any:
        """Balance, moves and sources of somebody."""
        return self.server.get(f"/node/accounts/{self.keys[uid]}").json

    def time(self, number: int) -> str:
        """The time of a block as the database writes it."""
        return f"{datetime.fromtimestamp(self.blocks[number]['medianTime'], timezone.utc):%Y-%m-%d %H:%M:%S}"


def _certified(node: Node) -> Rows:
    found = []
    for block in node.blocks:
        pairs = [line.split(":")[:2] for line in block["certifications"]]
        found += sorted([node.uids[by], node.uids[of], str(block["number"]), node.time(block["number"])] for by, of in pairs)
    return found


def _joined(node: Node) -> Rows:
    people = [node.server.get(f"/node/people/{uid}").json for uid in node.keys]
    found = [(min(each["block"] for each in person["memberships"]), person["uid"], person["revoked_in"]) for person in people]
    return [[uid, str(joined), "" if revoked is None else str(revoked)] for joined, uid, revoked in sorted(found, key=lambda each: each[:2])]


def _months(node: Node) -> Rows:
    found: dict[str, list[int]] = {}
    for block in node.blocks:
        units = 0 if block["dividend"] is None else block["dividend"] * 10 ** block["unitbase"] * block["membersCount"]
        count, issued, _ = found.get(node.time(block["number"])[:7], [0, 0, 0])
        found[node.time(block["number"])[:7]] = [count + (block["dividend"] is not None), issued + units, block["monetaryMass"]]
    return [[month, *map(str, values)] for month, values in sorted(found.items())]


def _money(node: Node) -> Rows:
    money = node.server.get("/node/money").json
    assert money["conserved"]
    return [[str(money[name]) for name in ("issued", "unspent", "cleared")]]


def _balances(node: Node) -> Rows:
    found = {uid: node.account(uid)["balance"] for uid in node.keys if node.account(uid)["moves"]}
    return [[uid, str(units)] for uid, units in sorted(found.items(), key=lambda each: (-each[1], each[0]))]


def _moves(node: Node) -> Rows:
    return [[str(each["block"]), each["kind"], str(each["units"]), str(each["balance"])] for each in node.account("alice")["moves"]]


def _sources(node: Node) -> Rows:
    found = node.account("bob")
    made = {each["source"]: each["block"] for each in found["moves"] if each["kind"] == "MADE"}
    lines = [[each["source"], str(made[each["source"]]), node.time(made[each["source"]])] for each in found["sources"]]
    return sorted(lines, key=lambda each: int(each[1]))


def _payments(node: Node) -> Rows:
    found = []
    for block in node.blocks:
        for payment in block["transactions"]:
            payer = payment["issuers"][0]
            payees = {key for output in payment["outputs"] for key in re.findall(r"SIG\((\w+)\)", output)} - {payer}
            found.append([str(block["number"]), node.uids[payer], ", ".join(sorted(node.uids[key] for key in payees)), payment["comment"]])
    return found


def _written(node: Node) -> Rows:
    lines = [record.split(" ") for record in node.server.get("/node/blocks/11").json["records"] if record.startswith("SIDX ")]
    kinds = {"MAKE": "MADE", "DIVIDEND": "MADE", "SPEND": "SPENT", "CLEAR": "CLEARED"}
    spender = node.blocks[11]["transactions"][0]["issuers"][0]
    found = []
    for _, kind, source, *condition in lines:
        key = re.findall(r"SIG\((\w+)\)", condition[0])[0] if condition else spender
        amount, base = map(int, source.split(":")[:2])
        found.append([kinds[kind], node.uids[key], str(amount * 10**base)])
    return found


def _issuers(node: Node) -> Rows:
    counts = Counter(block["issuer"] for block in node.blocks)
    last = {block["issuer"]: block["number"] for block in node.blocks}
    found = sorted((-count, node.uids[key], last[key]) for key, count in counts.items())
    return [[uid, str(-count), str(number)] for count, uid, number in found]


TOLD: list[tuple[str, Callable[[Node], Rows]]] = [
    ("Who certified whom, and when?", _certified), ("Who joined when, and who was revoked?", _joined),
    ("How much money was issued in each month, and how much was there at its end?", _months),
    ("Is every unit that was issued still there, or cleared?", _money), ("What does each account have?", _balances),
    ("How did an account come to its balance?", _moves), ("Which unspent money does somebody have, and since when?", _sources),
    ("Who paid whom, and what for?", _payments), ("What did a block write about money?", _written),
    ("Who issued how many blocks, and which was the last?", _issuers),
]


def test_the_questions_give_what_the_node_says(postgres: Postgres, database: str, currency: Path) -> None:
    assert list(QUESTIONS) == [title for title, _ in TOLD]
    with Server(database, "--as", "follower") as server:
        node = Node(server)
        for title, told in TOLD:
            found, wanted = postgres.ask(currency.parent.name, QUESTIONS[title]), told(node)
            assert found == wanted and found, title


def test_the_text_of_each_block_is_that_of_the_node(postgres: Postgres, database: str, currency: Path) -> None:
    rows = postgres.ask(currency.parent.name, "SELECT number, hash, encode(convert_to(text, 'UTF8'), 'hex') FROM block ORDER BY number")
    assert len(rows) == 27
    for number, block_hash, text in rows:
        block = BlockText.of(bytes.fromhex(text).decode())
        assert (block.number, block.hash) == (int(number), block_hash)


def test_each_limit_is_told() -> None:
    assert all(f"`{name}`" in TEXT for name in vars(Limits()))
