"""Views over an index of strangers' texts, with a stand-in for the program."""
from collections.abc import Awaitable
from typing import Any

import generated
import pytest
from support import TOOL

from service import node_pages, trust
from service.index import Index
from service.opening import new_local
from service.ledger import Turn
from service.page import persons, views, waiting
from service.page.frame import View, framed
from service.page.markup import written
from service.people import State
from service.refusals import Refusal
from service.schema import BLOCK, IDENTITY, PENDING
from service.storage import Storage

EXAMPLE = TOOL.parent / "verdicts" / "example"


class StandIn:
    """A turn over an index of its own, with people, texts and conditions as a test says, and no program."""

    def __init__(self, names: list[str], monkeypatch: pytest.MonkeyPatch) -> None:
        local = new_local()
        self.index = Index(Storage(local))
        self.keys = [generated.key(each) for each in range(len(names))]
        for key, name in zip(self.keys, names):
            local.put(IDENTITY.insert(), {"key": key, "uid": name, "stamp": name, "signature": name, "block": 0})
        lines = (EXAMPLE / "block-0").read_text().split("\n")
        place = lines.index("Transactions:") + 1
        payment = ["TX:10:1:1:1:1:1:0", "0-" + "0" * 64, self.keys[0], "1:0:D:x:1", "0:SIG(0)"]
        body = [line for name in names for line in (*payment, f"1:0:{name}", name, name)]
        block = "\n".join([*lines[:place], *body, *lines[-4:]])
        values = {"time": 1, "median_time": 1, "members": 1, "pow_min": 0, "dividend": None, "mass": "5"}
        local.put(BLOCK.insert(), {"number": 0, "hash": "0" * 64, "issuer": self.keys[0], **values, "text": block})
        for place, name in enumerate(names):
            text = f"Version: 10\nType: Identity\nComment: {name}\n"
            row = {"hash": f"{place:064X}", "place": place, "kind": "identity", "issuer": self.keys[place], "subject": name}
            local.put(PENDING.insert(), {**row, "stage": "pooled", "text": text})
        states = {key: State(key, name, 0, "MEMBER", 7, 1, 1) for key, name in zip(self.keys, names)}
        received = {key: [trust.LiveCertification(self.keys[place - 1], key, 1, 2, 0)] for place, key in enumerate(self.keys)}
        self.web = trust.Web(states, set(self.keys), received, 3, set(self.keys))

        async def asked(_: Turn, __: list[str]) -> trust.Web:
            return self.web

        async def left(_: Turn) -> dict[str, str]:
            return {f"{place:064X}": "G79" for place in range(0, len(names), 2)}

        monkeypatch.setattr(trust, "_asked", asked)
        monkeypatch.setattr(node_pages, "left_out", left)

    def lacks(self, word: str) -> bool:
        """Nothing is lacking."""
        return False

    async def ask(self, command: Any) -> list[str]:
        """Answers of the right shape."""
        known = {"DISTANCE": ["DISTANCE 1 2 PASS"], "DIFF": ["DIFF 0"], "BALANCE": ["BALANCE 7"], "RECORDS": ["MIDX EXPIRE x"] * 3}
        return known.get(command.word, [])


def _document(view: View) -> str:
    versions = dict.fromkeys(("page.css", "page.js", "icon.svg"), "0")
    return written(framed(view, currency="x", head="0-0", lacks=["x"], versions=versions)).decode()


async def views_of(stand_in: StandIn, names: list[str]) -> list[str]:
    """The views that show these names, comments, conditions and values."""
    turn: Any = stand_in
    made: list[Awaitable[View]] = [
        views.people(turn, {"part": ""}), views.block(turn, {"number": "0"}), waiting.pool(turn, {}), views.blocks(turn, {}),
        persons.person(turn, {"word": stand_in.keys[0]}), persons.account(turn, {"word": stand_in.keys[0]}),
    ]
    found = [_document(await each) for each in made]
    values = [{"what": name, "value": name, "line": 1} for name in names]
    shown = {
        "kind": names[0], "accepted": False, "rule": "G88", "sentence": names[1], "chapter": "rules", "values": values,
        "false_signatures_in_lines": [],
    }
    found.append(_document(waiting.answered(names[2], shown, "\n".join(names))))
    return found + [_document(views.refusal(Refusal(1002, name, rule=name))) for name in names[::10]]
