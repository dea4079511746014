"""No text of a stranger becomes an element of a page."""
import asyncio
from collections.abc import Callable, Iterator
from pathlib import Path
from urllib.parse import urlencode

import pytest
from hostile import Elements, links, strings
from strangers import StandIn, views_of
from support import FORM, Server

from service import trust
from service.page.markup import path

HOSTILE = 10_000


@pytest.fixture(scope="module")
def server(generated_log: Path, tmp_path_factory: pytest.TempPathFactory) -> Iterator[Server]:
    """A server of a copy of the generated chain."""
    log = tmp_path_factory.mktemp("server") / "log.sqlite"
    log.write_bytes(generated_log.read_bytes())
    with Server(log) as started:
        yield started


def test_ten_thousand_hostile_texts_make_no_element(monkeypatch: pytest.MonkeyPatch) -> None:
    piece = 100
    hostile = [text.replace("\n", " ") for text in strings(HOSTILE)]
    plain = asyncio.run(views_of(StandIn([f"x{place}" for place in range(piece)], monkeypatch), ["x"] * piece))
    wanted = [Elements(page).found for page in plain]
    for start in range(0, HOSTILE, piece):
        names = hostile[start : start + piece]
        trust._KEPT.clear()
        pages_made = asyncio.run(views_of(StandIn(names, monkeypatch), names))
        for page, elements in zip(pages_made, wanted, strict=True):
            assert Elements(page).found == elements
            assert all(to.startswith(("/", "#", "?")) and not to.startswith("//") for to in links(page))


def test_hostile_texts_of_requests(server: Server) -> None:
    makers: list[Callable[[str], str]] = [
        lambda text: path("page", "person", text), lambda text: path("page", "account", text), lambda text: path("page", "find", word=text),
        lambda text: path("page", "people", part=text), lambda text: path("page", "block", text), lambda text: path("page", "blocks", to=text),
    ]
    plain = {each("x" * 200): None for each in makers}
    assert len(plain) == len(makers)
    for text in strings(40):
        for maker in makers:
            body = server.get(maker(text.replace("\x00", ""))).body.decode()
            assert "taken=1>" not in body and "<iframe" not in body and not Elements(body).found["img", ("src", "onerror")], text
        answer = server.ask("POST", "/page/why", urlencode({"text": text}).encode(), FORM)
        assert "<img" not in answer.body.decode() and not Elements(answer.body.decode()).found["b", ("id",)]
