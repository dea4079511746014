"""The page in a real browser: numbers beside the program's answers, the keyboard, a narrow screen, blocks that come in, markup of strangers."""
import asyncio
import http.client
import time
from collections.abc import Callable, Iterator
from pathlib import Path

import browser
import generated
import pytest
from browser import Browser
from hostile import strings
from strangers import StandIn, views_of
from support import TOOL, Server, until

from service.page.markup import path
from service.wallet import Wallet
from service.web import MOST_STREAMS

if browser.lacks():
    pytest.skip(f"these are not installed: {browser.lacks()}", allow_module_level=True)

TAB, ENTER, LEFT, HOME = "\ue004", "\ue007", "\ue012", "\ue011"
MARKUP = "<img src=x onerror=window.taken=1><script>window.taken=1</script>\"'&lt;"
VIEWS = (
    "/", "/page/people", "/page/blocks", "/page/branches", "/page/pool", "/page/why", "/page/protocol", "/page/parameters", "/page/block/0",
    "/node",
)


@pytest.fixture(scope="module")
def shown() -> Iterator[Browser]:
    """A browser with scripts."""
    started = Browser()
    yield started
    started.close()


@pytest.fixture(scope="module")
def chain(generated_log: Path, tmp_path_factory: pytest.TempPathFactory) -> Iterator[Server]:
    """A server of a copy of the generated chain."""
    log = tmp_path_factory.mktemp("chain") / "log.sqlite"
    log.write_bytes(generated_log.read_bytes())
    with Server(log) as started:
        yield started


def _at(server: Server, *words: object) -> str:
    return f"http://127.0.0.1:{server.port}{path(*words)}"


def _open(shown: Browser, server: Server, where: str) -> None:
    shown.open(f"http://127.0.0.1:{server.port}{where}")


def test_the_example_in_a_browser(shown: Browser, example_log: Path) -> None:
    # runs with every program, also one that cannot forge
    with Server(example_log) as server:
        head = server.get("/node/head").json
        _open(shown, server, "/")
        assert head["hash"] in shown.text("#last-block") and f"Members {head['members']}" in shown.text("#last-block")
        for where in VIEWS:
            _open(shown, server, where)
            assert shown.text("h1") and shown.complaints() == []
        key = server.get("/wot/members").json["results"][0]["pubkey"]
        shown.open(_at(server, "page", "person", key))
        told = server.get(f"/node/distance/{key}").json
        assert f"{told['reached']} of {told['sentries']} sentries" in shown.text("#distance") and shown.count("svg.web circle") == 3


def test_numbers_of_a_generated_chain(shown: Browser, chain: Server) -> None:
    head, money = chain.get("/node/head").json, chain.get("/node/money").json
    _open(shown, chain, "/")
    said = shown.text("#money")
    assert f"Issued (the mass) {money['issued']:,} units" in said and f"Unspent {money['unspent']:,} units" in said
    assert shown.count("figure svg.plot") == 3 and shown.count("#numbers tbody tr") == min(240, head["number"] + 1)
    assert f"mass: {head['mass']:,}" in shown.text("#plot-mass") and f"members: {head['members']}" in shown.text("#plot-members")
    everybody = chain.get("/node/people").json
    _open(shown, chain, "/page/people")
    assert shown.count("tbody tr") == len(everybody["people"])
    for each in everybody["people"][:3]:
        person = chain.get(f"/node/people/{each['key']}").json
        shown.open(_at(chain, "page", "person", each["uid"]))
        assert shown.count("#received tbody tr") == each["received"] and shown.count("#issued tbody tr") == each["issued"]
        walks = [walk["walk"] for walk in person["sentries"] if walk["walk"]]
        lit = {pair for walk in walks for pair in zip(walk, walk[1:])}
        assert shown.count("svg.web .walk") == len(lit) and shown.count("#walks tbody tr") == len(person["sentries"])
    account = chain.get(f"/node/accounts/{generated.key(3)}").json
    shown.open(_at(chain, "page", "account", "user3"))
    assert shown.text("#balance") == f"{account['balance']:,} units" and shown.count("#moves > .wide tbody tr") == min(240, len(account["moves"]))
    block = chain.get("/node/blocks/60").json
    shown.open(_at(chain, "page", "block", 60))
    assert shown.count("ol.lines li[id^=record-]") == len(block["records"])
    shown.run("document.querySelector('#record-1 a').click()")
    until(lambda: shown.run("return (document.querySelector(':target') || {}).id") == f"line-{block['causes'][0]}")
    assert shown.complaints() == []


def test_plots_are_read_by_the_keyboard(shown: Browser, chain: Server) -> None:
    points = chain.get("/node/points").json["points"]
    _open(shown, chain, "/")
    shown.run("document.querySelector('input[type=range]').focus()")
    for keys, point in (((LEFT,), points[-2]), ((HOME,), points[0])):
        shown.press(*keys)
        assert f"members: {point['members']}" in shown.text("#plot-members") and f"mass: {point['mass']:,}" in shown.text("#plot-mass")
        assert f"block {point['number']}" in shown.text(".reader span")
        assert f"block {point['number']}" in shown.run("return document.querySelector('input[type=range]').getAttribute('aria-valuetext')")


def test_the_keyboard_way(shown: Browser, chain: Server) -> None:
    _open(shown, chain, "/")
    shown.press(TAB)
    assert shown.focus() == ("A", "To the content")
    shown.press(ENTER)
    assert shown.run("return document.activeElement.id") == "main"
    for name in ("People", "Blocks", "Branches", "Waiting", "Why refused?", "Protocol"):
        _tab_to(shown, name)
        shown.press(ENTER)
        until(lambda name=name: shown.text("h1") == name)
    _tab_to(shown, "word")
    shown.press("user3", ENTER)
    until(lambda: shown.text("h1") == "user3")
    _tab_to(shown, "balance and moves")
    shown.press(ENTER)
    until(lambda: shown.text("h1") == "Account")
    _tab_to(shown, "The numbers of the plot")
    shown.press(ENTER)
    assert shown.run("return document.querySelector('#balances').open")
    shown.open(_at(chain, "page", "block", 7))
    _tab_to(shown, "The next block")
    shown.press(ENTER)
    until(lambda: shown.text("h1") == "Block 8")


def _tab_to(shown: Browser, text: str) -> None:
    """Presses Tab from the top of the page until what has this text has the focus, and sees that what has the focus is marked."""
    shown.run("document.activeElement.blur(); window.scrollTo(0, 0)")
    for _ in range(200):
        shown.press(TAB)
        if shown.focus()[1] == text:
            outline = shown.run("return getComputedStyle(document.activeElement).outlineStyle")
            assert outline != "none"
            return
    raise AssertionError(f"{text} is not reached by the keyboard")


def test_every_view_on_a_narrow_screen_with_names(shown: Browser, chain: Server) -> None:
    shown.width(360, 780)
    key = generated.key(3)
    for where in (*VIEWS, path("page", "person", key), path("page", "account", key), "/page/block/60", "/page/protocol/rules", "/page/nothing"):
        _open(shown, chain, where)
        assert shown.run("return document.documentElement.scrollWidth") <= 360, where
        shown.complaints()
        names = list(shown.names())
        assert len(names) > 5 and all(name.strip() for _, name in names), (where, names)
    shown.width(1100)


def test_times_are_local_with_the_second_beside(shown: Browser, chain: Server) -> None:
    shown.open(_at(chain, "page", "block", 0))
    said = shown.text(".when")
    # 1,000,000 seconds, in the zone that this browser has: half past five behind Greenwich
    assert "7:16:40" in said and "second 1000000" in said and "13:46:40 UTC" in shown.run("return document.querySelector('time').title")


def test_without_a_script(chain: Server) -> None:
    quiet = Browser(has_scripts=False)
    try:
        money = chain.get("/node/money").json
        _open(quiet, chain, "/")
        assert f"Unspent {money['unspent']:,} units" in quiet.text("#money") and quiet.count("figure svg.plot path") == 4
        assert "13:46:40 UTC" in quiet.text("#over-time") and quiet.count("input[type=range]") == 0
        for where in VIEWS:
            _open(quiet, chain, where)
            assert quiet.text("h1")
        quiet.open(_at(chain, "page", "why"))
        quiet.driver.find_element("css selector", "textarea").send_keys("Version: 10\nType: Block\n")
        quiet.driver.find_element("css selector", "form.why button").click()
        until(lambda: "P01" in quiet.text("#verdict"))
        quiet.driver.find_element("css selector", "input[name=word]").send_keys("user5" + ENTER)
        until(lambda: quiet.text("h1") == "user5")
    finally:
        quiet.close()


def test_a_block_that_comes_in(shown: Browser, forging: Server) -> None:
    _open(shown, forging, "/")
    number = forging.get("/node/head").json["number"]
    shown.run("document.querySelector('#numbers').open = true; document.querySelector('#last-block a[href*=block]').focus(); window.kept = 1")
    forging.forge()
    until(lambda: f"Last block {number + 1}" in shown.text("#last-block"))
    assert shown.text("#news") == f"Block {number + 1} has come in." and shown.run("return window.kept") == 1
    assert shown.run("return document.querySelector('#numbers').open") and shown.focus() == ("A", str(number))
    shown.open(_at(forging, "page", "block", number))
    before = shown.text()
    forging.forge()
    until(lambda: f"Block {number + 2} has come in." in shown.text("#news"))
    assert shown.text() == before and shown.complaints() == []


def test_what_a_page_says_when_the_node_is_gone(shown: Browser, forging: Server) -> None:
    _open(shown, forging, "/")
    until(lambda: shown.run("return events && events.readyState") == 1)
    forging.kill()
    until(lambda: "cannot be reached" in shown.text("#reach"))
    shown.complaints()


def test_a_stream_that_is_refused_is_tried_again(shown: Browser, example_log: Path) -> None:
    with Server(example_log) as server:
        taken = [http.client.HTTPConnection("127.0.0.1", server.port) for _ in range(MOST_STREAMS)]
        for each in taken:
            each.request("GET", "/node/events")
            assert each.getresponse().status == 200
        _open(shown, server, "/")
        until(lambda: "cannot be reached" in shown.text("#reach"))
        for each in taken:
            each.close()
        # a stream is seen to be gone when something is written to it, at the latest behind the time between two signs of life
        until(lambda: shown.text("#reach") == "" and shown.run("return events && events.readyState") == 1, 60)
        shown.complaints()


def test_a_fork_and_what_waits(shown: Browser, forging: Server, people: dict[str, Wallet]) -> None:
    tip = forging.get("/node/branches").json["tips"][0]
    _open(shown, forging, "/page/branches")
    said = shown.text(".tip")
    assert f"would take off {len(tip['takes_off'])} blocks" in said and f"and put on {len(tip['puts_on'])} blocks" in said
    assert shown.count("svg.tree rect.stored") == 2
    alice, bob = people["alice"], people["bob"]
    source = forging.get(f"/node/accounts/{alice.key}").json["sources"][0]
    payment = alice.payment([source["source"]], [f"{source['units']}:0:SIG({bob.key})"], forging.get("/node/head").json["stamp"], MARKUP)
    _open(shown, forging, "/page/pool")
    assert "0 documents wait" in shown.text()
    assert forging.post("/tx/process", transaction=payment).status == 200
    until(lambda: "1 documents wait" in shown.text())
    assert MARKUP in shown.whole() and "taken in" in shown.text()
    number = int(forging.forge().split("-")[0])
    until(lambda: "0 documents wait" in shown.text())
    shown.open(_at(forging, "page", "block", number))
    assert MARKUP in shown.text() and _is_clean(shown)
    shown.open(_at(forging, "page", "account", "bob"))
    assert shown.text("#balance") == f"{forging.get(f'/node/accounts/{bob.key}').json['balance']:,} units"


def test_a_refused_block_and_a_refused_document(shown: Browser, forging: Server, people: dict[str, Wallet]) -> None:
    alice, bob = people["alice"], people["bob"]
    text = forging.get("/node/blocks/5").json["text"]
    _ask(shown, forging, text)
    assert "Refused by G51" in shown.text("#verdict") and "blocks of the chain" in shown.text(".wide")
    source = forging.get(f"/node/accounts/{alice.key}").json["sources"][0]
    stamp = forging.get("/node/head").json["stamp"]
    _ask(shown, forging, alice.payment([source["source"]], [f"{source['units'] + 1}:0:SIG({bob.key})"], stamp, MARKUP))
    assert "Refused by L23" in shown.text("#verdict") and str(source["units"] + 1) in shown.text(".wide") and _is_clean(shown)
    shown.run("document.querySelector('#verdict a').click()")
    until(lambda: shown.text("h1") == "Rules")
    assert shown.run("return document.querySelector(':target').id") == "L23"
    for hostile in strings(12):
        _ask(shown, forging, hostile)
        assert _is_clean(shown)


def _ask(shown: Browser, server: Server, text: str) -> None:
    shown.open(_at(server, "page", "why"))
    shown.run("document.querySelector('textarea').value = arguments[0]; document.querySelector('form.why').submit()", text)
    until(lambda: shown.count("#verdict") == 1)


def _is_clean(shown: Browser) -> bool:
    """Whether no element stands in the page that it did not make, and no script of a stranger ran."""
    foreign = "main img, main script, main iframe, main style, main b, main base, main meta, main object, main template, main math"
    return shown.count(foreign) == 0 and shown.run("return window.taken") is None


def test_thousands_of_hostile_texts_in_the_browser(shown: Browser, example_log: Path, monkeypatch: pytest.MonkeyPatch) -> None:
    count = "const found = new DOMParser().parseFromString(arguments[0], 'text/html'); const names = {};"
    count += "for (const each of found.querySelectorAll('*')) { const name = each.tagName + each.getAttributeNames();"
    count += " names[name] = (names[name] || 0) + 1; } return names"
    with Server(example_log) as server:
        _open(shown, server, "/page/why")
        piece = 500
        wanted = None
        for start in range(0, 3000, piece):
            for names in ([f"x{place}" for place in range(piece)], strings(start + piece)[start:]):
                if wanted is not None and names[0] == "x0":
                    continue
                made = asyncio.run(views_of(StandIn(names, monkeypatch), names))[:7]
                found = [shown.run(count, page) for page in made]
                wanted = wanted or found
                assert found == wanted
        assert shown.run("return window.taken") is None


def test_a_view_is_made_in_time(shown: Browser, chain: Server) -> None:
    makers: list[Callable[[], str]] = [lambda: "/", lambda: "/page/people", lambda: path("page", "person", generated.key(2))]
    for maker in makers:
        begun = time.monotonic()
        assert chain.get(maker()).status == 200
        # generous: the machine may be busy with proofs
        assert time.monotonic() - begun < 3


def test_the_files_of_the_page_name_nothing_elsewhere() -> None:
    for file in (TOOL / "service" / "page" / "static").iterdir():
        text = file.read_text().replace("http://www.w3.org/2000/svg", "")
        assert "http:" not in text and "https:" not in text and "//" not in text.replace("// ", ""), file
        assert "innerHTML" not in text and "eval(" not in text and "insertAdjacentHTML" not in text
