"""Kept, and started again: replay, what is refused, and an index that is a function of the log."""
import contextlib
import os
import signal
import sqlite3
import stat
import subprocess
from collections.abc import Callable
from pathlib import Path

import pytest
from support import PROGRAM, Server, fails_to_start, index_of, until

from service.wallet import Wallet

PAGES = ("/node/head", "/node/money", "/blockchain/current", "/wot/members", "/node/pool", "/node/branches")


def _all(server: Server, people: dict[str, Wallet]) -> list[bytes]:
    keys = [person.key for person in people.values()]
    paths = [*PAGES, *(f"/node/accounts/{key}" for key in keys), *(f"/wot/lookup/{key}" for key in keys)]
    return [server.get(path).body for path in paths]


def test_a_start_finds_what_was_there(serve: Callable[..., Server], currency: Path, people: dict[str, Wallet]) -> None:
    with serve("--key", str(currency / "alice.key"), "--forge-on-request") as first:
        stamp = first.get("/node/head").json["stamp"]
        assert first.post("/wot/add", identity=people["carol"].identity(stamp)).ucode == 2002
        newcomer = Wallet(people["carol"].issuer, "carol2", "demo")
        assert first.post("/wot/add", identity=newcomer.identity(stamp)).ucode == 2003
        first.forge()
        before = _all(first, people)
    with serve() as second:
        assert _all(second, people) == before
    with serve("--rebuild") as third:
        assert _all(third, people) == before


def test_the_index_is_a_function_of_the_log(serve: Callable[..., Server], currency: Path) -> None:
    def dump() -> dict[str, list[tuple[object, ...]]]:
        return index_of(currency / "log.sqlite").dump()

    before = dump()
    assert len(before["block"]) == 27 and len(before["stored"]) == 2 and before["move"] and before["certification"]
    with serve("--rebuild"):
        pass
    assert dump() == before


def test_a_log_of_another_currency_is_refused(example_log: Path) -> None:
    said = fails_to_start(example_log, "--currency", "g1")
    assert "is the log of the currency test_currency, and not of g1" in said


def test_a_log_of_another_version_is_refused(example_log: Path, tmp_path: Path) -> None:
    # a program that names another rule of a block: it refuses what this one accepted
    other = tmp_path / "other"
    other.write_text(f"#!/bin/bash\nexec {PROGRAM} run | stdbuf -oL sed 's/^ACCEPTED 3-/REFUSED G57 3-/'\n")
    other.chmod(other.stat().st_mode | stat.S_IXUSR)
    said = fails_to_start(example_log, program=other)
    assert "another version of the program" in said and "ACCEPTED 3-" in said and "REFUSED G57" in said


def test_what_is_no_node_is_refused(example_log: Path) -> None:
    assert "does not answer" in fails_to_start(example_log, program=Path("/bin/echo"))
    assert "cannot be started" in fails_to_start(example_log, program=example_log.parent / "nothing")


@pytest.mark.parametrize("change", ["UPDATE log SET answer = 'NOTED ' WHERE number = 20", "DELETE FROM log WHERE number = 20"])
def test_a_changed_entry_is_named(example_log: Path, change: str) -> None:
    with sqlite3.connect(example_log) as connection:
        connection.execute(change)
    connection.close()
    said = fails_to_start(example_log)
    assert "damaged" in said and "entry 20" in said and "up to 19 are whole" in said


def test_a_damaged_file_is_refused_with_what_is_whole(example_log: Path) -> None:
    with sqlite3.connect(example_log) as connection:
        connection.execute("PRAGMA journal_mode = DELETE")
    connection.close()
    size = example_log.stat().st_size
    with example_log.open("r+b") as file:
        file.truncate(size // 2 // 4096 * 4096)
    said = fails_to_start(example_log)
    assert "damaged" in said or "malformed" in said
    assert "whole" in said


def test_a_text_file_is_no_log(tmp_path: Path) -> None:
    (tmp_path / "log").write_text("this is no database" * 100)
    assert "cannot be used as a log" in fails_to_start(tmp_path / "log")
    assert "there is no folder" in fails_to_start(tmp_path / "nowhere" / "log")


def test_a_second_writer_is_refused(example_log: Path) -> None:
    with Server(example_log):
        assert "is in use by another process" in fails_to_start(example_log)


def test_a_program_that_ends_is_started_again(forging: Server, people: dict[str, Wallet]) -> None:
    before = _all(forging, people)
    children = subprocess.run(["ps", "-o", "pid=", "--ppid", str(forging.process.pid)], stdout=subprocess.PIPE, text=True, check=True).stdout
    os.kill(int(children.split()[0]), signal.SIGKILL)
    until(lambda: forging.get(f"/wot/lookup/{people['bob'].uid}").status == 200)
    assert _all(forging, people) == before
    assert forging.forge().startswith("27-")


def test_a_log_of_an_earlier_form_gets_a_new_index(serve: Callable[..., Server], currency: Path) -> None:
    before = index_of(currency / "log.sqlite").dump()
    with contextlib.closing(sqlite3.connect(currency / "log.sqlite")) as connection:
        connection.executescript("UPDATE fact SET value = '1'; DROP TABLE move; CREATE TABLE move (condition TEXT, block INTEGER); DROP TABLE block;")
    with serve() as server:
        assert server.get("/node/head").json["number"] == 26
    assert index_of(currency / "log.sqlite").dump() == before
    with contextlib.closing(sqlite3.connect(currency / "log.sqlite")) as connection:
        assert connection.execute("SELECT value FROM fact").fetchall() == [("2",)]
        with connection:
            connection.execute("UPDATE fact SET value = '3'")
    assert "has the form 3 of a log" in fails_to_start(currency / "log.sqlite")


def test_a_switch_by_hand(serve: Callable[..., Server], currency: Path) -> None:
    lost = index_of(currency / "log.sqlite").all_stored()
    with serve("--switch", lost[1].stamp) as server:
        assert server.get("/node/head").json["stamp"] == lost[1].stamp
        assert any(f"SWITCHED {lost[1].stamp}" in line for line in server.said)
    assert "No switch to 5-" in fails_to_start(currency / "log.sqlite", "--switch", f"5-{'0' * 64}")
    assert "stamp is not spelled so" in fails_to_start(currency / "log.sqlite", "--switch", "5")
