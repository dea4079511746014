"""`tools/chart` and `tools/dubp`: pictures and tables from a log, from a file of commands, and of a running service."""
import asyncio
import json
import shutil
import subprocess
from pathlib import Path
from typing import Any

import generated
import pytest
from support import PROGRAM, TOOL, Server

from service import terminal
from service.commands import Command, head
from service.feeding import NoCommands
from service.history import entries, run, steps_of
from service.progress import Progress
from service.wallet import Wallet

EXAMPLES = TOOL.parents[1] / "examples"
EXAMPLE = TOOL.parent / "verdicts" / "example"


def _tool(name: str, *words: object) -> subprocess.CompletedProcess[str]:
    command = [str(TOOL.parent / name), *map(str, words)]
    return subprocess.run(command, stdout=subprocess.PIPE, stderr=subprocess.PIPE, text=True, check=False, timeout=120)


def _nothing(_: int, __: int) -> None:
    return


def _up_to_reversal(given: list[Command]) -> list[Command]:
    return given[: next(place for place, command in enumerate(given) if command.word == "REVERT")]


# tools/chart

def test_values_of_a_file_of_commands_are_the_answers(tmp_path: Path) -> None:
    given = _up_to_reversal(entries(EXAMPLES / "generated_and_reversed.in"))
    conditions = [f"SIG({generated.key(each)})" for each in range(8)]
    history, people = run(PROGRAM, given, conditions, _nothing)
    numbers = [point.number for point in history.points]
    assert numbers == list(range(len(numbers))) and len(numbers) > 50 and steps_of(given) >= 1
    for point in history.points:
        assert point.value("issued") == point.value("mass") == point.value("unspent") + point.value("cleared")
        assert sum(point.balances) <= point.value("unspent")
    text = "".join(f"{command.encoded().decode()}" for command in given) + "HEAD\n" + "".join(f"BALANCE {each}\n" for each in conditions)
    told = subprocess.run([str(PROGRAM), "run"], input=text, stdout=subprocess.PIPE, text=True, check=True).stdout.split("\n")
    assert told[-10].split(" ") == history.points[-1].head
    assert [int(each.split(" ")[1]) for each in told[-9:-1]] == history.points[-1].balances
    assert all(answers[0][0].startswith("IDENTITY ") for answers in people.values() if answers[1] != ["NONE"])


def test_blocks_that_a_switch_took_off_leave_no_values() -> None:
    given = _up_to_reversal(entries(EXAMPLES / "branches.in"))
    history, _ = run(PROGRAM, given, [], _nothing)
    assert [each.word for each in given].count("SWITCH") == 4
    last, previous = history.points[-1], history.previous
    chain = {last.number: last.hash}
    while (before := previous.get(chain[min(chain)])) is not None:
        chain[min(chain) - 1] = before
    assert min(chain) == 0 and all(chain[point.number] == point.hash for point in history.points)


def test_pictures_are_written(tmp_path: Path, example_log: Path) -> None:
    pytest.importorskip("matplotlib", reason="python3-matplotlib is not installed")
    commands = EXAMPLES / "generated_and_reversed.in"
    for source in (commands, example_log):
        for what, more in (("members", ()), ("dividend", ()), ("money", ()), ("web", ()), ("balance", ("--account", generated.key(3)))):
            for suffix, start in ((".png", b"\x89PNG\r\n"), (".svg", b"<?xml")):
                out = tmp_path / f"{what}{suffix}"
                done = _tool("chart", what, source, out, "--program", PROGRAM, *more)
                assert done.returncode == 0, done.stderr
                assert out.read_bytes().startswith(start)
    out = tmp_path / "named.svg"
    assert _tool("chart", "balance", commands, out, "--program", PROGRAM, "--account", "user3").returncode == 0
    assert _tool("chart", "balance", commands, out, "--program", PROGRAM, "--account", "nobody").returncode == 1
    assert _tool("chart", "bench", TOOL.parents[1] / "benches" / "README.md", tmp_path / "bench.svg").returncode == 0
    assert _tool("chart", "bench", commands, out).returncode == 1 and _tool("chart", "members", commands, tmp_path / "x.gif").returncode == 2
    assert "cannot be read" in _tool("chart", "members", tmp_path / "nothing", out, "--program", PROGRAM).stderr
    with Server(example_log):
        said = _tool("chart", "members", example_log, out, "--program", PROGRAM)
        assert said.returncode == 1 and "in use by a running service" in said.stderr


def test_only_commands_that_change_are_taken(tmp_path: Path) -> None:
    given = entries(EXAMPLES / "generated_and_reversed.in")
    assert head() not in given and {each.word for each in given} <= {"VERDICT", "BLOCK", "REVERT"}
    with pytest.raises(NoCommands):
        entries(tmp_path)


# tools/dubp

def _json(*words: object) -> Any:
    done = _tool("dubp", *words, "--json")
    assert done.returncode in (0, terminal.REFUSED), done.stderr
    return json.loads(done.stdout)


def test_a_log_alone_answers_as_a_service(example_log: Path, tmp_path: Path) -> None:
    copy = tmp_path / "copy.sqlite"
    shutil.copy(example_log, copy)
    refused = EXAMPLE / "block-4"
    with Server(example_log) as server:
        uid = server.get("/wot/members").json["results"][0]["uid"]
        at, log = ("--at", f"127.0.0.1:{server.port}"), ("--log", copy, "--program", PROGRAM)
        asked: list[tuple[object, ...]] = [("head",), ("member", uid), ("balance", uid), ("history", uid), ("block", 3), ("why", refused)]
        for words in asked:
            assert _json(*words, *at) == _json(*words, *log), words
        assert _json("head", *at)["head"] == server.get("/node/head").json
        account = server.get(f"/node/accounts/{server.get(f'/node/people/{uid}').json['key']}").json
        assert _json("balance", uid, *at)["balance"] == account["balance"] and _json("history", uid, *at) == account["moves"]
        said = _tool("dubp", "balance", uid, *at).stdout
        assert f"{account['balance']:,} units" in said and all(each["source"] in said for each in account["sources"])
        said = _tool("dubp", "why", refused, *at)
        assert said.returncode == terminal.REFUSED and "G51: Number is the length of the chain." in said.stdout
        busy = _tool("dubp", "head", "--log", example_log, "--program", PROGRAM)
        assert busy.returncode == 1 and "in use by another process" in busy.stderr
        for words in (("member", "nobody"), ("block", "99"), ("block", "x"), ("balance", "SIG(x)"), ("why", tmp_path / "nothing")):
            done = _tool("dubp", *words, *at)
            assert done.returncode == 1 and done.stderr.startswith("dubp: ") and done.stdout == "", words
    done = _tool("dubp", "head", *at)
    assert done.returncode == 1 and "no service answers" in done.stderr
    assert _tool("dubp", "head", "--log", tmp_path / "nothing").returncode == 1 and not (tmp_path / "nothing").exists()
    assert _tool("dubp").returncode == 2


def test_the_demonstration_at_a_terminal(currency: Path, people: dict[str, Wallet]) -> None:
    log = ("--log", currency / "log.sqlite", "--program", PROGRAM)
    said = _tool("dubp", "member", "carol", *log).stdout
    assert "REVOKED" in said and people["carol"].key in said
    assert "for the bread" not in said and "+300" in _tool("dubp", "history", "bob", *log).stdout


def test_strangers_have_no_hold_of_the_terminal() -> None:
    lines = terminal._table(["x"], [["\x1b[2J\x07a\nb"]])
    assert lines == ["x", "?[2J?a?b"] and terminal._facts([("x", "\x9b31m")]) == ["x  ?31m"]
    assert terminal._time(2**40) == f"second {2**40}"


def test_a_bar_behind_a_second(monkeypatch: pytest.MonkeyPatch, capsys: pytest.CaptureFixture[str]) -> None:
    now = [0.0]
    monkeypatch.setattr("service.progress.time.monotonic", lambda: now[0])
    progress = Progress("replayed")
    progress.show(1, 100)
    now[0] = 1.5
    progress.show(50, 100)
    progress.show(51, 100)
    progress.end()
    assert capsys.readouterr().err == "replayed 50 of 100 entries\n"
    monkeypatch.setattr("sys.stderr.isatty", lambda: True)
    progress = Progress("replayed")
    now[0] = 3.0
    progress.show(50, 100)
    progress.end()
    assert capsys.readouterr().err == f"replayed [{'#' * 15}{'.' * 15}] 50 of 100 entries\r\n"


def test_the_generator_makes_what_the_program_makes(has_forge: bool, tmp_path: Path) -> None:
    if not has_forge:
        pytest.skip("this program has no FORGE yet")
    asyncio.run(generated.make(PROGRAM, tmp_path / "log.sqlite", 45, 3))
