"""tools/recheck, with stand-ins for `rt` and `rattle`, which write down how they were called."""

import json
import os

import pytest

RT = """#!/bin/sh
echo "$KIT/START-HERE.md"
"""
RATTLE = """#!/usr/bin/python3 -B
import json, os, pathlib, sys
with open(os.environ["CALLED"], "a") as log:
    log.write(json.dumps({"words": sys.argv[1:], "text": pathlib.Path("src/lib.rt").read_text()}) + "\\n")
print("fn low::one: proved")
print("statements std: modules loaded=0")
print("fn high::two: not proved" if os.environ.get("FAILS") else "only=1 proved=1")
sys.exit(int(os.environ.get("FAILS", "0")))
"""


@pytest.fixture
def call(repository, tmp_path):
    """Runs the tool: its status, its lines, its errors, and each call of the prover."""
    repository.write("crates.txt", "low:\nmiddle: low kitlib\nhigh: middle kitlib # a comment\n")
    repository.write("crates/high/src/lib.rt", "one\ntwo\n")
    for name in ("low", "middle"):
        repository.write(f"crates/{name}/out/rlib/{name}.rlib", "")
    bin_folder = tmp_path / "bin"
    bin_folder.mkdir()
    for name, text in (("rt", RT), ("rattle", RATTLE)):
        (bin_folder / name).write_text(text)
        (bin_folder / name).chmod(0o755)
    log = tmp_path / "called"

    def run(*words, **more):
        environment = {**os.environ, "PATH": f"{bin_folder}:{os.environ['PATH']}", "KIT": str(tmp_path / "kit"), "CALLED": str(log), **more}
        status, out, errors = repository.run("recheck", *words, env=environment)
        calls = [json.loads(line) for line in log.read_text().splitlines()] if log.exists() else []
        return status, out, errors, calls

    return run


def test_a_function_is_checked_over_the_libraries_below(call, repository, tmp_path):
    status, out, errors, calls = call("high", "two")
    assert (status, out, errors, len(calls)) == (0, ["only=1 proved=1"], [], 1)
    words = calls[0]["words"]
    assert words[:7] == ["check", "--crate-name", "high", "src/lib.rt", "--only", "two", "--jobs"]
    externs = [words[i + 1] for i, word in enumerate(words) if word == "--extern"]
    kit, crates = tmp_path / "kit" / "rlibs", repository.top / "crates"
    assert externs == [f"std={kit}/std.rlib", f"middle={crates}/middle/out/rlib/middle.rlib", f"kitlib={kit}/kitlib.rlib"]
    paths = [words[i + 1] for i, word in enumerate(words) if word == "-L"]
    assert paths == [f"dependency={kit}", f"dependency={crates}/middle/out/rlib", f"dependency={crates}/low/out/rlib"]


def test_each_function_is_one_check(call):
    status, _, _, calls = call("--jobs", 3, "high", "one", "two")
    assert status == 0
    assert [(it["words"][5], it["words"][7]) for it in calls] == [("one", "3"), ("two", "3")]


def test_what_is_not_proved_is_told(call):
    status, out, _, _ = call("high", "two", FAILS="1")
    assert (status, out) == (1, ["fn high::two: not proved"])


def test_where_the_prover_checked_nothing_the_status_is_another(call):
    assert call("high", "two", FAILS="2")[0] == 2


def test_a_wrong_body_is_planted_in_a_copy(call, repository):
    edit = repository.write("it.edit", "file: src/lib.rt\nold: one\nnew: three\n")
    _, _, _, calls = call("--edit", edit, "high", "two")
    assert calls[0]["text"] == "three\ntwo\n"
    assert (repository.top / "crates/high/src/lib.rt").read_text() == "one\ntwo\n"


@pytest.mark.parametrize("edit", ["file: src/lib.rt\nold: four\nnew: three\n", "file: src/no.rt\nold: one\nnew: three\n", "old: one\nnew: three\n"])
def test_an_edit_that_cannot_be_applied_checks_nothing(call, repository, edit):
    status, _, errors, calls = call("--edit", repository.write("it.edit", edit), "high", "two")
    assert (status, calls) == (2, []) and "cannot be applied" in errors[0]


def test_a_library_that_is_not_there_is_named(call, repository):
    (repository.top / "crates/low/out/rlib/low.rlib").unlink()
    status, _, errors, calls = call("high", "two")
    assert (status, calls) == (2, []) and errors[0].startswith("tools/recheck: the library of low is not there")


def test_libraries_of_another_tree_serve(call, tmp_path):
    status, _, errors, _ = call("--libraries", tmp_path / "other", "high", "two")
    assert status == 2 and "the library of middle is not there" in errors[0]


@pytest.mark.parametrize("words", [["none", "two"], ["high"], []])
def test_a_wrong_call_checks_nothing(call, words):
    status, _, _, calls = call(*words)
    assert (status, calls) == (2, [])
